# shellcheck shell=bash
# The stack that a call needs, against what pdi.h states.

test_stack() {
    local stated image place name bytes calls="pdi_read pdi_bill pdi_body_length pdi_owner"
    stated=$(sed -n 's/.*A call needs less than \([0-9]*\) KiB of stack\..*/\1/p' "$root/include/pdi.h")
    check "pdi.h states the stack of a call" test -n "$stated"
    check "stack.c builds" "${CC:-gcc}" -std=c11 -D_DEFAULT_SOURCE "-I$root/include" -O2 "$root/bench/stack.c" \
        "$root/target/staticlib/libpdi_host.a" -o stack
    for image in bench:0 many:0 full_many:8192; do
        place=${image#*:}
        ./stack "${image%:*}.pdi" "$place" >measured || true
        same "calls that are measured on ${image%:*}" "$calls" "$(cut -d ' ' -f 1 measured | paste -sd ' ')"
        while read -r name bytes; do
            check "$name on ${image%:*} takes $bytes bytes of stack, stated are less than $stated KiB" test "$bytes" -lt $((1024 * stated))
        done <measured
    done
}
