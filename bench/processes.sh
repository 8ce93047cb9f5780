# shellcheck shell=bash disable=SC2016,SC2059,SC2154
# Whole processes beside Debian's `bootgen -arch versal -read`, for bench/run, which sets $bench, $command and $folder.

# bootgen_image N FILE: an image that bootgen makes itself, with partitions as long and loaded as those of ours
bootgen_image() {
    local p
    head -c 64 /dev/zero >"$folder/body.bin"
    {
        printf 'all:\n{\n  id_code = 0x04ca8093\n  extended_id_code = 0x01\n  id = 0x2\n'
        printf '  image\n  {\n    name = data\n    id = 0x18700000\n'
        for ((p = 1; p <= $1; p++)); do
            printf '    { type = raw, load = 0x%08x, file = %s }\n' $((p << 20)) "$folder/body.bin"
        done
        printf '  }\n}\n'
    } >"$folder/image.bif"
    bootgen -arch versal -image "$folder/image.bif" -w -o "$2" >"$folder/bootgen.log" 2>&1 || { cat "$folder/bootgen.log" >&2; return 1; }
}

process_row='| %-34s | %-28s | %12s | %12s |\n'

# process_rows N THEIRS OURS
process_rows() {
    local true theirs ours nothing theirs_us ours_us nothing_us
    true=$(type -P true)
    theirs=$(instructions bootgen -arch versal -read "$2")
    ours=$(instructions "$command" list "$3")
    nothing=$(instructions "$true")
    read -r theirs_us ours_us nothing_us < <("$bench" processes bootgen -arch versal -read "$2" -- "$command" list "$3" -- "$true")
    printf "$process_row" '`bootgen -arch versal -read`' "bootgen's own, $1 partitions" "$(grouped "$theirs")" "$(grouped "$theirs_us")"
    printf "$process_row" '`foliobriar list`' "ours, $1 partitions" "$(grouped "$ours")" "$(grouped "$ours_us")"
    printf "$process_row" 'ratio, the second to the first' '' "$(ratio "$ours" "$theirs")" "$(ratio "$ours_us" "$theirs_us")"
    printf "$process_row" '`true`, which does nothing' '' "$(grouped "$nothing")" "$(grouped "$nothing_us")"
}

# refusal_of COMMAND...: the line in which it refuses an image, without the temporary folder's name
refusal_of() {
    { "$@" 2>&1 >/dev/null || true; } | sed -n -e "s|$folder/||g" -e '/refused\|ERROR/p' | head -n 1
}

processes() {
    printf '\n## Whole processes beside bootgen\n\n'
    if ! type -P bootgen >/dev/null; then
        echo 'bootgen is not installed (Debian: xilinx-bootgen), so nothing is compared with it.'
        return
    fi
    if ! [ -x "$command" ]; then
        printf '%s is missing, so nothing is compared with bootgen.\n' "$command"
        return
    fi
    local n=8 theirs=$folder/theirs.pdi ours=$folder/ours.pdi
    bootgen_image "$n" "$theirs"
    "$bench" make "$n" 0 partial 0 "$ours" near >/dev/null
    bootgen 2>&1 | sed -n 's/^[* ]*\(Xilinx Bootgen v.*\)/\1./p' | head -n 1
    printf 'It reads the format of the earlier Versal parts and not that of the Gen 2 parts, so each reads an image of its own format.\n'
    printf 'Neither reads that of the other:\n\n'
    printf -- '- bootgen on ours: %s\n' "$(refusal_of bootgen -arch versal -read "$ours")"
    printf -- '- foliobriar on that of bootgen: %s\n\n' "$(refusal_of "$command" list "$theirs")"
    printf "$process_row" 'Process' 'Image' 'Instructions' 'Microseconds'
    echo '|------------------------------------|------------------------------|-------------:|-------------:|'
    process_rows "$n" "$theirs" "$ours"
}
