# shellcheck shell=bash
# body, and all that OUT may be.

# nothing_left: no unfinished file beside OUT.
nothing_left() {
    check "$what: no unfinished file" test -z "$(find . -name '.foliobriar.*')"
}

test_body() {
    what="body" && call body bench.pdi 1 -o made && accepted && silent && nothing_left
    check "$what: its bytes" cmp -s made <(tail -c 16 bench.pdi)
    what="body of a packed partition" && call body packed.pdi 1 -o made && accepted
    check "$what: 20 of the span's 28 bytes, over an older file" cmp -s made <(tail -c +321 packed.pdi | head -c 20)
    what="second body" && call body -omade two.pdi 0x2 && accepted
    same "$what: its bytes" tail "$(cat made)"
    what="--output" && call --output=other body two.pdi 2 && accepted
    same "$what: its bytes" tail "$(cat other)"
    what="body of a full image" && call body full.pdi 1 --place auto --output made && accepted
    check "$what: its bytes" cmp -s made <(tail -c 16 full.pdi)
    what="body to standard output" && call body two.pdi 2 -o - && accepted
    same "$what: its bytes" tail "$(cat out)"
    what="a file named -" && call body two.pdi 2 -o ./- && accepted
    same "$what: its bytes" tail "$(cat ./-)"
    local p
    for p in 1 7 $((PDI_MOST_PARTITIONS - 1)) "$PDI_MOST_PARTITIONS"; do
        what="body $p of many" && call body many.pdi "$p" -o made && accepted
        same "$what: length" $((4 * p)) "$(wc -c <made)"
        same "$what: bytes" "$(printf '%02x' "$p")" "$(od -An -v -tx1 -w1 made | sort -u | tr -d ' ')"
    done
}

test_body_refused() {
    local p
    echo old >made
    for p in 0 3 $((PDI_MOST_PARTITIONS + 1)) 18446744073709551615; do
        what="P $p of two" && call body two.pdi "$p" -o made && in_trouble "no partition $p: the image has 2 partitions" && silent
        what="P $p of two, new file" && call body two.pdi "$p" -o fresh && in_trouble "the image has 2 partitions"
    done
    what="P 2 of one" && call body bench.pdi 2 -o made && in_trouble "the image has 1 partition,"
    what="body of a refused image" && call body u_5.pdi 1 -o made && refused_at_0 14 1 "no table at another place" && silent
    what="body of a refused image, new file" && call body u_5.pdi 1 -o fresh --place 0 && refused 14 1
    what="body 2 of a refused image" && call body two_clash.pdi 2 -o - --place 0 && refused 19 2 && silent
    same "OUT is untouched" old "$(cat made)"
    check "no OUT is made" test ! -e fresh
    nothing_left
}

test_same_file() {
    cp bench.pdi own.pdi
    ln own.pdi hard.pdi
    ln -s own.pdi soft.pdi
    local out
    for out in own.pdi ./own.pdi hard.pdi soft.pdi; do
        what="OUT $out is FILE" && call body own.pdi 1 -o "$out" && in_trouble "is the image file itself"
    done
    what="standard output is FILE"
    "$command" body own.pdi 1 -o - 1<>own.pdi 2>err && status=0 || status=$?
    in_trouble "is the image file itself"
    check "FILE is untouched" cmp -s own.pdi bench.pdi
}

# own_device NAME MINOR: sets $device to a device for OUT. Whoever may write /dev gets a node made here and never the machine's own: a
# faulty command would rename a file over it, and the whole machine would miss it.
own_device() {
    device=/dev/$1
    if [ -w /dev ]; then
        device=$PWD/$1
        mknod "$device" c 1 "$2" && : <"$device" || { echo "skipped: OUT as a device, for want of a $1 of our own"; return 1; }
    fi
}

test_out_device() {
    local device
    if own_device null 3; then
        what="OUT is a device" && call body bench.pdi 1 -o "$device" && accepted && nothing_left
        check "$what: it stays one" test -c "$device"
    fi
    if own_device full 7; then
        what="OUT is a full device" && call body large.pdi 1 -o "$device" && in_trouble "full: cannot be written: No space left"
        check "$what: it stays one" test -c "$device"
    fi
}

test_out_kinds() {
    rm -f pipe && mkfifo pipe
    cat pipe >made &
    what="OUT is a pipe" && call body two.pdi 2 -o pipe && accepted
    wait $!
    check "$what: it stays one" test -p pipe
    same "$what: its bytes" tail "$(cat made)"
    rm -rf links && mkdir links && echo old >links/target && ln -s target links/link && ln -s absent links/dangling
    what="OUT is a link" && call body two.pdi 2 -o links/link && accepted && nothing_left
    check "$what: it stays one" test -L links/link
    same "$what: the file it leads to is replaced" tail "$(cat links/target)"
    what="OUT is a link to nothing" && call body two.pdi 2 -o links/dangling && in_trouble "leads to no file"
    what="OUT is a directory" && call body two.pdi 2 -o links && in_trouble "links: cannot be written: Is a directory"
    what="OUT in no directory" && call body two.pdi 2 -o absent/made && in_trouble "absent/made: cannot be written: No such file"
    what="OUT below a file" && call body two.pdi 2 -o made/made && in_trouble "made/made: cannot be written: Not a directory"
    local long
    long=$(printf 'n%.0s' {1..255})
    what="OUT with the longest name" && call body two.pdi 2 -o "$long" && accepted
    same "$what: its bytes" tail "$(cat "$long")"
}

test_out_mode() {
    local mask mode
    for mask in 022:644 027:640 077:600 000:666; do
        mode=${mask#*:}
        rm -f moded
        (umask "${mask%:*}" && call body bench.pdi 1 -o moded)
        same "mode of a new OUT under umask ${mask%:*}" "$mode" "$(stat -c %a moded)"
        chmod 777 moded
        (umask "${mask%:*}" && call body bench.pdi 1 -o moded)
        same "mode of a replaced OUT under umask ${mask%:*}" "$mode" "$(stat -c %a moded)"
    done
}

# Root may write everything, so these two run as somebody else.
test_permissions() {
    local as=()
    rm -rf guarded && mkdir guarded && cp bench.pdi "$command" guarded && echo old >guarded/made && chmod 777 guarded
    chmod 444 guarded/made && cp bench.pdi guarded/secret.pdi && chmod 000 guarded/secret.pdi
    if [ "$(id -u)" -eq 0 ]; then
        chmod 755 "$dir"
        as=(setpriv --reuid 65534 --regid 65534 --clear-groups)
        command -v setpriv >/dev/null || { echo "skipped: permissions, for want of setpriv"; return 0; }
    fi
    local program
    program=./$(basename "$command")
    what="OUT is write-protected"
    (cd guarded && "${as[@]}" "$program" body bench.pdi 1 -o made) >out 2>err && status=0 || status=$?
    in_trouble "made: cannot be written: Permission denied"
    same "$what: untouched" old "$(cat guarded/made)"
    what="FILE is secret"
    (cd guarded && "${as[@]}" "$program" list secret.pdi) >out 2>err && status=0 || status=$?
    in_trouble "secret.pdi: cannot be opened: Permission denied"
}

# A limit on the size of files stands in for a full disk: write fails after some bytes in both.
test_full_disk() {
    echo old >made
    what="full disk"
    (ulimit -f 8 && "$command" body large.pdi 1 -o made) >out 2>err && status=0 || status=$?
    in_trouble "made: cannot be written: File too large" && nothing_left
    same "$what: OUT is untouched" old "$(cat made)"
    what="full disk, new file"
    (ulimit -f 8 && "$command" body large.pdi 1 -o fresh) >out 2>err && status=0 || status=$?
    in_trouble "fresh: cannot be written" && nothing_left
    check "$what: none is made" test ! -e fresh
    what="the large body on a disk with room" && call body large.pdi 1 -o made && accepted
    check "$what: its bytes" cmp -s made <(tail -c +321 large.pdi)
}
