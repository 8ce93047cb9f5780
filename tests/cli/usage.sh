# shellcheck shell=bash
# The command line, and files that are no image files.

test_usage() {
    what="no command" && call && in_trouble "no command" && silent
    what="unknown command" && call lst bench.pdi && in_trouble "lst: there is no such command" && silent
    what="unknown option" && call list bench.pdi --jsn && in_trouble "jsn: there is no such option" && silent
    what="unknown letter" && call list bench.pdi -x && in_trouble "x: there is no such option" && silent
    what="longer name" && call list bench.pdi --placed 0 && in_trouble "no such option"
    what="no FILE" && call list && in_trouble "takes one operand: FILE" && silent
    what="two FILEs" && call bill bench.pdi two.pdi && in_trouble "takes one operand: FILE" && silent
    what="many operands" && call list a b c d e && in_trouble "takes one operand: FILE"
    what="no P" && call body bench.pdi -o made && in_trouble "takes two operands" && silent
    what="no -o" && call body bench.pdi 1 && in_trouble "needs -o OUT" && silent
    what="-o without OUT" && call body bench.pdi 1 -o && in_trouble "needs a value"
    what="empty OUT" && call body bench.pdi 1 -o '' && in_trouble "empty"
    what="place without N" && call list bench.pdi --place && in_trouble "needs a value"
    what="tsv with a value" && call list bench.pdi --tsv=1 && in_trouble "takes no value" && silent
    what="place twice" && call list bench.pdi --place 0 --place 0 && in_trouble "more than once" && silent
    what="tsv and json" && call list bench.pdi --tsv --json && in_trouble "not go together" && silent
    what="-o for list" && call list bench.pdi -o made && in_trouble "no option of this command" && silent
    what="json for body" && call body bench.pdi 1 -o made --json && in_trouble "no option of this command"
    what="place for explain" && call explain 1 --place 0 && in_trouble "no option of this command" && silent
    check "a wrong call writes no OUT" test ! -e made
}

test_numbers() {
    local n
    for n in -1 +1 ' 1' '1 ' '' 0x 0X 0xg 1a a 1e3 1.0 0b1 18446744073709551616 99999999999999999999 0x10000000000000000 AUTO auto4; do
        what="place '$n'" && call list bench.pdi --place "$n" && in_trouble "place takes" && silent
        what="place='$n'" && call list bench.pdi --place="$n" && in_trouble "place takes"
        what="P '$n'" && call body bench.pdi -o made -- "$n" && in_trouble "no number of a partition"
        what="P '$n'" && call body -o made -- bench.pdi "$n" && in_trouble "no number of a partition"
        what="explain '$n'" && call explain -- "$n" && in_trouble "no number from 0 to $PDI_LAST_RULE\$" && silent
    done
    for n in 0 00 0x0 0X0 0x00000000000000000000; do
        what="place '$n'" && call list bench.pdi --place "$n" && accepted
    done
    for n in 208 0208 0xd0 0xD0 0XD0; do
        what="place '$n'" && call list bench.pdi --place "$n" && refused 4 0 && silent
    done
    for n in 2 212 0x150 4294967296 18446744073709551612 18446744073709551615 0xffffffffffffffff 0xFFFFFFFFFFFFFFFC; do
        what="place '$n'" && call list bench.pdi --place "$n" && refused 3 0
    done
}

test_option_places() {
    call list bench.pdi --tsv
    cp out expected
    local words
    for words in 'list --tsv bench.pdi' '--tsv list bench.pdi' 'list bench.pdi --tsv --place 0' 'list bench.pdi --place=0 --tsv' \
        '--place 0x0 list --tsv -- bench.pdi' 'list --place=0x0 bench.pdi --tsv --' '--tsv -- list bench.pdi'; do
        # shellcheck disable=SC2086
        what="$words" && call $words && accepted
        check "$words: the same listing" cmp -s out expected
    done
    cp bench.pdi ./--tsv
    what="a file named --tsv" && call list -- --tsv && accepted
    check "$what: a table for people" grep -q '^partial image' out
    what="no option after --" && call list -- bench.pdi --tsv && in_trouble "takes one operand"
    what="a lone dash is an operand" && call list - && in_trouble "^foliobriar: -: cannot be opened"
}

test_files() {
    what="missing file" && call list absent.pdi && in_trouble "absent.pdi: cannot be opened: No such file" && silent
    mkdir folder
    what="directory" && call list folder && in_trouble "folder: is a directory" && silent
    mkfifo pipe
    what="pipe" && call list pipe && in_trouble "pipe: is not a regular file" && silent
    what="device" && call bill /dev/null && in_trouble "null: is not a regular file" && silent
    what="standard input from a pipe" && { timeout 60 "$command" list /dev/stdin <pipe >out 2>err & } && cat bench.pdi >pipe
    wait $! && status=0 || status=$?
    in_trouble "not a regular file"
    what="standard input from a file" && call bill /dev/stdin <bench.pdi && accepted
    same "$what: bill" 16 "$(cat out)"
    what="a file without a stated length" && call list /proc/self/status && in_trouble "states no length" && silent
    what="empty file" && call list empty.pdi && refused_at_0 3 0 "no table" && silent
    what="empty file, search" && call list empty.pdi --place auto
    same "$what: status" 1 "$status"
    same "$what: standard error" "foliobriar: empty.pdi: refused: no table found" "$(cat err)"
}
