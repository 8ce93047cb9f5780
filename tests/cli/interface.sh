# shellcheck shell=bash
# The header pdi.h, and an archive that answers nonsense.

# The header alone, and its helper functions, in each language that it is for.
test_header() {
    local cc=${CC:-gcc} cxx=${CXX:-g++} strict=(-Wall -Wextra -Werror -pedantic "-I$root/include")
    echo '#include "pdi.h"' >alone.c
    local standard
    for standard in c99 c11; do
        check "pdi.h alone as $standard" "$cc" -std=$standard "${strict[@]}" -fsyntax-only alone.c
        check "header.c as $standard" "$cc" -std=$standard "${strict[@]}" "$here/header.c" -o header
        check "header.c as $standard: helpers" ./header
    done
    check "pdi.h alone as c++11" "$cxx" -std=c++11 "${strict[@]}" -fsyntax-only -x c++ alone.c
    check "header.c as c++11" "$cxx" -std=c++11 "${strict[@]}" -x c++ "$here/header.c" -o header++
    check "header.c as c++11: helpers" ./header++
}

# The command over an archive that answers what can't be: it must neither read past the image nor bill what two calls disagree about.
test_liar() {
    local answer command=./liar changed="was changed while it was being read"
    check "liar.c builds" "${CC:-gcc}" -std=c11 -D_XOPEN_SOURCE=700 '-DFOLIOBRIAR_VERSION="0"' "-I$root/include" \
        -fsanitize=address,undefined -fno-sanitize-recover=all "$root"/cli/*.c "$here/liar.c" -o liar
    echo old >made
    for answer in 337 18446744073709551615; do
        what="a body of $answer bytes" && LIAR_BODY=$answer call body bench.pdi 1 -o made && in_trouble "$changed"
        what="a span from $answer" && LIAR_START=$answer call body bench.pdi 1 -o made && in_trouble "$changed"
    done
    what="no body" && LIAR_BODY=0 call body bench.pdi 1 -o made && in_trouble "$changed"
    same "OUT is untouched" old "$(cat made)"
    what="a body up to the end" && LIAR_BODY=16 LIAR_START=320 call body bench.pdi 1 -o made && accepted
    check "$what: its bytes" cmp -s made <(tail -c 16 bench.pdi)
    what="two bills" && LIAR_BILL=17 call bill bench.pdi && in_trouble "$changed" && silent
    what="one bill" && LIAR_BILL=16 call bill bench.pdi && accepted
    same "$what" 16 "$(cat out)"
    for answer in 0 2 18446744073709551615; do
        what="owner image $answer of one" && LIAR_OWNER=$answer call list bench.pdi && in_trouble "$changed" && silent
    done
    what="owner image 1 of one" && LIAR_OWNER=1 call list bench.pdi --tsv && accepted
    same "$what" 1 "$(tail -1 out | cut -f 10)"
    local over=$((PDI_LAST_RULE + 1))
    what="a number over the last" && LIAR_ANSWER=$((64 * over + 3)) call list bench.pdi --place 0 && refused "$over" 3
    check "$what" grep -q 'A rule that this command does not know' err
}
