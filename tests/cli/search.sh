# shellcheck shell=bash
# --place auto, and long files.

test_search() {
    what="search of the bench image" && call list bench.pdi --place auto && accepted
    same "$what: standard error" "foliobriar: bench.pdi: table found at place 0 (0x0)" "$(cat err)"
    cp out expected
    call list bench.pdi
    check "$what: the listing of place 0" cmp -s out expected
    what="search of a moved table" && call list moved.pdi --place=auto --json && accepted
    same "$what: standard error" "foliobriar: moved.pdi: table found at place 336 (0x150)" "$(cat err)"
    json "$what" "o['accepted'] and o['place'] == 336 and o['billed'] == 16"
    what="search of a full image" && call bill full.pdi --place auto && accepted
    same "$what" 16 "$(cat out)"
    what="search past a refused table" && call bill first_twin_bad.pdi --place auto && accepted
    same "$what: standard error" "foliobriar: first_twin_bad.pdi: table found at place 336 (0x150)" "$(cat err)"
    what="search with no table" && call list decoy.pdi --place auto --json
    same "$what: status" 1 "$status"
    same "$what: standard error" "foliobriar: decoy.pdi: refused: no table found" "$(cat err)"
    json "$what" "o == {'accepted': False, 'place': None, 'number': None, 'p': None, 'rule': 'no table found', 'candidates': []}"
    what="search with no table, tsv" && call list decoy.pdi --place auto --tsv && silent
    head -c 127 bench.pdi >short.pdi
    what="search of less than a table" && call bill short.pdi --place auto && silent
    same "$what: standard error" "foliobriar: short.pdi: refused: no table found" "$(cat err)"
}

test_search_refused() {
    what="search where all are refused" && call list both_twins_bad.pdi --place auto && silent
    same "$what: status" 1 "$status"
    same "$what: lines" 3 "$(wc -l <err)"
    check "$what: the first" grep -q '^foliobriar: both_twins_bad.pdi: place 0 (0x0): refused: number 6: There are not 1 to ' err
    check "$what: the second" grep -q 'pdi: place 336 (0x150): refused: number 14, partition 1: The lengths of header p' err
    same "$what: the last" "foliobriar: both_twins_bad.pdi: refused: no place is accepted" "$(tail -1 err)"
    call list both_twins_bad.pdi --place auto --json
    json "$what, json" "o['accepted'] is False and [(c['place'], c['accepted'], c['number'], c['p']) for c in o['candidates']]
        == [(0, False, 6, 0), (336, False, 14, 1)] and all(c['rule'] in open('err').read() for c in o['candidates'])"
    what="search where all are refused, body" && call body both_twins_bad.pdi 1 -o fresh --place auto
    same "$what: status" 1 "$status"
    check "$what: no OUT is made" test ! -e fresh
}

test_search_ambiguous() {
    what="search where two are accepted" && call list twins.pdi --place auto && silent
    in_trouble "twins.pdi: more than one place is accepted, and foliobriar does not choose: give one with --place"
    check "$what: the first" grep -qxF 'foliobriar: twins.pdi: place 0 (0x0): accepted' err
    check "$what: the second" grep -qxF 'foliobriar: twins.pdi: place 336 (0x150): accepted' err
    what="bill where two are accepted" && call bill twins.pdi --place auto --tsv && in_trouble "does not choose" && silent
    what="body where two are accepted" && call body twins.pdi 1 -o fresh --place auto && in_trouble "does not choose"
    check "$what: no OUT is made" test ! -e fresh
    call list twins.pdi --place auto --json
    same "$what, json: status" 2 "$status"
    json "$what, json" "o['accepted'] is False and o['place'] is None
        and [c['place'] for c in o['candidates'] if c['accepted']] == [0, 336]"
}

# Sparse files: the bench image at the front of the longest one, the same one byte longer and past 2^32, one span over the rest, and a table
# at the very end.
test_long_files() {
    local longest=$PDI_LONGEST_IMAGE last=$((PDI_LONGEST_IMAGE - 128))
    cp bench.pdi longest.pdi && truncate -s "$longest" longest.pdi
    cp bench.pdi too_long.pdi && truncate -s $((longest + 1)) too_long.pdi
    cp bench.pdi far_too_long.pdi && truncate -s $((longest + (1 << 32))) far_too_long.pdi
    truncate -s "$longest" spanned.pdi
    what="the longest image" && call bill longest.pdi && accepted
    same "$what: bill" 16 "$(cat out)"
    local name
    for name in too_long far_too_long; do
        what="$name" && call list $name.pdi --json && refused 1 0
        json "$what" "o['number'] == 1 and o['place'] == 0"
        what="$name, place 2" && call bill $name.pdi --place 2 && refused 1 0 && silent
        what="$name, search" && call list $name.pdi --json --place auto && refused 1 0
        json "$what" "o['number'] == 1 and o['place'] is None"
        what="$name, body" && call body $name.pdi 1 -o fresh && refused 1 0
    done
    what="search of the longest image within 20 seconds"
    timeout 20 "$command" bill longest.pdi --place auto >out 2>err && status=0 || status=$?
    accepted
    same "$what" 16 "$(cat out)"
    head -c 128 bench.pdi | dd of=longest.pdi bs=4 seek=$((last / 4)) conv=notrunc status=none
    what="a table in the last 128 bytes" && call list longest.pdi --place "$last" && accepted
    what="search up to the last 128 bytes" && call list longest.pdi --place auto && in_trouble "does not choose"
    check "$what" grep -qF "$(printf 'place %d (0x%x): accepted' "$last" "$last")" err
    what="the longest span" && call bill spanned.pdi && accepted
    same "$what: bill" $((longest - 320)) "$(cat out)"
    rm -f longest.pdi too_long.pdi far_too_long.pdi spanned.pdi
}
