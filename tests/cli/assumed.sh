# shellcheck shell=bash
# A refusal at place 0 where no place was given. No full image has its table there, so the image may be a sound one all the same.

test_assumed_place() {
    local words billed accepted="the table at place 336 (0x150), where the image is accepted: billed bytes 16"
    call list moved.pdi
    same "the second line" "foliobriar: moved.pdi: place 0 was assumed; --place auto finds $accepted" "$(tail -n 1 err)"
    what="a full image" && call list full.pdi && silent
    refused_at_0 4 0 "the table at place 8192 (0x2000), where the image is accepted: billed bytes 16"
    for words in list bill 'list --tsv' 'bill --tsv'; do
        # shellcheck disable=SC2086
        what="$words of a moved table" && call $words moved.pdi && refused_at_0 5 0 "$accepted" && silent
    done
    for words in list bill; do
        what="$words --json of a moved table" && call $words --json moved.pdi && refused_at_0 5 0 "$accepted"
        json "$what" "o == {'accepted': False, 'place': 0, 'number': 5, 'p': 0, 'rule': o['rule']} and o['rule'] in open('err').read()"
    done
    what="body of a moved table" && call body moved.pdi 1 -o fresh && refused_at_0 5 0 "$accepted" && silent
    check "$what: no OUT is made" test ! -e fresh
    what="a refused table, and then an accepted one" && call bill first_twin_bad.pdi && refused_at_0 6 0 "$accepted"
    call bill full_many.pdi --place 8192
    billed=$(cat out)
    what="a full image of many partitions" && call bill full_many.pdi
    refused_at_0 4 0 "the table at place 8192 (0x2000), where the image is accepted: billed bytes $billed"
    same "$what: the bill is the whole number" "$billed" "$(tail -n 1 err | grep -o '[0-9]*$')"
}

test_assumed_place_refused() {
    what="no table" && call list decoy.pdi && refused_at_0 4 0 "no table"
    same "$what: the second line" "foliobriar: decoy.pdi: place 0 was assumed; --place auto finds no table" "$(tail -n 1 err)"
    what="no other table" && call list u_5.pdi && refused_at_0 14 1 "no table at another place"
    what="a full image that is refused" && call bill full_bad.pdi
    refused_at_0 4 0 "a table at place 8192 (0x2000), where the image is refused: number 8: A full image whose boot header is not sound"
    what="two tables, both refused" && call bill both_twins_bad.pdi
    refused_at_0 6 0 "a table at place 336 (0x150), where the image is refused: number 14, partition 1: The lengths of header p"
    same "$what: one refusal of its own" 1 "$(grep -c ': refused: number ' err)"
    # A third table: the first is refused, the others are accepted.
    { cat first_twin_bad.pdi && tail -c 128 first_twin_bad.pdi; } >three.pdi
    what="two tables, both accepted" && call bill three.pdi
    refused_at_0 6 0 "more than one place that is accepted, first place 336 (0x150)"
}

# As many tables as a search that nobody asked for takes, and one less.
test_assumed_place_tables() {
    python3 -c 'import sys; sys.stdout.buffer.write(open("both_twins_bad.pdi", "rb").read()[-128:] * 1000)' >tables
    cat decoy.pdi tables >full_of_tables.pdi
    what="1000 tables" && call bill full_of_tables.pdi && refused_at_0 4 0 "1000 tables or more"
    check "$what: the man page says so" grep -qx 'Of 1000 tables or more it tells only that\.' "$root/cli/foliobriar.1"
    head -c -128 full_of_tables.pdi >nearly.pdi
    what="999 tables" && call bill nearly.pdi && refused_at_0 4 0 "more than one place that is accepted, first place 336 (0x150)"
}

# What was given is not assumed, 0 either. An image that is too long is refused wherever its table lies.
test_given_place() {
    local place
    for place in 0 0x0 00; do
        what="place $place is given" && call list full.pdi --place "$place" && refused 4 0 && silent
    done
    what="place auto is given" && call list full_bad.pdi --place auto
    check "$what: nothing is assumed" test -z "$(grep assumed err)"
    what="place 0 is assumed and accepted" && call list bench.pdi && accepted
    check "$what: nothing is said of it" test ! -s err
    truncate -s $((PDI_LONGEST_IMAGE + 1)) moved.pdi
    what="too long" && call list moved.pdi && refused 1 0 && silent
    what="explain 4" && call explain 4 && accepted
    check "$what: the place comes before a fresh copy" grep -q 'ask    Where the table lies, if no place was given; a fresh copy' out
}
