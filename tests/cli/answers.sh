# shellcheck shell=bash
# list and bill, in each form, and refusals.

# Every image of images.py, in every form of list and bill.
test_cases() {
    local name place number p form command_name
    while IFS=$tab read -r name place number p; do
        for command_name in list bill; do
            for form in '' --tsv --json; do
                # shellcheck disable=SC2086
                what="$command_name $name at $place $form" && call "$command_name" "$name.pdi" --place "$place" $form
                if [ "$number" -eq 0 ]; then
                    accepted
                    check "$what: standard error is empty" test ! -s err
                    check "$what: something on standard output" test -s out
                else
                    refused "$number" "$p"
                    [ "$form" = --json ] || silent
                fi
            done
            if [ "$number" -eq 0 ]; then
                json "$what" "o['accepted'] is True and o['place'] == $place"
            else
                json "$what" "list(o) == ['accepted', 'place', 'number', 'p', 'rule'] and o['accepted'] is False
                    and (o['place'], o['number'], o['p']) == ($place, $number, $p) and o['rule'] in open('err').read()"
            fi
        done
    done <cases.tsv
    check "the bench image is the one in examples/" cmp -s bench.pdi "$root/examples/bench.pdi"
    check "the cases of bench_cases are document 01's" cmp -s <(python3 "$here/bench_cases.py") "$root/crates/bench_cases/stdin"
    same "numbers that the cases have" "0 $(seq -s ' ' 3 "$PDI_LAST_RULE")" "$(cut -f 3 cases.tsv | sort -nu | paste -sd ' ')"
}

test_refusal_line() {
    call list two_clash.pdi --place 0
    same "the line of a refusal" \
        "foliobriar: two_clash.pdi: refused: number 19, partition 2: The load range of partition p meets that of an earlier one" \
        "$(cat err)"
    call list table_key.pdi --place 0
    same "the line of a refusal without a partition" \
        "foliobriar: table_key.pdi: refused: number 7: The table's key word is neither 0 nor one of the eight common keys" "$(cat err)"
}

test_table() {
    call list bench.pdi
    same "the table of the bench image" "\
partial image: images 1, partitions 1, billed bytes 16
p  span start  span length  loaded  load address  execution address         key  hash entry  attributes  owner image
1       0x140           16      16      0x100000                0x0  0x00000000           -  0x04000001            1" "$(cat out)"
    call list full.pdi --place 8192
    same "the head of a full image" "full image: images 1, partitions 1, billed bytes 16" "$(head -1 out)"
    call list type_2.pdi
    same "no load address" "1 0x140 16 16 - 0x0 0x00000000 - 0x02000001 1" "$(tail -1 out | tr -s ' ')"
    local kind
    for kind in 1 4 5; do
        call list "loaded_$kind.pdi"
        same "type $kind has a load address" 0x100000 "$(tail -1 out | awk '{print $5}')"
    done
    for kind in 2 3 6 7; do
        call list "unloaded_$kind.pdi"
        same "type $kind has no load address" - "$(tail -1 out | awk '{print $5}')"
    done
    call list block.pdi
    same "a hash entry" "1 0x140 16 16 0x100000 0x0 0x00000000 0x150 0x04000001 1" "$(tail -1 out | tr -s ' ')"
    call list packed.pdi
    same "lengths that differ" "1 0x140 28 12 0x100000 0x0 0x00000000 - 0x04000001 1" "$(tail -1 out | tr -s ' ')"
    # What images.py gives the last of as many partitions as may be.
    local p=$PDI_MOST_PARTITIONS row
    call list many.pdi
    same "a line for each partition, and two" $((p + 2)) "$(wc -l <out)"
    same "all rows as wide as the titles" 1 "$(tail -n +2 out | awk '{print length}' | sort -u | wc -l)"
    same "each third without a load address" $((p / 3)) "$(tail -n +3 out | awk '$5 == "-"' | wc -l)"
    same "each second without a hash entry" $((p - p / 2)) "$(tail -n +3 out | awk '$8 == "-"' | wc -l)"
    row=$(printf '%d 0x%x %d %d 0x%x 0x%x 0x00000000 0x%x 0x01000000 1' "$p" $((192 + 128 * p + 64 * (p / 2) + 2 * p * (p - 1))) \
        $((4 * p)) $((4 * p)) $((p << (p + 25))) $((p < 32 ? (1 << 2 * p) - 1 : -1)) $((192 + 128 * p + 64 * (p / 2 - 1))))
    same "the widest row" "$row" "$(tail -1 out | tr -s ' ')"
}

test_tsv() {
    local header="p${tab}span_start${tab}span_length${tab}loaded_bytes${tab}load_address${tab}execution_address"
    header+="${tab}key${tab}hash_entry${tab}attributes${tab}owner_image"
    call list bench.pdi --tsv
    same "tsv of the bench image" "$header
1${tab}320${tab}16${tab}16${tab}1048576${tab}0${tab}0${tab}0${tab}67108865${tab}1" "$(cat out)"
    call list two.pdi --tsv
    same "tsv of two partitions" "$header
1${tab}320${tab}16${tab}16${tab}1048576${tab}0${tab}0${tab}0${tab}67108865${tab}1
2${tab}464${tab}4${tab}4${tab}1048592${tab}0${tab}0${tab}0${tab}67108865${tab}1" "$(cat out)"
    call list type_2.pdi --tsv
    same "tsv without a load address" "1${tab}320${tab}16${tab}16${tab}18446744073709551615${tab}0${tab}0${tab}0${tab}33554433${tab}1" \
        "$(tail -1 out)"
    call bill two.pdi --tsv
    same "tsv of a bill" "billed 20" "$(paste -sd ' ' out)"
}

test_json() {
    call list bench.pdi --json
    same "json is one line" 1 "$(wc -l <out)"
    json "json of the bench image" "o == {'accepted': True, 'place': 0, 'kind': 'partial', 'images': 1, 'partitions': 1, 'billed': 16,
        'rows': [{'p': 1, 'span_start': 320, 'span_length': 16, 'loaded_bytes': 16, 'load_address': '0x100000',
        'execution_address': '0x0', 'key': '0x0', 'hash_entry': 0, 'attributes': '0x4000001', 'owner_image': 1}]}"
    call list full.pdi --place 8192 --json
    json "json of a full image" "o['kind'] == 'full' and o['place'] == 8192 and o['rows'][0]['load_address'] == '0xfffc0000'"
    call list many.pdi --tsv
    cp out many.tsv
    call list many.pdi --json
    json "json and tsv have the same numbers" "[[str(int(v, 0) if isinstance(v, str) else v) for v in r.values()] for r in o['rows']]
        == [line.split() for line in open('many.tsv').read().splitlines()[1:]] and len(o['rows']) == o['partitions']
        == $PDI_MOST_PARTITIONS"
    json "json and tsv have the same names" "list(o['rows'][0]) == open('many.tsv').readline().split()"
    call bill two.pdi --json
    json "json of a bill" "o == {'accepted': True, 'place': 0, 'billed': 20}"
}

test_bill() {
    local name
    # images.py gives partition p of many p words.
    for name in bench:16 two:20 packed:28 many:$((2 * PDI_MOST_PARTITIONS * (PDI_MOST_PARTITIONS + 1))) type_2:16; do
        what="bill of $name" && call bill "${name%:*}.pdi" && accepted
        same "$what" "${name#*:}" "$(cat out)"
    done
}
