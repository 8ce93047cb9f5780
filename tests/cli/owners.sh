# shellcheck shell=bash
# The owner image of each partition: in every form of list, as pdi_owner tells it, and the refusals of image headers.

test_owners() {
    what="images that own 1, 2 and 1 of 4 partitions" && call list owned.pdi && accepted
    same "$what: the head" "partial image: images 3, partitions 4, billed bytes 16" "$(head -1 out)"
    check "$what: the title" grep -q '  attributes  owner image$' out
    same "$what: a table" "1 1,2 2,3 2,4 3" "$(tail -n +3 out | awk '{print $1, $10}' | paste -sd ,)"
    call list owned.pdi --tsv
    same "$what: tsv" "p owner_image,1 1,2 2,3 2,4 3" "$(awk '{print $1, $10}' out | paste -sd ,)"
    call list owned.pdi --json
    json "$what: json" "[(r['p'], r['owner_image']) for r in o['rows']] == [(1, 1), (2, 2), (3, 2), (4, 3)]
        and all(list(r)[-1] == 'owner_image' for r in o['rows'])"
    what="as many images as may be" && call list owned_most.pdi --tsv && accepted
    same "$what" "$(seq -s ' ' "$PDI_MOST_IMAGES")" "$(tail -n +2 out | cut -f 10 | paste -sd ' ')"
    what="one image of as many partitions as may be" && call list full_many.pdi --place auto --tsv && accepted
    same "$what" "$PDI_MOST_PARTITIONS 1" "$(tail -n +2 out | cut -f 10 | uniq -c | awk '{print $1, $2}')"
}

test_owner_refusals() {
    local name words
    call explain 20
    words=$(sed -n 's/^  found  //p' out)
    for name in image_count_0 owned_over owned_exchanged; do
        call list "$name.pdi" --place 0
        same "the line of $name" "foliobriar: $name.pdi: refused: number 20: $words" "$(cat err)"
    done
    what="a body of a refused image" && call body owned_over.pdi 1 -o fresh --place 0 && refused 20 0
    check "$what: no OUT is made" test ! -e fresh
}

# The call itself, in each language that pdi.h is for: every p of some images, one too low, one too high and the highest of all.
test_owner_call() {
    local strict=(-Wall -Wextra -Werror -pedantic "-I$root/include") archive=$root/target/staticlib/libpdi_host.a
    local program images=$PDI_MOST_IMAGES most=$PDI_MOST_PARTITIONS
    check "owner.c builds as c11" "${CC:-gcc}" -std=c11 "${strict[@]}" "$here/owner.c" "$archive" -o owner
    cp "$here/owner.c" owner.cpp
    check "owner.c builds as c++11" "${CXX:-g++}" -std=c++11 "${strict[@]}" owner.cpp "$archive" -o owner++
    for program in ./owner ./owner++; do
        same "$program: 1, 2 and 1" "0 1 2 2 3 0 0" "$($program owned.pdi 0 0 1 2 3 4 5 18446744073709551615)"
        same "$program: the bench image" "0 1 0" "$($program bench.pdi 0 0 1 2)"
        same "$program: a full image" "0 1 1 0" "$($program full_many.pdi 8192 0 1 "$most" $((most + 1)))"
        same "$program: as many images as may be" "0 1 $images 0" "$($program owned_most.pdi 0 0 1 "$images" $((images + 1)))"
        same "$program: refused by 20" "0 0 0 0 0 0" "$($program owned_over.pdi 0 0 1 2 3 4 5)"
        same "$program: refused by 19" "0 0 0 0" "$($program two_clash.pdi 0 0 1 2 3)"
        same "$program: no table there" "0 0" "$($program bench.pdi 4 0 1)"
        same "$program: an empty image" "0 0" "$($program empty.pdi 0 0 1)"
    done
}
