# shellcheck shell=bash
# explain, --help and the man page.

test_explain() {
    what="explain 14" && call explain 14 && accepted
    same "$what" "number 14
  found  The lengths of header p are not in order (1 <= unencrypted <= encrypted <= total), or \
an actual key or signature size is over its total
  whose  header p
  ask    How the partition was packed
  p      the partition, counted from 1 in chain order; 0 means the image as a whole, or its table" "$(cat out)"
    what="explain 20" && call explain 20 && accepted
    same "$what" "number 20
  found  An image header is wrong: its checksum is not the sum of its 15 words, its number of partitions is 0, \
these numbers do not add up to the table's, or the partition header that it names is not the first of its run of the chain
  whose  image headers
  ask    A fresh copy; which partitions each image is to have" "$(cat out)"
    what="explain 0" && call explain 0 && accepted
    check "$what" grep -q 'found  The image is accepted' out
    local n last=$PDI_LAST_RULE
    what="explain the last in hexadecimal" && call explain "$(printf '0x%x' "$last")" && accepted
    same "$what" "number $last" "$(head -1 out)"
    for n in $((last + 1)) 64 4294967296 18446744073709551615; do
        what="explain $n" && call explain "$n" && in_trouble "no number from 0 to $last\$" && silent
    done
    what="explain 1 2" && call explain 1 2 && in_trouble "at most one operand"
    what="explain all" && call explain && accepted
    same "$what: in order" "$(seq 0 "$last")" "$(awk '{print $1}' out)"
    check "$what: has words for each" test -z "$(grep 'does not know' out)"
}

# The words of the command against docs/RULES.md, row for row. Only the marks of the page differ: its <= is one character.
test_rules() {
    check "explain agrees with docs/RULES.md" python3 - "$command" "$root/docs/RULES.md" "$PDI_LAST_RULE" <<'END'
import re, subprocess, sys
command, page, last = sys.argv[1:]
def explain(*number):
    return subprocess.run([command, "explain", *number], capture_output=True, text=True, check=True).stdout.splitlines()
rows = [line.strip().strip("|").split("|") for line in open(page, encoding="utf-8") if re.match(r"\| *\d+ *\|", line)]
rows = [[cell.strip().replace("\u2264", "<=").replace("`", "") for cell in row] for row in rows]
numbers = [row[0] for row in rows]
assert numbers == [str(n) for n in range(1, int(last) + 1)], numbers
short = explain()
for number, found, whose, ask in rows:
    lines = explain(number)
    assert lines[0] == f"number {number}", lines[0]
    assert lines[1:4] == [f"  found  {found}", f"  whose  {whose}", f"  ask    {ask}"], (number, lines)
    assert short[int(number)] == f"{number:>2}  {found}", short[int(number)]
    assert not re.search(r'["\\]|[^ -~]', found), found
END
}

# stated WHERE WORDS FILE: the file, without its line breaks and the man page's marks, has the words.
stated() {
    check "$1 states [$2]" grep -qF -- "$2" <(sed -e 's/\\-/-/g' -e 's/^\.[A-Z]* //' "$3" | paste -sd ' ')
}

# The limits in the words of the command, of docs/RULES.md (which has the same words) and of the man page are those of pdi.h.
test_limits() {
    local gibibytes="$((PDI_LONGEST_IMAGE >> 30)) GiB"
    call explain
    stated explain "longer than $gibibytes ($(grouped "$PDI_LONGEST_IMAGE") bytes)" out
    stated explain "$PDI_ROWS_NUMBERS numbers, or $(grouped "$PDI_ROWS_BYTES") bytes for the host" out
    stated explain "1 to $PDI_MOST_IMAGES images and 1 to $PDI_MOST_PARTITIONS partitions" out
    stated explain "entries from 1 to $((PDI_MOST_PARTITIONS + 1))," out
    stated "the man page" "longer than $gibibytes is refused" "$root/cli/foliobriar.1"
    stated "the man page" "a refusal number from 1 to $PDI_LAST_RULE what" "$root/cli/foliobriar.1"
    call list bench.pdi --tsv
    stated "the man page" "a line for each partition: $(head -1 out | sed "s/$tab/, /g")." "$root/cli/foliobriar.1"
    call explain --help
    stated "explain --help" "a refusal number from 1 to $PDI_LAST_RULE," out
    check "limits of the header" test "$PDI_ROWS_BYTES" -eq $((8 * PDI_ROWS_NUMBERS))
}

# Commands and options: those of the sources, of --help and of the man page are the same, and the command knows them.
test_help() {
    local source=$root/cli/options.c word
    what="--help" && call --help && accepted
    cp out help
    sed 's/\\-/-/g' "$root/cli/foliobriar.1" >page
    grep -o '{"--[a-z]*"' "$source" | tr -d '{"' | sort -u >options
    check "the sources have options" grep -qx -e --place options
    same "options of --help" "$(cat options)" "$(grep -oe '--[a-z]\{2,\}' help | sort -u)"
    # Two options of the man page are pkg-config's.
    same "options of the man page" "$(cat options)" \
        "$(grep -v '^\.\\"' page | grep -oe '--[a-z]\{2,\}' | grep -vx -e --cflags -e --libs | sort -u)"
    same "letters of the sources" o "$(grep -o "{\"--[a-z]*\", '.'" "$source" | grep -o "'.'" | tr -d "'")"
    check "-o in --help" grep -q -e ' -o, --output OUT' help
    check "-o in the man page" grep -q -e '^\.BI -o ' page
    while read -r word; do
        what="$word" && call list bench.pdi "$word"
        check "$word is known" test -z "$(grep 'no such option' err)"
    done <options
    grep -o '{"[a-z]*", [0-9]' "$root/cli/commands.c" | grep -o '[a-z]*' >commands
    same "commands of the sources" "list bill body explain" "$(paste -sd ' ' commands)"
    same "commands of --help" "$(cat commands)" "$(sed -n '/^Commands:/,/^$/s/^  \([a-z]*\) .*/\1/p' help)"
    same "commands of the man page" "$(cat commands)" \
        "$(sed -n '/^\.SH COMMANDS/,/^\.SH OPTIONS/s/^\.B \([a-z]*\)$/\1/p' page | awk '!seen[$0]++')"
    while read -r word; do
        what="$word --help" && call "$word" --help && accepted
        same "$what: its usage is that of --help" 1 "$(grep -cF "$(head -1 out | sed 's/^Usage: //')" help)"
        cp out expected
        what="--help $word" && call --help "$word" && accepted
        check "$what: the same" cmp -s out expected
    done <commands
    what="--help of no command" && call lst --help && in_trouble "no such command"
    what="--version" && call --version && accepted
    same "$what" "foliobriar $(cat "$root/cli/VERSION")" "$(cat out)"
}

test_man_page() {
    command -v groff >/dev/null || { echo "skipped: the man page, for want of groff"; return 0; }
    groff -man -Tutf8 -ww -P-cbou "$root/cli/foliobriar.1" >out 2>err
    same "the man page renders without warnings" "" "$(cat err)"
    local text
    text=$(tr -s '[:space:]' ' ' <out)
    check "the man page has its first line" grep -qF 'foliobriar - list, bill and unpack PDI boot images' <<<"$text"
    check "the man page has its last line" grep -qF 'gives the flags to build with it.' <<<"$text"
}
