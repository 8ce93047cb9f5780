# shellcheck shell=bash
# Names of any bytes: what of them reaches the terminal. A name is written here as printf takes it; no file of that name has to be there.

# shown NAME AS: a line about this name shows it so.
shown() {
    local name
    name=$(printf '%bx' "$1")
    call list "${name%x}"
    same "the name $1: status" 2 "$status"
    same "the name $1" "foliobriar: $2: cannot be opened: No such file or directory" "$(cat err)"
}

# shown_alike NAME...: as it is, alone and between other letters.
shown_alike() {
    local name
    for name in "$@"; do
        shown "$name" "$name"
        shown "a$name/b" "a$name/b"
    done
}

# escaped NAME...: byte for byte as it is written here, alone and between other letters.
escaped() {
    local name
    for name in "$@"; do
        shown "$name" "$name"
        shown "a${name}b/c" "a${name}b/c"
        shown "é${name}漢" "é${name}漢"
    done
}

test_sound_names() {
    # The last of each length and the first of the next, and what lies beside the surrogates.
    shown_alike a '~' é ß ñ 漢 字 😀 '👩‍👩‍👧' ' ' "it's" '"' '$HOME' '%s%n'
    local name
    for name in '\xc2\xa0' '\xdf\xbf' '\xe0\xa0\x80' '\xed\x9f\xbf' '\xee\x80\x80' '\xef\xbf\xbf' '\xf0\x90\x80\x80' '\xf4\x8f\xbf\xbf'; do
        shown "$name" "$(printf '%b' "$name")"
    done
}

test_control_characters() {
    local n
    escaped '\x0a' '\x1b' '\x1b[1m' '\x9b' '\x9b1m' '\xc2\x9b' '\x7f'
    for n in {1..31} 127 {128..159}; do
        escaped "$(printf '\\x%02x' "$n")"
    done
    for n in {128..159}; do
        escaped "$(printf '\\xc2\\x%02x' "$n")"
    done
}

test_unsound_names() {
    # Bytes that are in no character, and sequences that stop short.
    escaped '\xff' '\xfe' '\xa0' '\xbf' '\xc0' '\xc1' '\xf5' '\xc3' '\xe6' '\xe6\xbc' '\xf0' '\xf0\x9f' '\xf0\x9f\x98'
    # Overlong forms, surrogates, and what is over U+10FFFF.
    escaped '\xc0\xaf' '\xc1\xbf' '\xe0\x80\xaf' '\xe0\x9f\xbf' '\xf0\x80\x80\xaf' '\xf0\x8f\xbf\xbf' '\xc0\x80'
    escaped '\xed\xa0\x80' '\xed\xbf\xbf' '\xf4\x90\x80\x80' '\xf5\x80\x80\x80' '\xf8\x88\x80\x80\x80' '\xf7\xbf\xbf\xbf'
    # One that stops short at a sound one: only the first is escaped.
    shown '\xe6\xc3\xa9' '\xe6é'
    shown '\xf0\x9f\xf0\x9f\x98\x80' '\xf0\x9f😀'
    shown '\xe6\xbc\xc2\x9b\xe6\xbc\xa2' '\xe6\xbc\xc2\x9b漢'
}

# Every kind of line that has a name.
test_names_everywhere() {
    local odd=$'two\nlines\e[1m\x9b\xc2\x9b\xff é.pdi' as='two\x0alines\x1b[1m\x9b\xc2\x9b\xff é.pdi'
    cp both_twins_bad.pdi "$odd" || { echo "skipped: files of odd names, for want of a file system that takes them"; return 0; }
    what="an odd name, refused" && call list "$odd" && refused_at_0 6 0 "a table at place 336"
    same "$what: both lines have the name" 2 "$(grep -cF "foliobriar: $as: " err)"
    what="an odd name, all candidates" && call list "$odd" --place auto --json
    same "$what: status" 1 "$status"
    same "$what: each line has the name" 3 "$(grep -cF "foliobriar: $as: " err)"
    json "$what: sound JSON" "len(o['candidates']) == 2"
    cp bench.pdi "$odd"
    what="an odd name, found" && call list "$odd" --place auto --json && accepted
    same "$what: the line" "foliobriar: $as: table found at place 0 (0x0)" "$(cat err)"
    json "$what: sound JSON" "o['accepted'] and o['billed'] == 16"
    what="an odd name, no partition" && call body "$odd" 2 -o made && in_trouble "no partition 2"
    same "$what: the line has the name" 1 "$(grep -cF "foliobriar: $as: " err)"
    what="OUT is odd" && call body bench.pdi 1 -o "absent/$odd" && in_trouble "cannot be written"
    same "$what: the line has the name" 1 "$(grep -cF "foliobriar: absent/$as: " err)"
    what="an odd command" && call "$odd" && in_trouble "there is no such command"
    what="an odd option" && call list bench.pdi "--$odd" && in_trouble "there is no such option"
    what="an odd place" && call list bench.pdi --place "$odd" && in_trouble "place takes"
    same "$what: the line has the name" 1 "$(grep -cF "foliobriar: $as: " err)"
}
