# shellcheck shell=bash
# Calling the command, and what a call has to have ended with. `run` sets $command.

# call ARGS...: runs the command, which must not wait for anything; its streams are in out and err, its status in $status.
call() {
    timeout 60 "$command" "$@" >out 2>err && status=0 || status=$?
}

# call_meaning default|ignore SIGNAL ARGS...: the same, where the signal ends the command, or means nothing. No core is left.
call_meaning() {
    (ulimit -c 0 && exec timeout 60 env "--$1-signal=$2" "$command" "${@:3}") >out 2>err && status=0 || status=$?
}

# A sanitizer's report also ends with a status over 0, so a line of standard error has to be the command's own.
own_words() {
    ! grep -v -e '^foliobriar: ' -e '^Try `foliobriar --help`\.$' err
}

# accepted, refused NUMBER P, refused_at_0 NUMBER P FOUND, in_trouble PATTERN: what the last call has to have ended with. $what names the
# check. A refusal at a place that nobody gave has a second line, which says what --place auto finds.
accepted() {
    same "$what: status" 0 "$status"
    check "$what: standard error" own_words
}

refused() {
    same "$what: one line on standard error" 1 "$(wc -l <err)"
    first_line_refuses "$1" "$2"
}

refused_at_0() {
    same "$what: two lines on standard error" 2 "$(wc -l <err)"
    first_line_refuses "$1" "$2"
    check "$what: auto finds '$3'" grep -qF ": place 0 was assumed; --place auto finds $3" <(tail -n 1 err)
    check "$what: standard error is the command's own" own_words
}

first_line_refuses() {
    same "$what: status" 1 "$status"
    local about="number $1, partition $2:"
    [ "$2" -ne 0 ] || about="number $1:"
    check "$what: standard error has '$about'" grep -qF ": refused: $about " <(head -n 1 err)
}

in_trouble() {
    same "$what: status" 2 "$status"
    check "$what: standard error has '$1'" grep -qe "$1" err
    check "$what: standard error is the command's own" own_words
}

silent() {
    check "$what: nothing on standard output" test ! -s out
}

# json WHAT EXPRESSION: out is one JSON object `o`, of which the Python expression is true.
json() {
    check "$1" python3 -c 'import json, sys
o = json.load(open("out"))
sys.exit(not eval(f"({sys.argv[1]})"))' "$2"
}

tab=$'\t'
