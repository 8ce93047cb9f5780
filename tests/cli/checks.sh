# Counting checks, for the scripts here. Each starts with `. checks.sh` and ends with `finish`. A check that holds prints nothing.
passed=0
failed=0

pass() {
    passed=$((passed + 1))
}

# fail WHAT: one line, and the streams of the last call after it.
fail() {
    failed=$((failed + 1))
    printf 'FAILED: %s\n' "$1"
}

# check WHAT COMMAND...: the command has to succeed.
check() {
    local what=$1
    shift
    if "$@"; then pass; else fail "$what"; fi
}

# same WHAT EXPECTED FOUND
same() {
    if [ "$2" = "$3" ]; then pass; else fail "$1: expected [$2], found [$3]"; fi
}

finish() {
    printf '%d passed, %d failed\n' "$passed" "$failed"
    [ "$failed" -eq 0 ]
}
