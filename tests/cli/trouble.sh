# shellcheck shell=bash
# Standard output that fails, files that are cut short, and signals.

# A pipe whose reader is gone; the arguments are the command's.
call_with_closed_pipe() {
    python3 - "$command" "$@" >out 2>err <<'END' && status=0 || status=$?
import os, subprocess, sys
reader, writer = os.pipe()
os.close(reader)
sys.exit(subprocess.run(sys.argv[1:], stdout=writer).returncode)
END
}

test_standard_output() {
    local words
    for words in 'list bench.pdi' 'list bench.pdi --tsv' 'list bench.pdi --json' 'list u_5.pdi --json' 'bill bench.pdi' 'explain' \
        'explain 3' '--help' 'list --help' '--version' 'body bench.pdi 1 -o -' 'body large.pdi 1 -o -'; do
        what="$words to a full disk"
        # shellcheck disable=SC2086
        "$command" $words >/dev/full 2>err && status=0 || status=$?
        in_trouble "standard output: cannot be written: No space left"
        # shellcheck disable=SC2086
        what="$words to a closed pipe" && call_with_closed_pipe $words && in_trouble "standard output: cannot be written: Broken pipe"
        what="$words to a closed file"
        # shellcheck disable=SC2086
        "$command" $words >&- 2>err && status=0 || status=$?
        in_trouble "standard output: cannot be written"
    done
    what="body to a file, standard files closed"
    "$command" body two.pdi 2 -o made <&- >&- 2>&- && status=0 || status=$?
    same "$what: status" 0 "$status"
    same "$what: its bytes" tail "$(cat made)"
}

# with_faults: the command of the same sources and archive, with faults that come when faults.c is told; it is then $command.
with_faults() {
    check "faults.c builds" "${CC:-gcc}" -std=c11 -D_XOPEN_SOURCE=700 -D_FILE_OFFSET_BITS=64 '-DFOLIOBRIAR_VERSION="0"' "-I$root/include" \
        -fsanitize=address,undefined -fno-sanitize-recover=all -Wl,--wrap=close,--wrap=write,--wrap=fsync \
        "$root"/cli/*.c "$here/faults.c" "$root/target/staticlib/libpdi_host.a" -o faulty
    command=./faulty
}

# A cut before pdi_read looks is met by a signal; one that a body meets in write is not.
test_cut_file() {
    local command
    with_faults
    cp large.pdi cut.pdi
    what="a file cut short once it is mapped" && FAULT_IN=close FAULT_CUT=cut.pdi call bill cut.pdi
    in_trouble "^foliobriar: the image file was cut short" && silent
    cp large.pdi cut.pdi
    what="a file cut short before its body is written" && FAULT_IN=write FAULT_CUT=cut.pdi call body cut.pdi 1 -o made
    in_trouble "cut.pdi: was cut short" && silent && nothing_left
    check "$what: no OUT is made" test ! -e made
}

# A signal while OUT is written removes the unfinished file first. Whoever runs the tests may ignore some signals (nohup), so each call
# says itself what a signal means.
test_signals() {
    local command signal moment
    with_faults
    mkdir beside
    for signal in HUP INT QUIT TERM; do
        for moment in write fsync; do
            what="signal $signal in $moment"
            echo old >beside/made
            # The shell tells of a signal on its own standard error.
            { FAULT_IN=$moment FAULT_SIGNAL=$(kill -l $signal) call_meaning default $signal body large.pdi 1 -o beside/made; } 2>/dev/null
            same "$what: status" $((128 + $(kill -l $signal))) "$status"
            same "$what: OUT is untouched" old "$(tr -d '\0' <beside/made)"
            nothing_left
            what="ignored signal $signal in $moment"
            FAULT_IN=$moment FAULT_SIGNAL=$(kill -l $signal) call_meaning ignore $signal body large.pdi 1 -o beside/made
            accepted && nothing_left
            check "$what: its bytes" cmp -s beside/made <(tail -c +321 large.pdi)
        done
    done
    # An ignored signal that already waits when the command starts.
    what="an ignored signal that waits"
    python3 - "$command" body two.pdi 2 -o made >out 2>err <<'END' && status=0 || status=$?
import os, signal, subprocess, sys
def prepare():
    signal.signal(signal.SIGHUP, signal.SIG_IGN)
    signal.pthread_sigmask(signal.SIG_BLOCK, [signal.SIGHUP])
    os.kill(os.getpid(), signal.SIGHUP)
sys.exit(subprocess.run(sys.argv[1:], preexec_fn=prepare).returncode)
END
    accepted
    same "$what: its bytes" tail "$(cat made)"
}
