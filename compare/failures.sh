#!/bin/sh
# Holds the program `console` to what it does when its output or its input fails: a message on standard error, nothing more written, status 1 by
# console.sh; and when it is given words that it does not take: a message, nothing read and nothing written, status 2.
# Run `rt run` in crates/console first. On a machine that is not x86-64 the program runs under an emulator.
set -eu
cd "${0%/*}/.."
if [ -z "${RISSEMAT_CONSOLE:-}" ] && [ "$(uname -m)" != x86_64 ]; then
    RISSEMAT_CONSOLE=$(compare/emulated.sh console)
    export RISSEMAT_CONSOLE
fi
made=$(mktemp -d)
trap 'rm -rf "$made"' EXIT
faults=0

# told NAME MESSAGE STATUS: what was written to standard error, the status, and that nothing was printed
told() {
    if [ "$3" = 1 ] && [ "$(cat "$made/err")" = "$2" ] && [ ! -s "$made/out" ]; then
        echo "$1: as expected"
    else
        echo "$1: status $3, told '$(cat "$made/err")', printed $(wc -c <"$made/out") bytes"
        faults=$((faults + 1))
    fi
    : >"$made/out"
}

# refused NAME WORDS..: words that are not taken. What is left of the input is all of it.
refused() {
    name=$1
    shift
    status=0
    {
        run "$@" >"$made/out" 2>"$made/err" || status=$?
        cat >"$made/left"
    } <crates/console/stdin
    if [ "$status" = 2 ] && [ -s "$made/err" ] && [ ! -s "$made/out" ] && cmp -s "$made/left" crates/console/stdin; then
        echo "$name: as expected"
    else
        echo "$name: status $status, told '$(cat "$made/err")', printed $(wc -c <"$made/out") bytes, left $(wc -c <"$made/left") to read"
        faults=$((faults + 1))
    fi
}

# taken WORD INPUT OUTPUT: a word that is taken, and what is printed with it
taken() {
    status=0
    printf '%s\n' "$2" | run "$1" >"$made/out" 2>"$made/err" || status=$?
    if [ "$status" = 0 ] && [ "$(cat "$made/out")" = "$3" ] && [ ! -s "$made/err" ]; then
        echo "the word $1: as expected"
    else
        echo "the word $1: status $status, told '$(cat "$made/err")', printed '$(cat "$made/out")'"
        faults=$((faults + 1))
    fi
}

run() { sh crates/console/console.sh "$@"; }
: >"$made/out"
status=0
run <crates/console/stdin >/dev/full 2>"$made/err" || status=$?
told 'an output that is full' 'console: standard output: No space left on device' "$status"
status=0
run <crates/console/stdin >&- 2>"$made/err" || status=$?
told 'an output that is closed' 'console: standard output: Bad file descriptor' "$status"
status=0
run <crates >"$made/out" 2>"$made/err" || status=$?
told 'an input that cannot be read' 'console: standard input: Is a directory' "$status"
status=0
printf 20 | run >"$made/out" 2>"$made/err" || status=$?
if [ "$status" = 0 ] && [ "$(cat "$made/out")" = 2f0001 ] && [ ! -s "$made/err" ]; then
    echo 'an input that ends: as expected'
else
    echo "an input that ends: status $status, printed '$(cat "$made/out")'"
    faults=$((faults + 1))
fi
refused 'another word' help
refused 'no word' ''
refused 'an unknown profile' keys=vt100
refused 'no profile' keys=
refused 'another case' keys=ECMA-48
refused 'a space behind the word' 'keys=rust '
refused 'a word twice' keys=ecma-48 keys=ecma-48
refused 'both words' keys=rust keys=ecma-48
refused 'a word and no word' keys=rust ''
# a letter, Home, and a letter before it, which the Rust's keys type behind it
shown=220d1b5b324b61787669736f723a2420
taken keys=rust 20611b5b4862 "${shown}61
${shown}6162"
taken keys=ecma-48 20611b5b4862 "${shown}61
${shown}611b5b3144
${shown}62611b5b3144"
[ "$faults" = 0 ]
