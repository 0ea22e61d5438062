#!/bin/sh
# Runs the console that `rt run` built in this folder, or the one that RISSEMAT_CONSOLE names, with the words that it is given (`keys=rust` or `keys=ecma-48`,
# once at most) and with standard input and output as they are. A program of Rattle cannot set an exit status itself: this one ends with 2 if the words were
# refused, and with 1 if any other failure was told on standard error.
set -u
told=$(mktemp) || exit 1
trap 'rm -f "$told"' EXIT
"${RISSEMAT_CONSOLE:-${0%/*}/out/console}" "$@" 2>"$told"
status=$?
if [ -s "$told" ]; then
    cat "$told" >&2
    if [ "$status" = 0 ]; then
        status=1
        case $(cat "$told") in
            'console: words: '*) status=2 ;;
        esac
    fi
fi
exit "$status"
