# Builds what compare/run.sh and bench/run.sh share. They read this file in, and stand at the top of the repository.

# The library to compare: the one proved here, for this machine's processor, or the archive that RISSEMAT_LIBRARY names.
library=${RISSEMAT_LIBRARY:-$(tools/archive)}

# The program console: the one proved here, or the one that RISSEMAT_CONSOLE names. rt builds programs for x86-64 alone;
# on another machine an emulator runs it.
if [ -z "${RISSEMAT_CONSOLE:-}" ]; then
    (cd crates/console && rt run </dev/null >/dev/null)
    RISSEMAT_CONSOLE=crates/console/out/console
    if [ "$(uname -m)" != x86_64 ]; then
        RISSEMAT_CONSOLE=$(compare/emulated.sh console)
        RISSEMAT_EMULATED=1
        export RISSEMAT_EMULATED
    fi
fi
export RISSEMAT_CONSOLE

. compare/original.sh

# program NAME FILE: a program over the original, in both its forms, and over the library.
program() {
    over_original "$1" "$2" --extern "calls=$built/libcalls.rlib" -C "link-arg=$library"
}

rlib calls compare/calls.rs
