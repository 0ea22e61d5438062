#!/bin/sh
# emulated.sh NAME: makes target/compare/NAME, which runs the program NAME that rt has built by the loader and the C
# library of the kit, and on a machine that is not x86-64 under qemu-x86_64. Prints its path.
set -eu
cd "$(dirname "$0")/.."
fail() {
    printf 'emulated.sh: %s\n' "$*" >&2
    exit 1
}
[ $# -eq 1 ] || fail 'it takes the name of a program'
program=crates/$1/out/$1
[ -x "$program" ] || fail "no program $program: run rt run in crates/$1"
tools=$(dirname "$(rt doc)")/toolchain
emulator=
if [ "$(uname -m)" != x86_64 ]; then
    emulator=$(command -v qemu-x86_64) || fail "no qemu-x86_64 on the PATH, for x86-64 programs on $(uname -m)"
fi
mkdir -p target/compare
cat >"target/compare/$1" <<END
#!/bin/sh
exec ${emulator:+"'$emulator'"} '$tools/lib/ld-linux-x86-64.so.2' --library-path '$tools/lib' '$(pwd -P)/$program' "\$@"
END
chmod +x "target/compare/$1"
echo "target/compare/$1"
