#!/bin/sh
# processors.sh [ROUNDS]: makes the same calls of the library on this machine, on aarch64 and on riscv64, the last two on
# an empty machine of qemu, and holds what they answer and leave against each other. Status 1 on a difference.
set -eu
cd "$(dirname "$0")/.."
rounds=${1:-2000}
case $rounds in
'' | *[!0-9]*)
    echo 'usage: compare/processors.sh [ROUNDS]' >&2
    exit 2
    ;;
esac
made=target/compare/processors
from=compare/processors
mkdir -p "$made"
for tree in base fs; do
    printf 'static const u8 %s_tree[] = {%s};\n' "$tree" "$(tr -d '\n' <"trees/$tree.tree" | sed 's/../0x&,/g')"
done >"$made/trees.h"

library=$(tools/archive)
cc -O1 "-DROUNDS=$rounds" -I "$made" "$from/calls.c" "$library" -o "$made/here"
expected=$("$made/here")
echo "$(uname -m), this machine: $expected"

tools=$(dirname "$(rt doc)")/toolchain/bin
faults=0

# on PROCESSOR BASE QEMU-WORDS CLANG-WORDS ARCHIVE-WORDS: builds the calls for an empty machine, runs them, compares.
on() {
    what=$1${5:+, $5}
    if ! command -v "qemu-system-$1" >/dev/null; then
        echo "$what: not run, no qemu-system-$1 on the PATH"
        return
    fi
    # shellcheck disable=SC2086
    library=$(tools/archive "$1" $5)
    sed "s/BASE/$2/" "$from/link.ld" >"$made/$1.ld"
    for file in calls machine; do
        # shellcheck disable=SC2086
        "$tools/clang" "--target=$1-none-elf" $4 $5 -ffreestanding -fno-builtin -O1 "-DROUNDS=$rounds" -I "$made" \
            -c "$from/$file.c" -o "$made/$1-$file.o"
    done
    "$tools/ld.lld" -T "$made/$1.ld" --gc-sections "$made/$1-calls.o" "$made/$1-machine.o" "$library" -o "$made/$1"
    # shellcheck disable=SC2086
    found=$("qemu-system-$1" -M virt -m 256 -display none -nodefaults -serial stdio $3 -kernel "$made/$1" </dev/null)
    if [ "$found" = "$expected" ]; then
        echo "$what: the same"
    else
        echo "$what: DIFFERS: $found"
        faults=1
    fi
}

# With vector and floating-point registers, and without.
arm='-cpu cortex-a57 -semihosting'
riscv='-mcmodel=medany -mno-relax'
on aarch64 0x40080000 "$arm" '' ''
on aarch64 0x40080000 "$arm" '' '-mgeneral-regs-only'
on riscv64 0x80000000 '-bios none' "$riscv" '-march=rv64gc -mabi=lp64d'
on riscv64 0x80000000 '-bios none' "$riscv" '-march=rv64imac -mabi=lp64'
exit "$faults"
