#!/bin/sh
# Holds docs/CONTRACTS.md against the public functions of crates/*/src and the edits in crates/*/must-fail: a line for each thing that does not fit.
# POSIX sh with awk, find and sort, which rt needs too.
set -eu
LC_ALL=C
export LC_ALL
cd "${0%/*}/.."

# Names of crates and files have no white space in them.
roots=$(find crates/*/src -name lib.rt | sort)
others=$(find crates/*/src -name '*.rt' ! -name lib.rt | sort)
{
    # shellcheck disable=SC2086
    awk -f audit/functions.awk $roots $others
    find crates/*/must-fail -name '*.edit' | sort | awk -F/ '{ sub(/\.edit$/, "", $4); print $2, $4, "edit" }'
    find crates -mindepth 1 -maxdepth 1 | sort | awk -F/ '{ print $2, "-", "crate" }'
} | awk -f audit/contracts.awk - docs/CONTRACTS.md
