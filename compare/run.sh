#!/bin/sh
# Compares the proved library with the original shell: builds both, runs the parts named, or all, and ends with status 1
# on a difference.
set -eu
cd "$(dirname "$0")/.."
. compare/build.sh
program comparer compare/comparer/main.rs
exec "$built/comparer" "$@"
