#!/bin/sh
# Times the proved library and the program console against the original shell: builds them, with one driver, and prints
# twelve tables.
set -eu
cd "$(dirname "$0")/.."
. compare/build.sh
program bench bench/main.rs
exec "$built/bench"
