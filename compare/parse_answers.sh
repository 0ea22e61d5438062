#!/bin/sh
# Makes the stored input and answers of the program replay_parse again, from the original's parse.
set -eu
cd "$(dirname "$0")/.."
. compare/original.sh
answers parse_answers crates/replay_parse
