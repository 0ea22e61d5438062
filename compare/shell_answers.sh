#!/bin/sh
# Makes the stored input and answers of the program replay_shell again, from what the original does with lines.
set -eu
cd "$(dirname "$0")/.."
. compare/original.sh
answers shell_answers crates/replay_shell
