#!/bin/sh
# Makes the stored input and answers of the program replay_words again, from the original's tokenize.
set -eu
cd "$(dirname "$0")/.."
. compare/original.sh
answers word_answers crates/replay_words
