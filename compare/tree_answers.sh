#!/bin/sh
# Makes the stored input and answers of the program replay_tree again, from an independent reader of images.
set -eu
cd "$(dirname "$0")/.."
. compare/original.sh
answers tree_answers crates/replay_tree
