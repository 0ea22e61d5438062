#!/bin/sh
# Makes the stored input and answers of the program replay_editor again, from the original's loop. A word names another folder.
set -eu
cd "$(dirname "$0")/.."
. compare/original.sh
folder=${1:-crates/replay_editor}
mkdir -p "$folder"
answers key_answers "$folder"
