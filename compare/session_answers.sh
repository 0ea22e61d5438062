#!/bin/sh
# Makes the stored input and answers of the program replay_session again, from what the original's loop and shell print for whole sessions;
# with ECMA-48's keys, the model and the shell. A word names another folder.
set -eu
cd "$(dirname "$0")/.."
. compare/original.sh
folder=${1:-crates/replay_session}
mkdir -p "$folder"
answers session_answers "$folder"
