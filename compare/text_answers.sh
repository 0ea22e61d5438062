#!/bin/sh
# Makes the stored input and answers of the program replay_text again, from Rust's standard library.
set -eu
cd "$(dirname "$0")/.."
mkdir -p target/compare
rustc --edition 2021 -O -o target/compare/text_answers compare/text_answers.rs
target/compare/text_answers crates/replay_text
