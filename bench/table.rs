// The tables: a row for each call and input, with the time of the Rust, ours, and ours divided by the Rust's.
use crate::timing::{Parted, Task, medians};

pub fn heading() {
    println!("| call  | input              | bytes | Rust ns | ours ns | ours / Rust |");
    println!("|-------|--------------------|------:|--------:|--------:|------------:|");
}

/// Times both and prints their row.
pub fn row(call: &str, input: &str, bytes: usize, rust: Task, ours: Task) {
    let [rust, ours] = medians([rust, ours]);
    let ratio = ours / rust;
    println!("| {call:<5} | {input:<18} | {bytes:>5} | {rust:>7.0} | {ours:>7.0} | {ratio:>11.2} |");
}

pub fn key_heading() {
    println!();
    println!("| line | history                 | from_utf8 ns | Rust ns | ours ns | ours / from_utf8 | ours / Rust |");
    println!("|-----:|-------------------------|-------------:|--------:|--------:|-----------------:|------------:|");
}

/// Prints the row of one key.
pub fn key_row(line: usize, history: &str, pass: f64, rust: f64, ours: f64) {
    let (by_pass, by_rust) = (ours / pass, ours / rust);
    println!(
        "| {line:>4} | {history:<23} | {pass:>12.0} | {rust:>7.0} | {ours:>7.0} | {by_pass:>16.2} | {by_rust:>11.2} |"
    );
}

pub fn greek_heading() {
    println!();
    println!("| history              | bytes of entries | from_utf8 of them ns | ours ns | ours / from_utf8 of them |");
    println!("|----------------------|-----------------:|---------------------:|--------:|-------------------------:|");
}

/// Prints the row of one key with Greek lines in the history.
pub fn greek_row(history: &str, bytes: usize, pass: f64, ours: f64) {
    let by_pass = ours / pass;
    println!("| {history:<20} | {bytes:>16} | {pass:>20.0} | {ours:>7.0} | {by_pass:>24.2} |");
}

pub fn begun_heading() {
    println!();
    println!("| history              | first slot | from_utf8 ns | ours ns | ours / from_utf8 | ours / at slot 0 |");
    println!("|----------------------|-----------:|-------------:|--------:|-----------------:|-----------------:|");
}

/// Prints the row of one key with a history that begins at this slot.
pub fn begun_row(history: &str, first: usize, pass: f64, ours: f64, at_0: f64) {
    let (by_pass, by_0) = (ours / pass, ours / at_0);
    println!("| {history:<20} | {first:>10} | {pass:>12.0} | {ours:>7.0} | {by_pass:>16.2} | {by_0:>16.2} |");
}

pub fn add_heading() {
    println!();
    println!("| history              | call     | a key ns | call ns | call / key | call less key ns |");
    println!("|----------------------|----------|---------:|--------:|-----------:|-----------------:|");
}

/// Prints the row of a call that adds to a full history, beside a key with the same history.
pub fn add_row(history: &str, call: &str, key: f64, time: f64) {
    let (by_key, less) = (time / key, time - key);
    println!("| {history:<20} | {call:<8} | {key:>8.0} | {time:>7.0} | {by_key:>10.2} | {less:>16.0} |");
}

pub fn forget_heading() {
    println!();
    println!("| history              | forgotten  | copy ns | a key ns | call ns | call / key | call less key ns |");
    println!("|----------------------|------------|--------:|---------:|--------:|-----------:|-----------------:|");
}

/// Prints the row of a call that forgets an entry of a full history, beside a key with the same history, both without the
/// copy before them.
pub fn forget_row(history: &str, entry: &str, copy: f64, key: f64, time: f64) {
    let (by_key, less) = (time / key, time - key);
    println!(
        "| {history:<20} | {entry:<10} | {copy:>7.0} | {key:>8.0} | {time:>7.0} | {by_key:>10.2} | {less:>16.0} |"
    );
}

pub fn profile_heading() {
    println!();
    println!("| line | history              | key                           | Rust's keys ns | ECMA-48's ns | ECMA-48's / Rust's |");
    println!("|-----:|----------------------|-------------------------------|---------------:|-------------:|-------------------:|");
}

/// Prints the row of one key with each profile.
pub fn profile_row(line: usize, history: &str, key: &str, [rust, ecma48]: [f64; 2]) {
    let ratio = ecma48 / rust;
    println!("| {line:>4} | {history:<20} | {key:<29} | {rust:>14.0} | {ecma48:>12.0} | {ratio:>18.2} |");
}

pub fn tree_heading() {
    println!();
    println!("| image of         | bytes | Rust ns | ours ns | ours / Rust | ours ns a byte |");
    println!("|------------------|------:|--------:|--------:|------------:|---------------:|");
}

/// Prints the row of one image.
pub fn tree_row(tree: &str, bytes: usize, rust: f64, ours: f64) {
    let (by_rust, by_bytes) = (ours / rust, ours / bytes as f64);
    println!("| {tree:<16} | {bytes:>5} | {rust:>7.0} | {ours:>7.0} | {by_rust:>11.2} | {by_bytes:>14.3} |");
}

pub fn parse_heading() {
    println!();
    println!("| tree      | words | Rust ns | test ns | whole ns | whole / Rust | after the test ns | after / Rust |");
    println!("|-----------|------:|--------:|--------:|---------:|-------------:|------------------:|-------------:|");
}

/// Prints the row of one line parsed: the whole call, the test of the image alone, and what is left of the call without it.
pub fn parse_row(tree: &str, words: usize, times: &Parted) {
    println!("| {tree:<9} | {words:>5} | {} |", parts(times));
}

fn parts(&Parted { rust, whole, test, after }: &Parted) -> String {
    let (by_whole, by_after) = (whole / rust, after / rust);
    format!("{rust:>7.0} | {test:>7.0} | {whole:>8.0} | {by_whole:>12.2} | {after:>17.0} | {by_after:>12.2}")
}

pub fn help_heading() {
    println!();
    println!("| tree      | help         | bytes | Rust ns | test ns | whole ns | whole / Rust | after the test ns | after / Rust |");
    println!("|-----------|--------------|------:|--------:|--------:|---------:|-------------:|------------------:|-------------:|");
}

/// Prints the row of one help, in the same parts.
pub fn help_row(tree: &str, help: &str, bytes: usize, times: &Parted) {
    println!("| {tree:<9} | {help:<12} | {bytes:>5} | {} |", parts(times));
}

pub fn session_heading() {
    println!();
    println!("| line | history              | key ns | in a session ns | in a session / key |");
    println!("|-----:|----------------------|-------:|----------------:|-------------------:|");
}

/// Prints the row of one key in a session.
pub fn session_row(line: usize, history: &str, key: f64, session: f64) {
    let by_key = session / key;
    println!("| {line:>4} | {history:<20} | {key:>6.0} | {session:>15.0} | {by_key:>18.2} |");
}

pub fn tree_lines_heading() {
    println!();
    println!("| tree lines of    | lines | image bytes |      ns | ns a byte | ns a line |");
    println!("|------------------|------:|------------:|--------:|----------:|----------:|");
}

/// Prints the row of the tree lines of a session.
pub fn tree_lines_row(kind: &str, lines: usize, bytes: usize, time: f64) {
    let (by_bytes, by_lines) = (time / bytes as f64, time / lines as f64);
    println!("| {kind:<16} | {lines:>5} | {bytes:>11} | {time:>7.0} | {by_bytes:>9.2} | {by_lines:>9.1} |");
}
