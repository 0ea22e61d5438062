// Writes the input and the output of the program replay_editor: streams of keys, and what the original's loop makes of them; of
// ECMA-48's keys, what the model makes of them.
#[allow(dead_code)]
mod hex;
#[path = "comparer/lines.rs"]
#[allow(dead_code)]
mod lines;
#[path = "comparer/model/mod.rs"]
#[allow(dead_code)]
mod model;
#[path = "comparer/named.rs"]
mod named;
#[path = "comparer/random.rs"]
mod random;
#[path = "comparer/shell.rs"]
#[allow(dead_code)]
mod shell;
#[path = "comparer/streams.rs"]
mod streams;

use hex::hex;
use model::{Model, Profile};
use named::{named, sequences};
use shell::{PLAIN, walk};
use streams::{Typist, every_stream};

/// The number of mixed streams, their most keys, and the start of their numbers.
const MIXED: usize = 200;
const MOST: usize = 60;
const SEED: u64 = 0x7265_706C_6179_0002;
/// What stands before a stream of ECMA-48's keys.
const MARK: &str = "+";

/// The shortest streams, the named ones, and mixed ones.
fn all_streams() -> Vec<Vec<u8>> {
    let mut list = Vec::new();
    every_stream(1, &mut |stream| list.push(stream.to_vec()));
    list.extend(named());
    let mut typist = Typist::new(SEED);
    let mixed = std::iter::repeat_with(|| typist.stream()).filter(|stream| (2..=MOST).contains(&stream.len()));
    list.extend(mixed.take(MIXED));
    list
}

/// What is to be written for a stream: what each key shows, without what follows the LF of Enter, and the history at the end.
fn answer(stream: &[u8]) -> String {
    let screens = PLAIN.screens(&[stream, &walk(stream)].concat());
    assert!(screens.len() >= stream.len(), "no stream leaves the shell");
    let (shown, walked) = screens.split_at(stream.len());
    let shown: Vec<&[u8]> = shown.iter().map(|screen| own(screen)).collect();
    let told = written(&shown, &PLAIN.recalled(walked));
    assert_eq!(told, modelled(Profile::Rust, stream), "the model of the Rust's keys is the original");
    told
}

/// The same by the model.
fn modelled(profile: Profile, stream: &[u8]) -> String {
    let mut model = Model::fresh_with(profile);
    let shown: Vec<Vec<u8>> = stream.iter().map(|&key| model.press(PLAIN.prompt, key).screen).collect();
    written(&shown, &model.entries)
}

/// What the keys show and the entries, as the program writes them.
fn written(shown: &[impl AsRef<[u8]>], entries: &[impl AsRef<[u8]>]) -> String {
    let shown: Vec<String> = shown.iter().map(|screen| hex(screen.as_ref())).collect();
    let entries: Vec<String> = entries.iter().map(|entry| hex(entry.as_ref())).collect();
    format!("{};{}", shown.join(","), entries.join(","))
}

/// What the key itself wrote. At Enter that is a LF; a command's output and the prompt follow.
fn own(screen: &[u8]) -> &[u8] {
    let entered = screen.starts_with(b"\n") && screen.ends_with(PLAIN.prompt);
    if entered { b"\n" } else { screen }
}

fn main() {
    let folder = std::env::args().nth(1).expect("the folder of replay_editor");
    let rust = all_streams().into_iter().map(|stream| (hex(&stream), answer(&stream)));
    let ecma48 =
        sequences().into_iter().map(|stream| (MARK.to_string() + &hex(&stream), modelled(Profile::Ecma48, &stream)));
    let streams: Vec<(String, String)> = rust.chain(ecma48).collect();
    let input: String = streams.iter().map(|(stream, _)| format!("{stream}\n")).collect();
    let output: Vec<String> = streams.iter().map(|(_, answer)| format!("{answer}\n")).collect();
    assert!(input.len() < 65_536, "replay programs read at most 65,535 bytes");
    let longest = output.iter().map(String::len).max().unwrap_or(0);
    let output = output.concat();
    std::fs::write(format!("{folder}/stdin"), &input).expect("stdin is written");
    std::fs::write(format!("{folder}/stdout"), &output).expect("stdout is written");
    println!("{} streams; {} and {} bytes, the longest line {}", streams.len(), input.len(), output.len(), longest);
}
