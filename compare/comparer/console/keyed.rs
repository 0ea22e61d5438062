// Sessions with the word that chooses a key profile: their keys taken by the model, their lines run by the original; and words that are refused.
use super::modelled::told_with;
use super::program::{Feed, PATIENCE, program, started};
use super::told::told;
use super::{KEYS, check_with, key_lines, session, tree_lines};
use crate::model::Profile;
use crate::named::{named, sequences};
use crate::part::Part;
use crate::planting::{Tree, examples};
use crate::sequences::Mixer;
use std::fs::File;
use std::io::{Read, Seek};
use std::process::{Child, Stdio};
use std::thread::sleep;
use std::time::{Duration, Instant};

const MIXED: usize = 600;
const SEED: u64 = 0x636F_6E73_6563_0001;
const SEED_KEYS: u64 = 0x636F_6E73_6563_0002;

const RUST: &str = "keys=rust";
const ECMA48: &str = "keys=ecma-48";

/// What is not one word of the two. Of some only the case, a space or a letter is other.
const REFUSED: [&[&str]; 20] = [
    &[""],
    &["keys"],
    &["keys="],
    &["keys=x"],
    &["keys=ecma"],
    &["keys=ecma-4"],
    &["keys=ecma-488"],
    &["keys=ecma48"],
    &["keys=ECMA-48"],
    &["keys=ecma-48 "],
    &[" keys=rust"],
    &["keys=rus"],
    &["keys=rusty"],
    &["rust"],
    &["--help"],
    &[RUST, RUST],
    &[ECMA48, ECMA48],
    &[RUST, ECMA48],
    &[ECMA48, ""],
    &["", ECMA48],
];

/// The named streams of both profiles with each word, whole and with few keys to a line; commands; and mixed streams. With the
/// Rust's keys the original's loop says the same as the model does.
pub fn ecma48(part: &mut Part) {
    let Tree(tree) = examples();
    let lines =
        [&b"log\x1B[H\x1B[3~\x1B[Fg\x1B[Hl\r"[..], b"exix\x1B[D\x1B[3~t\rlog\r", b"help\x1B[1~ \rvm\x1B[3~ start\r"];
    for keys in sequences().into_iter().chain(named()).chain(lines.map(<[u8]>::to_vec)) {
        let input = session(&tree, &keys);
        check_with(part, &[ECMA48], input.as_bytes(), Feed::Pipe, told_with(Profile::Ecma48, input.as_bytes()));
        let original = told(input.as_bytes());
        part.same(&[&original.output], &[told_with(Profile::Rust, input.as_bytes()).output]);
        check_with(part, &[RUST], input.as_bytes(), Feed::Pipe, original);
        let input = tree_lines(&tree) + &key_lines(&keys, 3);
        check_with(
            part,
            &[ECMA48],
            input.as_bytes(),
            Feed::Pieces(&[5, 64]),
            told_with(Profile::Ecma48, input.as_bytes()),
        );
    }
    let mut mixer = Mixer::new(SEED, SEED_KEYS);
    for number in 0..MIXED {
        let length = [1, 4, 30, KEYS][number % 4];
        let input = tree_lines(&tree) + &key_lines(&mixer.stream(), length);
        check_with(part, &[ECMA48], input.as_bytes(), Feed::Pipe, told_with(Profile::Ecma48, input.as_bytes()));
    }
}

/// Words that are refused: something is told on standard error, nothing is printed, and nothing is read, which the place in the
/// input's file shows.
pub fn refused_words(part: &mut Part) {
    let path = "target/compare/refused.session";
    std::fs::write(path, session(&examples().0, b"log\r")).expect("the input is written");
    for words in REFUSED {
        part.input(words.join(" ").as_bytes());
        let mut input = File::open(path).expect("the input is there");
        let stdin = input.try_clone().expect("the same place in the input");
        let child = started(program().args(words).stdin(stdin).stdout(Stdio::piped()).stderr(Stdio::piped()), |_| ());
        let (printed, told) = ended(child);
        let read = input.stream_position().expect("a place");
        let good = printed.is_empty() && !told.is_empty() && read == 0;
        let difference = || format!("printed:  {printed}\ntold:     {told}\nread:     {read} bytes");
        part.called(true, (!good).then(difference));
    }
}

/// What a program printed and what it told on standard error, none of it more than a pipe takes.
fn ended(mut child: Child) -> (String, String) {
    let start = Instant::now();
    while child.try_wait().expect("a status").is_none() {
        if start.elapsed() > PATIENCE {
            child.kill().expect("the program is ended");
        }
        sleep(Duration::from_millis(1));
    }
    let (mut printed, mut told) = (String::new(), String::new());
    child.stdout.take().expect("a pipe").read_to_string(&mut printed).expect("a text");
    child.stderr.take().expect("a pipe").read_to_string(&mut told).expect("a text");
    (printed, told)
}
