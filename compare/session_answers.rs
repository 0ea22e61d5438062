// Writes the input and the output of the program replay_session: whole sessions, and what the original's loop and shell print for them in frames;
// with ECMA-48's keys, what the model and the original's shell print.
#[path = "comparer/frames.rs"]
#[allow(dead_code)]
mod frames;
#[allow(dead_code)]
mod hex;
#[path = "comparer/console/lines.rs"]
mod lines;
#[path = "comparer/model/mod.rs"]
#[allow(dead_code)]
mod model;
#[path = "comparer/console/modelled.rs"]
mod modelled;
#[path = "comparer/planting.rs"]
#[allow(dead_code)]
mod planting;
#[path = "comparer/ran.rs"]
#[allow(dead_code)]
mod ran;
#[path = "comparer/random.rs"]
#[allow(dead_code)]
mod random;
#[path = "comparer/reports.rs"]
#[allow(dead_code)]
mod reports;
#[path = "comparer/console/told.rs"]
#[allow(dead_code)]
mod told;

use hex::{hex, or_dash};
use lines::{house, key_lines, tree_lines};
use model::Profile;
use modelled::told_with;
use planting::{Tree, examples, handlers, marked, named};
use told::told;

/// What stands before a session of ECMA-48's keys.
const MARK: &str = "+";

/// The session of the standard.
const STANDARD: &str = "01000002036c6f67104368616e6765206c6f67206c6576656c0b6c6f67205b4c4556454c5d\n206c6f670d\n";

/// Keys of all kinds: what is typed, moves, history, lines that run, the end with lines behind it.
const KEYS: [&[u8]; 24] = [
    b"help\r",
    b"log\r",
    b"log a \"b c\"\r",
    b"vm start -f x\r",
    b"vm start --force=1\rvm start -x\r",
    b"vm stop\r",
    b"exit\rlog\r",
    b" quit \nlog\n",
    b"exit",
    b"exit 1\rquit",
    b"a\x1B\rexit\r",
    b"\r\n \r\xC2\xA0\r\xFF\r",
    b"help \xFF\rlog \xE2\x82\r\"\"\r",
    b"help x\rhelp \xC2\x80\xC3\xA9\r",
    b"help \"\\\x01\r help log\r",
    b"ab\x1B[Dc\x1B[D\x08\x1B[Cd\r",
    b"ab\x1B[D\x1B[D\x1B[3~\x7F\r",
    b"log 1\rlog 2\r\x1B[A\x1B[A\x1B[B\r",
    b"log 1\r\x1B[A\x1B[A\x1B[B\x1B[B\r",
    b"\x1B[A\x1B[B\x1B[C\x1B[Dx\r",
    b"\x1B\x1B[Ax\x1BOA\x1B[Zy\r",
    b"log\xC3\xA9\x1B[D\x08\r",
    b"\x00\x01\x09\x1F\x80\xBF\xC0\r",
    b"clear\rnone\rlog\\\r",
];

/// Lines that are bad, ended and not, or good by the place where they stand.
const LINES: [&str; 22] = [
    "\n",
    "\r\n",
    "0\n",
    "206\n",
    "20 61\n",
    "2061\r\n",
    "204A\n",
    "2F\n",
    "206g\n",
    "0x20\n",
    "00\n",
    "14000161\n",
    "2100021100036c6f67\n",
    "2f0001\n",
    "20\n",
    "2061\n",
    "01000001017a00ff\n",
    "01020001017a00ff\n",
    "01000001036c6f6700ff\n",
    "01000001017a00\n",
    "020000016fff00\n",
    "03000166ff00\n",
];

/// ECMA-48's keys: sequences that act at the begin, inside and at the end of a line, Delete before parts of a character, sequences
/// that do nothing, such as are broken off, and such as are too long.
const SEQUENCES: [&[u8]; 6] = [
    b"ac\x1B[Db\x1B[H\x1B[3~",
    b"xy\x1B[1~\x1B[1~\x1B[4~\x1B[4~\x1B[7~\x1B[8~\x1B[1H\x1B[1F\x1B[H\x1B[F",
    b"\x1B[3~\xC3\xA9a\x1B[3~\x1B[H\x1B[3~\x1B[3~\x1B[3~\x1B[3~",
    b"bc\x1B[D\x1B[01~\x1B[03~\x1B[3;5~\x1B[2~\x1B[5~\x1B[15~\x1B[1;5C\x1B[?25h\
      \x1B[ !p\x1B[2A\x1B[3D\x1B[4H\x1B[1 D\x1B[E\x1B[~\x1B[Z\x1B[[\x1B[}a",
    b"\x1B[3\ra\x1B[\nb\x1B[\x1B[Ac\x1B[\x7Fd\x1B[3\x80~\x1B[\xFFe\x1B[1\x00f\x1B[1\x08g",
    b"a\x1B[000000000000000Db\x1B[3333333333333333~\x1B[;;;;;;;;;;;;;;;;;H\x1B[///////////////\x1Bz",
];

/// Arrows with a parameter and without, behind the session of the standard.
const ARROWS: &[u8] = b"\x1B[A\x1B[1A\x1B[H\x1B[3~\x1B[B\x1B[1B\x1B[1A\x1B[1D\x1B[1C\x1B[1C\r";

/// The keys of lines that begin and end inside of sequences, one of them without a key.
const SPLIT: [&[u8]; 11] = [b"ab", b"\x1B", b"[", b"", b"1", b"~", b"\x1B[", b"3", b"~", b"\x1B[4", b"~x"];

/// An exit with a key and a bad line behind it; a bad line inside of a sequence; a line without an end there; nothing.
const ENDS: [&str; 4] = ["207869741b5b48650d6162\nzz\n", "20611b5b31\n2\n207e\n", "20611b5b31", ""];

/// A line at each place of a session, and as its last line without an end.
fn with_line(sessions: &mut Vec<String>, line: &str) {
    let whole = tree_lines(&examples().0) + &key_lines(b"log\rexit\r", 5);
    let lines: Vec<&str> = whole.split_inclusive('\n').collect();
    for place in [0, 1, lines.len() - 2, lines.len() - 1, lines.len()] {
        let (before, behind) = lines.split_at(place);
        sessions.push(before.concat() + line + &behind.concat());
    }
    sessions.push(lines[..lines.len() - 1].concat() + line.trim_end_matches('\n'));
}

/// Lines of 1,022 to 1,028 digits, ended and not; a line that is full at byte 255 of the editor, and one byte more; a walk through 101 entries.
fn limits(sessions: &mut Vec<String>) {
    let line = "20".to_string() + &"08".repeat(514);
    for digits in 1_022..=1_028 {
        for end in ["\n", "", "\n2061\n"] {
            sessions.push(format!("2062\n{}{end}", &line[..digits]));
        }
    }
    sessions.push(key_lines(&[&b"a".repeat(256)[..], b"\x08b\r"].concat(), 511));
    let entries: String = (0..101).map(|entry| format!("{entry}\r")).collect();
    sessions.push(key_lines((entries + &"\x1B[A".repeat(101) + &"\x1B[B".repeat(101) + "\r").as_bytes(), 511));
}

fn all() -> Vec<String> {
    let Tree(tree) = examples();
    let mut sessions: Vec<String> = ["", "\n", "\r", "\r\n", STANDARD].map(str::to_string).to_vec();
    sessions.push(STANDARD.trim_end().to_string());
    for keys in KEYS {
        sessions.extend([1, 3, 511].map(|length| tree_lines(&tree) + &key_lines(keys, length)));
    }
    LINES.iter().for_each(|line| with_line(&mut sessions, line));
    limits(&mut sessions);
    for Tree(tree) in named().into_iter().map(handlers).chain([marked()]) {
        let name = tree.first().map_or("none", |node| &node.name);
        let keys = format!("help\r{name}\rhelp {name}\r");
        sessions.push(tree_lines(&tree) + &key_lines(keys.as_bytes(), 511));
    }
    sessions
}

/// The sessions of ECMA-48's keys.
fn ecma48() -> Vec<String> {
    let mut sessions = SEQUENCES.map(|keys| key_lines(keys, 511)).to_vec();
    sessions.push(STANDARD.to_string() + &key_lines(ARROWS, 511));
    sessions.push(SPLIT.map(|keys| house(&[b" ", keys].concat())).concat());
    sessions.extend(ENDS.map(str::to_string));
    sessions
}

/// What a session of the Rust's keys prints. The model has to say what the original's loop says.
fn answer(session: &[u8]) -> String {
    let output = told(session).output;
    assert_eq!(output, told_with(Profile::Rust, session).output, "the model of the Rust's keys is the original");
    output
}

fn main() {
    let folder = std::env::args().nth(1).expect("the folder of the program");
    let rust = all().into_iter().map(|session| (hex(session.as_bytes()), answer(session.as_bytes())));
    let ecma48 = ecma48().into_iter().map(|session| {
        (MARK.to_string() + &hex(session.as_bytes()), told_with(Profile::Ecma48, session.as_bytes()).output)
    });
    let sessions: Vec<(String, String)> = rust.chain(ecma48).collect();
    let input: String = sessions.iter().map(|(session, _)| format!("{session}\n")).collect();
    let output: String = sessions.iter().map(|(_, answer)| or_dash(hex(answer.as_bytes())) + "\n").collect();
    assert!(input.len() < 262_144, "the program reads at most 262,143 bytes");
    std::fs::write(format!("{folder}/stdin"), &input).expect("stdin is written");
    std::fs::write(format!("{folder}/stdout"), &output).expect("stdout is written");
    let longest = output.lines().map(str::len).max().unwrap_or(0);
    println!("{} sessions; {} and {} bytes; the longest answer has {longest} digits", sessions.len(), input.len(), output.len());
}
