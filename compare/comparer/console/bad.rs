// A line that may be bad at each place of a session.
use super::program::Feed;
use super::{check, house, key_lines, tree_lines};
use crate::part::Part;
use crate::planting::examples;

/// Digits that make no frame, and frames of kinds that are not read.
const NO_FRAMES: [&str; 34] = [
    "\n",
    "0\n",
    "2\n",
    "206\n",
    "20616\n",
    "2\n0\n",
    "20 61\n",
    " 2061\n",
    "2061 \n",
    "2061\r\n",
    "\r\n",
    "\t\n",
    "204A\n",
    "2F\n",
    "206g\n",
    "20/1\n",
    "20:1\n",
    "20`1\n",
    "0x20\n",
    "20\06\n",
    "00\n",
    "04\n",
    "10\n",
    "14000161\n",
    "1e000161\n",
    "1f\n",
    "21\n",
    "2100021100036c6f67\n",
    "2261\n",
    "23\n",
    "2f0001\n",
    "ff\n",
    "a0\n",
    "\u{e9}\n",
];

/// Frames of a tree that are good or bad by what stands before them, or everywhere: two on a line, cut off, gone on with.
const FRAMES: [&[u8]; 32] = [
    b"\x01\x00\x00\x01\x01z\x00\xFF",
    b"\x01\x01\x00\x01\x01z\x00\xFF",
    b"\x01\x02\x00\x01\x01z\x00\xFF",
    b"\x01\x08\x00\x01\x01z\x00\xFF",
    b"\x01\x00\x00\x01\x03log\x00\xFF",
    b"\x01\x00\x00\x01\x01a\x00\xFF",
    b"\x01\x00\x00\x01\x00\x00\xFF",
    b"\x01\x00\x00\x01\x01 \x00\xFF",
    b"\x01\x00\x00\x01\x01\x7F\x00\xFF",
    b"\x01\x00\x00\x01\x01z\x01\x1F\xFF",
    b"\x01\x00\x00\x01\x01z\x00\x01\x7F",
    b"\x01\x00\x00\x01\x01z\x00\x61",
    b"\x01\x00\x00\x01\x01z\x00",
    b"\x01\x00\x00\x01\x01z\x00\xFF\x00",
    b"\x01\x00\x00\x01\x01z\x00\xFF\x20",
    b"\x01\x00\x00\x01\x01y\x00\xFF\x01\x00\x00\x01\x01z\x00\xFF",
    b"\x01\x00\x00\x01\x01z\x00\xFF\x03\x00\x01f\xFF\x00",
    b"\x01",
    b"\x02\x00\x00\x01o\xFF\x00",
    b"\x02\x01o\x01o\x01l\x00",
    b"\x02\x02\x00\x01o\xFF\x00",
    b"\x02\x00\x20\x01o\xFF\x00",
    b"\x02\x00\x7F\x01o\xFF\x00",
    b"\x02\x00\x00\x01o\x00\x00",
    b"\x02\x00\x00\x01o\xFF",
    b"\x02\x00\x00\x01o\xFF\x00\x02\x00\x00\x01p\xFF\x00",
    b"\x03\x00\x01f\xFF\x00",
    b"\x03f\x01f\x01f\x00",
    b"\x03\x00\x00\xFF\x00",
    b"\x03\x00\x01f\xFF\x01",
    b"\x03\x00\x01f\xFF\x00\x03\x00\x01g\xFF\x00",
    b"\x03\x00\x01f\xFF\x00\x20a",
];

/// Each of these lines at each place of a session, and as its last line without an end. Behind the exit none is read.
pub fn bad_lines(part: &mut Part) {
    let session = tree_lines(&examples().0) + &key_lines(b"log\rvm start -f\rhelp\rexit\rlog\r", 7);
    let lines: Vec<&str> = session.split_inclusive('\n').collect();
    let texts = [32, 33].map(name).into_iter().chain([96, 97].map(note));
    let frames = FRAMES.iter().map(|frame| house(frame)).chain(texts);
    let all: Vec<String> = NO_FRAMES.iter().map(ToString::to_string).chain(frames).collect();
    for bad in &all {
        for place in 0..=lines.len() {
            let (before, behind) = lines.split_at(place);
            let [before, behind] = [before.concat(), behind.concat()];
            check(part, format!("{before}{bad}{behind}").as_bytes(), Feed::Pipe);
            check(part, format!("{before}{}", bad.trim_end_matches('\n')).as_bytes(), Feed::Pipe);
        }
    }
}

/// A node with a name of so many bytes.
fn name(length: u8) -> String {
    house(&[b"\x01\x00\x00\x01", &[length][..], &b"z".repeat(length.into()), b"\x00\xFF"].concat())
}

/// A node with a description of so many bytes.
fn note(length: u8) -> String {
    house(&[b"\x01\x00\x00\x01\x01z", &[length][..], &b"d".repeat(length.into()), b"\xFF"].concat())
}
