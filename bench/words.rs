// The words of a line and the quoting of words, each against the original's tokenize of the same line.
use crate::lines::{KINDS, LENGTHS, line};
use crate::table::row;
use original::Original;
use std::hint::black_box;

/// Four bytes for each of the longest line: with so much room `words` need not measure first.
const ROOM: usize = 4_096;

pub fn rows() {
    for (kind, words) in KINDS {
        for length in LENGTHS {
            line_rows(kind, &line(words, length));
        }
    }
}

fn line_rows(kind: &str, line: &str) {
    let mut out = [0; ROOM];
    let frames = frames_of(&Original::tokenize(line));
    agree(line, &frames, &mut out);

    let mut tokenize = || drop(black_box(Original::tokenize(black_box(line))));
    let mut words = || {
        black_box(calls::words(black_box(line.as_bytes()), black_box(&mut out)));
    };
    row("words", kind, line.len(), &mut tokenize, &mut words);
    let mut quote = || {
        black_box(calls::quote(black_box(&frames), black_box(&mut out)));
    };
    row("quote", kind, line.len(), &mut tokenize, &mut quote);
}

/// Words as frames of kind 14.
fn frames_of(words: &[String]) -> Vec<u8> {
    let frame = |word: &String| [&[0x14], &(word.len() as u16).to_be_bytes()[..], word.as_bytes()].concat();
    words.iter().flat_map(frame).collect()
}

/// What is timed must be the same on both sides: our words are the original's, and quoted they are the line again.
fn agree(line: &str, frames: &[u8], out: &mut [u8]) {
    assert_eq!(calls::words(line.as_bytes(), out), frames.len() as u64);
    assert_eq!(&out[..frames.len()], frames);
    assert_eq!(calls::quote(frames, out), line.len() as u64);
    assert_eq!(&out[..line.len()], line.as_bytes());
}
