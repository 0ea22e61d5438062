// The calls of librissemat.a as safe functions on slices; each answers 64 bits.
#[path = "../crates/rissemat/rissemat.rs"]
mod rissemat;

use rissemat::{rissemat_fresh, rissemat_fresh_with, rissemat_help, rissemat_history_add, rissemat_history_forget};
use rissemat::{rissemat_key, rissemat_parse, rissemat_quote, rissemat_run, rissemat_tree, rissemat_words};

/// Writes the words of a line as frames of kind 14.
pub fn words(line: &[u8], out: &mut [u8]) -> u64 {
    unsafe { rissemat_words(line.as_ptr(), line.len(), out.as_mut_ptr(), out.len()) }
}

/// Writes a line that splits into the words of these frames of kind 14.
pub fn quote(words: &[u8], out: &mut [u8]) -> u64 {
    unsafe { rissemat_quote(words.as_ptr(), words.len(), out.as_mut_ptr(), out.len()) }
}

/// Makes a saved state and its slots fresh.
pub fn fresh(state: &mut [u8], slots: &mut [u8]) -> u64 {
    unsafe { rissemat_fresh(state.as_mut_ptr(), state.len(), slots.as_mut_ptr(), slots.len()) }
}

/// The same with a key profile, by its number.
pub fn fresh_with(profile: u8, state: &mut [u8], slots: &mut [u8]) -> u64 {
    unsafe { rissemat_fresh_with(profile, state.as_mut_ptr(), state.len(), slots.as_mut_ptr(), slots.len()) }
}

/// Has a saved state take one key; writes what it shows, and at Enter the line.
pub fn key(state: &mut [u8], slots: &mut [u8], prompt: &[u8], key: u8, line: &mut [u8], screen: &mut [u8]) -> u64 {
    unsafe {
        rissemat_key(
            state.as_mut_ptr(),
            state.len(),
            slots.as_mut_ptr(),
            slots.len(),
            prompt.as_ptr(),
            prompt.len(),
            key,
            line.as_mut_ptr(),
            line.len(),
            screen.as_mut_ptr(),
            screen.len(),
        )
    }
}

/// Adds a text to a saved state's history.
pub fn history_add(state: &mut [u8], slots: &mut [u8], text: &[u8]) -> u64 {
    unsafe {
        rissemat_history_add(
            state.as_mut_ptr(),
            state.len(),
            slots.as_mut_ptr(),
            slots.len(),
            text.as_ptr(),
            text.len(),
        )
    }
}

/// Forgets the entry of a saved state's history that has this number, from the oldest on.
pub fn history_forget(state: &mut [u8], slots: &mut [u8], number: usize) -> u64 {
    unsafe { rissemat_history_forget(state.as_mut_ptr(), state.len(), slots.as_mut_ptr(), slots.len(), number) }
}

/// Tests a tree image.
pub fn tree(image: &[u8]) -> u64 {
    unsafe { rissemat_tree(image.as_ptr(), image.len()) }
}

/// Parses a line under a tree; writes the report, or the frame of a fault.
pub fn parse(image: &[u8], line: &[u8], out: &mut [u8]) -> u64 {
    unsafe { rissemat_parse(image.as_ptr(), image.len(), line.as_ptr(), line.len(), out.as_mut_ptr(), out.len()) }
}

/// Writes the help for the words of a line, or the frame with a word that is unknown.
pub fn help(image: &[u8], line: &[u8], out: &mut [u8]) -> u64 {
    unsafe { rissemat_help(image.as_ptr(), image.len(), line.as_ptr(), line.len(), out.as_mut_ptr(), out.len()) }
}

/// Runs a line under a tree; writes its text, or the report for its handler.
pub fn run(image: &[u8], line: &[u8], out: &mut [u8]) -> u64 {
    unsafe { rissemat_run(image.as_ptr(), image.len(), line.as_ptr(), line.len(), out.as_mut_ptr(), out.len()) }
}
