// What the original's parse makes of a line, in the frames of the standard.
use crate::frames::add;
use original::Original;
use std::collections::BTreeMap;

/// The frame of a fault.
const FAULT: u8 = 0x1E;

/// Under the tree that is planted: 0 and a report of frames 11 to 14, or a fault's number and its frame.
pub fn parsed(line: &str) -> (u64, Vec<u8>) {
    match Original::parse(line) {
        Ok(parsed) => (0, report(&parsed.command_path, &parsed.options, &parsed.flags, &parsed.positional_args)),
        Err((number, text)) => (number, fault(&text)),
    }
}

/// The report of a parsed command, whose type has no name here, by its parts.
pub fn report(
    path: &[String],
    options: &BTreeMap<String, String>,
    flags: &BTreeMap<String, bool>,
    positional: &[String],
) -> Vec<u8> {
    let mut report = Vec::new();
    path.iter().for_each(|word| add(&mut report, 0x11, &[word.as_bytes()]));
    options.iter().for_each(|(key, value)| add(&mut report, 0x12, &[key.as_bytes(), value.as_bytes()]));
    flags.keys().for_each(|key| add(&mut report, 0x13, &[key.as_bytes()]));
    positional.iter().for_each(|word| add(&mut report, 0x14, &[word.as_bytes()]));
    report
}

pub fn fault(text: &str) -> Vec<u8> {
    let mut frame = Vec::new();
    add(&mut frame, FAULT, &[text.as_bytes()]);
    frame
}
