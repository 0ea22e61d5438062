// What the original does with a line, under the tree that is planted: the kind of answer, the number beside it, and what it writes.
use crate::reports::report;
use axstd::console::{End, typed};
use original::Original;

/// The kinds of answer; nothing is of kind 0.
pub const TEXT: u64 = 1;
pub const EXIT: u64 = 2;
pub const HANDLER: u64 = 3;

/// The second value is the handler. The bytes are the text, or the report for the handler.
#[derive(PartialEq, Debug, Default)]
pub struct Ran {
    pub number: u64,
    pub kind: u64,
    pub second: u64,
    pub bytes: Vec<u8>,
}

/// A line that is not too long.
pub fn ran(line: &[u8]) -> Ran {
    let mut session = typed(&[], || Original::run_line(line));
    let screen = session.screens.remove(0);
    match (session.end, Original::called()) {
        (End::Exit(_), _) => Ran { kind: EXIT, bytes: screen, ..Ran::default() },
        (_, Some((handler, parsed))) => {
            let told = report(&parsed.command_path, &parsed.options, &parsed.flags, &parsed.positional_args);
            // the handlers of planted trees write nothing: what stands on the screen would be a difference
            Ran { kind: HANDLER, second: handler.into(), bytes: [screen, told].concat(), ..Ran::default() }
        }
        _ if screen.is_empty() => Ran::default(),
        _ => text(line, screen),
    }
}

/// A text that the original shows for a line, and beside it the number of the error that it met, 0 for none.
fn text(line: &[u8], bytes: Vec<u8>) -> Ran {
    let shown = |number, bytes| Ran { number, kind: TEXT, second: 0, bytes };
    let Ok(line) = str::from_utf8(line) else { return shown(3, bytes) };
    if ["help", "clear"].contains(&line.trim()) {
        return shown(0, bytes);
    }
    let Some(words) = line.strip_prefix("help ") else {
        return shown(Original::execute(line.trim()).map_or_else(|(number, _)| number, |()| 0), bytes);
    };
    let words: Vec<String> = words.split_whitespace().map(str::to_string).collect();
    match helped(&words) {
        Ok(_) => shown(0, bytes),
        Err(_) => shown(4, copied(str::from_utf8(&bytes).expect("a text")).into_bytes()),
    }
}

/// What the original shows as help for words, of which there has to be one, or the word that is unknown.
pub fn helped(words: &[String]) -> Result<Vec<u8>, String> {
    let mut told = Ok(());
    let mut screens = typed(&[], || told = Original::show_help(words)).screens;
    told.map(|()| screens.remove(0))
}

/// A `Debug` text as the standard has it: a character outside ASCII that Rust escapes is copied.
pub fn copied(debug: &str) -> String {
    let mut text = String::new();
    let mut rest = debug;
    while let Some(place) = rest.find('\\') {
        let (before, escape) = rest.split_at(place);
        let code = escape.strip_prefix("\\u{").and_then(|digits| digits.split_once('}'));
        let wide =
            code.and_then(|(digits, behind)| Some((char::from_u32(u32::from_str_radix(digits, 16).ok()?)?, behind)));
        text.push_str(before);
        rest = match wide.filter(|(character, _)| !character.is_ascii()) {
            Some((character, behind)) => {
                text.push(character);
                behind
            }
            // behind the backslash of an escape stands one byte that is no part of another
            None => {
                text.push_str(&escape[..2]);
                &escape[2..]
            }
        };
    }
    text + rest
}
