// A session as the standard has it: its lines read by the standard's text, its keys typed to the original's own loop, and frames around that.
use super::house;
use crate::ran::copied;
use crate::reports::report;
use axstd::console::{End, typed};
use forest::{Node, frames, read};
use original::Original;

/// Nothing is read past this line.
const LINES: usize = 65_535;
/// The most digits of a line.
const DIGITS: usize = 1_024;
pub const PROMPT: &[u8] = b"axvisor:$ ";

/// What a session has to print.
pub struct Told {
    pub output: String,
    /// Whether it comes to its end while its input is open.
    pub ends: bool,
}

/// Holds an input to the standard. The original has the session's tree from now on.
pub fn told(input: &[u8]) -> Told {
    let read = Lines::of(input);
    Original::plant(&read.tree);
    let run = typed(&read.keys, Original::console_init);
    let left = matches!(run.end, End::Exit(_));
    read.told(input, printed(&run.screens[1..], left), left)
}

/// What the lines of an input hold, up to the first that is bad.
#[derive(Default)]
pub struct Lines {
    pub tree: Vec<Node>,
    image: Vec<u8>,
    frames: usize,
    keyed: bool,
    pub keys: Vec<u8>,
    count: usize,
    bad: Option<usize>,
}

impl Lines {
    pub fn of(input: &[u8]) -> Self {
        let mut lines = Lines::default();
        for line in input.split_inclusive(|&byte| byte == b'\n').take(LINES) {
            lines.count += 1;
            if unhoused(line).and_then(|frame| lines.take(&frame)).is_none() {
                lines.bad = Some(lines.count);
                break;
            }
        }
        lines
    }

    /// What the session prints: this for its keys, and then, unless they left the shell, the number of the bad line.
    pub fn told(&self, input: &[u8], mut output: String, left: bool) -> Told {
        if let (false, Some(number)) = (left, self.bad) {
            output += &house(&[&[0x2F], &(number as u16).to_be_bytes()[..]].concat());
        }
        let stopped = self.bad.is_some() || self.count == LINES;
        Told { output, ends: left || stopped && input.ends_with(b"\n") }
    }

    fn take(&mut self, frame: &[u8]) -> Option<()> {
        if let [0x20, keys @ ..] = frame {
            self.keyed = true;
            self.keys.extend(keys);
            return Some(());
        }
        self.image.extend(frame);
        let tree = read(&self.image).ok().filter(|_| !self.keyed)?;
        // one frame a line
        if frames(&tree).len() != self.frames + 1 {
            return None;
        }
        self.tree = tree;
        self.frames += 1;
        Some(())
    }
}

/// The frame of a house line.
fn unhoused(line: &[u8]) -> Option<Vec<u8>> {
    let digits = line.strip_suffix(b"\n")?;
    let fair = digits.len() % 2 == 0 && (1..=DIGITS).contains(&digits.len());
    let value = |digit: &u8| b"0123456789abcdef".iter().position(|other| other == digit);
    let values: Option<Vec<usize>> = digits.iter().map(value).collect();
    values.filter(|_| fair).map(|values| values.chunks(2).map(|pair| (pair[0] * 16 + pair[1]) as u8).collect())
}

/// The frames of what the original wrote after each key. At Enter it wrote LF, what the command writes, and unless it left the prompt.
fn printed(screens: &[Vec<u8>], left: bool) -> String {
    let mut output = String::new();
    let mut calls = Original::calls().into_iter().peekable();
    for (number, screen) in screens.iter().enumerate() {
        let Some(behind) = screen.strip_prefix(b"\n") else {
            output += &shown(screen);
            continue;
        };
        let leaves = left && number + 1 == screens.len();
        let message = if leaves { behind } else { behind.strip_suffix(PROMPT).expect("a prompt after a command") };
        output += &shown(b"\n");
        output += &shown(&as_standard(message));
        if let Some((_, handler, parsed)) = calls.next_if(|(key, ..)| *key == number + 1) {
            let told = report(&parsed.command_path, &parsed.options, &parsed.flags, &parsed.positional_args);
            output += &house(&[&[0x21], &handler.to_be_bytes()[..], &told].concat());
        }
        output += &if leaves { house(&[0x23]) } else { shown(PROMPT) };
    }
    assert!(calls.next().is_none(), "handlers are called at Enter");
    output
}

/// A message as the standard has it: in a `Debug` text characters outside ASCII are copied.
fn as_standard(message: &[u8]) -> Vec<u8> {
    match str::from_utf8(message) {
        Ok(text) if text.starts_with("Error: UnknownCommand(") => copied(text).into_bytes(),
        _ => message.to_vec(),
    }
}

/// Screen bytes, if there are any.
pub fn shown(bytes: &[u8]) -> String {
    if bytes.is_empty() { String::new() } else { house(&[&[0x22], bytes].concat()) }
}
