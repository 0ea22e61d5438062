// The answers of the calls on a saved state: 64 bits each, and which refusal comes first.
use super::saved::{SLOTS, STATE, numbered};
use super::{Effect, LINE};

const PROMPT: usize = 128;

const ENTERED: u64 = 1;
const DROPPED: u64 = 2;

const ILL_FORMED: u64 = 3;
const TOO_SHORT: u64 = 9;
const BAD_PROMPT: u64 = 11;
pub const BAD_STATE: u64 = refusal(12, 0);
const TOO_LONG: u64 = 13;
const NO_ENTRY: u64 = 18;
/// The greatest value that an answer tells: it stands for all that are greater.
const MOST: usize = 0xFFFF_FFFF;

/// The value in the low 32 bits, the refusal's number in the 8 above.
pub const fn refusal(number: u64, value: usize) -> u64 {
    number << 32 | value as u64
}

/// What a key answers if it isn't refused: the bytes shown, the kind, and the length of the line at Enter.
pub fn key(effect: &Effect) -> u64 {
    let (kind, second) = match &effect.entered {
        Some(line) => (ENTERED, line.len() as u64),
        None if effect.dropped => (DROPPED, 0),
        None => (0, 0),
    };
    second << 48 | kind << 40 | effect.screen.len() as u64
}

/// Why a key is refused by a good state: its prompt, the line buffer's length, the screen's length, in this order.
pub fn key_refusal(prompt: &[u8], line: usize, screen: usize, needed: usize) -> Option<u64> {
    if prompt.len() > PROMPT || str::from_utf8(prompt).is_err() {
        return Some(refusal(BAD_PROMPT, prompt.len()));
    }
    if line < LINE {
        return Some(refusal(TOO_SHORT, LINE));
    }
    (screen < needed).then(|| refusal(TOO_SHORT, needed))
}

/// The text that a good state takes into its history, or the refusal.
pub fn add(text: &[u8]) -> Result<&str, u64> {
    if text.len() > LINE {
        return Err(refusal(TOO_LONG, text.len()));
    }
    str::from_utf8(text).map_err(|error| refusal(ILL_FORMED, error.valid_up_to()))
}

/// Why a good state with so many entries has none of this number to forget, if it has none.
pub fn forget_refusal(count: usize, number: usize) -> Option<u64> {
    (number >= count).then(|| refusal(NO_ENTRY, number.min(MOST)))
}

/// What `fresh` answers for buffers of these lengths: the first that is of another length than it has to be, the state's or the slots'.
pub fn fresh(state: usize, slots: usize) -> u64 {
    let wrong = [(state, STATE), (slots, SLOTS)].into_iter().find(|(length, needed)| length != needed);
    match wrong {
        Some((length, needed)) if length < needed => refusal(TOO_SHORT, needed),
        Some(_) => BAD_STATE,
        None => 0,
    }
}

/// What `fresh_with` answers for the profile with this number, if there is one, and for buffers of these lengths.
pub fn fresh_with(profile: u8, state: usize, slots: usize) -> u64 {
    numbered(profile).map_or(BAD_STATE, |_| fresh(state, slots))
}
