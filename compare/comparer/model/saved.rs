// A saved state and its slots: how the values of the model lie in them, and which of them are bad.
use super::{ENTRIES, LAST, LINE, Mode, Model, PROFILES, Profile};

/// The editor's part: mode, length of the line, cursor, the bytes of the line, then the profile and what is told of a control
/// sequence: how many bytes of it were read, and its parameter. The history's part after it: count, place, the total of the
/// entries' lengths, high byte first, and the slot of the oldest entry.
pub const HEAD: usize = 3;
pub const PROFILE: usize = HEAD + LINE;
pub const READ: usize = PROFILE + 1;
pub const PARAMETER: usize = PROFILE + 2;
pub const EDITOR: usize = PROFILE + 3;
pub const TOTAL: usize = EDITOR + 2;
pub const FIRST: usize = TOTAL + 2;
pub const STATE: usize = FIRST + 1;
/// A slot has a length byte and room for the longest line.
pub const SLOT: usize = 1 + LINE;
pub const SLOTS: usize = ENTRIES * SLOT;

const MODES: [Mode; 4] = [Mode::Typing, Mode::Escape, Mode::Bracket, Mode::Sequence];

/// The digits that say something as the one byte of a sequence, as numbers.
const DIGITS: [u8; 5] = [1, 3, 4, 7, 8];
/// The parameter where bytes were read, and not one such digit alone.
const OTHER: u8 = 255;

impl Model {
    pub fn state(&self) -> [u8; STATE] {
        let mut state = [0; STATE];
        let head = [self.mode as usize, self.line.len(), self.cursor];
        let history = [self.entries.len(), self.place];
        let keys = [self.profile as u8, self.sequence.len() as u8, parameter(&self.sequence)];
        state[..HEAD].copy_from_slice(&head.map(|number| number as u8));
        state[HEAD..][..self.line.len()].copy_from_slice(&self.line);
        state[PROFILE..EDITOR].copy_from_slice(&keys);
        state[EDITOR..TOTAL].copy_from_slice(&history.map(|number| number as u8));
        state[TOTAL..FIRST].copy_from_slice(&self.total().to_be_bytes());
        state[FIRST] = self.first as u8;
        state
    }

    /// The bytes of all entries, counted anew each time: the model keeps no total.
    pub fn total(&self) -> u16 {
        total(&self.entries)
    }

    pub fn slots(&self) -> Vec<u8> {
        let mut slots = vec![0; SLOTS];
        for (number, entry) in self.entries.iter().enumerate() {
            let slot = &mut slots[place_of(self.first, number)..][..SLOT];
            slot[0] = entry.len() as u8;
            slot[1..=entry.len()].copy_from_slice(entry);
        }
        slots
    }

    /// The values of a saved state, none if it is bad.
    pub fn read(state: &[u8], slots: &[u8]) -> Option<Model> {
        let (&[mode, length, cursor], rest) = state.split_first_chunk()?;
        let (line, &[profile, read, parameter, count, place, high, low, first]) = rest.split_last_chunk()?;
        let [length, cursor, count, place, first] = [length, cursor, count, place, first].map(usize::from);
        if line.len() != LINE || slots.len() != SLOTS || count > ENTRIES || first >= ENTRIES {
            return None;
        }
        let (line, beyond) = line.split_at(length);
        let slot = |number| &slots[place_of(first, number)..][..SLOT];
        let entries = (0..count).map(|number| entry(slot(number))).collect::<Option<Vec<_>>>()?;
        let good = zero(beyond)
            && (count..ENTRIES).all(|number| zero(slot(number)))
            && cursor <= length
            && place <= count
            && u16::from_be_bytes([high, low]) == total(&entries)
            && entries.windows(2).all(|pair| pair[0] != pair[1]);
        let (mode, profile) = (*MODES.get(usize::from(mode))?, numbered(profile)?);
        let sequence = match (mode, profile) {
            (Mode::Sequence, Profile::Ecma48) => sequence(read, parameter)?,
            (Mode::Typing | Mode::Escape, _) | (Mode::Bracket, Profile::Rust) if [read, parameter] == [0, 0] => {
                Vec::new()
            }
            _ => return None,
        };
        good.then(|| Model { profile, mode, sequence, line: line.to_vec(), cursor, entries, place, first })
    }
}

/// Where the slot of the entry with this number begins, counted from the oldest, if that has slot `first`: they lie one after the
/// other, and behind the last slot comes slot 0.
pub fn place_of(first: usize, number: usize) -> usize {
    (first + number) % ENTRIES * SLOT
}

fn total(entries: &[Vec<u8>]) -> u16 {
    entries.iter().map(|entry| entry.len() as u16).sum()
}

/// The profile with this number.
pub fn numbered(profile: u8) -> Option<Profile> {
    PROFILES.get(usize::from(profile)).copied()
}

/// What is saved of the bytes of a sequence beside their number.
fn parameter(sequence: &[u8]) -> u8 {
    match sequence {
        [] => 0,
        &[byte] => DIGITS.into_iter().find(|digit| b'0' + digit == byte).unwrap_or(OTHER),
        _ => OTHER,
    }
}

/// Bytes of which this is saved, none if there are no such. What is not told of them does nothing: there stands `?`.
fn sequence(read: u8, parameter: u8) -> Option<Vec<u8>> {
    match (usize::from(read), parameter) {
        (0, 0) => Some(Vec::new()),
        (1, digit) if DIGITS.contains(&digit) => Some(vec![b'0' + digit]),
        (count @ 1..LAST, OTHER) => Some(vec![b'?'; count]),
        _ => None,
    }
}

/// The entry of a used slot, none if it is empty, blank or ill-formed, or if a byte behind it is not zero.
fn entry(slot: &[u8]) -> Option<Vec<u8>> {
    let (text, beyond) = slot[1..].split_at(usize::from(slot[0]));
    let blank = str::from_utf8(text).ok()?.trim().is_empty();
    (!blank && zero(beyond)).then(|| text.to_vec())
}

fn zero(bytes: &[u8]) -> bool {
    bytes.iter().fold(0, |any, byte| any | byte) == 0
}
