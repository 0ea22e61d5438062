// Calls with a buffer exactly full, one byte too short, and larger: the answer and every byte in and around it are seen.
use crate::part::{hex, say};
use crate::ran::Ran;
use crate::watched::Watched;
use std::hint::black_box;

/// What a call has to do if the buffer has room enough. A refusal writes nothing, whatever room there is.
pub enum Expected {
    Bytes(Vec<u8>),
    Refusal {
        number: u64,
        value: u64,
    },
    /// A fault of the line: refused under this number, and told by these bytes.
    Fault {
        number: u64,
        told: Vec<u8>,
    },
    /// An answer that has a kind.
    Kind(Ran),
}

impl Expected {
    pub fn is_refusal(&self) -> bool {
        match self {
            Expected::Bytes(_) => false,
            Expected::Kind(ran) => ran.number != 0,
            Expected::Refusal { .. } | Expected::Fault { .. } => true,
        }
    }
}

/// How much longer than needed the larger buffer is.
const MORE: usize = 37;
/// More than the words of any line need, 2,048 bytes, and more than any quoted line.
const ROOM: usize = 2_400;
/// More than any report or help needs, and more than the list of 256 commands.
const MOST: usize = 65_536;
/// The refusal of a buffer that is too short. Its value is the length needed.
const TOO_SHORT: u64 = 9;

pub struct Buffers {
    out: Watched,
    pub calls: u64,
}

impl Buffers {
    pub fn new() -> Self {
        Buffers { out: Watched::new(MOST), calls: 0 }
    }

    /// The first difference between what is expected and what the call does with the buffers.
    pub fn difference(&mut self, call: impl Fn(&mut [u8]) -> u64, expected: &Expected) -> Option<String> {
        match expected {
            Expected::Refusal { number, value } => {
                let refusal = answer(*number, *value);
                self.one(0, &call, refusal, &[]).or_else(|| self.one(ROOM, &call, refusal, &[]))
            }
            Expected::Bytes(bytes) => self.written(&call, 0, bytes),
            Expected::Fault { number, told } => self.written(&call, *number, told),
            Expected::Kind(Ran { number, kind, second, bytes }) => {
                self.written(&call, number | kind << KIND | second << SECOND, bytes)
            }
        }
    }

    // The call has to write these bytes if there is room, with these bits above the value.
    fn written(&mut self, call: impl Fn(&mut [u8]) -> u64, above: u64, bytes: &[u8]) -> Option<String> {
        let length = bytes.len();
        let written = answer(above, length as u64);
        let too_short = answer(TOO_SHORT, length as u64);
        self.one(length, &call, written, bytes)
            .or_else(|| self.one(length.checked_sub(1)?, &call, too_short, &[]))
            .or_else(|| self.one(length + MORE, &call, written, bytes))
    }

    // One call with a buffer of this length, which must give this answer, write these bytes and change no other.
    fn one(&mut self, length: usize, call: impl Fn(&mut [u8]) -> u64, answer: u64, written: &[u8]) -> Option<String> {
        self.calls += 1;
        self.out.clear(length);
        self.out.expect(written);
        let given = call(black_box(self.out.lent()));
        let wrong = self.out.wrong();
        if given == answer && wrong.is_none() {
            return None;
        }
        let said = format!(
            "buffer:   {length} bytes\nexpected: {}, bytes {}\nfound:    {}, bytes {}",
            say(answer),
            hex(written),
            say(given),
            hex(&self.out.found()[..bytes_of(given).min(length)])
        );
        match wrong {
            Some(place) if given == answer => Some(format!("{said}\nwrong:    byte {place} of the buffer")),
            _ => Some(said),
        }
    }
}

/// The bits of the kind and of the second value, counted from the number's.
const KIND: u32 = 8;
const SECOND: u32 = 16;

/// The 64 bits of an answer: the value in the low 32, and above it the number, with the kind and the second value of calls that have them.
fn answer(above: u64, value: u64) -> u64 {
    above << 32 | value
}

/// How many bytes an answer says that were written: a refusal writes none, but a fault of the line, 4 to 7, is told by a frame.
fn bytes_of(answer: u64) -> usize {
    let above = answer >> 32;
    if above >> KIND != 0 || matches!(above, 0 | 4..=7) { answer as u32 as usize } else { 0 }
}
