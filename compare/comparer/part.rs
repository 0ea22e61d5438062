// The account of one part of the comparison: how many inputs, calls, refusals and differences, and the first difference.
use crate::buffers::{Buffers, Expected};
use std::time::Instant;

pub const HEADING: &str = "part                                   inputs      calls   refusals differences  seconds";

/// The most bytes that are printed whole.
const PRINTED: usize = 2_100;

pub struct Part {
    name: &'static str,
    start: Instant,
    buffers: Buffers,
    input: Vec<u8>,
    inputs: u64,
    calls: u64,
    refusals: u64,
    differences: u64,
    first: Option<String>,
}

impl Part {
    pub fn new(name: &'static str) -> Self {
        let (start, buffers) = (Instant::now(), Buffers::new());
        Part { name, start, buffers, input: Vec::new(), inputs: 0, calls: 0, refusals: 0, differences: 0, first: None }
    }

    /// Begins with the next input: what is checked from here on is checked of it.
    pub fn input(&mut self, input: &[u8]) {
        self.inputs += 1;
        self.input.clear();
        self.input.extend(input);
    }

    /// Makes a call of the library with each of the buffers, and says whether all was as expected.
    pub fn check(&mut self, call: impl Fn(&mut [u8]) -> u64, expected: &Expected) -> bool {
        self.refusals += u64::from(expected.is_refusal());
        let difference = self.buffers.difference(call, expected);
        self.note(difference)
    }

    /// Counts one call of the library with its own buffers, and says whether all was as expected.
    pub fn called(&mut self, refused: bool, difference: Option<String>) -> bool {
        self.calls += 1;
        self.refusals += u64::from(refused);
        self.note(difference)
    }

    /// Compares two lists of texts.
    pub fn same(&mut self, expected: &[impl AsRef<[u8]>], found: &[impl AsRef<[u8]>]) -> bool {
        let equal = expected.iter().map(AsRef::as_ref).eq(found.iter().map(AsRef::as_ref));
        self.note((!equal).then(|| format!("expected: {}\nfound:    {}", list(expected), list(found))))
    }

    /// Takes note of a difference, and says whether there was none.
    pub fn note(&mut self, difference: Option<String>) -> bool {
        let Some(difference) = difference else { return true };
        self.differences += 1;
        self.first
            .get_or_insert_with(|| format!("part:     {}\ninput:    {}\n{difference}", self.name, hex(&self.input)));
        false
    }

    pub fn end(self) -> Row {
        let Part { name, inputs, refusals, differences, .. } = self;
        let (calls, seconds) = (self.buffers.calls + self.calls, self.start.elapsed().as_secs_f64());
        let counts = format!("{name:<34} {inputs:>10} {calls:>10} {refusals:>10} {differences:>11} {seconds:>8.1}");
        Row { counts, difference: self.first }
    }
}

/// What is said of a part when it has ended.
pub struct Row {
    pub counts: String,
    /// The first difference.
    pub difference: Option<String>,
}

/// Bytes in hexadecimal, `-` for none. Of very many only the first are shown.
pub fn hex(bytes: &[u8]) -> String {
    let length = bytes.len();
    match length {
        0 => "-".to_string(),
        1..=PRINTED => bytes.iter().map(|byte| format!("{byte:02x}")).collect(),
        _ => format!("{}.. ({length} bytes)", hex(&bytes[..PRINTED])),
    }
}

/// The parts of an answer's 64 bits.
pub fn say(answer: u64) -> String {
    let (value, number, kind, second) = (answer & 0xFFFF_FFFF, answer >> 32 & 0xFF, answer >> 40 & 0xFF, answer >> 48);
    format!("{answer:#018x} (refusal {number}, value {value}, kind {kind}, second value {second})")
}

fn list(texts: &[impl AsRef<[u8]>]) -> String {
    let texts: Vec<String> = texts.iter().map(|text| hex(text.as_ref())).collect();
    format!("{} of them: {}", texts.len(), texts.join(" "))
}
