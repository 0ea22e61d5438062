// A lent buffer between margins: what lies in and around it before a call, and what has to lie there after it.

/// The bytes watched on either side.
const MARGIN: usize = 16;

pub struct Watched {
    /// What lies there where nothing else was put.
    pattern: Vec<u8>,
    expected: Vec<u8>,
    found: Vec<u8>,
    length: usize,
}

impl Watched {
    /// A buffer of at most so many bytes.
    pub fn new(room: usize) -> Self {
        let places = 0..MARGIN + room + MARGIN;
        let pattern: Vec<u8> = places.map(|place| (place as u8).wrapping_mul(59).wrapping_add(0xA5)).collect();
        Watched { expected: pattern.clone(), found: pattern.clone(), pattern, length: room }
    }

    /// Makes the buffer so long, with the pattern in it and around it.
    pub fn clear(&mut self, length: usize) {
        self.length = length;
        let all = ..MARGIN + length + MARGIN;
        self.expected[all].copy_from_slice(&self.pattern[all]);
        self.found[all].copy_from_slice(&self.pattern[all]);
    }

    /// Makes the buffer hold these bytes.
    pub fn hold(&mut self, bytes: &[u8]) {
        self.clear(bytes.len());
        self.expect(bytes);
        self.lent().copy_from_slice(bytes);
    }

    /// The call has to write these bytes at the buffer's start.
    pub fn expect(&mut self, written: &[u8]) {
        self.expected[MARGIN..][..written.len()].copy_from_slice(written);
    }

    pub fn lent(&mut self) -> &mut [u8] {
        &mut self.found[MARGIN..][..self.length]
    }

    pub fn found(&self) -> &[u8] {
        &self.found[MARGIN..][..self.length]
    }

    /// The first place that is not as expected, counted from the buffer's start.
    pub fn wrong(&self) -> Option<i64> {
        let all = ..MARGIN + self.length + MARGIN;
        let (found, expected) = (&self.found[all], &self.expected[all]);
        if found == expected {
            return None;
        }
        let place = found.iter().zip(expected).position(|(found, expected)| found != expected)?;
        Some(place as i64 - MARGIN as i64)
    }
}
