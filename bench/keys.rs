// One key, a letter at the end of a line, with several histories, wherever they begin: against a pass of from_utf8 and against the original's
// key; texts that are added to a full history; and keys of both profiles against each other.
use crate::table::{add_row, begun_row, greek_row, key_row, profile_row};
use crate::timing::{Task, medians};
use axstd::console::typed;
use original::Original;
use std::hint::black_box;

const PROMPT: &[u8] = b"axvisor:$ ";
const LETTER: u8 = b'x';
/// Takes the letter back.
const ERASE: u8 = 0x7F;
/// The letter, and the key that takes it back.
pub const PAIR: [u8; 2] = [LETTER, ERASE];
/// The lengths of a saved state, of its slots and of one of them, of the line buffer, and more than any redraw writes.
const STATE: usize = 266;
const SLOTS: usize = 25_600;
const SLOT: usize = 256;
const LINE: usize = 255;
const SCREEN: usize = 512;

/// Where a state tells the number of the entries, and the slot of the oldest.
const COUNT: usize = 261;
const FIRST: usize = 265;

pub const LINES: [usize; 2] = [20, 200];

/// A full history has so many entries.
pub const ENTRIES: usize = 100;

/// What the entries of a history are made of.
#[derive(Clone, Copy)]
pub enum Kind {
    /// A letter, in which neighbours differ, then words again and again as long as they fit, then `z`.
    Words(&'static str),
    /// A Greek letter, in which neighbours differ, then the letters of words as long as they fit, then `z`.
    Greek(&'static str),
    /// One byte again and again, and at the end the letter in which neighbours differ.
    Same(u8),
}

pub const WORDS: Kind = Kind::Words("vm start ");
const MODERN: Kind = Kind::Greek("ταινία εννέα ");
const POLYTONIC: Kind = Kind::Greek("ἀνὴρ ἔννεπε ");

/// A name, what the entries are made of, and the length of each, 0 for an empty history.
type History = (&'static str, Kind, usize);

const HISTORIES: [History; 12] = [
    ("empty", WORDS, 0),
    ("full, 255 bytes each", WORDS, 255),
    ("full, 100 bytes each", WORDS, 100),
    ("full, 20 bytes each", WORDS, 20),
    ("full, 1 byte each", WORDS, 1),
    ("full, 255, spaces first", Kind::Same(b' '), 255),
    ("full, 255, same start", Kind::Same(b's'), 255),
    ("full, 40, same start", Kind::Same(b's'), 40),
    ("full, 255, non-ASCII", Kind::Words("größe "), 255),
    ("full, 254, Greek", MODERN, 254),
    ("full, 100, Greek", MODERN, 100),
    ("full, 254, polytonic", POLYTONIC, 254),
];
/// Those with Greek lines, which are held to a pass over their own bytes.
const GREEK: [History; 3] = [HISTORIES[9], HISTORIES[10], HISTORIES[11]];
/// Those that are begun at several slots, and the slots.
const BEGUN: [History; 3] = [HISTORIES[3], HISTORIES[1], HISTORIES[9]];
const FIRSTS: [usize; 4] = [0, 1, 50, 99];
/// Those to which texts are added, and of which entries are forgotten.
pub const ADDED: [History; 2] = [HISTORIES[3], HISTORIES[1]];
/// So many texts are added before the time is taken: then no entry is there that was there before.
const ADDED_BEFORE: usize = 250;

/// The numbers of the key profiles: the Rust's, and ECMA-48's.
const PROFILES: [u8; 2] = [0, 1];
/// Keys of both profiles: a name, and for each the keys before the one that is timed, and that one.
const KEYS: [(&str, [&[u8]; 2]); 7] = [
    ("a letter", [b"x", b"x"]),
    ("backspace", [b"\x7F", b"\x7F"]),
    ("ESC", [b"\x1B", b"\x1B"]),
    ("[ after ESC", [b"\x1B[", b"\x1B["]),
    ("D after ESC [", [b"\x1B[D", b"\x1B[D"]),
    ("3 after ESC [", [b"\x1B[3", b"\x1B[3"]),
    ("backspace; delete's last byte", [b"\x1B[D\x7F", b"\x1B[D\x1B[3~"]),
];
/// The histories with which they are timed.
const PROFILE_HISTORIES: [History; 2] = [HISTORIES[0], HISTORIES[3]];

/// The original types a letter and takes it back, so many times, in one run.
const PAIRS: usize = 1_000;

pub fn rows() {
    for length in LINES {
        line_rows(length);
    }
}

fn line_rows(length: usize) {
    let line = vec![b'a'; length];
    let keys = [&line[..], &PAIR.repeat(PAIRS)].concat();
    let mut ours = HISTORIES.map(|(_, kind, bytes)| Ours::new(&line, kind, bytes));
    ours.iter_mut().for_each(|ours| ours.agree(&line));

    let ascii = vec![b'a'; SLOTS];
    let mut pass = || _ = black_box(str::from_utf8(black_box(&ascii)));
    let mut rust = || _ = black_box(typed(black_box(&keys), Original::console_init));
    let mut presses = ours.each_mut().map(|ours| || _ = ours.press());
    let tasks: Vec<Task> =
        [&mut pass as Task, &mut rust].into_iter().chain(presses.iter_mut().map(|press| press as Task)).collect();
    let tasks: [Task; HISTORIES.len() + 2] = tasks.try_into().ok().expect("as many as there are");
    let [pass, rust, ours @ ..] = medians(tasks);
    for ((history, ..), ours) in HISTORIES.iter().zip(ours) {
        key_row(length, history, pass, rust / keys.len() as f64, ours);
    }
}

/// A key with Greek lines in the history against a pass over their bytes alone.
pub fn greek_rows() {
    let line = vec![b'a'; LINES[0]];
    for (history, kind, bytes) in GREEK {
        let joined: Vec<u8> = entries(kind, bytes).collect::<String>().into_bytes();
        let mut ours = Ours::new(&line, kind, bytes);
        ours.agree(&line);
        let mut pass = || _ = black_box(str::from_utf8(black_box(&joined)));
        let [pass, ours] = medians([&mut pass, &mut || _ = ours.press()]);
        greek_row(history, joined.len(), pass, ours);
    }
}

/// A key with the same history begun at several slots, in the same rounds.
pub fn begun_rows() {
    let line = vec![b'a'; LINES[0]];
    let ascii = vec![b'a'; SLOTS];
    for (history, kind, bytes) in BEGUN {
        let newest = entries(kind, bytes).last().expect("a full history");
        let mut ours = FIRSTS.map(|first| Ours::new(&line, kind, bytes).begun(first));
        for ours in &mut ours {
            ours.agree(&line);
            assert_eq!(ours.recalled(), [b"\r\x1B[2K", PROMPT, newest.as_bytes()].concat());
        }
        let mut pass = || _ = black_box(str::from_utf8(black_box(&ascii)));
        let [a, b, c, d] = &mut ours.each_mut().map(|ours| || _ = ours.press());
        let [pass, times @ ..] = medians([&mut pass, a, b, c, d]);
        for (first, time) in FIRSTS.into_iter().zip(times) {
            begun_row(history, first, pass, time, times[0]);
        }
    }
}

/// A text that is added to a full history, and one that is entered, beside a key with the same history. Two texts take turns, so that
/// each is new. What a call leaves is what the next one finds.
pub fn add_rows() {
    let line = vec![b'a'; LINES[0]];
    for (history, kind, bytes) in ADDED {
        let texts = [0, 1].map(|number| entry(number, kind, bytes));
        let [mut adds, mut enters] = [Ours::add, Ours::enter].map(|bring| {
            let mut ours = Ours::new(b"", kind, bytes);
            ours.agree_with(entries(kind, bytes), &texts, bring);
            ours
        });
        let mut keys = adds.clone();
        keys.before = keys.state;
        keys.put_line(&line);
        keys.agree(&line);
        let [mut added, mut entered] = [0; 2];
        let mut add = || {
            adds.add(&texts[added % 2]);
            added += 1;
        };
        let mut enter = || {
            enters.enter(&texts[entered % 2]);
            entered += 1;
        };
        let [key, add, enter] = medians([&mut || _ = keys.press(), &mut add, &mut enter]);
        add_row(history, "an add", key, add);
        add_row(history, "an Enter", key, enter);
    }
}

/// Each key of both profiles, in the same rounds.
pub fn profile_rows() {
    for length in LINES {
        let line = vec![b'a'; length];
        for (history, kind, bytes) in PROFILE_HISTORIES {
            for (name, keys) in KEYS {
                let [mut rust, mut ecma48] = [0, 1].map(|at| {
                    let (&key, before) = keys[at].split_last().expect("a key");
                    let mut ours = Ours::with(PROFILES[at], &line, kind, bytes);
                    ours.type_before(before);
                    (ours, key)
                });
                let times = medians([&mut || _ = rust.0.press_key(rust.1), &mut || _ = ecma48.0.press_key(ecma48.1)]);
                profile_row(length, history, name, times);
            }
        }
    }
}

/// A saved state with what a key is lent.
#[derive(Clone)]
pub struct Ours {
    before: [u8; STATE],
    state: [u8; STATE],
    slots: Vec<u8>,
    line: [u8; LINE],
    screen: [u8; SCREEN],
}

impl Ours {
    pub fn new(line: &[u8], kind: Kind, bytes: usize) -> Self {
        Ours::with(PROFILES[0], line, kind, bytes)
    }

    fn with(profile: u8, line: &[u8], kind: Kind, bytes: usize) -> Self {
        let (mut before, mut slots) = ([0; STATE], vec![0; SLOTS]);
        assert_eq!(calls::fresh_with(profile, &mut before, &mut slots), 0);
        for entry in entries(kind, bytes) {
            assert_eq!(calls::history_add(&mut before, &mut slots, entry.as_bytes()), 0);
        }
        let mut ours = Ours { before, state: before, slots, line: [0; LINE], screen: [0; SCREEN] };
        ours.put_line(line);
        ours
    }

    /// The same history begun at another slot: its entries lie so many slots further on, round the end.
    fn begun(mut self, first: usize) -> Self {
        assert_eq!(self.before[FIRST], 0);
        self.before[FIRST] = first as u8;
        self.slots.rotate_right(first * SLOT);
        self
    }

    /// Puts a line into the state, with the cursor at its end.
    fn put_line(&mut self, line: &[u8]) {
        put_line(&mut self.before, line);
        self.state = self.before;
    }

    /// A text added to the state as the call before left it.
    fn add(&mut self, text: &str) {
        let answer = black_box(calls::history_add(black_box(&mut self.state), &mut self.slots, text.as_bytes()));
        assert_eq!(answer, 0);
    }

    /// A line that was typed, entered to the state as the call before left it.
    fn enter(&mut self, text: &str) {
        put_line(&mut self.state, text.as_bytes());
        let Ours { state, slots, line, screen, .. } = self;
        let answer = black_box(calls::key(black_box(state), slots, PROMPT, b'\r', line, screen));
        assert_eq!(answer, (text.len() as u64) << 48 | 1 << 40 | 1);
    }

    /// An entry forgotten of the state as the call before left it, and no other with it.
    pub fn forget(&mut self, number: usize) {
        let answer = black_box(calls::history_forget(black_box(&mut self.state), &mut self.slots, number));
        assert_eq!(answer, 1);
    }

    /// Puts back the state and the slots of another.
    pub fn put_back(&mut self, other: &Ours) {
        self.state = other.state;
        self.slots.copy_from_slice(&other.slots);
    }

    /// What Up shows.
    fn recalled(&mut self) -> Vec<u8> {
        self.state = self.before;
        let Ours { state, slots, line, screen, .. } = self;
        let [.., shown] = b"\x1B[A".map(|key| calls::key(state, slots, PROMPT, key, line, screen));
        screen[..shown as usize].to_vec()
    }

    /// The entries, from the oldest to the newest.
    pub fn entries(&self) -> Vec<&[u8]> {
        let [count, first] = [COUNT, FIRST].map(|place| usize::from(self.state[place]));
        let slot = |number| &self.slots[(first + number) % ENTRIES * SLOT..][..SLOT];
        (0..count).map(slot).map(|slot| &slot[1..][..usize::from(slot[0])]).collect()
    }

    /// One letter typed to the state as it was before.
    pub fn press(&mut self) -> u64 {
        self.press_key(LETTER)
    }

    /// One key typed to the state as it was before.
    fn press_key(&mut self, key: u8) -> u64 {
        self.state = self.before;
        let Ours { state, slots, line, screen, .. } = self;
        black_box(calls::key(black_box(state), slots, PROMPT, key, line, screen))
    }

    /// Keys that are typed before the one that is timed.
    fn type_before(&mut self, keys: &[u8]) {
        for &key in keys {
            assert_eq!(self.press_key(key) >> 32, 0);
            self.before = self.state;
        }
    }

    /// The letter typed and taken back. What the second key shows is on the screen.
    pub fn pair(&mut self) -> &[u8] {
        let Ours { state, slots, line, screen, .. } = self;
        let [_, shown] = PAIR.map(|key| black_box(calls::key(black_box(state), slots, PROMPT, key, line, screen)));
        &screen[..shown as usize]
    }

    /// What is timed must be the same on both sides.
    fn agree(&mut self, line: &[u8]) {
        let theirs = typed(&[line, &[LETTER]].concat(), Original::console_init).screens.pop();
        let shown = self.press() as usize;
        assert_eq!(self.screen.get(..shown), theirs.as_deref());
    }

    /// Brings texts in turn to both histories, which have these entries. Both must then have the same, and ours begins as many slots
    /// further on as entries went.
    fn agree_with(&mut self, entries: impl Iterator<Item = String>, texts: &[String; 2], bring: fn(&mut Ours, &str)) {
        let mut theirs = Original::history();
        entries.for_each(|entry| theirs.add_command(entry));
        for text in texts.iter().cycle().take(ADDED_BEFORE) {
            bring(self, text);
            theirs.add_command(text.clone());
        }
        let mut oldest_first: Vec<String> = std::iter::from_fn(|| theirs.previous().cloned()).collect();
        oldest_first.reverse();
        assert!(oldest_first.iter().map(String::as_bytes).eq(self.entries()));
        assert_eq!(usize::from(self.state[FIRST]), ADDED_BEFORE % ENTRIES);
    }
}

/// Puts a line into a saved state without one, with the cursor at its end.
fn put_line(state: &mut [u8; STATE], line: &[u8]) {
    state[1] = line.len() as u8;
    state[2] = line.len() as u8;
    state[3..][..line.len()].copy_from_slice(line);
}

/// The entries of a full history, none for 0 bytes.
pub fn entries(kind: Kind, bytes: usize) -> impl Iterator<Item = String> {
    (0..if bytes == 0 { 0 } else { ENTRIES }).map(move |number| entry(number, kind, bytes))
}

/// An entry of so many bytes.
fn entry(number: usize, kind: Kind, bytes: usize) -> String {
    let letter = (b'a' + number as u8 % 26) as char;
    let mut entry = String::new();
    match kind {
        Kind::Words(words) => {
            entry.push(letter);
            while entry.len() + words.len() <= bytes {
                entry.push_str(words);
            }
        }
        Kind::Greek(words) => {
            entry.extend(('α'..='ω').nth(number % 25));
            entry.extend(words.chars().cycle().scan(bytes - entry.len(), |left, letter| {
                *left = left.checked_sub(letter.len_utf8())?;
                Some(letter)
            }));
        }
        Kind::Same(byte) => {
            entry.extend(std::iter::repeat_n(byte as char, bytes - 1));
            entry.push(letter);
        }
    }
    let left = bytes - entry.len();
    entry + &"z".repeat(left)
}
