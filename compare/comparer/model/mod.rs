// The line editor and its history as the standard states them, on plain values: what a key shows and what it leaves.
pub mod answers;
pub mod saved;

/// The most bytes of a line and the most entries of a history.
pub const LINE: usize = 255;
pub const ENTRIES: usize = 100;
/// The byte with this number behind `[` is the last of a control sequence in any case.
const LAST: usize = 16;

/// Whose keys are read: those of the original, or the control sequences of ECMA-48.
#[derive(Clone, Copy, PartialEq, Debug)]
pub enum Profile {
    Rust,
    Ecma48,
}

pub const PROFILES: [Profile; 2] = [Profile::Rust, Profile::Ecma48];

#[derive(Clone, Copy, PartialEq, Debug)]
pub enum Mode {
    Typing,
    Escape,
    /// Behind ESC `[`, for the Rust's keys.
    Bracket,
    /// Behind ESC `[`, for ECMA-48's.
    Sequence,
}

#[derive(Clone, PartialEq, Debug)]
pub struct Model {
    pub profile: Profile,
    pub mode: Mode,
    /// The bytes of a control sequence behind `[`, as far as they have come.
    pub sequence: Vec<u8>,
    pub line: Vec<u8>,
    pub cursor: usize,
    /// From the oldest to the newest.
    pub entries: Vec<Vec<u8>>,
    pub place: usize,
    /// The slot of the oldest entry, or where it would be. It is saved and no more: nothing that is shown goes with it.
    pub first: usize,
}

/// What a key shows and gives out.
#[derive(Default, PartialEq)]
pub struct Effect {
    pub screen: Vec<u8>,
    /// The line at Enter, empty if nothing was typed.
    pub entered: Option<Vec<u8>>,
    pub dropped: bool,
}

impl Model {
    pub fn fresh() -> Self {
        Model::fresh_with(Profile::Rust)
    }

    pub fn fresh_with(profile: Profile) -> Self {
        let (sequence, line, entries) = (Vec::new(), Vec::new(), Vec::new());
        Model { profile, mode: Mode::Typing, sequence, line, cursor: 0, entries, place: 0, first: 0 }
    }

    /// Takes one key.
    pub fn press(&mut self, prompt: &[u8], key: u8) -> Effect {
        let mode = std::mem::replace(&mut self.mode, Mode::Typing);
        match (mode, key) {
            (Mode::Typing, 0x0D | 0x0A) => self.enter(),
            (Mode::Typing, 0x08 | 0x7F) => self.erase(prompt),
            (Mode::Typing, 0x1B) => self.wait(Mode::Escape),
            (Mode::Typing, 0x00..0x20) => Effect::default(),
            (Mode::Typing, byte) => self.insert(prompt, byte),
            (Mode::Escape, b'[') if self.profile == Profile::Rust => self.wait(Mode::Bracket),
            (Mode::Escape, b'[') => self.wait(Mode::Sequence),
            (Mode::Escape, _) => Effect::default(),
            (Mode::Bracket, letter) => self.arrow(prompt, letter),
            (Mode::Sequence, byte) => self.read_on(prompt, byte),
        }
    }

    /// Offers a text to the history. It sets the place in any case. Where the oldest entry goes, the one after it is the
    /// oldest: the history then begins one slot further on, and the text comes into the slot that became free. No other entry
    /// changes its slot.
    pub fn add(&mut self, text: &str) {
        if !text.trim().is_empty() && self.entries.last().map(Vec::as_slice) != Some(text.as_bytes()) {
            if self.entries.len() == ENTRIES {
                self.entries.remove(0);
                self.first = (self.first + 1) % ENTRIES;
            }
            self.entries.push(text.into());
        }
        self.place = self.entries.len();
    }

    /// Forgets the entry with this number, which has to be there, and says how many went. Equal neighbours can only be
    /// those that it stood between: they become one. The history begins where it began, also without entries.
    pub fn forget(&mut self, number: usize) -> usize {
        let before = self.entries.len();
        self.entries.remove(number);
        self.entries.dedup();
        self.place = self.entries.len();
        before - self.place
    }

    fn wait(&mut self, mode: Mode) -> Effect {
        self.mode = mode;
        Effect::default()
    }

    /// A byte of a control sequence: one that goes on, a final one, or one that breaks it off.
    fn read_on(&mut self, prompt: &[u8], byte: u8) -> Effect {
        let mut sequence = std::mem::take(&mut self.sequence);
        sequence.push(byte);
        match byte {
            0x20..0x40 if sequence.len() < LAST => {
                self.sequence = sequence;
                self.wait(Mode::Sequence)
            }
            0x40..0x7F => self.act(prompt, &sequence),
            _ => Effect::default(),
        }
    }

    /// What a whole control sequence does. Most do nothing.
    fn act(&mut self, prompt: &[u8], sequence: &[u8]) -> Effect {
        match sequence {
            b"H" | b"1H" | b"1~" | b"7~" => self.jump(prompt, 0),
            b"F" | b"1F" | b"4~" | b"8~" => self.jump(prompt, self.line.len()),
            b"3~" => self.delete(prompt),
            &[letter] | &[b'1', letter] => self.arrow(prompt, letter),
            _ => Effect::default(),
        }
    }

    fn arrow(&mut self, prompt: &[u8], letter: u8) -> Effect {
        match letter {
            b'A' => self.up(prompt),
            b'B' => self.down(prompt),
            b'C' => self.go(self.cursor + 1, b"\x1b[C"),
            b'D' => self.go(self.cursor.wrapping_sub(1), b"\x1b[D"),
            _ => Effect::default(),
        }
    }

    fn jump(&mut self, prompt: &[u8], cursor: usize) -> Effect {
        if self.cursor == cursor {
            return Effect::default();
        }
        self.cursor = cursor;
        self.redraw(prompt)
    }

    fn delete(&mut self, prompt: &[u8]) -> Effect {
        if self.cursor == self.line.len() {
            return Effect::default();
        }
        self.line.remove(self.cursor);
        self.redraw(prompt)
    }

    fn enter(&mut self) -> Effect {
        let line = std::mem::take(&mut self.line);
        self.cursor = 0;
        if !line.is_empty() {
            self.add(str::from_utf8(&line).unwrap_or(""));
        }
        Effect { screen: b"\n".to_vec(), entered: Some(line), dropped: false }
    }

    fn erase(&mut self, prompt: &[u8]) -> Effect {
        if self.cursor == 0 {
            return Effect::default();
        }
        self.cursor -= 1;
        self.line.remove(self.cursor);
        self.redraw(prompt)
    }

    fn insert(&mut self, prompt: &[u8], byte: u8) -> Effect {
        if self.line.len() == LINE {
            return Effect { dropped: true, ..Effect::default() };
        }
        self.line.insert(self.cursor, byte);
        self.cursor += 1;
        self.redraw(prompt)
    }

    fn up(&mut self, prompt: &[u8]) -> Effect {
        if self.place == 0 {
            return Effect::default();
        }
        self.place -= 1;
        self.recall(prompt)
    }

    fn down(&mut self, prompt: &[u8]) -> Effect {
        self.place = (self.place + 1).min(self.entries.len());
        self.recall(prompt)
    }

    /// The entry at the place, none behind the newest, with the cursor at its end.
    fn recall(&mut self, prompt: &[u8]) -> Effect {
        self.line = self.entries.get(self.place).cloned().unwrap_or_default();
        self.cursor = self.line.len();
        self.redraw(prompt)
    }

    fn go(&mut self, cursor: usize, moved: &[u8]) -> Effect {
        if cursor > self.line.len() {
            return Effect::default();
        }
        self.cursor = cursor;
        Effect { screen: moved.to_vec(), ..Effect::default() }
    }

    fn redraw(&self, prompt: &[u8]) -> Effect {
        let content = str::from_utf8(&self.line).unwrap_or("");
        let mut screen = [b"\r\x1b[2K", prompt, content.as_bytes()].concat();
        if self.cursor < content.len() {
            screen.extend(format!("\x1b[{}D", content.len() - self.cursor).bytes());
        }
        Effect { screen, ..Effect::default() }
    }
}
