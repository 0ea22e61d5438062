// The original as a console, with and without `fs`: what it writes after each key, and what lies in its history.
use axstd::console::typed;

pub struct Shell {
    pub prompt: &'static [u8],
    console_init: fn(),
    run: fn(&[u8]),
}

pub const PLAIN: Shell =
    Shell { prompt: b"axvisor:$ ", console_init: original::Original::console_init, run: original::Original::run };

pub const WITH_FS: Shell = Shell {
    prompt: b"axvisor:/$ ",
    console_init: original_fs::Original::console_init,
    run: original_fs::Original::run,
};

/// The most entries of a history.
const ENTRIES: usize = 100;
const UP: &[u8] = b"\x1b[A";
const DOWN: &[u8] = b"\x1b[B";

impl Shell {
    /// What is written after each key. A command that leaves the shell ends it before the keys do.
    pub fn screens(&self, keys: &[u8]) -> Vec<Vec<u8>> {
        let mut screens = typed(keys, self.console_init).screens;
        screens.remove(0);
        screens
    }

    /// What is written at Enter behind the LF: what the command writes, and the prompt.
    pub fn behind_enter(&self, line: &[u8]) -> Vec<u8> {
        typed(&[], || (self.run)(line)).screens.remove(0)
    }

    /// The entries that a walk recalls, from the oldest to the newest.
    pub fn recalled<'a>(&self, walk: &'a [Vec<u8>]) -> Vec<&'a [u8]> {
        let redraw = [b"\r\x1b[2K", self.prompt].concat();
        let ups = walk[walk.len() / 2..].iter();
        let mut entries: Vec<&[u8]> = ups.filter_map(|screen| screen.strip_prefix(&redraw[..])).collect();
        entries.reverse();
        entries
    }
}

/// Keys to press after a stream that can have filled the history: two that bring typing back and do no more, then down past the
/// newest entry and up past the oldest. The second half goes up.
pub fn walk(stream: &[u8]) -> Vec<u8> {
    let entries = stream.iter().filter(|key| b"\r\n".contains(key)).count().min(ENTRIES);
    if entries == 0 {
        return Vec::new();
    }
    let [down, up] = [DOWN, UP].map(|arrow| [&[0, 0], &arrow.repeat(entries + 1)[..]].concat());
    [down, up].concat()
}
