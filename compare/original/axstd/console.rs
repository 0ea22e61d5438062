// The console of one thread: the keys that wait to be read, and the bytes written between one key and the next.
use std::cell::RefCell;
use std::collections::VecDeque;
use std::fmt::Arguments;
use std::panic::{AssertUnwindSafe, catch_unwind, resume_unwind};

thread_local! {
    static CONSOLE: RefCell<Console> = RefCell::default();
}

#[derive(Default)]
struct Console {
    keys: VecDeque<u8>,
    screens: Vec<Vec<u8>>,
}

/// How a run came to its end.
#[derive(Debug)]
pub enum End {
    Returned,
    KeysUsed,
    Exit(i32),
}

pub struct Session {
    /// What was written before the first key was read, and then what was written after each key.
    pub screens: Vec<Vec<u8>>,
    pub end: End,
}

/// Runs a function with these keys to read. Reading one more, or leaving the process, ends the run.
pub fn typed(keys: &[u8], run: impl FnOnce()) -> Session {
    let keys = keys.iter().copied().collect();
    CONSOLE.set(Console { keys, screens: vec![Vec::new()] });
    let end = match catch_unwind(AssertUnwindSafe(run)) {
        Ok(()) => End::Returned,
        Err(cause) => *cause.downcast::<End>().unwrap_or_else(|panic| resume_unwind(panic)),
    };
    Session { screens: CONSOLE.take().screens, end }
}

/// Leaves the function that `typed` runs, without the message of a panic.
pub(crate) fn leave(end: End) -> ! {
    resume_unwind(Box::new(end))
}

pub(crate) fn next_key() -> u8 {
    let key = CONSOLE.with_borrow_mut(|console| {
        let key = console.keys.pop_front()?;
        console.screens.push(Vec::new());
        Some(key)
    });
    key.unwrap_or_else(|| leave(End::KeysUsed))
}

/// How many keys were read in this run.
pub fn keys_read() -> usize {
    CONSOLE.with_borrow(|console| console.screens.len() - 1)
}

pub(crate) fn write(bytes: &[u8]) {
    CONSOLE.with_borrow_mut(|console| {
        let screen = console.screens.last_mut().expect("the original writes only inside typed");
        screen.extend_from_slice(bytes);
    });
}

/// What the macros print! and println! call.
pub fn print(text: Arguments) {
    write(text.to_string().as_bytes());
}
