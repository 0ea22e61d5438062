// Handlers that note that they were called: each under its own number, with the command that it was given.
use super::super::ParsedCommand;
use crate::Original;
use core::cell::RefCell;
use std::console::keys_read;
use std::vec::Vec;

lazy_static::thread_local! {
    static CALLED: RefCell<Vec<(usize, u16, ParsedCommand)>> = const { RefCell::new(Vec::new()) };
}

fn note<const NUMBER: u16>(command: &ParsedCommand) {
    CALLED.with_borrow_mut(|called| called.push((keys_read(), NUMBER, command.clone())));
}

macro_rules! handlers {
    ($($number:literal)*) => {
        /// The handler with this number. A function pointer holds no number, so each of these is a function.
        pub fn handler(number: u16) -> fn(&ParsedCommand) {
            match number {
                $($number => note::<$number>,)*
                _ => panic!("there is no handler {number}"),
            }
        }
    };
}

handlers!(1 2 3 4 5 6 7 8 9 10 11 12 13 14 15 16 17 18 19 20 21 22 23 24 255 256 65535);

impl Original {
    /// The handlers that this thread called: how many keys were read by then, the handler's number, and the command that it was
    /// given. Each is told once.
    pub fn calls() -> Vec<(usize, u16, ParsedCommand)> {
        CALLED.take()
    }

    /// The handler that was called last, by its number, and the command that it was given.
    pub fn called() -> Option<(u16, ParsedCommand)> {
        let (_, number, command) = Original::calls().pop()?;
        Some((number, command))
    }
}
