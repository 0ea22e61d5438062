// Stands for the crate axstd, which the original calls std: Rust's own library, with a console that can be driven.
pub mod console;
pub mod env;
pub mod fs;
pub mod io;
pub mod process;

pub use std::{collections, str, string, vec};

#[macro_export]
macro_rules! print {
    ($($arg:tt)*) => {
        $crate::console::print(::core::format_args!($($arg)*))
    };
}

#[macro_export]
macro_rules! println {
    () => {
        $crate::print!("\n")
    };
    ($($arg:tt)*) => {
        $crate::console::print(::core::format_args!("{}\n", ::core::format_args!($($arg)*)))
    };
}
