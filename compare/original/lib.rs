// The crate around the original shell: what its four files expect of the kernel that they were written for.
#![no_std]

#[macro_use]
extern crate alloc;
extern crate axstd as std;

mod shell;

/// What the comparison asks of the original: here what the crate's root can reach, in vm.rs what is private to the parser.
pub struct Original;

impl Original {
    /// Starts the original's endless loop. It ends when the keys given to `axstd::console::typed` are used up.
    pub fn console_init() {
        shell::console_init()
    }
}
