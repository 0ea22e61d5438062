// Stands for the crate lazy_static: a static value made at its first use, by each thread its own, and anew where a thread asks for that.
use std::cell::Cell;
use std::thread::LocalKey;

pub use std::thread_local;

#[macro_export]
macro_rules! lazy_static {
    ($visible:vis static ref $name:ident: $type:ty = $value:expr;) => {
        #[allow(non_camel_case_types)]
        $visible struct $name;

        impl ::core::ops::Deref for $name {
            type Target = $type;

            fn deref(&self) -> &$type {
                $crate::thread_local! {
                    static VALUE: $crate::Made<$type> = const { $crate::Made::new(None) };
                }
                $crate::current(&VALUE, || $value)
            }
        }
    };
}

/// A value of a thread with the turn in which it was made.
pub type Made<T> = Cell<Option<(u64, &'static T)>>;

thread_local! {
    static TURN: Cell<u64> = const { Cell::new(0) };
}

/// Has this thread make its values anew, each at its next use.
pub fn renew() {
    TURN.set(TURN.get() + 1);
}

/// The value of this turn. It is kept to the end of the process, since a reference to a static may be held that long.
pub fn current<T>(made: &'static LocalKey<Made<T>>, make: impl FnOnce() -> T) -> &'static T {
    let turn = TURN.get();
    match made.get() {
        Some((then, value)) if then == turn => value,
        _ => {
            let value = Box::leak(Box::new(make()));
            made.set(Some((turn, value)));
            value
        }
    }
}
