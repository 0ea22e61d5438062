// Stands for the crate log: the level that the command `log` reads and sets.
use std::sync::Mutex;

static MAX_LEVEL: Mutex<LevelFilter> = Mutex::new(LevelFilter::Off);

#[derive(Clone, Copy, Debug)]
pub enum LevelFilter {
    Off,
    Error,
    Warn,
    Info,
    Debug,
    Trace,
}

pub fn max_level() -> LevelFilter {
    *MAX_LEVEL.lock().unwrap()
}

pub fn set_max_level(level: LevelFilter) {
    *MAX_LEVEL.lock().unwrap() = level;
}
