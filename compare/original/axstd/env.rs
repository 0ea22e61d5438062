// The working folder: the root, since the file system has no other folder.
use crate::io::{Error, Result};

pub fn current_dir() -> Result<String> {
    Ok("/".to_string())
}

pub fn set_current_dir(path: &str) -> Result<()> {
    if path == "/" { Ok(()) } else { Err(Error::NotFound) }
}
