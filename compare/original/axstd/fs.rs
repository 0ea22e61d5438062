// A file system without files: what it would give out has no values, so the handlers of 003 compile and touch nothing.
use crate::io::{Error, Read, Result, Write};

pub enum File {}
pub enum FileType {}
pub enum Metadata {}
pub enum Permissions {}
pub enum ReadDir {}
pub enum DirEntry {}

pub fn metadata(_path: &str) -> Result<Metadata> {
    Err(Error::NotFound)
}

pub fn read_dir(_path: &str) -> Result<ReadDir> {
    Err(Error::NotFound)
}

pub fn create_dir(_path: &str) -> Result<()> {
    Err(Error::Unsupported)
}

pub fn create_dir_all(_path: &str) -> Result<()> {
    Err(Error::Unsupported)
}

pub fn remove_dir(_path: &str) -> Result<()> {
    Err(Error::NotFound)
}

pub fn remove_file(_path: &str) -> Result<()> {
    Err(Error::NotFound)
}

pub fn rename(_from: &str, _to: &str) -> Result<()> {
    Err(Error::NotFound)
}

impl File {
    pub fn open(_path: &str) -> Result<File> {
        Err(Error::NotFound)
    }

    pub fn create(_path: &str) -> Result<File> {
        Err(Error::Unsupported)
    }
}

impl Read for File {
    fn read(&mut self, _buffer: &mut [u8]) -> std::io::Result<usize> {
        match *self {}
    }
}

impl Write for File {
    fn write(&mut self, _bytes: &[u8]) -> std::io::Result<usize> {
        match *self {}
    }

    fn flush(&mut self) -> std::io::Result<()> {
        match *self {}
    }
}

impl Metadata {
    pub fn is_dir(&self) -> bool {
        match *self {}
    }

    pub fn len(&self) -> u64 {
        match *self {}
    }

    pub fn file_type(&self) -> FileType {
        match *self {}
    }

    pub fn permissions(&self) -> Permissions {
        match *self {}
    }
}

impl Permissions {
    pub fn mode(&self) -> u32 {
        match *self {}
    }
}

impl Iterator for ReadDir {
    type Item = Result<DirEntry>;

    fn next(&mut self) -> Option<Result<DirEntry>> {
        match *self {}
    }
}

impl DirEntry {
    pub fn file_name(&self) -> String {
        match *self {}
    }

    pub fn file_type(&self) -> FileType {
        match *self {}
    }
}

macro_rules! kinds {
    ($($is:ident)*) => {
        impl FileType {
            $(pub fn $is(&self) -> bool {
                match *self {}
            })*
        }
    };
}

kinds! { is_file is_dir is_symlink is_fifo is_socket is_block_device is_char_device }
