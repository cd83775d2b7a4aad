//! Values of one width that stand in a file behind one another.

use std::ffi::OsStr;
use std::io::{self, BufReader, Read};

use crate::failure::Failure;
use crate::files;

/// The values of a file, of which only a part is held at a time.
pub struct Values {
    reader: BufReader<Box<dyn Read>>,
    width: usize,
    value: Vec<u8>,
}

impl Values {
    pub fn open(name: &OsStr, width: usize) -> Result<Self, Failure> {
        Ok(Values { reader: BufReader::new(files::open(name)?), width, value: Vec::with_capacity(width) })
    }

    /// Whether the next value is there without reading on.
    pub fn has_next(&self) -> bool {
        self.reader.buffer().len() >= self.width
    }

    /// The bytes of the next value: fewer where the file ends within it, and none at its end.
    pub fn next(&mut self) -> io::Result<&[u8]> {
        self.value.clear();
        self.reader.by_ref().take(self.width as u64).read_to_end(&mut self.value)?;
        Ok(&self.value)
    }
}
