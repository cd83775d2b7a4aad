//! Reading and writing the numbers of an input, four bytes each, the least first.

/// A stretch of bytes that is read from its front.
pub struct Reader<'a>(&'a [u8]);

impl<'a> Reader<'a> {
    pub fn new(bytes: &'a [u8]) -> Self {
        Reader(bytes)
    }

    pub fn take(&mut self, length: usize) -> &'a [u8] {
        let (front, rest) = self.0.split_at(length);
        self.0 = rest;
        front
    }

    pub fn u32(&mut self) -> u32 {
        u32::from_le_bytes(self.take(4).try_into().expect("four bytes"))
    }

    pub fn size(&mut self) -> usize {
        self.u32() as usize
    }

    pub fn text(&mut self, length: usize) -> &'a str {
        std::str::from_utf8(self.take(length)).expect("a title is text")
    }
}

/// Appends a number.
pub fn put(bytes: &mut Vec<u8>, number: u32) {
    bytes.extend(number.to_le_bytes());
}

/// Appends a length.
pub fn put_size(bytes: &mut Vec<u8>, length: usize) {
    put(bytes, u32::try_from(length).expect("a length of the vectors is small"));
}
