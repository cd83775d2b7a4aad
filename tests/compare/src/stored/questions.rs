//! Reading stored questions: numbers of four bytes, the least first, and stretches of bytes.

use independent::edition::FIRST;

/// Where the edition of a question stands.
#[derive(Clone, Copy)]
pub enum Editions {
    /// Nowhere: it is the first.
    First,
    /// Before each question.
    BeforeEach,
}

/// Questions that are read from their front.
pub struct Questions<'a> {
    all: &'a [u8],
    at: usize,
    editions: Editions,
}

impl<'a> Questions<'a> {
    pub fn new(all: &'a [u8], editions: Editions) -> Self {
        Questions { all, at: 0, editions }
    }

    /// The edition of the next question.
    pub fn edition(&mut self) -> Result<u32, String> {
        match self.editions {
            Editions::First => Ok(FIRST),
            Editions::BeforeEach => self.number(),
        }
    }

    /// The next bytes.
    pub fn bytes(&mut self, length: usize) -> Result<&'a [u8], String> {
        let bytes = self.all[self.at..].get(..length).ok_or_else(|| self.fault("they end"))?;
        self.at += length;
        Ok(bytes)
    }

    /// The next number.
    pub fn number(&mut self) -> Result<u32, String> {
        Ok(u32::from_le_bytes(self.bytes(4)?.try_into().expect("four bytes")))
    }

    /// The next number, a length.
    pub fn length(&mut self) -> Result<usize, String> {
        Ok(self.number()? as usize)
    }

    /// The next number, a length of something that is not itself stored.
    pub fn length_up_to(&mut self, most: usize) -> Result<usize, String> {
        let length = self.length()?;
        if length > most {
            return Err(self.fault(&format!("a length of {length}, more than {most}")));
        }
        Ok(length)
    }

    /// The next bytes, as text.
    pub fn text(&mut self, length: usize) -> Result<&'a str, String> {
        std::str::from_utf8(self.bytes(length)?).map_err(|_| self.fault("a title that is no text"))
    }

    /// That nothing is left over.
    pub fn end(&self) -> Result<(), String> {
        if self.at < self.all.len() {
            return Err(self.fault("bytes are left over"));
        }
        Ok(())
    }

    fn fault(&self, what: &str) -> String {
        format!("byte {}: {what}", self.at)
    }
}
