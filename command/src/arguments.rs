//! The words and options behind a command's name.

use std::ffi::{OsStr, OsString};
use std::str::FromStr;
use std::vec;

use griffeljol::Edition;

use crate::failure::Failure;

/// Answers as JSON.
pub const JSON: &str = "--json";
/// Answers as a page to sign.
pub const REPORT: &str = "--report";
/// Where the answer goes; takes a word.
pub const OUTPUT: &str = "-o";
/// A value in hexadecimal; takes a word.
pub const HEX: &str = "--hex";
/// A file of many values; takes a word.
pub const FILE: &str = "--file";
/// Points as doubles, and not as text.
pub const BINARY: &str = "--binary";
/// The edition that judges a sheet or a column type; takes a word.
pub const EDITION: &str = "--edition";

/// Words in order, and options with the word that they take.
pub struct Arguments {
    words: vec::IntoIter<OsString>,
    options: Vec<(&'static str, OsString)>,
}

impl Arguments {
    /// Sorts words from options; none where help is asked for. A number below zero is a word, and so is all behind `--`.
    pub fn parse(mut given: impl Iterator<Item = OsString>, known: &[&'static str]) -> Result<Option<Self>, Failure> {
        let mut words = Vec::new();
        let mut options: Vec<(&str, OsString)> = Vec::new();
        while let Some(word) = given.next() {
            if is_help(&word) {
                return Ok(None);
            } else if word == "--" {
                words.extend(given.by_ref());
            } else if !is_option(&word) {
                words.push(word);
            } else {
                let option = known
                    .iter()
                    .find(|&option| word == *option)
                    .ok_or_else(|| Failure::arguments(format!("there is no option {word:?} here")))?;
                if options.iter().any(|(name, _)| name == option) {
                    return Err(Failure::arguments(format!("{option} is given twice")));
                }
                let operand = match *option {
                    BINARY | JSON | REPORT => OsString::new(),
                    _ => given.next().ok_or_else(|| Failure::arguments(format!("{option} needs a word behind it")))?,
                };
                options.push((option, operand));
            }
        }
        Ok(Some(Arguments { words: words.into_iter(), options }))
    }

    /// Whether an option is given.
    pub fn has(&self, option: &str) -> bool {
        self.option(option).is_some()
    }

    /// The word that an option takes, if it is given.
    pub fn option(&self, option: &str) -> Option<&OsStr> {
        self.options.iter().find(|(name, _)| *name == option).map(|(_, operand)| operand.as_os_str())
    }

    /// The edition that is asked for, the first where none is. Which numbers are editions is the library's to say.
    pub fn edition(&self) -> Result<Edition, Failure> {
        self.option(EDITION).map_or(Ok(Edition::FIRST), |word| {
            spelled(word).map(Edition::from).ok_or_else(|| {
                Failure::arguments(format!("{EDITION} cannot be {word:?}: it is a whole number without needless zeros"))
            })
        })
    }

    /// The next word, which must be there.
    pub fn word(&mut self, name: &str) -> Result<OsString, Failure> {
        self.words.next().ok_or_else(|| Failure::arguments(format!("{name} is missing")))
    }

    /// The next word as text.
    pub fn text(&mut self, name: &str) -> Result<String, Failure> {
        self.word(name)?.into_string().map_err(|word| Failure::arguments(format!("{name} cannot be {word:?}")))
    }

    /// The next word as a number that its type holds.
    pub fn number<N: FromStr>(&mut self, name: &str) -> Result<N, Failure> {
        let text = self.text(name)?;
        text.parse().map_err(|_| Failure::arguments(format!("{name} cannot be {text:?}: it is a whole number")))
    }

    /// Holds the words to those that were taken.
    pub fn end(mut self) -> Result<(), Failure> {
        match self.words.next() {
            None => Ok(()),
            Some(word) => Err(Failure::arguments(format!("{word:?} is one word too many"))),
        }
    }
}

/// The number that a word spells in decimal, without a sign or needless zeros.
fn spelled(word: &OsStr) -> Option<u32> {
    let number: u32 = word.to_str()?.parse().ok()?;
    (word == number.to_string().as_str()).then_some(number)
}

/// Whether a word asks for help.
pub fn is_help(word: &OsStr) -> bool {
    word == "--help" || word == "-h"
}

/// Whether a word is an option: a dash and more, but no number.
fn is_option(word: &OsStr) -> bool {
    match word.as_encoded_bytes() {
        [b'-', rest @ ..] => !rest.is_empty() && !begins_a_number(rest),
        _ => false,
    }
}

/// Whether what stands behind a minus is, or begins, a number: a digit, a point, an infinity or a NaN.
fn begins_a_number(text: &[u8]) -> bool {
    let begins_with = |word: &[u8]| text.get(..word.len()).is_some_and(|start| start.eq_ignore_ascii_case(word));
    text[0].is_ascii_digit() || [&b"."[..], b"inf", b"nan"].into_iter().any(begins_with)
}
