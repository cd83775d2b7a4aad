//! Plain text, bytes below 128, and such text with a byte of another kind in it.

/// The longest text that is taken at every length.
pub const LONGEST: usize = 40;
/// How many places, from the first on, a byte of another kind takes.
pub const PLACES: usize = 32;

/// A plain text of so many bytes, of which no two among 128 in a row are the same.
pub fn plain(length: usize) -> Vec<u8> {
    (0..length).map(|at| ((0x21 + 37 * at) % 0x80) as u8).collect()
}

/// The same with other bytes in place of those from a place on.
pub fn with(length: usize, place: usize, octets: &[u8]) -> Vec<u8> {
    let mut text = plain(length);
    text[place..place + octets.len()].copy_from_slice(octets);
    text
}
