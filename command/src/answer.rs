//! What a command prints on standard output, and the exit status that goes with it.

use std::process::ExitCode;

/// A text for standard output, and the exit status once it is written.
pub struct Answer {
    pub text: Vec<u8>,
    pub status: ExitCode,
}

/// The status of a no: two sheets are not the same, or a point is not inside.
const NO: u8 = 3;

impl Answer {
    /// The answer to a question of yes or no.
    pub fn yes_or_no(text: String, is_yes: bool) -> Self {
        let status = if is_yes { ExitCode::SUCCESS } else { ExitCode::from(NO) };
        Answer { text: text.into_bytes(), status }
    }
}

impl From<Vec<u8>> for Answer {
    fn from(text: Vec<u8>) -> Self {
        Answer { text, status: ExitCode::SUCCESS }
    }
}

impl From<String> for Answer {
    fn from(text: String) -> Self {
        text.into_bytes().into()
    }
}
