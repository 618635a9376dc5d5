//! Why a text is not read.

use std::fmt;

/// What is wrong, under the number that is printed.
#[derive(Clone, Copy)]
pub enum Kind {
    NotUtf8 = 1,
    Line = 2,
    Quote = 3,
    Escape = 4,
    Order = 5,
    Forms = 6,
    Duplicate = 7,
    Charset = 8,
    Limit = 9,
}

/// The line, from 1, or 0 for the whole text.
pub struct Fault {
    pub line: usize,
    pub kind: Kind,
}

impl fmt::Display for Fault {
    fn fmt(&self, f: &mut fmt::Formatter<'_>) -> fmt::Result {
        write!(f, "po line {} kind {}", self.line, self.kind as u8)
    }
}
