//! What is wrong with an input, and where.

use std::error::Error;
use std::fmt;

/// A place in a text: line and column, in characters, from 1 on.
#[derive(Clone, Copy, Debug, PartialEq, Eq, PartialOrd, Ord)]
pub struct Place {
    pub line: usize,
    pub column: usize,
}

impl fmt::Display for Place {
    fn fmt(&self, f: &mut fmt::Formatter) -> fmt::Result {
        write!(f, "line {}, column {}", self.line, self.column)
    }
}

/// The place of a fault.
#[derive(Clone, Copy, Debug, PartialEq, Eq)]
pub enum At {
    Text(Place),
    /// A byte of an input that is no text, from 0 on.
    Byte(usize),
    /// A byte of a record or an image, and where its two digits stand.
    Digits(Place, usize),
}

impl fmt::Display for At {
    fn fmt(&self, f: &mut fmt::Formatter) -> fmt::Result {
        match self {
            At::Text(place) => write!(f, "{place}"),
            At::Byte(byte) => write!(f, "byte {byte}"),
            At::Digits(place, byte) => write!(f, "{place}: byte {byte}"),
        }
    }
}

#[derive(Clone, Debug, PartialEq, Eq)]
pub struct Fault {
    pub at: At,
    pub words: String,
}

impl Fault {
    pub fn text(place: Place, words: impl Into<String>) -> Fault {
        Fault { at: At::Text(place), words: words.into() }
    }

    pub fn byte(byte: usize, words: impl Into<String>) -> Fault {
        Fault { at: At::Byte(byte), words: words.into() }
    }
}

impl fmt::Display for Fault {
    fn fmt(&self, f: &mut fmt::Formatter) -> fmt::Result {
        write!(f, "{}: {}", self.at, self.words)
    }
}

impl Error for Fault {}
