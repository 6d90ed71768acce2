//! Contracts in full: AIDs, tokens, and the four sets.

use std::collections::{BTreeMap, BTreeSet};
use std::fmt;

/// The bytes that name a package, 5 to 16 of them.
#[derive(Clone, Copy, PartialEq, Eq, PartialOrd, Ord)]
pub struct Aid {
    length: u8,
    /// Zero past the length, so that AIDs are equal exactly when length and bytes are.
    bytes: [u8; Aid::MOST],
}

impl Aid {
    pub const LEAST: usize = 5;
    pub const MOST: usize = 16;

    /// `None` when so many bytes are no AID.
    pub fn new(bytes: &[u8]) -> Option<Aid> {
        if !(Aid::LEAST..=Aid::MOST).contains(&bytes.len()) {
            return None;
        }
        let mut aid = Aid { length: bytes.len() as u8, bytes: [0; Aid::MOST] };
        aid.bytes[..bytes.len()].copy_from_slice(bytes);
        Some(aid)
    }

    pub fn bytes(&self) -> &[u8] {
        &self.bytes[..usize::from(self.length)]
    }
}

impl fmt::Display for Aid {
    /// Two hexadecimal digits for each byte.
    fn fmt(&self, f: &mut fmt::Formatter) -> fmt::Result {
        self.bytes().iter().try_for_each(|byte| write!(f, "{byte:02X}"))
    }
}

impl fmt::Debug for Aid {
    fn fmt(&self, f: &mut fmt::Formatter) -> fmt::Result {
        write!(f, "{self}")
    }
}

/// Which of a package's services: its interface and its method.
#[derive(Clone, Copy, Debug, PartialEq, Eq, PartialOrd, Ord)]
pub struct Tokens {
    pub interface: u8,
    pub method: u8,
}

impl Tokens {
    /// A method token is from 0 to this.
    pub const MOST_METHOD: u8 = 127;
}

impl fmt::Display for Tokens {
    /// Both in decimal, as in `0.1`.
    fn fmt(&self, f: &mut fmt::Formatter) -> fmt::Result {
        write!(f, "{}.{}", self.interface, self.method)
    }
}

/// A row of calls or needs (`other` is the callee) or of grants (`other` is the caller).
#[derive(Clone, Copy, Debug, PartialEq, Eq, PartialOrd, Ord)]
pub struct Row {
    pub other: Aid,
    pub tokens: Tokens,
}

#[derive(Clone, Debug, Default, PartialEq, Eq)]
pub struct Contract {
    pub provides: BTreeSet<Tokens>,
    pub calls: BTreeSet<Row>,
    pub grants: BTreeSet<Row>,
    pub needs: BTreeSet<Row>,
}

/// The contracts on a card, each under its package's AID.
pub type Contracts = BTreeMap<Aid, Contract>;
