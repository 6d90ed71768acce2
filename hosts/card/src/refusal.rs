//! Why a function says no: the causes of refusals, as `card.h` has them.

use core::error::Error;
use core::fmt;

/// The cause of a refusal. Its number is the answer that the function gives. Later versions may add causes.
#[derive(Clone, Copy, Debug, PartialEq, Eq, PartialOrd, Ord, Hash)]
#[non_exhaustive]
pub enum Refusal {
    /// 1: the image is not sound, as one of version 01 or with a method token of 128 or more, or has neither card's size,
    /// or a buffer for an image has another size than it must.
    Unsound = 1,
    /// 2: the record is malformed: its form is wrong, it has the version of the other card's records, its kind is none
    /// of 1 to 8 and 11, or a method token is 128 or more.
    Malformed = 2,
    /// 3: the record contradicts itself: a row or AID is repeated, the own AID is the other end, or a whole contract
    /// needs what it does not call.
    Contradictory = 3,
    /// 4: a load of an AID that is installed.
    Installed = 4,
    /// 5: the record's first AID, or the package number to read out, is not installed.
    NotInstalled = 5,
    /// 6: adding what the contract has, or removing what it lacks.
    Pointless = 6,
    /// 7: all package numbers, or all service numbers of the package, are used.
    NoNumber = 7,
    /// 8: a met call would stand without its grant.
    Ungranted = 8,
    /// 9: a need would be unmet.
    NeedUnmet = 9,
    /// 10: more unmet calls than the card has rows for.
    UnmetFull = 10,
    /// 11: more waiting grants than the card has rows for.
    WaitingFull = 11,
    /// 12: the buffer is shorter than the record.
    BufferShort = 12,
}

impl Refusal {
    /// Every cause, in the order of the numbers from 1 on.
    pub const ALL: [Refusal; 12] = [
        Refusal::Unsound,
        Refusal::Malformed,
        Refusal::Contradictory,
        Refusal::Installed,
        Refusal::NotInstalled,
        Refusal::Pointless,
        Refusal::NoNumber,
        Refusal::Ungranted,
        Refusal::NeedUnmet,
        Refusal::UnmetFull,
        Refusal::WaitingFull,
        Refusal::BufferShort,
    ];

    /// The cause with this number; `None` for 0, which is no refusal, and above 12.
    #[must_use]
    pub fn of(answer: u32) -> Option<Refusal> {
        Refusal::ALL.into_iter().find(|refusal| refusal.number() == answer)
    }

    /// The answer's number, 1 to 12.
    #[must_use]
    pub const fn number(self) -> u32 {
        self as u32
    }

    /// The cause in words, without its number.
    #[must_use]
    pub const fn words(self) -> &'static str {
        match self {
            Refusal::Unsound => "the image is not sound, or has not a card's size",
            Refusal::Malformed => "the record is malformed",
            Refusal::Contradictory => "the record contradicts itself",
            Refusal::Installed => "the package is installed",
            Refusal::NotInstalled => "the package is not installed",
            Refusal::Pointless => "the contract has what is added, or lacks what is removed",
            Refusal::NoNumber => "no package or service number is free",
            Refusal::Ungranted => "a met call would stand without its grant",
            Refusal::NeedUnmet => "a need would be unmet",
            Refusal::UnmetFull => "too many unmet calls",
            Refusal::WaitingFull => "too many waiting grants",
            Refusal::BufferShort => "the buffer is shorter than the record",
        }
    }
}

/// The number and the words, as `8: a met call would stand without its grant`.
impl fmt::Display for Refusal {
    fn fmt(&self, f: &mut fmt::Formatter) -> fmt::Result {
        write!(f, "{}: {}", self.number(), self.words())
    }
}

impl Error for Refusal {}
