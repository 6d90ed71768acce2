//! The rules that records and images are judged by, as a value. Document 01's come first; a request that changes a
//! cause, an effect or a limit has its own after them. A history may go on over such a change.

/// What requests change. A further one adds a field here, and its rules to `ALL`.
#[derive(Clone, Copy, Debug, PartialEq, Eq)]
pub struct Rules {
    /// A method token is from 0 to this.
    pub most_method: u8,
    /// Whether a grant may name a service that its package does not yet provide. Images have version 02 then, else 01.
    pub early_grants: bool,
    /// The kinds that are read; any other gets 2.
    pub kinds: &'static [u8],
    /// The sizes of the card that is judged on, and of its records. The time does not change them: they are the small card's
    /// where none is named.
    pub sizes: &'static Sizes,
}

/// The sizes of a card and of its records. Where things are in an image, and how long it is, follows from them.
#[derive(Clone, Copy, Debug, PartialEq, Eq)]
pub struct Sizes {
    pub packages: usize,
    /// Of each package.
    pub services: usize,
    /// The most unmet calls, and the most waiting grants.
    pub listed: usize,
    /// The version byte of records.
    pub record_version: u8,
    /// The most rows in each of a record's calls, grants and needs, and the bytes of the count of each. Other lists of
    /// records have a count byte.
    pub rows: usize,
    pub count_bytes: usize,
    /// The most callers of a service that kind 3 adds.
    pub callers: usize,
}

impl Sizes {
    /// Document 01's card.
    pub const SMALL: Sizes =
        Sizes { packages: 8, services: 8, listed: 16, record_version: 1, rows: 72, count_bytes: 1, callers: 32 };
    /// R-9's: "16 packages of 16 services", "32 rows in each list"; its records have "version 02, up to 16 services, two-byte
    /// counts, big-endian too and up to 272, for calls, grants and needs alone".
    pub const LARGE: Sizes =
        Sizes { packages: 16, services: 16, listed: 32, record_version: 2, rows: 272, count_bytes: 2, callers: 32 };

    /// Every card.
    pub const ALL: [&Sizes; 2] = [&Sizes::SMALL, &Sizes::LARGE];
}

impl Rules {
    /// "Each token may be 0 to 255." "Granted services are among those provided." Ten kinds.
    pub const DOCUMENT_01: Rules =
        Rules { most_method: 255, early_grants: false, kinds: &[1, 2, 3, 4, 5, 6, 7, 8, 9, 10], sizes: &Sizes::SMALL };
    /// "Method tokens stop at 127." Interface tokens stay 0 to 255.
    pub const R_7: Rules = Rules { most_method: 127, ..Rules::DOCUMENT_01 };
    /// "Grants given before the service exists." A converter takes images over.
    pub const R_2: Rules = Rules { early_grants: true, ..Rules::R_7 };
    /// "An applet's new release brings its whole contract." Kind 11; images are what they were.
    pub const R_1: Rules = Rules { kinds: &[1, 2, 3, 4, 5, 6, 7, 8, 9, 10, 11], ..Rules::R_2 };
    /// "Kinds 9 and 10 are retired and get 2." Images, and the needs in them, are what they were.
    pub const R_13: Rules = Rules { kinds: &[1, 2, 3, 4, 5, 6, 7, 8, 11], ..Rules::R_1 };

    /// The rules of every time, in order.
    pub const ALL: [Rules; 5] = [Rules::DOCUMENT_01, Rules::R_7, Rules::R_2, Rules::R_1, Rules::R_13];
    /// The rules in force: the last.
    pub const IN_FORCE: Rules = Rules::before(0);
    /// How often the rules have changed.
    pub const CHANGES: usize = Rules::ALL.len() - 1;

    /// The rules before the last so many changes.
    pub const fn before(changes: usize) -> Rules {
        Rules::ALL[Rules::CHANGES - changes]
    }

    /// The rules of the same time on a card of these sizes.
    pub const fn on(self, sizes: &'static Sizes) -> Rules {
        Rules { sizes, ..self }
    }

    /// Whether records of the kind are read.
    pub fn reads(self, kind: u8) -> bool {
        self.kinds.contains(&kind)
    }

    /// How often the rules have changed since these.
    pub fn changes_since(self) -> usize {
        (0..=Rules::CHANGES).find(|changes| Rules::before(*changes) == self).expect("the rules of some time")
    }
}
