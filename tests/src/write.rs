//! Writes records, good and bad: nothing is looked at, so that any wrong record can be written.

use crate::rules::{Rules, Sizes};

pub type Tokens = (u8, u8);
/// A row of calls, grants or needs: the other end's AID and the tokens.
pub type Row = (Vec<u8>, Tokens);

/// Writes records for the card of these sizes.
#[derive(Clone, Copy)]
pub struct Writer(pub &'static Sizes);

/// For the small card. The functions of the same names write by it.
const SMALL: Writer = Writer(Rules::IN_FORCE.sizes);
pub const VERSION: u8 = SMALL.0.record_version;

impl Writer {
    /// A record with the right length field and version: the kind, then the parts.
    pub fn record(self, kind: u8, parts: &[&[u8]]) -> Vec<u8> {
        let mut record = [&[0, 0, self.0.record_version, kind], &parts.concat()[..]].concat();
        set_length(&mut record);
        record
    }

    fn rows(self, rows: &[Row]) -> Vec<u8> {
        list(self.0.count_bytes, rows.iter().map(|(other, service)| row(other, *service)).collect())
    }

    /// Kind 1 or 11, which have one layout.
    pub fn contract(
        self,
        kind: u8,
        own: &[u8],
        provides: &[Tokens],
        calls: &[Row],
        grants: &[Row],
        needs: &[Row],
    ) -> Vec<u8> {
        let provides = list(1, provides.iter().map(|service| tokens(*service).to_vec()).collect());
        self.record(kind, &[&aid(own), &provides, &self.rows(calls), &self.rows(grants), &self.rows(needs)])
    }

    /// Kind 1.
    pub fn load(self, own: &[u8], provides: &[Tokens], calls: &[Row], grants: &[Row], needs: &[Row]) -> Vec<u8> {
        self.contract(1, own, provides, calls, grants, needs)
    }

    /// Kind 11.
    pub fn replace(self, own: &[u8], provides: &[Tokens], calls: &[Row], grants: &[Row], needs: &[Row]) -> Vec<u8> {
        self.contract(11, own, provides, calls, grants, needs)
    }

    /// Kind 2.
    pub fn remove(self, own: &[u8]) -> Vec<u8> {
        self.record(2, &[&aid(own)])
    }

    /// Kind 3.
    pub fn add_service(self, own: &[u8], service: Tokens, callers: &[Vec<u8>]) -> Vec<u8> {
        let callers = list(1, callers.iter().map(|caller| aid(caller)).collect());
        self.record(3, &[&aid(own), &tokens(service), &callers])
    }

    /// Kind 4.
    pub fn remove_service(self, own: &[u8], service: Tokens) -> Vec<u8> {
        self.record(4, &[&aid(own), &tokens(service)])
    }

    /// Kinds 5 to 10: 5 and 6 a call, 7 and 8 a grant, 9 and 10 a need; odd adds and even removes.
    pub fn update(self, kind: u8, own: &[u8], other: &[u8], service: Tokens) -> Vec<u8> {
        self.record(kind, &[&aid(own), &row(other, service)])
    }
}

/// Writes the record's whole length into its first two bytes.
pub fn set_length(record: &mut [u8]) {
    let length = (record.len() as u16).to_be_bytes();
    record[..2].copy_from_slice(&length);
}

/// An AID: its length byte and its bytes.
pub fn aid(aid: &[u8]) -> Vec<u8> {
    let mut written = vec![aid.len() as u8];
    written.extend_from_slice(aid);
    written
}

pub fn tokens((interface, method): Tokens) -> [u8; 2] {
    [interface, method]
}

/// A row: an AID and tokens.
pub fn row(other: &[u8], service: Tokens) -> Vec<u8> {
    [aid(other), tokens(service).to_vec()].concat()
}

/// A count of so many bytes, and the rows.
fn list(count_bytes: usize, rows: Vec<Vec<u8>>) -> Vec<u8> {
    let count = rows.len().to_be_bytes();
    [&count[count.len() - count_bytes..], &rows.concat()].concat()
}

pub fn record(kind: u8, parts: &[&[u8]]) -> Vec<u8> {
    SMALL.record(kind, parts)
}

pub fn contract(kind: u8, own: &[u8], provides: &[Tokens], calls: &[Row], grants: &[Row], needs: &[Row]) -> Vec<u8> {
    SMALL.contract(kind, own, provides, calls, grants, needs)
}

pub fn load(own: &[u8], provides: &[Tokens], calls: &[Row], grants: &[Row], needs: &[Row]) -> Vec<u8> {
    SMALL.load(own, provides, calls, grants, needs)
}

pub fn replace(own: &[u8], provides: &[Tokens], calls: &[Row], grants: &[Row], needs: &[Row]) -> Vec<u8> {
    SMALL.replace(own, provides, calls, grants, needs)
}

pub fn remove(own: &[u8]) -> Vec<u8> {
    SMALL.remove(own)
}

pub fn add_service(own: &[u8], service: Tokens, callers: &[Vec<u8>]) -> Vec<u8> {
    SMALL.add_service(own, service, callers)
}

pub fn remove_service(own: &[u8], service: Tokens) -> Vec<u8> {
    SMALL.remove_service(own, service)
}

pub fn update(kind: u8, own: &[u8], other: &[u8], service: Tokens) -> Vec<u8> {
    SMALL.update(kind, own, other, service)
}

#[cfg(test)]
mod tests {
    use super::*;
    use crate::hex::to_hex;

    const H: [u8; 5] = [0xF0, 0, 0, 0, 1];
    const C: [u8; 5] = [0xF0, 0, 0, 0, 2];

    #[test]
    fn the_papers_first_record() {
        let load = load(&H, &[(0, 0)], &[], &[(C.to_vec(), (0, 0))], &[]);
        assert_eq!(to_hex(&load), "00 18 01 01 05 F0 00 00 00 01 01 00 00 00 01 05 F0 00 00 00 02 00 00 00");
    }

    #[test]
    fn a_service_with_its_callers() {
        let added = add_service(&H, (3, 4), &[C.to_vec()]);
        assert_eq!(to_hex(&added), "00 13 01 03 05 F0 00 00 00 01 03 04 01 05 F0 00 00 00 02");
        assert_eq!(to_hex(&update(9, &H, &C, (3, 4))), "00 12 01 09 05 F0 00 00 00 01 05 F0 00 00 00 02 03 04");
    }

    /// "Version 02, two-byte counts for calls, grants and needs alone."
    #[test]
    fn the_large_cards_records() {
        let large = Writer(&Sizes::LARGE);
        let load = large.load(&H, &[(0, 0)], &[], &[(C.to_vec(), (0, 0))], &[]);
        assert_eq!(to_hex(&load), "00 1B 02 01 05 F0 00 00 00 01 01 00 00 00 00 00 01 05 F0 00 00 00 02 00 00 00 00");
        let added = large.add_service(&H, (3, 4), &[C.to_vec()]);
        assert_eq!(to_hex(&added), "00 13 02 03 05 F0 00 00 00 01 03 04 01 05 F0 00 00 00 02");
    }
}
