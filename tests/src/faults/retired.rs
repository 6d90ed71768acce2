//! R-13 misread: engines that are wrong about kinds 9 and 10, or about the needs on a card.

use super::{tables_after, Entry, Fault, IN_FORCE};
use crate::card::{Bytes, Card, Verdict, BYTES, LONGEST_LARGE_RECORD};
use crate::encode;
use crate::machine::record::{self, Change};
use crate::rules::Rules;
use crate::tables::{in_force, Tables};

/// Kind 9 is still read, and kind 10.
pub const READS_9: Rules = Rules { kinds: &[1, 2, 3, 4, 5, 6, 7, 8, 9, 11], ..IN_FORCE };
pub const READS_10: Rules = Rules { kinds: &[1, 2, 3, 4, 5, 6, 7, 8, 10, 11], ..IN_FORCE };

pub const TOO_EARLY: &str = "retired-too-early";
/// Before each change of the rules, the last change first, an engine that does not read kinds 9 and 10 any longer.
pub const READS_NEITHER: &[Fault; Rules::CHANGES] =
    &[reads_neither(1), reads_neither(2), reads_neither(3), reads_neither(4)];

const fn reads_neither(changes: usize) -> Fault {
    let kinds: &[u8] = if changes == 1 { IN_FORCE.kinds } else { &[1, 2, 3, 4, 5, 6, 7, 8] };
    Fault { name: TOO_EARLY, entry: Entry::Rules(Rules { kinds, ..Rules::before(changes) }) }
}

/// What the rules before answer to a record of kind 9 or 10; of another `None`.
fn before(image: &[u8], bytes: &[u8]) -> Option<u32> {
    matches!(bytes.get(3), Some(9 | 10)).then(|| Bytes(Rules::R_1).judge(&mut image.to_vec(), bytes).answer)
}

/// A record of a retired kind is read, and has nothing to change.
pub fn gets_6(image: &mut [u8], bytes: &[u8]) -> Verdict {
    match before(image, bytes) {
        Some(0 | 3..) => Verdict::new(6, 255),
        _ => BYTES.judge(image, bytes),
    }
}

/// The causes 3 and 5 of a retired kind come before it is refused.
pub fn looked_at(image: &mut [u8], bytes: &[u8]) -> Verdict {
    match before(image, bytes) {
        Some(cause @ (3 | 5)) => Verdict::new(cause, 255),
        _ => BYTES.judge(image, bytes),
    }
}

/// The AID of a record of a retired kind is handed back.
pub fn aid(record: &[u8]) -> &[u8] {
    Bytes(Rules::R_1).aid(record)
}

/// The needs on a card are dropped with the first record that changes something.
pub fn needs_dropped(image: &mut [u8], bytes: &[u8]) -> Verdict {
    let verdict = BYTES.judge(image, bytes);
    if let (0, Some(mut tables)) = (verdict.answer, Tables::in_force(image)) {
        tables.needs.clear();
        image.copy_from_slice(&tables.write(in_force(image)));
    }
    verdict
}

/// The needs on a card keep nothing there.
pub fn not_in_force(image: &mut [u8], bytes: &[u8]) -> Verdict {
    let verdict = BYTES.judge(image, bytes);
    let Some(mut tables) = Tables::in_force(image).filter(|_| verdict.answer == 9) else { return verdict };
    tables.needs.clear();
    let mut without = tables.write(in_force(image));
    let other = BYTES.judge(&mut without, bytes);
    if other.answer == 0 {
        image.copy_from_slice(&without);
    }
    other
}

/// A need stays when its call goes.
pub fn outlives_call(image: &mut [u8], bytes: &[u8]) -> Verdict {
    tables_after(6, image, bytes, |_, before, after| {
        after.needs.clone_from(&before.needs);
        Ok(())
    })
}

/// A need stays when the next whole contract has its call.
pub fn outlives_contract(image: &mut [u8], bytes: &[u8]) -> Verdict {
    tables_after(11, image, bytes, |number, before, after| {
        let stays = before.needs.iter().filter(|need| need.caller == number && after.calls.contains(need));
        let stays: Vec<_> = stays.filter(|need| !after.needs.contains(need)).copied().collect();
        after.needs.extend(stays);
        Ok(())
    })
}

/// A contract is read out without its needs.
pub fn not_read_out(image: &[u8], number: u32, out: &mut [u8]) -> Verdict {
    let mut whole = [0; LONGEST_LARGE_RECORD];
    let verdict = BYTES.read_out(image, number, &mut whole);
    let Some(mut record) = record::read(in_force(image), &whole[..verdict.second as usize]) else { return verdict };
    if let Change::Load(lists) = &mut record.change {
        lists.needs.clear();
    }
    let bytes = encode::bytes(in_force(image).sizes, &record);
    match out.get_mut(..bytes.len()) {
        Some(place) => place.copy_from_slice(&bytes),
        None => return Verdict::new(12, 0),
    }
    Verdict::new(0, bytes.len() as u32)
}
