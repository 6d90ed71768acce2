//! The pairs (kind, answer) that the paper makes possible, and a count of those seen.

use crate::rules::Rules;
use std::collections::BTreeMap;
use std::fmt;

/// The fourth byte of a record, as far as the paper knows it.
#[derive(Clone, Copy, Debug, PartialEq, Eq, PartialOrd, Ord)]
pub enum Kind {
    Known(u8),
    /// 0, or above 11.
    Unknown,
    /// The record has fewer than four bytes.
    Missing,
}

impl Kind {
    pub fn of(record: &[u8]) -> Kind {
        match record.get(3) {
            Some(&kind @ 1..=11) => Kind::Known(kind),
            Some(_) => Kind::Unknown,
            None => Kind::Missing,
        }
    }
}

impl fmt::Display for Kind {
    fn fmt(&self, f: &mut fmt::Formatter) -> fmt::Result {
        match self {
            Kind::Known(kind) => write!(f, "{kind}"),
            Kind::Unknown => write!(f, "unknown"),
            Kind::Missing => write!(f, "none"),
        }
    }
}

/// Each kind with the answers that judging a record of it can give by the rules of some time.
///
/// For every kind: 1 on an image that is not sound, 2 for a record that cannot be read. 12 is for
/// reading out alone. 3 needs a second AID or a list, which kinds 2 and 4 have not. 4 is for loads
/// and 5 for all others. 6 is for updates, kinds 3 to 10. 7 is for what takes a number, kinds 1
/// and 3; the services of kind 11 always find theirs. The card is lawful and within
/// its limits before the change, so for 8 to 11 the change itself must be able to bring the cause
/// about.
const ANSWERS: [(Kind, &[u32]); 13] = [
    // A load can bring any of the four about.
    (Kind::Known(1), &[0, 1, 2, 3, 4, 7, 8, 9, 10, 11]),
    // Calls of others on the package become unmet (9, 10) and grants to it wait (11). The met
    // calls that stay are those that were granted: no 8.
    (Kind::Known(2), &[0, 1, 2, 5, 9, 10, 11]),
    // Unmet calls on the service become met, so they need a grant (8) and are fewer (no 10); its
    // grants to others that are not installed wait (11). No service goes: no 9.
    (Kind::Known(3), &[0, 1, 2, 3, 5, 6, 7, 8, 11]),
    // Calls on the service become unmet (9, 10), and its grants wait (11; before R-2 they went). No call on it is met any
    // longer: no 8.
    (Kind::Known(4), &[0, 1, 2, 5, 6, 9, 10, 11]),
    // The new call is met and may lack its grant (8), or it is unmet (10). Needs and grants stay.
    (Kind::Known(5), &[0, 1, 2, 3, 5, 6, 8, 10]),
    // A call goes, with its need: nothing can come about.
    (Kind::Known(6), &[0, 1, 2, 3, 5, 6]),
    // One more grant, which may wait (11), as that of a service not provided does since R-2. Calls and needs stay.
    (Kind::Known(7), &[0, 1, 2, 3, 5, 6, 11]),
    // A met call may lose its grant (8).
    (Kind::Known(8), &[0, 1, 2, 3, 5, 6, 8]),
    // The need may be on an unmet call (9). Calls and grants stay. Since R-13 the kind is retired, and so is the next.
    (Kind::Known(9), &[0, 1, 2, 3, 5, 6, 9]),
    // A need goes: nothing can come about.
    (Kind::Known(10), &[0, 1, 2, 3, 5, 6]),
    // A whole contract can bring any of the four about, as a load. Before R-1 the kind was not known.
    (Kind::Known(11), &[0, 1, 2, 3, 5, 8, 9, 10, 11]),
    (Kind::Unknown, &[1, 2]),
    (Kind::Missing, &[1, 2]),
];

/// Whether judging a record of the kind by the rules can give the answer.
pub fn possible(rules: Rules, kind: Kind, answer: u32) -> bool {
    let listed = ANSWERS.iter().any(|(known, answers)| *known == kind && answers.contains(&answer));
    let in_time = match kind {
        Kind::Known(4) if answer == 11 => rules.early_grants,
        Kind::Known(kind) if !rules.reads(kind) => matches!(answer, 1 | 2),
        _ => true,
    };
    listed && in_time
}

/// The pairs of the rules of some time.
fn listed() -> impl Iterator<Item = (Kind, u32)> {
    ANSWERS.iter().flat_map(|(kind, answers)| answers.iter().map(|answer| (*kind, *answer)))
}

/// The pairs that the rules make possible.
pub fn all(rules: Rules) -> impl Iterator<Item = (Kind, u32)> {
    listed().filter(move |(kind, answer)| possible(rules, *kind, *answer))
}

/// The pairs that earlier rules had, and those in force have no longer.
pub fn gone() -> impl Iterator<Item = (Kind, u32)> {
    listed().filter(|(kind, answer)| !possible(Rules::IN_FORCE, *kind, *answer))
}

/// How often each pair was seen.
#[derive(Default)]
pub struct Pairs(BTreeMap<(Kind, u32), u64>);

impl Pairs {
    pub fn count(&mut self, kind: Kind, answer: u32) {
        *self.0.entry((kind, answer)).or_default() += 1;
    }

    pub fn seen(&self, kind: Kind, answer: u32) -> u64 {
        self.0.get(&(kind, answer)).copied().unwrap_or(0)
    }

    /// How many records were seen.
    pub fn total(&self) -> u64 {
        self.0.values().sum()
    }

    /// How many of some pairs were seen, and how many there are.
    pub fn coverage(&self, pairs: impl Iterator<Item = (Kind, u32)>) -> (usize, usize) {
        let (seen, missing): (Vec<_>, Vec<_>) = pairs.partition(|(kind, answer)| self.seen(*kind, *answer) > 0);
        (seen.len(), seen.len() + missing.len())
    }

    /// Those of some pairs that were never seen.
    pub fn missing(&self, pairs: impl Iterator<Item = (Kind, u32)>) -> Vec<(Kind, u32)> {
        pairs.filter(|(kind, answer)| self.seen(*kind, *answer) == 0).collect()
    }
}

impl fmt::Display for Pairs {
    /// A row for each kind and a column for each answer; `-` where the rules in force have no such pair.
    fn fmt(&self, f: &mut fmt::Formatter) -> fmt::Result {
        write!(f, "{:>8}", "kind")?;
        (0..=11).try_for_each(|answer| write!(f, "{answer:>7}"))?;
        for (kind, _) in ANSWERS {
            write!(f, "\n{:>8}", kind.to_string())?;
            for answer in 0..=11 {
                match possible(Rules::IN_FORCE, kind, answer) {
                    true => write!(f, "{:>7}", self.seen(kind, answer))?,
                    false => write!(f, "{:>7}", "-")?,
                }
            }
        }
        Ok(())
    }
}

#[cfg(test)]
mod tests {
    use super::*;

    #[test]
    fn kinds_are_told_apart() {
        assert_eq!(Kind::of(&[0, 4, 1, 11]), Kind::Known(11));
        assert_eq!(Kind::of(&[0, 4, 1, 12]), Kind::Unknown);
        assert_eq!(Kind::of(&[0, 4, 1, 0]), Kind::Unknown);
        assert_eq!(Kind::of(&[0, 3, 1]), Kind::Missing);
    }

    #[test]
    fn what_was_counted_is_not_missing() {
        let (mut pairs, all) = (Pairs::default(), || all(Rules::IN_FORCE));
        assert_eq!(pairs.coverage(all()), (0, 79));
        pairs.count(Kind::Known(2), 11);
        pairs.count(Kind::Known(10), 6);
        assert_eq!((pairs.coverage(all()), pairs.coverage(gone())), ((1, 79), (1, 9)));
        assert!(!pairs.missing(all()).contains(&(Kind::Known(2), 11)));
        assert!(!pairs.missing(gone()).contains(&(Kind::Known(10), 6)));
    }

    #[test]
    fn what_is_possible_goes_by_the_rules() {
        let possible = |rules, kind, answer| possible(rules, Kind::Known(kind), answer);
        assert!(possible(Rules::IN_FORCE, 2, 11) && possible(Rules::R_2, 4, 11) && !possible(Rules::R_2, 5, 11));
        assert!(possible(Rules::R_7, 2, 11) && !possible(Rules::R_7, 4, 11));
        let answers = |rules, kind| (0..=12).filter(|answer| possible(rules, kind, *answer)).collect::<Vec<_>>();
        assert_eq!(answers(Rules::R_1, 11), [0, 1, 2, 3, 5, 8, 9, 10, 11]);
        assert_eq!(answers(Rules::R_2, 11), [1, 2]);
        assert_eq!([9, 10].map(|kind| answers(Rules::R_1, kind).len()), [7, 6]);
        assert_eq!([9, 10].map(|kind| answers(Rules::R_13, kind)), [[1, 2]; 2]);
        assert_eq!(Rules::ALL.map(|rules| all(rules).count()), [80, 80, 81, 88, 79]);
    }
}
