//! A nearly full card to time records on: all packages, each naming services of the others, and in each list all rows
//! but one. AIDs are as long as they may be, and differ at the end.

use crate::card::{Bytes, Card};
use crate::machine::Aid;
use crate::rules::{Rules, Sizes};
use crate::tables::Form;
use crate::write::{Row, Tokens, Writer};
use std::ops::Range;

/// Called by every package that is granted it, and needed.
const NEEDED: Tokens = (0, 0);
/// Not provided by package 0, but called by package 1, and granted to it.
const WISHED: Tokens = (9, 9);

/// A record that the card accepts, and the image to judge it on.
pub struct Timed {
    pub kind: u8,
    pub name: &'static str,
    /// The operations that the report's Table 8 counts for it, which has no kind 11.
    pub operations: Option<u32>,
    pub image: Vec<u8>,
    pub record: Vec<u8>,
}

/// On the small card.
pub fn timed() -> Vec<Timed> {
    timed_on(&Sizes::SMALL)
}

/// One record of each kind that is read, on the card of these sizes. A load is judged on the card without its last package; each
/// other record on the whole card. Kinds 5 to 8 change a list's end or its first row.
pub fn timed_on(sizes: &'static Sizes) -> Vec<Timed> {
    // By the last rules that have kind 9: images are what they were.
    let (card, write) = (FullCard { rules: Rules::R_1.on(sizes) }, Writer(sizes));
    let before = card.without_last();
    let full = card.with_last(before.clone());
    let own = package(0);
    let callers: Vec<Vec<u8>> = (1..=card.last()).map(package).chain([stranger(99)]).collect();
    let on_full = |kind, name, operations, record| Timed { kind, name, operations, image: full.clone(), record };
    vec![
        Timed { kind: 1, name: "load", operations: Some(7032), image: before, record: card.load_last() },
        on_full(2, "remove", Some(9554), write.remove(&package(card.last()))),
        on_full(3, "add service", Some(117), write.add_service(&own, WISHED, &callers)),
        on_full(4, "remove service", Some(508), write.remove_service(&own, card.lonely())),
        on_full(5, "add call", Some(76), write.update(5, &own, &stranger(98), NEEDED)),
        on_full(6, "remove call", Some(70), write.update(6, &own, &stranger(0), NEEDED)),
        on_full(7, "add grant", Some(61), write.update(7, &own, &stranger(99), NEEDED)),
        on_full(8, "remove grant", Some(66), write.update(8, &own, &stranger(10), NEEDED)),
        on_full(11, "replace", None, card.new_release()),
    ]
}

/// The whole card as an image of version 01, to convert.
pub fn old_card() -> Vec<u8> {
    let card = FullCard { rules: Rules::R_7 };
    card.with_last(card.without_last())
}

fn package(number: u8) -> Vec<u8> {
    longest_aid(0xF0, number)
}

/// An AID that is not installed.
fn stranger(number: u8) -> Vec<u8> {
    longest_aid(0xEE, number)
}

fn longest_aid(first: u8, last: u8) -> Vec<u8> {
    [vec![first; *Aid::LENGTHS.end() - 1], vec![last]].concat()
}

/// A nearly full card by these rules, which have kind 9, and of their sizes.
struct FullCard {
    rules: Rules,
}

impl FullCard {
    fn write(&self) -> Writer {
        Writer(self.rules.sizes)
    }

    /// The package that kinds 1 and 2 load and remove.
    fn last(&self) -> u8 {
        self.rules.sizes.packages as u8 - 1
    }

    /// How many services a package may have.
    fn services(&self) -> u8 {
        self.rules.sizes.services as u8
    }

    /// Of a package's services, called by package 1 alone, and needed by none.
    fn lonely(&self) -> Tokens {
        (0, self.services() - 2)
    }

    /// All services but one each, tokens 0, 0 and on.
    fn provided(&self) -> Vec<Tokens> {
        (0..self.services() - 1).map(|method| (0, method)).collect()
    }

    /// The card without its last package. Of as many services as it may have, each grants all but two to each other, calls a half
    /// and needs a quarter; it calls a service of the last package, which is unmet, and grants that package one of its own,
    /// which waits. As many rows and one more in each list stay when the last package comes; one is a grant that waits for its
    /// service, where the rules have such. Kind 9 sets the needs.
    fn without_last(&self) -> Vec<u8> {
        let (write, last, services) = (self.write(), self.last(), self.services());
        let each = || 0..last;
        let pairs =
            || each().flat_map(move |own| each().filter(move |other| *other != own).map(move |other| (own, other)));
        let mut records: Vec<Vec<u8>> =
            each().map(|own| write.load(&package(own), &self.provided(), &[], &[], &[])).collect();
        for (kind, methods) in [(7, services - 2), (5, services / 2), (9, services / 4)] {
            for (own, other) in pairs() {
                let updates =
                    (0..methods).map(|method| write.update(kind, &package(own), &package(other), (0, method)));
                records.extend(updates);
            }
        }
        records.push(write.update(7, &package(0), &package(1), self.lonely()));
        records.push(write.update(5, &package(1), &package(0), self.lonely()));

        records.extend(each().map(|own| write.update(5, &package(own), &stranger(own), NEEDED)));
        records.extend(each().map(|own| write.update(5, &package(own), &package(last), NEEDED)));
        records.push(write.update(5, &package(1), &package(0), WISHED));

        records.extend(each().map(|own| write.update(7, &package(own), &stranger(10 + own), NEEDED)));
        records.extend(each().map(|own| write.update(7, &package(own), &package(last), NEEDED)));
        records.push(match self.rules.early_grants {
            true => write.update(7, &package(0), &package(1), WISHED),
            false => write.update(7, &package(0), &stranger(10), self.lonely()),
        });

        let (card, mut image) = (Bytes(self.rules), vec![0; Form::of(self.rules).size]);
        card.empty(&mut image);
        for record in records {
            assert_eq!(card.judge(&mut image, &record).answer, 0);
        }
        image
    }

    fn with_last(&self, mut image: Vec<u8>) -> Vec<u8> {
        assert_eq!(Bytes(self.rules).judge(&mut image, &self.load_last()).answer, 0);
        image
    }

    /// The last package: a call met and one unmet, a grant used and one waiting, for each other one.
    fn load_last(&self) -> Vec<u8> {
        let last = self.last();
        let rows = |strangers: u8| -> Vec<Row> {
            let others = (0..last).map(|other| (package(other), NEEDED));
            others.chain((0..last).map(|n| (stranger(strangers + n), NEEDED))).collect()
        };
        let (calls, grants) = (rows(20), rows(30));
        self.write().load(&package(last), &self.provided(), &calls, &grants, &calls[..usize::from(last)])
    }

    /// The whole contract of package 0's next release. Of its services two go, one of which package 1 calls, and two come, one of
    /// which package 1 has called already; the calls on each other package are others than before, and so are the needs. Both
    /// lists pass their limit on the way, and end there.
    fn new_release(&self) -> Vec<u8> {
        let (last, half, quarter) = (self.last(), self.services() / 2, self.services() / 4);
        let others = || 1..last;
        let rows = |methods: Range<u8>| -> Vec<Row> {
            others().flat_map(|other| methods.clone().map(move |method| (package(other), (0, method)))).collect()
        };
        let goes = |service: &Tokens| [(0, half), self.lonely()].contains(service);
        let stay = self.provided().into_iter().rev().filter(|service| !goes(service));
        let provides: Vec<Tokens> = [WISHED, (9, 8)].into_iter().chain(stay).collect();
        let unmet = vec![(package(last), NEEDED), (stranger(0), NEEDED), (stranger(50), NEEDED)];
        let calls = [rows(1..half + 1), unmet].concat();
        let waiting = [(stranger(40), NEEDED), (stranger(41), WISHED), (package(2), (9, 7))];
        let grants = [rows(0..half), vec![(package(last), NEEDED), (package(1), WISHED)], waiting.to_vec()].concat();
        self.write().replace(&package(0), &provides, &calls, &grants, &rows(1..quarter + 1))
    }
}

#[cfg(test)]
mod tests {
    use super::*;
    use crate::card::{linked, Verdict, BYTES, IMAGE, LARGE_IMAGE};
    use crate::machine::Row;
    use crate::tables::{self, Tables};

    /// How many packages, unmet calls and waiting grants a card has.
    fn filled(rules: Rules, image: &[u8]) -> [usize; 3] {
        let tables = Tables::of(rules, image).expect("a sound image");
        [tables.packages.iter().flatten().count(), tables.unmet.len(), tables.waiting.len()]
    }

    #[test]
    fn the_card_is_nearly_full() {
        for (sizes, timed) in
            Sizes::ALL.into_iter().flat_map(|sizes| timed_on(sizes).into_iter().map(move |t| (sizes, t)))
        {
            let (image, rules) = (&timed.image, Rules::IN_FORCE.on(sizes));
            let packages = if timed.kind == 1 { sizes.packages - 1 } else { sizes.packages };
            assert_eq!(filled(rules, image), [packages, sizes.listed - 1, sizes.listed - 1]);
            let card = tables::contracts(rules, image).expect("a sound image");
            let early = |(callee, grant): &(&Aid, &Row)| !card.contracts[*callee].provides.contains(&grant.tokens);
            assert_eq!(card.waiting().filter(early).count(), 1);
            for (aid, contract) in &card.contracts {
                assert_eq!(contract.provides.len(), sizes.services - 1);
                let others = card.contracts.keys().filter(|other| *other != aid);
                let names = |other| contract.calls.iter().chain(&contract.grants).any(|row| row.other == other);
                assert!(others.copied().all(names), "{aid:?} names every other package");
            }
        }
    }

    /// So that counts of instructions compare with those from before there was a large card.
    #[test]
    fn the_small_card_is_what_it_was() {
        let timed = timed().into_iter().flat_map(|timed| [timed.image, timed.record]);
        let bytes: Vec<u8> = timed.chain([old_card()]).flatten().collect();
        assert_eq!(
            bytes.iter().fold(0u64, |sum, byte| sum.wrapping_mul(31).wrapping_add(u64::from(*byte))),
            14_175_110_849_792_422_193
        );
    }

    #[test]
    fn the_new_release_passes_the_limits_on_the_way() {
        for sizes in Sizes::ALL {
            let timed = timed_on(sizes).pop().expect("a replaced contract");
            let (mut image, rules) = (timed.image, Rules::IN_FORCE.on(sizes));
            assert_eq!(BYTES.judge(&mut image, &timed.record), Verdict::new(0, 0));
            assert_eq!(filled(rules, &image), [sizes.packages, sizes.listed, sizes.listed]);
            let services = &image[Form::of(rules).tokens..][..2 * sizes.services];
            let half = sizes.services;
            assert_eq!((&services[half..half + 2], &services[2 * half - 4..]), (&[9, 9][..], &[9, 8, 0, 0][..]));
        }
    }

    #[test]
    fn the_old_card_is_converted_and_the_full_one_enlarged() {
        let (old, sizes) = (old_card(), &Sizes::SMALL);
        assert_eq!(filled(Rules::R_7, &old), [sizes.packages, sizes.listed - 1, sizes.listed - 1]);
        for card in linked() {
            assert_eq!(card.convert(&old, &mut [0; IMAGE]).answer, 0);
            assert_eq!(card.enlarge(&timed()[1].image, &mut [0; LARGE_IMAGE]).answer, 0);
        }
    }

    #[test]
    fn every_record_is_accepted() {
        for sizes in Sizes::ALL {
            for (timed, kind) in timed_on(sizes).into_iter().zip([1, 2, 3, 4, 5, 6, 7, 8, 11]) {
                assert_eq!((timed.kind, timed.record[3]), (kind, kind));
                for card in linked() {
                    assert_eq!(card.judge(&mut timed.image.clone(), &timed.record).answer, 0, "{}", timed.name);
                }
            }
        }
    }
}
