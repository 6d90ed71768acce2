//! Both halves on the large card, at its limits, and over the conversion from the small one.

use crate::bytes::{self, layout::Version};
use crate::machine::{self, Machine};
use crate::rules::{Rules, Sizes};

const SIZE: usize = bytes::layout::Version03::SIZE;
const RULES: Rules = Rules::IN_FORCE.on(&Sizes::LARGE);

fn record(kind: u8, parts: &[&[u8]]) -> Vec<u8> {
    let rest = parts.concat();
    let [high, low] = (rest.len() as u16 + 4).to_be_bytes();
    [&[high, low, 2, kind][..], &rest].concat()
}

fn aid(package: u8) -> [u8; 6] {
    [5, 0xF0, 0, 0, 0, package]
}

/// A load with so many services, and calls on a package that is never loaded.
fn load(package: u8, services: u8, calls: u16) -> Vec<u8> {
    let provides: Vec<u8> = (0..services).flat_map(|method| [0, method]).collect();
    let rows: Vec<u8> = (0..calls).flat_map(|n| [&aid(99)[..], &[(n / 100) as u8, (n % 100) as u8]].concat()).collect();
    record(1, &[&aid(package), &[services], &provides, &calls.to_be_bytes(), &rows, &[0, 0], &[0, 0]])
}

/// Kinds 5 to 8.
fn update(kind: u8, package: u8, other: u8, method: u8) -> Vec<u8> {
    record(kind, &[&aid(package), &aid(other), &[0, method]])
}

/// The image and the contracts, judged side by side.
struct Card(Vec<u8>, Machine);

impl Card {
    fn judge(&mut self, record: &[u8]) -> (u32, u32) {
        let verdict = bytes::judge(Rules::IN_FORCE, &mut self.0, record);
        assert_eq!(verdict.0, self.1.judge(RULES, record));
        assert_eq!(bytes::check(Rules::IN_FORCE, &self.0), (0, self.1.contracts.len() as u32));
        verdict
    }

    /// Every contract reads out as the machine holds it.
    fn read_out(&self) {
        let mut out = vec![0; 15_564];
        for number in 0..self.1.contracts.len() {
            let (answer, length) = bytes::read_out(Rules::IN_FORCE, &self.0, number as u32, &mut out);
            let read = machine::record::read(RULES, &out[..length as usize]).expect("a record");
            let machine::Change::Load(lists) = &read.change else { panic!("a load") };
            assert_eq!((answer, Some(&lists.contract())), (0, self.1.contracts.get(&read.aid)));
        }
    }
}

#[test]
fn the_large_card_is_filled() {
    let mut card = Card(vec![0; SIZE], Machine::default());
    assert_eq!((bytes::empty(Rules::IN_FORCE, &mut card.0), SIZE), ((0, 0), 3639));
    assert_eq!(card.0[..4], [0x0E, 0x37, 0x03, 0]);
    // 17 services, 273 calls, 33 unmet calls, 17 packages.
    assert_eq!([load(0, 17, 0), load(0, 0, 273), load(0, 0, 33)].map(|bad| card.judge(&bad).0), [2, 2, 10]);
    assert!((0..16).all(|n| card.judge(&load(n, 16, if n < 2 { 16 } else { 0 })) == (0, n.into())));
    assert_eq!([load(16, 0, 0), update(5, 15, 99, 0)].map(|more| card.judge(&more).0), [7, 10]);
    assert_eq!(card.judge(&record(3, &[&aid(15), &[1, 0], &[0]])).0, 7);
    // The last service of each package, granted to each other and called.
    for (own, other) in
        (0..16).flat_map(|own| (0..16).map(move |other| (own, other))).filter(|(own, other)| own != other)
    {
        assert_eq!([update(5, other, own, 15), update(7, own, other, 15)].map(|row| card.judge(&row).0), [8, 0]);
        assert_eq!(card.judge(&update(5, other, own, 15)), (0, other.into()));
    }
    card.read_out();
    // A package goes: of the unmet calls its own 16 go, and 15 on it come.
    assert_eq!([15, 1, 15].map(|n| card.judge(&record(2, &[&aid(n)]))), [(10, 255), (0, 1), (10, 255)]);
    assert_eq!([load(1, 16, 0), load(1, 15, 0)].map(|back| card.judge(&back)), [(8, 255), (0, 1)]);
    card.read_out();
}

/// "A converter carries sound version 02 images over with contracts, numbers and list order kept, into a buffer of that size,
/// else 1."
#[test]
fn a_small_card_is_enlarged_and_goes_on() {
    let small = Rules::IN_FORCE;
    let load = |package: u8, calls: u8| {
        let rows: Vec<u8> = (0..calls).flat_map(|n| [&aid(99)[..], &[0, n]].concat()).collect();
        let mut load = record(1, &[&aid(package), &[1, 0, package], &[calls], &rows, &[0, 0]]);
        load[2] = 1;
        load
    };
    let (mut image, mut machine) = (vec![0; 1110], Machine::default());
    bytes::empty(small, &mut image);
    for (package, calls) in [(0, 0), (1, 16), (2, 0)] {
        assert_eq!(
            bytes::judge(small, &mut image, &load(package, calls)),
            (machine.judge(small, &load(package, calls)), package.into())
        );
    }
    for size in [0, 1110, SIZE - 1, SIZE + 1] {
        let mut other = vec![0xA5; size];
        assert_eq!((bytes::enlarge(&image, &mut other), other), ((1, 255), vec![0xA5; size]));
    }
    let mut card = Card(vec![0xA5; SIZE], machine);
    assert_eq!(bytes::enlarge(&image, &mut card.0), (0, 0));
    card.read_out();
    // A record of the other card's version; a 17th unmet call, which fits now.
    assert_eq!([load(3, 0), update(5, 1, 99, 16)].map(|record| card.judge(&record)), [(2, 255), (0, 1)]);
    let mut again = card.0.clone();
    assert_eq!((bytes::enlarge(&card.0, &mut again), again), ((1, 255), card.0));
}
