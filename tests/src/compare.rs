//! What is compared after each record: the plain machine, the byte engine, and every other engine.

use crate::card::{longest_record, Card, Verdict, IMAGE, LARGE_IMAGE, LONGEST_LARGE_RECORD, OLD_IMAGE, ON_LARGE};
use crate::conditions::{Conditions, Outcome};
use crate::damage::Damage;
use crate::early::Early;
use crate::encode;
use crate::hex::to_hex;
use crate::history::Event;
use crate::large::Large;
use crate::machine::record::{self, Lists};
use crate::machine::{Change, Contract, Machine, Record};
use crate::methods::{self, Held, Place};
use crate::pairs::{possible, Kind, Pairs};
use crate::random::Random;
use crate::replace::Replaced;
use crate::retired::{OldNeeds, Retired};
use crate::rules::{Rules, Sizes};
use crate::tables::{self, Tables};
use crate::watched::{turns, Seen};
use crate::write::{self, Writer};
use std::collections::{BTreeMap, BTreeSet};
use std::fmt;
use std::hint::black_box;

/// A difference in words, and the damage to the image that showed it.
pub struct Difference {
    pub words: String,
    pub damage: Damage,
}

impl fmt::Display for Difference {
    fn fmt(&self, f: &mut fmt::Formatter) -> fmt::Result {
        match self.damage.0.is_empty() {
            true => write!(f, "{}", self.words),
            false => write!(f, "with damage {}: {}", self.damage.to_text(), self.words),
        }
    }
}

impl From<String> for Difference {
    fn from(words: String) -> Difference {
        Difference { words, damage: Damage::default() }
    }
}

macro_rules! expect {
    ($holds:expr, $($words:tt)*) => {
        if !$holds {
            return Err(format!($($words)*));
        }
    };
}

/// What a buffer holds before an engine gets it.
const FILL: [u8; LONGEST_LARGE_RECORD] = [0xA5; LONGEST_LARGE_RECORD];

/// Of the records that are judged by the rules in force, so many in a hundred are followed by a pair of cards, by R-6.
const WATCHED: usize = 5;

/// What a run has seen on the small card.
#[derive(Default)]
pub struct Tally {
    /// The same of the large card.
    pub large: Option<Box<Tally>>,
    pub records: u64,
    pub pairs: Pairs,
    /// By the rules before the last change.
    pub pairs_before: Pairs,
    pub contracts_read: u64,
    pub damaged_sound: u64,
    pub damaged_unsound: u64,
    /// Records after which the card had one less than the most unmet calls, and the most; and of waiting grants the same.
    pub unmet: [u64; 2],
    pub waiting: [u64; 2],
    /// Records after which every package number was used, and after which a package had all its services.
    pub all_packages: u64,
    pub all_services: u64,
    /// Records before a change of the rules, which are not among `records`.
    pub before: u64,
    /// Histories over the last change: those whose card then holds what the rules in force exclude, those whose card goes
    /// on, and among these those whose card held such a thing before.
    pub left_out: u64,
    pub gone_on: u64,
    pub cleared: u64,
    /// Images of version 01, damaged or not: those that are converted, and those that are refused.
    pub converted: u64,
    pub not_converted: u64,
    /// Images of version 02 and of earlier ones, damaged or not: those that are enlarged, and those that are refused.
    pub enlarged: u64,
    pub not_enlarged: u64,
    /// Records of the other card's version, which that card reads.
    pub of_other: u64,
    /// What R-9 has on the large card.
    pub on_large: BTreeMap<Large, u64>,
    /// What R-2 brought about in accepted records, and what R-1 did.
    pub early: BTreeMap<Early, u64>,
    pub replaced: BTreeMap<Replaced, u64>,
    /// Records of kind 11 before R-1's rules, which the rules in force would read.
    pub too_early: u64,
    /// What R-13 has left, in records since.
    pub retired: BTreeMap<Retired, u64>,
    /// Loads that are free of causes 2 to 7, by R-3.
    pub loads: BTreeMap<Outcome, u64>,
    /// Records of one package on pairs of cards that are alike for it, by R-6.
    pub watched: Seen,
    /// By their places in records: method tokens of 127 that are read, and of 128 where nothing else is wrong.
    pub methods: BTreeMap<Place, [u64; 2]>,
    /// By their places in images: method tokens that damage sets to 127 on an image that stays sound, and to 128.
    pub methods_held: BTreeMap<Held, [u64; 2]>,
}

impl Tally {
    /// What is seen of the large card.
    pub fn of_large(&mut self) -> &mut Tally {
        self.large.get_or_insert_default()
    }
}

/// One card in every engine, and the machine beside them.
#[derive(Clone)]
pub struct Compare<'a> {
    /// The engines that judge by the rules in force.
    linked: &'a [&'a dyn Card],
    /// Those that judge by the rules of the time: before the last change, the byte engine alone, and faults of the time.
    cards: Vec<&'a dyn Card>,
    /// How many changes of the rules are to come.
    ahead: usize,
    /// The sizes of the card.
    sizes: &'static Sizes,
    /// Whether the card was enlarged with contracts on it.
    carried_over: bool,
    /// Whether the card held, at a change, what the new rules exclude. It is unsound from then on.
    pub left_out: bool,
    /// Whether the card ever held, before a change, what the rules in force exclude.
    held_excluded: bool,
    /// The needs on the card that kind 9 set.
    old_needs: OldNeeds,
    pub machine: Machine,
    /// The image, the same in every engine. It has the version of the rules, but for a card left out before it was converted.
    pub image: Vec<u8>,
    seed: u64,
    /// So many records in a hundred are followed by a pair of cards.
    pub watched: usize,
}

impl<'a> Compare<'a> {
    /// An empty card, by the rules in force.
    pub fn new(cards: &'a [&'a dyn Card], seed: u64) -> Result<Compare<'a>, String> {
        Compare::before(cards, seed, 0)
    }

    /// An empty card, by the rules before the last so many changes.
    pub fn before(linked: &'a [&'a dyn Card], seed: u64, changes: usize) -> Result<Compare<'a>, String> {
        let most = Rules::CHANGES;
        expect!(changes <= most, "a history has at most {most} changes of the rules, here are {changes}");
        let cards = engines(linked, changes);
        let image = Tables::empty(Rules::before(changes)).write(Rules::before(changes));
        let compare = Compare {
            linked,
            cards,
            ahead: changes,
            sizes: &Sizes::SMALL,
            carried_over: false,
            left_out: false,
            held_excluded: false,
            old_needs: OldNeeds::default(),
            machine: Machine::default(),
            image,
            seed,
            watched: WATCHED,
        };
        compare.emptied_alike()?;
        Ok(compare)
    }

    /// The rules of the time, on the card.
    fn rules(&self) -> Rules {
        Rules::before(self.ahead).on(self.sizes)
    }

    /// Whether the card is the large one.
    pub fn is_large(&self) -> bool {
        *self.sizes == Sizes::LARGE
    }

    /// The bytes of the card's longest record.
    fn longest_record(&self) -> usize {
        longest_record(self.sizes)
    }

    /// How many package numbers there are.
    fn packages(&self) -> u32 {
        self.rules().sizes.packages as u32
    }

    /// Whether the last change is past.
    pub fn in_force(&self) -> bool {
        self.ahead == 0
    }

    pub fn event(&mut self, event: &Event, tally: &mut Tally) -> Result<(), Difference> {
        match event {
            Event::Record(bytes) => self.step(bytes, tally).map(|_| ()),
            Event::Change => self.change(tally),
            Event::Enlarge => self.enlarge(tally),
        }
    }

    /// R-9's converter takes the card over: every engine has the same large image, which stands for the machine's contracts. A card
    /// that is left out stays as it is. That of no contracts is the empty large image.
    pub fn enlarge(&mut self, tally: &mut Tally) -> Result<(), Difference> {
        if !self.in_force() || self.is_large() {
            return Err("a card is enlarged once, by the rules in force".to_string().into());
        }
        let tables = Tables::of(self.rules(), &self.image);
        let enlarged = self.enlarged_alike(&self.image, tables.as_ref(), tally)?;
        if enlarged.is_none() != self.left_out {
            return Err("the tests' own reader takes another card over than the rules do".to_string().into());
        }
        let Some(image) = enlarged else { return Ok(()) };
        self.sizes = &Sizes::LARGE;
        self.image = image;
        self.carried_over = !self.machine.contracts.is_empty();
        if !self.carried_over {
            self.emptied_alike()?;
        }
        self.gone_over(tally.of_large())
    }

    /// Every engine writes the image into a buffer of its size, as the empty one.
    fn emptied_alike(&self) -> Result<(), String> {
        for card in &self.cards {
            let mut written = FILL[..self.image.len()].to_vec();
            let verdict = card.empty(&mut written);
            expect!(verdict == Verdict::new(0, 0), "{}: writing the empty image gives {verdict:?}", card.name());
            expect!(written == self.image, "{}: the empty image is {}", card.name(), to_hex(&written));
        }
        Ok(())
    }

    /// After a change or a conversion the image is sound and stands for the machine's contracts.
    fn gone_over(&self, tally: &mut Tally) -> Result<(), Difference> {
        if tables::contracts(self.rules(), &self.image).as_ref() != Some(&self.machine) {
            return Err("the image stands for other contracts after the change".to_string().into());
        }
        self.check_alike()?;
        Ok(self.read_out_alike(&mut Random::of_bytes(self.seed, &self.image), tally)?)
    }

    /// The next rules come into force: their engines get the image's bytes as they are, or as they are converted where the
    /// version changes, and the machine goes on with the contracts it holds. A card with a token that these rules exclude
    /// is unsound from then on, and is not converted.
    pub fn change(&mut self, tally: &mut Tally) -> Result<(), Difference> {
        self.ahead -= 1;
        self.cards = engines(self.linked, self.ahead);
        self.left_out |= !self.machine.keeps_to(self.rules());
        if self.image.len() == OLD_IMAGE && self.rules().early_grants {
            let converted = self.converted_alike(&self.image, &[], tally)?;
            if converted.is_none() != self.left_out {
                return Err("the tests' own reader takes another card over than the rules do".to_string().into());
            }
            self.image = converted.unwrap_or_else(|| self.image.clone());
        }
        if self.left_out {
            self.refused_alike(&[], &mut Pairs::default())?;
        } else {
            self.gone_over(tally)?;
        }
        if self.in_force() {
            *(if self.left_out { &mut tally.left_out } else { &mut tally.gone_on }) += 1;
            tally.cleared += u64::from(self.held_excluded && !self.left_out);
        }
        Ok(())
    }

    /// Judges a record and compares all that the paper determines. Before the last change, judging is compared, also on damaged
    /// images, and what the engines in force make of an image of an earlier version.
    pub fn step(&mut self, bytes: &[u8], tally: &mut Tally) -> Result<Verdict, Difference> {
        let tally = if self.is_large() { tally.of_large() } else { tally };
        let (held, found) = (self.machine.clone(), self.image.clone());
        let pairs = if self.in_force() { &mut tally.pairs } else { &mut tally.pairs_before };
        let verdict = match self.left_out {
            true => self.refused_alike(bytes, pairs)?,
            false => self.judge(bytes, pairs)?,
        };
        self.follow_needs(&held, bytes, verdict, tally);
        let mut random = Random::of_bytes(self.seed, &[&self.image, bytes].concat());
        if !self.in_force() {
            tally.before += 1;
            let replaces = |record: Record| matches!(record.change, Change::Replace(_));
            tally.too_early += u64::from(record::read(Rules::IN_FORCE, bytes).is_some_and(replaces));
            self.held_excluded |= !self.machine.keeps_to(Rules::IN_FORCE);
            self.damaged(&Damage::default(), bytes, tally)?;
            for draw in [Damage::one_byte, Damage::two_bytes] {
                self.damaged(&draw(&self.image, &mut random), bytes, tally)?;
            }
            return Ok(verdict);
        }
        let before = self.image.clone();
        let mut watching = random.apart();
        if !self.left_out {
            if watching.percent(self.watched) {
                turns::compare(&self.cards, &self.image, watching, &mut tally.watched)?;
            }
            self.load_by_conditions(&held, bytes, verdict, tally)?;
            self.check_alike()?;
            self.read_out_alike(&mut random, tally)?;
        }
        self.aid_alike(bytes)?;
        self.other_version_alike(bytes, tally)?;
        let tables = self.small_tables(&self.image);
        self.carried_alike(&self.image, tables.as_ref(), tally)?;
        if *black_box(&self.image) != before {
            return Err("an image that was lent to be read is changed".to_string().into());
        }
        for draw in [Damage::one_byte, Damage::two_bytes, Damage::one_byte, Damage::two_bytes] {
            self.damaged(&draw(&self.image, &mut random), bytes, tally)?;
        }
        self.count(&held, &found, bytes, verdict, tally);
        Ok(verdict)
    }

    /// An image of version 01: every engine in force refuses it at every entry but the converter, which takes it over when
    /// it is sound by the last rules of that version. The new image has the same tables, in the same order.
    fn converted_alike(&self, old: &[u8], bytes: &[u8], tally: &mut Tally) -> Result<Option<Vec<u8>>, String> {
        let converted = Tables::of(Rules::R_7, old).map(|tables| tables.write(Rules::R_2));
        *(if converted.is_some() { &mut tally.converted } else { &mut tally.not_converted }) += 1;
        for card in self.linked {
            unsound(*card, old, bytes)?;
            Converter::Old.takes(*card, old, converted.as_deref())?;
        }
        self.enlarged_alike(old, None, tally)?;
        Ok(converted)
    }

    /// Every engine in force enlarges an image that has these tables by the rules in force; one that has none it refuses.
    fn enlarged_alike(
        &self,
        image: &[u8],
        tables: Option<&Tables>,
        tally: &mut Tally,
    ) -> Result<Option<Vec<u8>>, String> {
        let enlarged = tables.map(|tables| tables.write(ON_LARGE));
        *(if enlarged.is_some() { &mut tally.enlarged } else { &mut tally.not_enlarged }) += 1;
        for card in self.linked {
            Converter::Small.takes(*card, image, enlarged.as_deref())?;
        }
        Ok(enlarged)
    }

    /// What both converters of every engine in force make of an image in the version of its rules: that of the small card is
    /// enlarged, if it has these tables, and else it is refused.
    fn carried_alike(&self, image: &[u8], tables: Option<&Tables>, tally: &mut Tally) -> Result<(), String> {
        self.enlarged_alike(image, tables, tally)?;
        self.linked.iter().try_for_each(|card| Converter::Old.takes(*card, image, None))
    }

    /// The tables of a sound image of the small card, in the version of the rules.
    fn small_tables(&self, image: &[u8]) -> Option<Tables> {
        (image.len() == IMAGE).then(|| Tables::of(self.rules(), image)).flatten()
    }

    /// A card that holds what the rules exclude is refused by every entry, whatever the record is, and left as it was.
    fn refused_alike(&self, bytes: &[u8], pairs: &mut Pairs) -> Result<Verdict, String> {
        let sound = tables::contracts(self.rules(), &self.image).is_some();
        expect!(!sound, "the tests' own reader takes a card for sound that holds what the rules exclude");
        pairs.count(Kind::of(bytes), 1);
        for card in &self.cards {
            unsound(*card, &self.image, bytes)?;
            for number in (0..=self.packages()).chain([255, u32::MAX]) {
                let mut buffer = FILL[..self.longest_record()].to_vec();
                let read = card.read_out(&self.image, number, &mut buffer);
                let refused = read == Verdict::new(1, 0) && FILL.starts_with(&buffer);
                expect!(refused, "{}: reading {number} of the unsound image out gives {read:?}", card.name());
            }
        }
        Ok(Verdict::new(1, 255))
    }

    /// Judges a record. Answers are equal, other engines give what the first gives to the byte, a refusal changes
    /// nothing, and the tables stand for the machine's contracts.
    pub fn judge(&mut self, bytes: &[u8], pairs: &mut Pairs) -> Result<Verdict, String> {
        let before = self.image.clone();
        let answer = self.machine.judge(self.rules(), bytes);
        let kind = Kind::of(bytes);
        pairs.count(kind, answer);
        expect!(possible(self.rules(), kind, answer), "the paper has no answer {answer} to kind {kind}");
        let mut first = None;
        for card in &self.cards {
            let (mut own, lent) = (before.clone(), bytes.to_vec());
            let verdict = card.judge(&mut own, &lent);
            let place = || format!("{}: judging gives {verdict:?}", card.name());
            expect!(*black_box(&lent) == *bytes, "{} and changes the record", place());
            expect!(verdict.answer == answer, "{}, the machine {answer}", place());
            match &first {
                None => {
                    self.image = own;
                    first = Some(verdict);
                }
                Some(given) => {
                    let first = self.cards[0].name();
                    expect!(verdict == *given, "{}, {first} {given:?}", place());
                    let at = (0..own.len()).find(|at| own[*at] != self.image[*at]);
                    expect!(at.is_none(), "{} and another byte {} than {first}", place(), at.unwrap_or(0));
                }
            }
        }
        let verdict = first.ok_or("no engine")?;
        if answer == 0 {
            let named = record::read(self.rules(), bytes).map(|record| record.aid);
            let numbered = if kind == Kind::Known(2) { &before } else { &self.image };
            let numbered = tables::aid_at(self.rules(), numbered, verdict.second);
            expect!(numbered == named, "{verdict:?} has not the package's number");
        } else {
            expect!(verdict.second == 255, "{verdict:?} is a refusal without 255");
            expect!(self.image == before, "{verdict:?} is a refusal that changes the image");
        }
        let stands_for = tables::contracts(self.rules(), &self.image);
        expect!(stands_for.is_some(), "the image is not sound after {verdict:?}");
        let same = stands_for.as_ref() == Some(&self.machine);
        expect!(same, "the image stands for other contracts after {verdict:?}");
        Ok(verdict)
    }

    /// A load that is free of causes 2 to 7 got of every engine what R-3 says, by the contracts that it found.
    fn load_by_conditions(
        &self,
        held: &Machine,
        bytes: &[u8],
        verdict: Verdict,
        tally: &mut Tally,
    ) -> Result<(), String> {
        let Ok(record) = held.to_try(self.rules(), bytes) else { return Ok(()) };
        let Change::Load(lists) = &record.change else { return Ok(()) };
        let conditions = Conditions::of(held, record.aid, &lists.contract());
        let place = || format!("of the report's conditions {conditions}");
        let lawful = held.changed(self.rules(), &record).lawful();
        let state = if lawful { "lawful" } else { "not lawful" };
        expect!(conditions.all_hold() == lawful, "{}, and the card is {state} afterwards", place());
        let answer = verdict.answer;
        expect!(conditions.answers().contains(&answer), "{}, and judging gives {verdict:?}", place());
        *tally.loads.entry(Outcome { conditions, answer }).or_default() += 1;
        Ok(())
    }

    /// The image is sound for every engine, with as many packages as there are contracts.
    fn check_alike(&self) -> Result<(), String> {
        let expected = Verdict::new(0, self.machine.contracts.len() as u32);
        for card in &self.cards {
            let verdict = card.check(&self.image);
            expect!(verdict == expected, "{}: checking the image gives {verdict:?}", card.name());
        }
        Ok(())
    }

    /// Every number reads out as the contract that the machine holds, alike in every engine.
    fn contracts_alike(&self, tally: &mut Tally) -> Result<(), String> {
        for number in 0..self.packages() {
            let used = tables::aid_at(self.rules(), &self.image, number).is_some();
            let first = self.read_out_one(self.cards[0], number, self.longest_record())?;
            for card in &self.cards[1..] {
                let other = self.read_out_one(*card, number, self.longest_record())?;
                expect!(other == first, "{}: package {number} reads out as {}", card.name(), to_hex(&other));
            }
            tally.contracts_read += u64::from(used);
            expect!(used != first.is_empty(), "package {number} reads out as {}", to_hex(&first));
        }
        Ok(())
    }

    /// Numbers read out alike, into buffers of every sort.
    fn read_out_alike(&self, random: &mut Random, tally: &mut Tally) -> Result<(), String> {
        self.contracts_alike(tally)?;
        let packages = self.packages();
        let number = random.below(packages as usize) as u32;
        let whole = self.read_out_one(self.cards[0], number, self.longest_record())?;
        let unused = [packages, packages + 1, 255, 256 + number, 65_536 + number, u32::MAX][random.below(6)];
        let shorter = random.below(whole.len().max(1));
        for card in &self.cards {
            let exact = self.read_out_one(*card, number, whole.len())?;
            expect!(exact == whole, "{}: package {number} reads out into {} bytes", card.name(), whole.len());
            self.read_out_one(*card, unused, self.longest_record())?;
            if !whole.is_empty() {
                for size in [whole.len() - 1, shorter] {
                    let mut buffer = FILL[..size].to_vec();
                    let verdict = card.read_out(&self.image, number, &mut buffer);
                    let refused = verdict == Verdict::new(12, 0) && buffer == FILL[..size];
                    expect!(refused, "{}: reading {number} out into {size} bytes gives {verdict:?}", card.name());
                }
            }
        }
        Ok(())
    }

    /// The record that a number reads out as, into a buffer that is long enough; empty when the
    /// number is not used.
    fn read_out_one(&self, card: &dyn Card, number: u32, size: usize) -> Result<Vec<u8>, String> {
        let mut buffer = FILL[..size].to_vec();
        let verdict = card.read_out(&self.image, number, &mut buffer);
        let place = || format!("{}: reading {number} out gives {verdict:?}", card.name());
        let Some(aid) = tables::aid_at(self.rules(), &self.image, number) else {
            expect!(verdict == Verdict::new(5, 0) && buffer == FILL[..size], "{}, not 5", place());
            return Ok(Vec::new());
        };
        let length = verdict.second as usize;
        expect!(verdict.answer == 0 && length <= size, "{}", place());
        expect!(buffer[length..] == FILL[length..size], "{} and writes past the record", place());
        buffer.truncate(length);
        let Some(read) = record::read(self.rules(), &buffer) else {
            return Err(format!("{} and a malformed record {}", place(), to_hex(&buffer)));
        };
        let Change::Load(lists) = &read.change else {
            return Err(format!("{} and another kind of record {}", place(), to_hex(&buffer)));
        };
        let same = self.machine.contracts.get(&aid).is_some_and(|contract| lists_are(lists, contract));
        expect!(same && read.aid == aid, "{} and another contract {}", place(), to_hex(&buffer));
        Ok(buffer)
    }

    /// "A record of the other card's version gets 2; the AID entry takes both." The record as that card has it; of a malformed one,
    /// the same with the other version.
    fn other_version_alike(&self, bytes: &[u8], tally: &mut Tally) -> Result<(), String> {
        let other = if self.is_large() { &Sizes::SMALL } else { &Sizes::LARGE };
        let of_other = match record::read(self.rules(), bytes) {
            Some(record) => encode::bytes(other, &record),
            None => {
                let mut bytes = bytes.to_vec();
                bytes.iter_mut().skip(2).take(1).for_each(|version| *version = other.record_version);
                bytes
            }
        };
        tally.of_other += u64::from(record::read(self.rules().on(other), &of_other).is_some());
        let expected = Verdict::new(if self.left_out { 1 } else { 2 }, 255);
        for card in &self.cards {
            let mut own = self.image.clone();
            let verdict = card.judge(&mut own, &of_other);
            let place = || format!("{}: judging the other card's {}", card.name(), to_hex(&of_other));
            expect!(verdict == expected && own == self.image, "{} gives {verdict:?}", place());
        }
        self.aid_alike(&of_other)
    }

    /// The first AID's part of the record is where the machine reads it, for either card, or empty.
    fn aid_alike(&self, bytes: &[u8]) -> Result<(), String> {
        let read = Sizes::ALL.into_iter().find_map(|sizes| record::read(self.rules().on(sizes), bytes));
        for card in &self.cards {
            let part = card.aid(bytes);
            let same = match &read {
                Some(read) => part == read.aid.bytes() && std::ptr::eq(part.as_ptr(), &bytes[5]),
                None => part.is_empty(),
            };
            expect!(same, "{}: the AID's part of the record is {}", card.name(), to_hex(part));
        }
        Ok(())
    }

    /// Engines agree on a damaged image, with the tests' own reader and with the machine.
    pub fn damaged_alike(&self, damage: &Damage, bytes: &[u8], tally: &mut Tally) -> Result<(), Difference> {
        self.damaged(damage, bytes, if self.is_large() { tally.of_large() } else { tally })
    }

    /// The same, with what is seen of the card.
    fn damaged(&self, damage: &Damage, bytes: &[u8], tally: &mut Tally) -> Result<(), Difference> {
        let image = damage.done_to(&self.image);
        let outcome = match image.len() {
            OLD_IMAGE => self.converted_alike(&image, bytes, tally).map(|_| ()),
            _ => self.judged_alike(image, damage, bytes, tally),
        };
        outcome.map_err(|words| Difference { words, damage: damage.clone() })
    }

    /// The same of an image of the version in force. What is seen before the last change does not count.
    fn judged_alike(&self, image: Vec<u8>, damage: &Damage, bytes: &[u8], tally: &mut Tally) -> Result<(), String> {
        let mut before = Tally::default();
        let tally = if self.in_force() { tally } else { &mut before };
        let tables = Tables::of(self.rules(), &image);
        let held = self.held_at(damage);
        count_damage(damage, held, tables.is_some(), tally);
        self.carried_alike(&image, tables.as_ref().filter(|_| !self.is_large()), tally)?;
        match tables {
            Some(tables) => {
                let machine = tables.machine();
                let (cards, old_needs) = (self.cards.clone(), OldNeeds::default());
                let mut damaged = Compare { machine, image, cards, old_needs, left_out: false, ..*self };
                let read = if held.is_some() { damaged.contracts_alike(tally) } else { Ok(()) };
                read.and_then(|()| damaged.sound_alike(bytes, tally))
            }
            None => {
                tally.pairs.count(Kind::of(bytes), 1);
                self.cards.iter().try_for_each(|card| unsound(*card, &image, bytes))
            }
        }
    }

    /// A damaged image that is sound is a card like any other.
    fn sound_alike(&mut self, bytes: &[u8], tally: &mut Tally) -> Result<(), String> {
        self.check_alike()?;
        self.judge(bytes, &mut tally.pairs)?;
        self.check_alike()
    }

    /// The part of the image whose method token is the one byte that the damage sets.
    fn held_at(&self, damage: &Damage) -> Option<Held> {
        let [(at, _)] = damage.0[..] else { return None };
        methods::of_image(&self.image).into_iter().find(|(_, place)| *place == at).map(|(held, _)| held)
    }

    /// What a record has shown, by the contracts and the image that it found.
    fn count(&self, held: &Machine, found: &[u8], bytes: &[u8], verdict: Verdict, tally: &mut Tally) {
        tally.records += 1;
        let read = record::read(self.rules(), bytes);
        if let (Some(record), 0) = (&read, verdict.answer) {
            for early in Early::of(held, record) {
                *tally.early.entry(early).or_default() += 1;
            }
            for replaced in self.replaced(record, found, verdict) {
                *tally.replaced.entry(replaced).or_default() += 1;
            }
        }
        let any_method = Rules { most_method: 255, ..self.rules() };
        let but_for_methods = read.is_none() && record::read(any_method, bytes).is_some();
        for (place, at) in methods::of_record(bytes) {
            match bytes[at] {
                127 if read.is_some() => tally.methods.entry(place).or_default()[0] += 1,
                128 if but_for_methods => tally.methods.entry(place).or_default()[1] += 1,
                _ => {}
            }
        }
        if self.is_large() {
            self.count_large(held, bytes, verdict, tally);
        }
        let (unmet, waiting) = (self.machine.unmet().count(), self.machine.waiting().count());
        let sizes = self.sizes;
        for (n, count) in [sizes.listed - 1, sizes.listed].into_iter().enumerate() {
            tally.unmet[n] += u64::from(unmet == count);
            tally.waiting[n] += u64::from(waiting == count);
        }
        let contracts = &self.machine.contracts;
        let all_services = |contract: &Contract| contract.provides.len() == sizes.services;
        tally.all_packages += u64::from(contracts.len() == sizes.packages);
        tally.all_services += u64::from(contracts.values().any(all_services));
    }

    /// What a record has shown on the large card.
    fn count_large(&self, held: &Machine, bytes: &[u8], verdict: Verdict, tally: &mut Tally) {
        let Some(left) = Tables::of(self.rules(), &self.image) else { return };
        let gone_on = (verdict.answer == 0 && self.carried_over).then_some(Large::GoneOn);
        for shown in Large::of(self.rules(), held, bytes, verdict.answer, &left).into_iter().chain(gone_on) {
            *tally.on_large.entry(shown).or_default() += 1;
        }
    }

    /// What becomes of the needs that kind 9 set, and since R-13 of the kind itself and of kind 10.
    fn follow_needs(&mut self, held: &Machine, bytes: &[u8], verdict: Verdict, tally: &mut Tally) {
        let rules = self.rules();
        if !rules.reads(9) && !self.left_out {
            for shown in self.old_needs.show(rules, held, bytes, verdict.answer) {
                *tally.retired.entry(shown).or_default() += 1;
            }
        }
        if verdict.answer == 0 {
            self.old_needs.follow(rules, bytes, &self.machine);
        }
    }

    /// What an accepted record of kind 11 has done to the image that it found.
    fn replaced(&self, record: &Record, found: &[u8], verdict: Verdict) -> Vec<Replaced> {
        let Change::Replace(lists) = &record.change else { return Vec::new() };
        let [before, after] = [found, &self.image].map(|image| Tables::of(self.rules(), image));
        let (Some(before), Some(after)) = (before, after) else { return Vec::new() };
        Replaced::of(record.aid, &lists.provides, verdict.second as usize, [&before, &after], self.sizes.listed)
    }
}

/// The engines that judge before the last so many changes: those that have the rules of then, or after them all those linked.
fn engines<'a>(linked: &'a [&'a dyn Card], changes: usize) -> Vec<&'a dyn Card> {
    match changes {
        0 => linked.to_vec(),
        _ => linked.iter().filter_map(|card| card.before(changes)).collect(),
    }
}

fn count_damage(damage: &Damage, held: Option<Held>, sound: bool, tally: &mut Tally) {
    *(if sound { &mut tally.damaged_sound } else { &mut tally.damaged_unsound }) += 1;
    if let Some(held) = held {
        let counts = tally.methods_held.entry(held).or_default();
        match (damage.0[0].1, sound) {
            (127, true) => counts[0] += 1,
            (128, false) => counts[1] += 1,
            _ => {}
        }
    }
}

/// Whether the lists have the rows of the contract, each once.
fn lists_are(lists: &Lists, contract: &Contract) -> bool {
    fn same<T: Ord + Copy>(list: &[T], set: &BTreeSet<T>) -> bool {
        let mut sorted = list.to_vec();
        sorted.sort();
        sorted.iter().eq(set)
    }
    same(&lists.provides, &contract.provides)
        && same(&lists.calls, &contract.calls)
        && same(&lists.grants, &contract.grants)
        && same(&lists.needs, &contract.needs)
}

/// An image that is not sound is refused by every entry and left as it was.
fn unsound(card: &dyn Card, image: &[u8], bytes: &[u8]) -> Result<(), String> {
    let name = card.name();
    let checked = card.check(image);
    expect!(checked == Verdict::new(1, 255), "{name}: checking the unsound image gives {checked:?}");
    let mut own = image.to_vec();
    let judged = card.judge(&mut own, bytes);
    expect!(judged == Verdict::new(1, 255) && own == image, "{name}: judging on the unsound image gives {judged:?}");
    let mut buffer = [0xA5; 64];
    let read = card.read_out(image, 0, &mut buffer);
    expect!(read == Verdict::new(1, 0) && buffer == [0xA5; 64], "{name}: reading the unsound image out gives {read:?}");
    Ok(())
}

/// The two converters of an engine.
#[derive(Clone, Copy)]
enum Converter {
    /// R-2's, of images of version 01.
    Old,
    /// R-9's, of the small card's.
    Small,
}

impl Converter {
    /// The bytes of the images that it takes, and of those that it writes.
    fn sizes(self) -> [usize; 2] {
        match self {
            Converter::Old => [OLD_IMAGE, IMAGE],
            Converter::Small => [IMAGE, LARGE_IMAGE],
        }
    }

    /// Into a buffer of the size it takes an image over as these bytes; or it refuses it.
    fn takes(self, card: &dyn Card, image: &[u8], taken: Option<&[u8]>) -> Result<(), String> {
        self.takes_into(card, image, self.sizes()[1], taken)
    }

    /// Into a buffer of some size. The image is only read, and a refusal leaves the buffer as it was.
    fn takes_into(self, card: &dyn Card, image: &[u8], size: usize, taken: Option<&[u8]>) -> Result<(), String> {
        let (lent, mut buffer) = (image.to_vec(), vec![FILL[0]; size]);
        let (name, verdict) = match self {
            Converter::Old => ("converting", card.convert(&lent, &mut buffer)),
            Converter::Small => ("enlarging", card.enlarge(&lent, &mut buffer)),
        };
        let place = || format!("{}: {name} {} bytes into {size} gives {verdict:?}", card.name(), image.len());
        let expected = if taken.is_some() { Verdict::new(0, 0) } else { Verdict::new(1, 255) };
        expect!(*black_box(&lent) == *image, "{} and changes the image", place());
        expect!(verdict == expected, "{}, not {expected:?}", place());
        let at = (0..size).find(|at| buffer[*at] != taken.map_or(FILL[0], |taken| taken[*at]));
        expect!(at.is_none(), "{} and another byte {}", place(), at.unwrap_or(0));
        Ok(())
    }
}

/// Images, buffers and records of lengths that no card and no record has, or that another card has.
pub fn lengths_alike(cards: &[&dyn Card]) -> Result<(), String> {
    let own = [0xF0, 0, 0, 0, 1];
    let removal = write::remove(&own);
    let empties = [Rules::R_7, Rules::IN_FORCE, ON_LARGE].map(|rules| Tables::empty(rules).write(rules));
    let [old, small, large] = &empties;
    let sized = |empty: &[u8], length: usize| {
        let mut image = empty.to_vec();
        image.resize(length, 0);
        image
    };
    let around = |size: usize| [size - 1, size, size + 1, 2 * size, 65_536 + size];
    let sizes = [around(OLD_IMAGE), around(IMAGE), around(LARGE_IMAGE)].concat();
    let lengths = [&[0, 1, 3, 4], &sizes[..]].concat();
    for card in cards {
        let name = card.name();
        for &length in &lengths {
            for empty in &empties {
                let image = sized(empty, length);
                if [small, large].contains(&&image) {
                    continue;
                }
                unsound(*card, &image, &removal).map_err(|words| format!("{length} bytes: {words}"))?;
            }
            if ![IMAGE, LARGE_IMAGE].contains(&length) {
                let mut buffer = vec![0xA5; length];
                let written = card.empty(&mut buffer);
                let left = buffer == vec![0xA5; length];
                expect!(
                    written == Verdict::new(1, 255) && left,
                    "{name}: empty image into {length} bytes: {written:?}"
                );
            }
            for (converter, from, to) in [(Converter::Old, old, small), (Converter::Small, small, large)] {
                let [taken, written] = converter.sizes();
                if length != written {
                    converter.takes_into(*card, from, length, None)?;
                }
                for empty in &empties {
                    let image = sized(empty, length);
                    let right = length == taken && image == *from;
                    converter.takes(*card, &image, right.then_some(&to[..]))?;
                }
            }
        }
        for (sizes, empty) in [(&Sizes::SMALL, small), (&Sizes::LARGE, large)] {
            let mut image = vec![0; empty.len()];
            card.empty(&mut image);
            expect!(image == *empty, "{name}: the empty image is {}", to_hex(&image));
            let removal = Writer(sizes).remove(&own);
            for length in [removal.len(), 65_536 + removal.len()] {
                let record = sized(&removal, length);
                let expected = if length == removal.len() { 5 } else { 2 };
                let judged = card.judge(&mut image, &record);
                expect!(judged == Verdict::new(expected, 255), "{name}: a record of {length} bytes: {judged:?}");
                let part = card.aid(&record).len();
                expect!(part == if expected == 5 { 5 } else { 0 }, "{name}: the AID of {length} bytes has {part}");
            }
        }
    }
    Ok(())
}
