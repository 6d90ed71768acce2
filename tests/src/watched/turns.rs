//! B's records on two cards that are alike for it, with turns of other packages between them. Each engine is held to itself: "A
//! record whose first AID is B's gets the same answer and second number on both." The cards are alike for B again after it.

use super::make::{choose, other_card, Names};
use super::{alike, Clause, Seen, Watched};
use crate::card::{Card, Verdict};
use crate::generate::Source;
use crate::hex::to_hex;
use crate::machine::{record, Aid};
use crate::pairs::Kind;
use crate::random::Random;
use crate::tables::{self, Tables};

/// Two cards that are alike for B: their images, and the tables of these.
#[derive(Clone)]
struct Two {
    own: Aid,
    images: [Vec<u8>; 2],
    tables: [Tables; 2],
}

/// Makes another card that is alike for some package, and judges a short history of that package's records on both. It goes on
/// with the cards that the first engine leaves.
pub fn compare(cards: &[&dyn Card], image: &[u8], mut random: Random, seen: &mut Seen) -> Result<(), String> {
    let rules = tables::in_force(image);
    let tables = Tables::of(rules, image).ok_or("the card is not sound")?;
    let (own, names) = (choose(&tables, &mut random), Names::of(&tables));
    let other = other_card(rules.sizes, &tables, own, &names, &mut random).write(rules);
    let mut two = Two::new(own, [image.to_vec(), other]).map_err(|broken| broken_words("the made card", &broken))?;
    seen.count(Watched::standing(&tables, own));
    Watched::differences(own, &two.tables).into_iter().for_each(|differ| seen.count(differ));
    let mut source = Source::with(rules, [names.aids, vec![own]].concat(), names.tokens, random.apart());
    for _ in 0..random.between(4, 8) {
        if random.percent(30) {
            two.others_turn(cards[0], &mut source, &mut random, seen);
        }
        let held = two.tables[random.below(2)].machine();
        two.judge(cards, &source.record_of(own, &held), seen)?;
    }
    Ok(())
}

impl Two {
    fn new(own: Aid, images: [Vec<u8>; 2]) -> Result<Two, Vec<Clause>> {
        let tables = alike(own, images.each_ref().map(Vec::as_slice))?;
        Ok(Two { own, images, tables })
    }

    /// The cards as they are now.
    fn going_on(&self, images: [Vec<u8>; 2]) -> Result<Two, Vec<Clause>> {
        if images == self.images {
            Ok(self.clone())
        } else {
            Two::new(self.own, images)
        }
    }

    /// Judges a record of B's, or a malformed one, on both cards.
    fn judge(&mut self, cards: &[&dyn Card], bytes: &[u8], seen: &mut Seen) -> Result<(), String> {
        let mut first: Option<Two> = None;
        for card in cards {
            let (verdict, images) = self.judged(*card, bytes)?;
            if first.as_ref().is_some_and(|first| first.images == images) {
                continue;
            }
            let not_alike = |broken: Vec<Clause>| self.told(*card, bytes, &broken_words("it leaves cards", &broken));
            let left = self.going_on(images).map_err(not_alike)?;
            if first.is_none() {
                seen.records.count(Kind::of(bytes), verdict.answer);
                first = Some(left);
            }
        }
        *self = first.ok_or("no engine")?;
        Ok(())
    }

    /// What an engine gives on both cards, and the cards that it leaves.
    fn judged(&self, card: &dyn Card, bytes: &[u8]) -> Result<(Verdict, [Vec<u8>; 2]), String> {
        let mut images = self.images.clone();
        let [one, two] = images.each_mut().map(|image| card.judge(image, bytes));
        if one != two {
            return Err(self.told(card, bytes, &format!("judging gives {one:?} on one and {two:?} on the other")));
        }
        // A malformed record has no first AID.
        if one.answer != 2 && record::read(tables::in_force(&self.images[0]), bytes).is_none() {
            return Err(self.told(card, bytes, &format!("judging a malformed record gives {one:?}")));
        }
        Ok((one, images))
    }

    /// Other packages than B change one card or both, as the engine judges them. What does not leave the cards alike is not kept.
    fn others_turn(&mut self, card: &dyn Card, source: &mut Source, random: &mut Random, seen: &mut Seen) {
        let others: Vec<Aid> = source.aids.iter().filter(|aid| **aid != self.own).copied().collect();
        let turn = random.below(4);
        let same = |record: Vec<u8>| [Some(record.clone()), Some(record)];
        let mut record = |n: usize| source.record_of(others[random.below(others.len())], &self.tables[n].machine());
        let records = match turn {
            0 => [Some(record(0)), None],
            1 => [None, Some(record(1))],
            2 => same(record(0)),
            _ => [Some(record(0)), Some(record(1))],
        };
        let mut images = self.images.clone();
        for (image, record) in images.iter_mut().zip(&records) {
            record.as_ref().map(|record| card.judge(image, record));
        }
        let changed = images.iter().zip(&self.images).filter(|(after, before)| after != before).count();
        if let (1.., Ok(two)) = (changed, self.going_on(images)) {
            seen.count(if changed == 1 { Watched::OneChanges } else { Watched::BothChange });
            *self = two;
        }
    }

    /// What differs, with all that shows it again: the engine, B, the record and both images that it found.
    fn told(&self, card: &dyn Card, bytes: &[u8], words: &str) -> String {
        let (own, record, [one, two]) = (to_hex(self.own.bytes()), to_hex(bytes), self.images.each_ref());
        let (one, two) = (to_hex(one), to_hex(two));
        format!(
            "{}: on two cards that are alike for {own}, {words}\nrecord {record}\none {one}\nother {two}",
            card.name()
        )
    }
}

fn broken_words(what: &str, broken: &[Clause]) -> String {
    let broken: Vec<String> = broken.iter().map(Clause::to_string).collect();
    format!("{what} that are not alike: {}", broken.join(", "))
}
