//! A run of random histories, and the shortest history for a difference that it finds.

use crate::card::Card;
use crate::compare::{lengths_alike, Compare, Difference, Tally};
use crate::damage::Damage;
use crate::generate::Source;
use crate::history::{changes, Event};
use crate::program::Progress;
use crate::rules::Rules;
use crate::shrink::shrink;
use std::panic::{catch_unwind, AssertUnwindSafe};

pub const DEFAULT_SEED: u64 = 455;
pub const DEFAULT_RECORDS: u64 = 100_000;

/// In a replay so many records in a hundred are followed by a pair of cards: by those that were in the run, and by more, so that
/// a shorter history may do.
const WATCHED_IN_REPLAYS: usize = 25;

/// A history after which something differs.
pub struct Failure {
    pub difference: Difference,
    pub history: Vec<Event>,
}

/// Judges so many random records on the small card everywhere, and more on the large one: some histories branch off onto it.
pub fn run(cards: &[&dyn Card], seed: u64, records: u64) -> Result<Tally, Failure> {
    lengths_alike(cards).map_err(|words| Failure { difference: words.into(), history: Vec::new() })?;
    let mut tally = Tally::default();
    let mut ordinal = 0;
    let mut progress = Progress::new("comparing", records as usize);
    while tally.records < records {
        progress.at(tally.records as usize);
        let mut history = Vec::new();
        caught(|| one_history(cards, seed, ordinal, records, &mut history, &mut tally)).map_err(|difference| {
            // A difference before a change: the changes to come tell by which rules it was.
            let ahead = Source::new(seed, ordinal).changes() - changes(&history);
            history.extend(vec![Event::Change; ahead]);
            shortest(cards, seed, &history, difference)
        })?;
        ordinal += 1;
    }
    Ok(tally)
}

fn one_history(
    cards: &[&dyn Card],
    seed: u64,
    ordinal: u64,
    records: u64,
    history: &mut Vec<Event>,
    tally: &mut Tally,
) -> Result<(), Difference> {
    let mut source = Source::new(seed, ordinal);
    let changes = source.changes();
    let mut compare = Compare::before(cards, seed, changes)?;
    for left in (0..changes).rev() {
        for _ in 0..source.length_before() {
            next(Event::Record(source.record(&compare.machine)), history, &mut compare, tally)?;
        }
        if source.clears() && !compare.left_out {
            while let Some(record) = source.clearing(&compare.machine) {
                next(Event::Record(record), history, &mut compare, tally)?;
            }
        }
        next(Event::Change, history, &mut compare, tally)?;
        source.change(Rules::before(left));
    }
    let length = if compare.left_out { source.length_left_out() } else { source.length() };
    let mut enlarged = source.enlarged(length);
    for n in 0..=length {
        if let Some((_, source)) = enlarged.take_if(|(at, _)| *at == n) {
            let small = history.len();
            go_on_large(source, history, compare.clone(), tally)?;
            history.truncate(small);
        }
        if n == length || tally.records == records {
            break;
        }
        next(Event::Record(source.record(&compare.machine)), history, &mut compare, tally)?;
    }
    Ok(())
}

/// The card is enlarged as it is, and goes on. The small card's history goes on without it.
fn go_on_large(
    mut source: Source,
    history: &mut Vec<Event>,
    mut compare: Compare,
    tally: &mut Tally,
) -> Result<(), Difference> {
    next(Event::Enlarge, history, &mut compare, tally)?;
    let length = if compare.left_out { 0 } else { source.length_on_large() };
    for _ in 0..length {
        next(Event::Record(source.record(&compare.machine)), history, &mut compare, tally)?;
    }
    Ok(())
}

fn next(event: Event, history: &mut Vec<Event>, compare: &mut Compare, tally: &mut Tally) -> Result<(), Difference> {
    history.push(event);
    compare.event(&history[history.len() - 1], tally)
}

/// Judges the records of a history everywhere, from the empty image. The damage is done to each image besides that which
/// is drawn.
pub fn replay(cards: &[&dyn Card], seed: u64, history: &[Event], damage: &Damage) -> Result<Tally, Difference> {
    let mut tally = Tally::default();
    caught(|| {
        let mut compare = Compare::before(cards, seed, changes(history))?;
        compare.watched = WATCHED_IN_REPLAYS;
        compare.damaged_alike(damage, &[], &mut tally)?;
        history.iter().try_for_each(|event| {
            compare.event(event, &mut tally)?;
            compare.damaged_alike(damage, event.record(), &mut tally)
        })
    })?;
    Ok(tally)
}

fn shortest(cards: &[&dyn Card], seed: u64, history: &[Event], found: Difference) -> Failure {
    let replayed = |history: &[Event], damage: &Damage| replay(cards, seed, history, damage);
    let shrunk = |damage: &Damage| shrink(history, |history| replayed(history, damage).is_err());
    // Of two damaged bytes one may do, on more images.
    let single = found.damage.0.iter().filter(|_| found.damage.0.len() > 1).map(|byte| Damage(vec![*byte]));
    let tried = [found.damage.clone()].into_iter().chain(single).map(|damage| (shrunk(&damage), damage));
    let (history, damage) = tried.min_by_key(|(history, _)| history.len()).unwrap_or_default();
    let difference = replayed(&history, &damage).err().unwrap_or(found);
    Failure { difference, history }
}

/// A panic is a difference too.
pub fn caught<T>(tried: impl FnOnce() -> Result<T, Difference>) -> Result<T, Difference> {
    catch_unwind(AssertUnwindSafe(tried)).unwrap_or_else(|panic| {
        let words = panic.downcast_ref::<String>().map(String::as_str).or(panic.downcast_ref::<&str>().copied());
        Err(format!("a panic: {}", words.unwrap_or("without words")).into())
    })
}
