//! Every engine that is wrong on purpose is found, with a short history.

use comparison::card::{Card, BYTES};
use comparison::cases::all;
use comparison::compare::lengths_alike;
use comparison::damage::Damage;
use comparison::faults::FAULTS;
use comparison::history::{changes, records, Event};
use comparison::run::{replay, run};

/// Each of the seeds 1 to 10 finds every fault in 20,000 records. The shortest history that dropping records comes to has up to 24 of
/// them, by the seed; this seed is one by which it has at most 16 for every fault, and by which cards of each sort go over the
/// changes of the rules in 8,000 records.
const SEED: u64 = 7;

#[test]
fn every_fault_is_found() {
    std::panic::set_hook(Box::new(|_| {}));
    for fault in FAULTS {
        let cards: [&dyn Card; 2] = [&BYTES, fault];
        let name = fault.name();
        let failure = run(&cards, SEED, 20_000).err().unwrap_or_else(|| panic!("{name} was not found"));
        let (difference, history) = (failure.difference, failure.history);
        assert!(!difference.words.is_empty(), "{name}");
        let records = records(&history);
        // A list has 16 rows, and some faults show when it is full.
        assert!(records <= 16, "{name} took {records} records");
        let again = replay(&cards, SEED, &history, &difference.damage).is_err() || lengths_alike(&cards).is_err();
        assert!(again, "{name}: the shortest history does not fail");
    }
}

/// The table of cases finds all but three, which need a damaged byte that is not drawn, and another size.
#[test]
fn the_cases_find_most_faults() {
    std::panic::set_hook(Box::new(|_| {}));
    let missed = FAULTS.iter().filter(|fault| {
        let cards: [&dyn Card; 2] = [&BYTES, *fault];
        all().iter().all(|case| case.run(&cards).is_ok())
    });
    let missed: Vec<&str> = missed.map(|fault| fault.name()).collect();
    assert_eq!(missed, ["own-aid-row-sound", "converts-into-more", "enlarges-into-more"]);
}

/// A difference that shows on a card of earlier rules alone has its history over the changes, which is replayed from its
/// lines.
#[test]
fn a_history_over_the_changes_is_replayed() {
    std::panic::set_hook(Box::new(|_| {}));
    for name in ["converts-128", "converts-backwards", "kind-11-too-early", "retired-too-early"] {
        let fault = FAULTS.iter().find(|fault| fault.name() == name).expect("the fault");
        let cards: [&dyn Card; 2] = [&BYTES, fault];
        let failure = run(&cards, SEED, 20_000).err().expect("a difference");
        assert!(changes(&failure.history) > 0, "{name}");
        let lines: Vec<String> = failure.history.iter().map(Event::to_text).collect();
        let read: Vec<Event> = lines.iter().filter_map(|line| Event::from_text(line)).collect();
        assert_eq!(read, failure.history);
        assert!(replay(&cards, SEED, &read, &failure.difference.damage).is_err(), "{lines:?}");
        assert!(replay(&[&BYTES], SEED, &read, &failure.difference.damage).is_ok(), "{lines:?}");
    }
    // No more changes can be told than there were.
    let words = replay(&[&BYTES], SEED, &vec![Event::Change; 5], &Damage::default()).err().expect("a difference").words;
    assert_eq!(words, "a history has at most 4 changes of the rules, here are 5");
}

#[test]
fn no_record_of_a_shortest_history_can_be_dropped() {
    let fault = FAULTS.iter().find(|fault| fault.name() == "grants-lost").expect("the fault");
    let cards: [&dyn Card; 2] = [&BYTES, fault];
    let history = run(&cards, SEED, 20_000).err().expect("a difference").history;
    for n in 0..history.len() {
        let mut without = history.clone();
        without.remove(n);
        assert!(replay(&cards, SEED, &without, &Damage::default()).is_ok(), "record {n} is not needed");
    }
}

#[test]
fn a_short_run_finds_nothing_in_the_byte_engine() {
    let tally = run(&[&BYTES], SEED, 8_000).ok().expect("no difference");
    assert_eq!(tally.records, 8_000);
    assert!(tally.left_out > 0 && tally.cleared > 0 && tally.before > 0);
    assert!(tally.contracts_read > 1_000 && tally.damaged_sound > 100 && tally.damaged_unsound > 1_000);
    assert!(tally.converted > 20 && tally.not_converted > 100 && tally.early.len() > 5);
    assert!(tally.replaced.len() > 9 && tally.too_early > 9 && tally.retired.len() > 6 && tally.loads.len() > 6);
    assert!(tally.watched.records.total() > 1_000 && tally.watched.shown.len() > 10);
    let large = tally.large.expect("a card that is enlarged");
    assert!(large.records > 1_000 && large.on_large.len() > 20 && large.of_other > 1_000 && large.loads.len() > 4);
    assert!(large.watched.records.total() > 300 && large.damaged_sound > 100 && large.damaged_unsound > 1_000);
}
