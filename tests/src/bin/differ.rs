//! Compares the engines on random histories. `differ --help` lists the options.

use comparison::card::{linked, names, Card};
use comparison::compare::Tally;
use comparison::conditions::Outcome;
use comparison::damage::Damage;
use comparison::early::Early;
use comparison::faults;
use comparison::history::{records, Event};
use comparison::large::Large;
use comparison::methods::{Held, Place};
use comparison::pairs::{all, gone, Kind};
use comparison::program::{self, number, Failure};
use comparison::replace::Replaced;
use comparison::retired::Retired;
use comparison::rules::{Rules, Sizes};
use comparison::run::{replay, run, DEFAULT_RECORDS, DEFAULT_SEED};
use comparison::say_line;
use comparison::watched::Watched;
use std::collections::BTreeMap;
use std::fmt::Display;
use std::process::ExitCode;
use std::time::Instant;

const HELP: &str = "\
differ [--seed N] [--records N] [--fault NAME]
    judges N random records (100,000) on the small card everywhere and compares all that comes out; a part of the
    histories begins by earlier rules, and goes on over their changes, where the card is converted. Beside them a part
    is enlarged, at the start or later, and gets about a quarter as many records on the large card
differ --replay FILE [--damage PLACE=BYTE,...] [--seed N] [--fault NAME]
    the same with the records of a file, in hexadecimal, one on each line; the damage is done to each image besides.
    A line 'change' stands where the rules change: the records above it are judged by the rules before, by the machine
    and the byte engine alone, and the card goes over as it is, or converted where images have another version. Without
    such a line the rules in force judge them all. A line 'enlarge' stands where the card becomes the large one: as the
    first line, it starts the history on the empty large image

A fault is an engine that is wrong on purpose and is compared too; a wrong name lists them all.
Exit code: 0; 1 when something differs, or was never seen in 100,000 records or more, or the file is bad;
2 when the command line is bad, or the file cannot be read.
";

const OPTIONS: [&str; 5] = ["--seed", "--records", "--replay", "--damage", "--fault"];

struct Arguments {
    seed: u64,
    records: u64,
    replay: Option<String>,
    damage: Damage,
    fault: Option<&'static dyn Card>,
}

fn main() -> ExitCode {
    program::run_or_help(HELP, |given| {
        let arguments = arguments(given)?;
        let mut cards = linked();
        cards.extend(arguments.fault);
        say_line!("machine against {}, seed {}", names(&cards), arguments.seed);
        // A panic is a difference, and is told as one.
        std::panic::set_hook(Box::new(|_| {}));
        match &arguments.replay {
            Some(file) => replay_file(&cards, &arguments, file),
            None => run_histories(&cards, &arguments),
        }
    })
}

fn arguments(given: &[String]) -> Result<Arguments, Failure> {
    let (seed, records) = (DEFAULT_SEED, DEFAULT_RECORDS);
    let mut arguments = Arguments { seed, records, replay: None, damage: Damage::default(), fault: None };
    let options = program::options(given, &OPTIONS)?;
    for (name, value) in &options {
        match *name {
            "--seed" => arguments.seed = number(name, value)?,
            "--records" => arguments.records = number(name, value)?,
            "--replay" => arguments.replay = Some(value.to_string()),
            "--damage" => {
                let bad = || Failure::bad_use(format!("{name} {value}: not as in 3=0F,1109=01"));
                arguments.damage = Damage::from_text(value).ok_or_else(bad)?;
            }
            _ => arguments.fault = Some(faults::named(value)?),
        }
    }
    Ok(arguments)
}

/// What was found, on standard output with the rest.
fn failed(words: String) -> Failure {
    say_line!("FAILED: {words}");
    Failure::failed("the comparison failed")
}

fn run_histories(cards: &[&dyn Card], arguments: &Arguments) -> Result<(), Failure> {
    let start = Instant::now();
    let tally = run(cards, arguments.seed, arguments.records).map_err(|failure| {
        let events: Vec<String> = failure.history.iter().map(Event::to_text).collect();
        let (seed, count) = (arguments.seed, records(&failure.history));
        let end = format!("seed {seed}; records in the shortest history: {count}\n{}", events.join("\n"));
        failed(format!("{}\n{end}", failure.difference))
    })?;
    say_line!("{}", report(&tally));
    say_line!("{:.1} s", start.elapsed().as_secs_f64());
    if arguments.records >= DEFAULT_RECORDS {
        everything_seen(&tally).map_err(failed)?;
    }
    Ok(())
}

/// What was seen on each card.
fn report(tally: &Tally) -> String {
    let small = format!(
        "{}\n\
         histories over changes of the rules: {} gone on, {} of them cleared before; {} left out; records before: {}, \
         {} of {} pairs (kind, answer) seen that are gone\n\
         images of version 01: {} converted, {} refused; images that R-9's converter was given: {} enlarged, {} refused\n\
         whole contracts before their rules {}",
        on_card(tally, &Sizes::SMALL),
        tally.gone_on,
        tally.cleared,
        tally.left_out,
        tally.before,
        tally.pairs_before.coverage(gone()).0,
        gone().count(),
        tally.converted,
        tally.not_converted,
        tally.enlarged,
        tally.not_enlarged,
        tally.too_early,
    );
    let Some(large) = &tally.large else { return small };
    let seen = joined(on_large(large).into_iter().map(counted));
    format!("{small}\non the large card\n{}\nrecords that show: {seen}", on_card(large, &Sizes::LARGE))
}

fn on_card(tally: &Tally, sizes: &Sizes) -> String {
    let Sizes { packages, services, listed, .. } = *sizes;
    let below = listed - 1;
    let (seen, possible) = tally.pairs.coverage(all(Rules::IN_FORCE));
    let (of_b, possible_of_b) = tally.watched.records.coverage(on_sound_cards());
    format!(
        "{}\n{} records, all alike; {seen} of {possible} pairs (kind, answer) seen; of the other card's version: {}\n\
         {} contracts read out; damaged images: {} sound, {} not\n\
         records after which: unmet calls {below}: {}, {listed}: {}; waiting grants {below}: {}, {listed}: {}; \
         {packages} packages: {}; {services} services in one: {}\n\
         grants before their service: {}\n\
         whole contracts: {}\n\
         needs that kind 9 set: {}\n\
         loads by the report's conditions: {}\n\
         cards alike for a package B: {}; its records on both: {}, {of_b} of {possible_of_b} pairs (kind, answer) seen\n\
         method tokens 127 and 128 in records: {}\n\
         on damaged images: {}",
        tally.pairs,
        tally.records,
        tally.of_other,
        tally.contracts_read,
        tally.damaged_sound,
        tally.damaged_unsound,
        tally.unmet[0],
        tally.unmet[1],
        tally.waiting[0],
        tally.waiting[1],
        tally.all_packages,
        tally.all_services,
        joined(early(tally).into_iter().map(counted)),
        joined(replaced(tally).into_iter().map(counted)),
        joined(retired(tally).into_iter().map(counted)),
        joined(loads(tally).into_iter().map(counted)),
        joined(watched(tally).into_iter().map(counted)),
        tally.watched.records.total(),
        joined(methods(tally).into_iter().map(both)),
        joined(methods_held(tally).into_iter().map(both)),
    )
}

fn joined(words: impl Iterator<Item = String>) -> String {
    words.collect::<Vec<_>>().join(", ")
}

fn both((place, [fine, wrong]): (impl Display, [u64; 2])) -> String {
    format!("{place} {fine} and {wrong}")
}

/// How often each of some things was seen.
fn seen<T: Ord, C: Copy + Default>(things: impl IntoIterator<Item = T>, counts: &BTreeMap<T, C>) -> Vec<(T, C)> {
    let with_count = |thing| {
        let count = counts.get(&thing).copied().unwrap_or_default();
        (thing, count)
    };
    things.into_iter().map(with_count).collect()
}

fn early(tally: &Tally) -> Vec<(Early, u64)> {
    seen(Early::ALL, &tally.early)
}

fn replaced(tally: &Tally) -> Vec<(Replaced, u64)> {
    seen(Replaced::ALL, &tally.replaced)
}

fn retired(tally: &Tally) -> Vec<(Retired, u64)> {
    seen(Retired::ALL, &tally.retired)
}

fn loads(tally: &Tally) -> Vec<(Outcome, u64)> {
    seen(Outcome::all(), &tally.loads)
}

fn on_large(tally: &Tally) -> Vec<(Large, u64)> {
    seen(Large::all(), &tally.on_large)
}

fn watched(tally: &Tally) -> Vec<(Watched, u64)> {
    seen(Watched::ALL, &tally.watched.shown)
}

/// The pairs that a record of B's can show on a sound card: cause 1 is none of them.
fn on_sound_cards() -> impl Iterator<Item = (Kind, u32)> {
    all(Rules::IN_FORCE).filter(|(_, answer)| *answer != 1)
}

/// Method tokens of 127, and of 128, in each place of records.
fn methods(tally: &Tally) -> Vec<(Place, [u64; 2])> {
    seen(Place::all(), &tally.methods)
}

/// Method tokens that damage set to 127, and to 128, in each place of images.
fn methods_held(tally: &Tally) -> Vec<(Held, [u64; 2])> {
    seen([Held::Provided, Held::Unmet, Held::Waiting], &tally.methods_held)
}

fn counted((thing, count): (impl Display, u64)) -> String {
    format!("{thing} {count}")
}

/// Those that were never seen.
fn unseen(things: Vec<(impl Display, u64)>) -> String {
    joined(things.into_iter().filter(|(_, count)| *count == 0).map(|(thing, _)| thing.to_string()))
}

/// A run as long as the default must have been everywhere, on each card.
fn everything_seen(tally: &Tally) -> Result<(), String> {
    seen_on_card(tally)?;
    let missing = tally.pairs_before.missing(gone());
    if !missing.is_empty() {
        return Err(format!("never seen before they were gone: {}", joined(missing.into_iter().map(pair))));
    }
    if tally.cleared == 0 || tally.left_out == 0 {
        return Err("no card was cleared and went on over the changes of the rules, or none was left out".to_string());
    }
    if tally.converted == 0 || tally.not_converted == 0 {
        return Err("no image of version 01 was converted, or none was refused".to_string());
    }
    if tally.enlarged == 0 || tally.not_enlarged == 0 {
        return Err("no image of version 02 was enlarged, or none was refused".to_string());
    }
    let unseen_needs = unseen(retired(tally));
    if !unseen_needs.is_empty() {
        return Err(format!("needs that kind 9 set, and kinds that are retired, were never seen: {unseen_needs}"));
    }
    if tally.too_early == 0 {
        return Err("no whole contract came before its rules".to_string());
    }
    let on_the_large_card = |words: String| format!("on the large card: {words}");
    let large = tally.large.as_ref().ok_or("no card was enlarged")?;
    seen_on_card(large).map_err(on_the_large_card)?;
    let unseen = unseen(on_large(large));
    match unseen.is_empty() {
        true => Ok(()),
        false => Err(on_the_large_card(format!("never seen: {unseen}"))),
    }
}

fn pair((kind, answer): (Kind, u32)) -> String {
    format!("({kind}, {answer})")
}

/// What must have been seen on either card.
fn seen_on_card(tally: &Tally) -> Result<(), String> {
    for (when, missing) in [
        ("", tally.pairs.missing(all(Rules::IN_FORCE))),
        (" of a package on cards alike for it", tally.watched.records.missing(on_sound_cards())),
    ] {
        if !missing.is_empty() {
            return Err(format!("never seen{when}: {}", joined(missing.into_iter().map(pair))));
        }
    }
    let states = [tally.unmet, tally.waiting, [tally.all_packages, tally.all_services]].concat();
    let damaged = [tally.damaged_sound, tally.damaged_unsound];
    if states.iter().chain(&damaged).any(|count| *count == 0) {
        return Err("a list or a card was never driven to its limit".to_string());
    }
    if tally.of_other == 0 {
        return Err("no record was of the other card's version".to_string());
    }
    for (what, unseen) in [
        ("grants before their service", unseen(early(tally))),
        ("whole contracts", unseen(replaced(tally))),
        ("loads by the report's conditions", unseen(loads(tally))),
        ("cards alike for a package", unseen(watched(tally))),
    ] {
        if !unseen.is_empty() {
            return Err(format!("{what} were never seen: {unseen}"));
        }
    }
    let on_images = methods_held(tally).into_iter().map(|(place, seen)| (format!("{place} of images"), seen));
    let places = methods(tally).into_iter().map(|(place, seen)| (place.to_string(), seen)).chain(on_images);
    let unseen: Vec<String> = places.filter(|(_, seen)| seen.contains(&0)).map(|(place, _)| place).collect();
    match unseen.is_empty() {
        true => Ok(()),
        false => Err(format!("a method token of 127 or of 128 was never seen in: {}", unseen.join(", "))),
    }
}

fn replay_file(cards: &[&dyn Card], arguments: &Arguments, file: &str) -> Result<(), Failure> {
    let text = std::fs::read_to_string(file).map_err(|error| Failure::of_file(file, error))?;
    let bad =
        |n| Failure::failed(format!("{file}: line {}: not pairs of hexadecimal digits, 'change' or 'enlarge'", n + 1));
    let events = text.lines().enumerate().map(|(n, line)| Event::from_text(line).ok_or_else(|| bad(n)));
    let history: Vec<Event> = events.collect::<Result<_, _>>()?;
    let tally = replay(cards, arguments.seed, &history, &arguments.damage);
    say_line!("{}", report(&tally.map_err(|difference| failed(difference.to_string()))?));
    Ok(())
}
