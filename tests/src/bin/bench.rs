//! Times a record of each kind on a nearly full card of each size, every engine against the byte engine.
//! `bench --help` lists the options.

use comparison::card::{linked, Card, IMAGE, LARGE_IMAGE, LONGEST_LARGE_RECORD, LONGEST_RECORD};
use comparison::full_card::{old_card, timed_on, Timed};
use comparison::program::{self, number, Failure};
use comparison::rules::Sizes;
use comparison::{say, say_line};
use std::hint::black_box;
use std::process::ExitCode;
use std::time::{Duration, Instant};

const HELP: &str = "\
bench [--rounds N]
    times every kind, the check and the reading out on a nearly full card, small and large, and both conversions of the
    small one, N rounds (1,000) of 64 each, of 16 on the large card; then what that costs over the small one
bench --count KIND [--calls N] [--of ENGINE] [--on CARD]
    calls one entry N times (1,000), for a profile; KIND is 1 to 8, 11, check, read_out, convert or enlarge; ENGINE is
    bytes, or engine when it is linked (the last one linked); CARD is small (the default) or large

Exit code: 0; 2 when the command line is bad.
";

const OPTIONS: [&str; 5] = ["--rounds", "--count", "--calls", "--of", "--on"];

/// A card by its name.
struct OnCard {
    name: &'static str,
    sizes: &'static Sizes,
    /// Records judged between two looks at the clock, each on its own image.
    batch: usize,
}

const CARDS: [OnCard; 2] = [
    OnCard { name: "small", sizes: &Sizes::SMALL, batch: 64 },
    OnCard { name: "large", sizes: &Sizes::LARGE, batch: 16 },
];

/// An entry on the nearly full card.
struct Entry {
    name: String,
    /// Bytes of the record that is judged.
    record: Option<usize>,
    operations: Option<u32>,
    image: Vec<u8>,
    call: Box<Call>,
}

type Call = dyn Fn(&dyn Card, &mut [u8]);

fn main() -> ExitCode {
    program::run_or_help(HELP, run)
}

fn run(arguments: &[String]) -> Result<(), Failure> {
    let (mut rounds, mut calls, mut count, mut of, mut on) = (1000, 1000, None, None, CARDS[0].name);
    for (name, value) in program::options(arguments, &OPTIONS)? {
        match name {
            "--rounds" => rounds = number(name, value)?,
            "--calls" => calls = number(name, value)?,
            "--count" => count = Some(value),
            "--on" => on = value,
            _ => of = Some(value),
        }
    }
    let cards = linked();
    let Some(entry) = count else {
        print_tables(&cards, rounds.max(1));
        return Ok(());
    };
    let named = |card: &&&dyn Card| of.is_none_or(|name| card.name() == name);
    let card = cards.iter().rfind(named).ok_or_else(|| Failure::bad_use("--of: no such engine is linked"))?;
    let bad = || Failure::bad_use(format!("--on {on}: not small or large"));
    let on_card = CARDS.into_iter().find(|card| card.name == on).ok_or_else(bad)?;
    repeat(*card, on_card.sizes, entry, calls)
}

/// On the card of these sizes.
fn entries(sizes: &'static Sizes) -> Vec<Entry> {
    let timed = timed_on(sizes);
    let full = timed[1].image.clone();
    let entry = |name: &str, image: &[u8], call: Box<Call>| {
        let (name, image) = (name.to_string(), image.to_vec());
        Entry { name, record: None, operations: None, image, call }
    };
    let read_out = match full.len() {
        LARGE_IMAGE => read_out::<LONGEST_LARGE_RECORD>,
        _ => read_out::<LONGEST_RECORD>,
    };
    let mut entries: Vec<Entry> = timed.into_iter().map(judging).collect();
    entries.push(entry("check", &full, Box::new(|card, image| assert_eq!(card.check(image).answer, 0))));
    entries.push(entry("read_out", &full, Box::new(read_out)));
    if full.len() == IMAGE {
        entries.push(entry(
            "convert",
            &old_card(),
            Box::new(|card, old| {
                let mut buffer = [0; IMAGE];
                assert_eq!(card.convert(old, black_box(&mut buffer)).answer, 0);
            }),
        ));
        entries.push(entry(
            "enlarge",
            &full,
            Box::new(|card, image| {
                let mut buffer = [0; LARGE_IMAGE];
                assert_eq!(card.enlarge(image, black_box(&mut buffer)).answer, 0);
            }),
        ));
    }
    entries
}

fn read_out<const LONGEST: usize>(card: &dyn Card, image: &mut [u8]) {
    let mut buffer = [0; LONGEST];
    assert_eq!(card.read_out(image, 0, black_box(&mut buffer)).answer, 0);
}

fn judging(Timed { kind, name, operations, image, record }: Timed) -> Entry {
    Entry {
        name: format!("{kind} {name}"),
        record: Some(record.len()),
        operations,
        image,
        call: Box::new(move |card, image| assert_eq!(card.judge(image, &record).answer, 0)),
    }
}

/// The nanoseconds of a call.
struct Time {
    median: f64,
    least: f64,
}

/// A table for each card, and one of what the large card costs over the small one, beside how much longer the record is.
fn print_tables(cards: &[&dyn Card], rounds: usize) {
    let [small, large] = CARDS.map(|on| print_table(cards, &on, rounds));
    say!("{:<18}", "large over small");
    cards.iter().for_each(|card| say!("{:>12}{:>8}", card.name(), "least"));
    say_line!("{:>10}", "record");
    for ((entry, on_small), (entry_large, on_large)) in small.iter().zip(&large) {
        say!("{:<18}", entry.name);
        for (small, large) in on_small.iter().zip(on_large) {
            say!("{:>12.2}{:>8.2}", large.median / small.median, large.least / small.least);
        }
        let longer = entry.record.zip(entry_large.record).map(|(small, large)| large as f64 / small as f64);
        say_line!("{:>10}", longer.map_or("-".to_string(), |longer| format!("{longer:.2}")));
    }
    let [small, large] = CARDS.map(|on| on.batch);
    let calls = format!("{small} calls, of {large} on the large card");
    say_line!(
        "Medians of {rounds} rounds of {calls}, beside each the least. Table 8: the report's count of operations."
    );
}

/// A line for each entry: nanoseconds, the ratio to the byte engine, the report's operations. Beside each median
/// stands the least, which other work on the machine changes less.
fn print_table(cards: &[&dyn Card], on: &OnCard, rounds: usize) -> Vec<(Entry, Vec<Time>)> {
    say!("{:<18}", format!("{} card", on.name));
    cards.iter().for_each(|card| say!("{:>12}{:>8}", format!("{} ns", card.name()), "least"));
    cards[1..].iter().for_each(|_| say!("{:>8}{:>8}", "ratio", "least"));
    say_line!("{:>10}", "Table 8");
    let timed = entries(on.sizes).into_iter().map(|entry| {
        let times = times(cards, &entry, rounds, on.batch);
        let Time { median, least } = times[0];
        say!("{:<18}", entry.name);
        times.iter().for_each(|time| say!("{:>12.0}{:>8.0}", time.median, time.least));
        times[1..].iter().for_each(|time| say!("{:>8.2}{:>8.2}", time.median / median, time.least / least));
        say_line!("{:>10}", entry.operations.map_or("-".to_string(), |operations| operations.to_string()));
        (entry, times)
    });
    timed.collect()
}

/// The time of a call, for each engine. Engines take turns.
fn times(cards: &[&dyn Card], entry: &Entry, rounds: usize, batch: usize) -> Vec<Time> {
    let mut images = vec![entry.image.clone(); batch];
    let mut times = vec![Vec::new(); cards.len()];
    for _ in 0..rounds {
        for (card, times) in cards.iter().zip(&mut times) {
            images.iter_mut().for_each(|image| image.copy_from_slice(&entry.image));
            times.push(time_batch(*card, entry, &mut images));
        }
    }
    times.into_iter().map(|batches| time(batches, batch)).collect()
}

fn time_batch(card: &dyn Card, entry: &Entry, images: &mut [Vec<u8>]) -> Duration {
    let start = Instant::now();
    for image in images {
        (entry.call)(card, black_box(image));
    }
    start.elapsed()
}

fn time(mut batches: Vec<Duration>, calls: usize) -> Time {
    batches.sort();
    let call = |batch: Duration| batch.as_nanos() as f64 / calls as f64;
    Time { median: call(batches[batches.len() / 2]), least: call(batches[0]) }
}

fn repeat(card: &dyn Card, sizes: &'static Sizes, entry: &str, calls: usize) -> Result<(), Failure> {
    let named = |known: &Entry| known.name == entry || known.name.split(' ').next() == Some(entry);
    let on_small = "or, on the small card, convert or enlarge";
    let bad = || Failure::bad_use(format!("--count {entry}: not 1 to 8, 11, check or read_out, {on_small}"));
    let entry = entries(sizes).into_iter().find(named).ok_or_else(bad)?;
    let mut image = entry.image.clone();
    for _ in 0..calls {
        image.copy_from_slice(&entry.image);
        (entry.call)(card, black_box(&mut image));
    }
    say_line!("{}: {calls} calls of {}", card.name(), entry.name);
    Ok(())
}
