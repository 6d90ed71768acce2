//! Any input at all: every reader reads it or gives a fault whose place is in it, and none panics.

use cardtool::fault::{At, Fault};
use cardtool::hex::to_hex;
use cardtool::layout::{Image, Layout, VERSION_01, VERSION_02, VERSION_03};
use cardtool::names::Names;
use cardtool::record_text::{Placed, Written};
use cardtool::tables::Tables;
use cardtool::unsound::{faults, sized};
use cardtool::words::utf8;
use cardtool::{dump, hexadecimal, image_text, record, record_text};
use comparison::card::{Bytes, Card, ON_LARGE};
use comparison::random::Random;
use comparison::rules::Rules;

const NAMES: &str = "\
name log F000000001
name purse F000000002
name read log 0.0
name add log 0.1
";

const RECORDS: &str = "\
load log                # Ä
    provides read
    provides 0.1
    grants read to purse
expect accepted 0
replace purse
    calls log 0.0
    needs log read
add log provides 3.7
    to F000000000000009
expect refused 7
record 00 0A 01 02 05 F0 00 00 00 01
remove log grants add to purse
";

const IMAGE: &str = "\
package 0 log
    service 0 read
    service 1 0.1
    grants read to purse
package 1 purse
    calls log read
    needs log read
unmet purse calls F000000003 3.7
waiting log grants 0.1 to F000000009
";

fn names() -> Names {
    record_text::read(&VERSION_02, NAMES, &Names::default()).expect("names").names
}

/// The image of version 02, and those of versions 01 and 03 with the same tables.
fn images() -> [Vec<u8>; 3] {
    let image = image_text::read(&VERSION_02, IMAGE, &names()).expect("a text");
    let tables = Tables::of(&image, &names()).expect("a sound image");
    [image, tables.on(&VERSION_01).image(), tables.on(&VERSION_03).image()]
}

/// A fault is one line, not a long one, and its place is in the text or right after a line's end.
fn in_text(fault: &Fault, text: &str) {
    let (At::Text(place) | At::Digits(place, _)) = fault.at else { panic!("{fault}: no place in a text") };
    let line = text.split('\n').nth(place.line - 1).unwrap_or_else(|| panic!("{fault}: no such line\n{text}"));
    assert!((1..=line.chars().count() + 1).contains(&place.column), "{fault}\n{text}");
    said_shortly(fault);
}

fn said_shortly(fault: &Fault) {
    let length = fault.words.chars().count();
    assert!((10..400).contains(&length) && !fault.words.contains('\n'), "{fault}");
}

/// How many inputs were read, and how many were not.
#[derive(Default)]
struct Count {
    read: usize,
    not: usize,
}

impl Count {
    /// Counts, and holds the fault to its place.
    fn text<T>(&mut self, read: Result<T, Fault>, text: &str) -> Option<T> {
        match read {
            Ok(value) => {
                self.read += 1;
                Some(value)
            }
            Err(fault) => {
                in_text(&fault, text);
                self.not += 1;
                None
            }
        }
    }
}

/// What each reader of texts made of its inputs.
#[derive(Default)]
struct Counts {
    utf8: Count,
    records: Count,
    images: Count,
    lines: Count,
    dumps: Count,
}

impl Counts {
    /// Hands bytes to every reader of texts.
    fn every_reader(&mut self, bytes: &[u8], names: &Names) {
        let lossy = String::from_utf8_lossy(bytes);
        let Some(text) = self.utf8.text(utf8(bytes), &lossy) else { return };
        for card in Layout::CARDS {
            if let Some(read) = self.records.text(record_text::read(card, text, names), text) {
                read.records.iter().for_each(|placed| written_again(card, placed, &read.names, text));
            }
            if let Some(image) = self.images.text(image_text::read(card, text, names), text) {
                assert_eq!(faults(&image, names), [], "{text}");
            }
        }
        if let Some(lines) = self.lines.text(hexadecimal::records(text), text) {
            for digits in lines {
                let _ = digits.record().map_err(|fault| in_text(&fault, text));
            }
        }
        if let Some(bytes) = self.dumps.text(hexadecimal::dump(text), text) {
            any_image(&bytes, names);
        }
    }

    /// Each reader has read so many texts at least, and so many not.
    fn at_least(&self, read: usize, not: usize) {
        for (n, count) in [&self.records, &self.images, &self.lines, &self.dumps].into_iter().enumerate() {
            assert!(count.read >= read && count.not >= not, "reader {n}: {} and {}", count.read, count.not);
        }
    }
}

/// What was read of a text reads as the same again.
fn written_again(card: &'static Layout, placed: &Placed, names: &Names, text: &str) {
    let (written, bytes) = match &placed.written {
        Written::Record(record) => (record_text::write(record, names), record.bytes(card)),
        Written::Bytes(bytes) => (placed.first_line(names), bytes.clone()),
    };
    let again = record_text::read(card, &written, names).unwrap_or_else(|fault| panic!("{fault}\n{written}\n{text}"));
    assert_eq!(again.records.iter().map(|placed| placed.bytes(card)).collect::<Vec<_>>(), [bytes], "{text}");
    let _ = placed.consistent().map_err(|fault| in_text(&fault, text));
}

/// Hands bytes to every reader of images; whether they are sound.
fn any_image(bytes: &[u8], names: &Names) -> bool {
    let found = faults(bytes, names);
    let read = Tables::of(bytes, names);
    assert_eq!(read.as_ref().err().cloned().unwrap_or_default(), found);
    assert_eq!(read.is_ok(), found.is_empty());
    let past = if sized(bytes).is_ok() { 0 } else { 1 };
    for fault in &found {
        assert!(matches!(fault.at, At::Byte(at) if at < bytes.len() + past), "{fault}");
        said_shortly(fault);
    }
    if let Some(image) = Image::new(bytes) {
        assert_eq!(hexadecimal::dump(&dump::image(image, names)).as_deref(), Ok(bytes));
    }
    if let Ok(tables) = read {
        assert_eq!(tables.image(), bytes);
        let text = image_text::write(&tables, names);
        let card = if tables.layout.judged() { tables.layout } else { &VERSION_02 };
        assert_eq!(image_text::read(&VERSION_02, &text, names), Ok(tables.on(card).image()), "{text}");
    }
    found.is_empty()
}

/// A character is changed, dropped or doubled, or a word is, or a line.
fn damage(text: &mut String, random: &mut Random) {
    let strange = [
        " ", "\n", "\r", "\t", "#", ".", ":", "-", "0", "7", "8", "128", "F", "x", "Ä", "日", "\u{FEFF}", "\u{85}",
        "\u{2028}", "\0", "to", "name", "expect", "record", "read", "log",
    ];
    let mut parts: Vec<&str> = match random.below(3) {
        0 => text.split_inclusive('\n').collect(),
        1 => text.split_inclusive(' ').collect(),
        _ => text.split("").collect(),
    };
    let at = random.below(parts.len().max(1));
    match random.below(5) {
        _ if parts.is_empty() => {}
        0 => drop(parts.remove(at)),
        1 => parts.insert(at, parts[at]),
        2 => parts.swap(at, random.below(at + 1)),
        3 => parts[at] = strange[random.below(strange.len())],
        _ => parts.insert(at, strange[random.below(strange.len())]),
    }
    *text = parts.concat();
}

#[test]
fn damaged_texts_are_read_or_have_a_fault_in_them() {
    let (names, none, mut random, mut counts) = (names(), Names::default(), Random::new(1), Counts::default());
    let hexadecimal =
        to_hex(&record_text::read(&VERSION_02, RECORDS, &names).expect("a text").records[0].bytes(&VERSION_02));
    let dumps = images().map(|image| dump::image(Image::new(&image).expect("a card's size"), &names));
    let whole = [RECORDS, IMAGE, &hexadecimal, &dumps[0], &dumps[1], &dumps[2]].map(|text| format!("{NAMES}{text}"));
    let whole: Vec<&str> = whole.iter().flat_map(|text| [text, text.strip_prefix(NAMES).unwrap_or(text)]).collect();
    for round in 0..9600 {
        let mut text = whole[round % whole.len()].to_string();
        for _ in 0..random.below(4) {
            damage(&mut text, &mut random);
        }
        let mut bytes = text.into_bytes();
        if !bytes.is_empty() && random.percent(10) {
            let at = random.below(bytes.len());
            bytes[at] = random.byte();
        }
        counts.every_reader(&bytes, if random.percent(50) { &names } else { &none });
    }
    counts.at_least(400, 300);
    assert!(counts.utf8.not > 300, "{}", counts.utf8.not);
}

/// Words that lines have, in any order.
#[test]
fn words_in_any_order_are_read_or_have_a_fault_in_them() {
    let words = [
        "name",
        "load",
        "replace",
        "unload",
        "add",
        "remove",
        "provides",
        "calls",
        "grants",
        "needs",
        "to",
        "record",
        "expect",
        "accepted",
        "refused",
        "card",
        "large",
        "package",
        "service",
        "unmet",
        "waiting",
        "log",
        "purse",
        "read",
        "face",
        "F000000001",
        "f000000002",
        "F000000009",
        "0.0",
        "0.1",
        "3.7",
        "0.128",
        "0",
        "1",
        "7",
        "00",
        "0A",
        "12:",
        "3:",
        "#",
        "x",
        "Ä",
        "9999999999999999999999",
    ];
    let long = ["Ä", "F", "x", "."].map(|letter| letter.repeat(1000));
    let (names, mut random, mut counts) = (names(), Random::new(2), Counts::default());
    for _ in 0..20000 {
        let mut text = String::new();
        for _ in 0..random.between(1, 12) {
            let word = if random.percent(1) { &long[random.below(4)] } else { words[random.below(words.len())] };
            text.push_str(word);
            text.push_str([" ", " ", " ", " ", "\n", "\n", "\r\n", "  ", "\t"][random.below(9)]);
        }
        counts.every_reader(text.as_bytes(), &names);
    }
    counts.at_least(100, 1000);
}

#[test]
fn random_bytes_are_read_or_have_a_fault_in_them() {
    let (names, mut random, mut counts) = (names(), Random::new(3), Counts::default());
    for _ in 0..20000 {
        let length = random.below(20);
        // Most are of one sort, so that some are read.
        let of: &[u8] = [b"0123456789ABCDEF \n".as_slice(), b" \n\t\r#", b"\xEF\xBB\xBF\xC3\x84 0F"][random.below(3)];
        let mixed = random.percent(30);
        let bytes = (0..length).map(|_| if mixed { random.byte() } else { of[random.below(of.len())] });
        counts.every_reader(&bytes.collect::<Vec<u8>>(), &names);
    }
    counts.at_least(1000, 1000);
    assert!(counts.utf8.not > 1000, "{}", counts.utf8.not);
}

/// Records of any bytes: read, or malformed at one of them or at their end.
#[test]
fn records_of_any_bytes_are_read_or_malformed() {
    let (mut random, mut read, mut not) = (Random::new(4), 0, 0);
    let text = |card: &'static Layout| record_text::read(card, RECORDS, &names()).expect("a text").records;
    let whole: Vec<(&Layout, Vec<u8>)> = Layout::CARDS
        .into_iter()
        .flat_map(|card| text(card).into_iter().map(move |placed| (card, placed.bytes(card))))
        .collect();
    for round in 0..20000 {
        let (card, mut bytes) = whole[round % whole.len()].clone();
        match random.below(3) {
            0 => bytes = (0..random.below(4200)).map(|_| random.byte()).collect(),
            1 => bytes.truncate(random.below(bytes.len() + 1)),
            _ => {}
        }
        for _ in 0..random.below(3).min(bytes.len()) {
            let at = random.below(bytes.len());
            bytes[at] = random.byte();
        }
        if bytes.len() >= 2 && random.percent(80) {
            let length = (bytes.len() as u16).to_be_bytes();
            bytes[..2].copy_from_slice(&length);
        }
        let either = record::read_either(&bytes);
        match record::read(card, &bytes) {
            Ok(record) => {
                assert_eq!((&either, record.bytes(card)), (&Ok((card, record.clone())), bytes.clone()));
                assert_eq!(hexadecimal::dump(&dump::record(card, &record)), Ok(bytes));
                read += 1;
            }
            Err(malformed) => {
                assert!(malformed.at <= bytes.len() && !malformed.why.to_string().is_empty(), "{malformed:?}");
                not += 1;
            }
        }
    }
    assert!(read > 1000 && not > 1000, "{read} and {not}");
}

/// Images of any bytes and any length.
#[test]
fn images_of_any_bytes_are_read_or_have_faults_in_them() {
    let (names, mut random) = (names(), Random::new(5));
    for length in 0..4000 {
        let bytes: Vec<u8> = (0..length).map(|_| random.byte()).collect();
        assert!(!any_image(&bytes, &names));
    }
    let (mut sound, mut not) = (0, 0);
    for (image, rules) in images().into_iter().zip([Rules::IN_FORCE, Rules::R_7, ON_LARGE]) {
        assert!(any_image(&image, &names));
        for _ in 0..1500 {
            let mut image = image.clone();
            let places = [3, 60, image.len()][random.below(3)];
            for _ in 0..random.below(places) {
                let at = random.below(image.len());
                image[at] = if random.percent(50) { random.byte() } else { 1 << random.below(8) };
            }
            let holds = any_image(&image, &names);
            assert_eq!(holds, Bytes(rules).check(&image).answer == 0);
            sound += usize::from(holds);
            not += usize::from(!holds);
        }
    }
    assert!(sound > 200 && not > 2000, "{sound} and {not}");
}

/// A line's words are counted once, however many there are.
#[test]
fn a_long_line_is_read_at_once() {
    let text = "00 ".repeat(400_000);
    assert_eq!(hexadecimal::dump(&text).map(|bytes| bytes.len()), Ok(400_000));
    let fault = hexadecimal::dump(&(text + "0")).expect_err("one digit");
    assert_eq!(fault.to_string(), "line 1, column 1200001: a byte has two digits, here is one");
    let text = format!("load F000000001{}x", " Ä".repeat(200_000));
    let fault = record_text::read(&VERSION_02, &text, &Names::default()).expect_err("words");
    assert_eq!(fault.to_string(), "line 1, column 17: nothing may follow here, but 'Ä' does");
}
