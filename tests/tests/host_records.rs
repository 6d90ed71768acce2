//! Records as text: the nine kinds and any bytes, both ways, what is expected of them, and every message with its place.

use cardtool::contract::{Aid, Row, Tokens};
use cardtool::fault::{At, Fault};
use cardtool::hex::to_hex;
use cardtool::hexadecimal;
use cardtool::layout::{Layout, VERSION_02, VERSION_03};
use cardtool::names::Names;
use cardtool::record::{self, contradictions, Change, Clash, Lists, Part, Record};
use cardtool::record_text::{self, Expected, Placed, Text, Written};
use cardtool::words::{lines, utf8};
use comparison::card::{longest_record, Card, BYTES, ON_LARGE};
use comparison::generate::Source;
use comparison::machine::{self, Machine};
use comparison::random::Random;
use comparison::rules::Rules;
use std::collections::BTreeSet;

/// A card, and the rules on it.
type On = (&'static Layout, Rules);

const CARDS: [On; 2] = [(&VERSION_02, Rules::IN_FORCE), (&VERSION_03, ON_LARGE)];

/// Records of random histories on a card, good and bad, as bytes.
fn random_records((_, rules): On, count: usize) -> Vec<Vec<u8>> {
    let mut records = Vec::new();
    for ordinal in 0.. {
        let mut source = match rules == ON_LARGE {
            true => Source::with(rules, Vec::new(), Vec::new(), Random::new(40 + ordinal)),
            false => Source::new(4, ordinal),
        };
        let mut machine = Machine::default();
        for _ in 0..source.length() {
            let record = source.record(&machine);
            machine.judge(rules, &record);
            records.push(record);
            if records.len() == count {
                return records;
            }
        }
    }
    records
}

/// Those of random histories that can be read.
fn read_records(on: On, count: usize) -> Vec<Record> {
    random_records(on, count).iter().filter_map(|bytes| record::read(on.0, bytes).ok()).collect()
}

/// A text for a card, without names given beforehand.
fn read_for(card: &'static Layout, text: &str) -> Result<Text, Fault> {
    record_text::read(card, text, &Names::default())
}

/// A text for the small card.
fn read(text: &str) -> Result<Text, Fault> {
    read_for(&VERSION_02, text)
}

fn record_of(placed: &Placed) -> &Record {
    match &placed.written {
        Written::Record(record) => record,
        Written::Bytes(bytes) => panic!("bytes alone: {bytes:?}"),
    }
}

/// The one record of a text for a card.
fn only_for(card: &'static Layout, text: &str) -> Record {
    let read = read_for(card, text).unwrap_or_else(|fault| panic!("{fault}\n{text}"));
    assert_eq!(read.records.len(), 1);
    record_of(&read.records[0]).clone()
}

/// The one record of a text for the small card.
fn only(text: &str) -> Record {
    only_for(&VERSION_02, text)
}

/// The message about a text that is not read.
fn message(text: &str) -> String {
    read(text).expect_err(text).to_string()
}

/// The services that a record has, each with its package.
fn services(record: &Record) -> BTreeSet<(Aid, Tokens)> {
    let own = |tokens: &Tokens| (record.aid, *tokens);
    let other = |row: &Row| (row.other, row.tokens);
    match &record.change {
        Change::Load(lists) | Change::Replace(lists) => {
            let Lists { provides, calls, grants, needs } = lists;
            let granted = grants.iter().map(|row| own(&row.tokens));
            provides.iter().map(own).chain(granted).chain(calls.iter().chain(needs).map(other)).collect()
        }
        Change::Remove => BTreeSet::new(),
        Change::AddService(tokens, _) | Change::RemoveService(tokens) => [own(tokens)].into(),
        Change::AddCall(row) | Change::RemoveCall(row) => [other(row)].into(),
        Change::AddGrant(row) | Change::RemoveGrant(row) => [own(&row.tokens)].into(),
    }
}

/// Names for about half of the packages and the services that a record has.
fn some_names(record: &Record, random: &mut Random) -> Names {
    let text = record_text::write(record, &Names::default());
    let words: BTreeSet<&str> = lines(&text).flat_map(|line| line.rest()).map(|word| word.text).collect();
    let aids = words.into_iter().filter(|word| word.len() >= 10 && !word.contains('.'));
    let packages = aids.enumerate().map(|(n, aid)| format!("name package-{n} {aid}\n"));
    let services = services(record);
    let services = services.iter().map(|(aid, tokens)| {
        let before = services.iter().filter(|(other, before)| other == aid && before < tokens).count();
        let name = ["read", "add", "face"].get(before).map_or(format!("s{before}"), |name| name.to_string());
        format!("name {name} {aid} {tokens}\n")
    });
    let text: String = packages.chain(services).filter(|_| random.percent(50)).collect();
    read(&text).expect(&text).names
}

#[test]
fn every_kind_is_text_and_back() {
    let mut random = Random::new(4);
    for on in CARDS {
        let (mut kinds, card) = (BTreeSet::new(), on.0);
        for bytes in random_records(on, 6000) {
            let Ok(record) = record::read(card, &bytes) else { continue };
            kinds.insert(record.change.kind());
            assert_eq!(record.bytes(card), bytes);
            let text = record_text::write(&record, &Names::default());
            assert_eq!(only_for(card, &text), record, "{text}");
            let names = some_names(&record, &mut random);
            let named = names.text() + &record_text::write(&record, &names);
            assert_eq!(only_for(card, &named), record, "{named}");
            let read = read_for(card, &named).expect("a text");
            assert_eq!(read.names, names);
            assert_eq!(read.names.text() + &record_text::write(record_of(&read.records[0]), &read.names), named);
        }
        assert_eq!(kinds, BTreeSet::from([1, 2, 3, 4, 5, 6, 7, 8, 11]));
    }
}

#[test]
fn a_history_is_one_text() {
    for on in CARDS {
        let records = read_records(on, 300);
        assert!(records.len() > 200, "{}", records.len());
        let text: String = records.iter().map(|record| record_text::write(record, &Names::default())).collect();
        let read = read_for(on.0, &text).expect("a text");
        assert!(read.records.iter().map(record_of).eq(&records));
        assert!(read.records.iter().all(|placed| placed.expected.is_none()));
        let first_lines = text.lines().filter(|line| !line.starts_with(' '));
        assert!(read.records.iter().map(|placed| placed.first_line(&read.names)).eq(first_lines));
    }
}

/// Layout means nothing: spaces, comments, empty lines, small digits, and the order of a contract's lists.
#[test]
fn a_loose_layout_reads_alike() {
    let mut random = Random::new(5);
    for record in read_records(CARDS[0], 1500) {
        let text = record_text::write(&record, &Names::default());
        let mut rows: Vec<&str> = text.lines().collect();
        if let Change::Load(_) | Change::Replace(_) = record.change {
            // Rows of one list keep their order.
            let first = rows.remove(0);
            let verb = |row: &&str| row.trim_start().chars().next();
            let mut order: Vec<_> = rows.iter().map(verb).collect();
            random.shuffle(&mut order);
            let mut mixed = vec![first];
            for wanted in order {
                let at = rows.iter().position(|row| verb(row) == wanted).expect("a row of the list");
                mixed.push(rows.remove(at));
            }
            rows = mixed;
        }
        let loose: Vec<String> = rows
            .into_iter()
            .map(|row| {
                let words: Vec<&str> = row.split_whitespace().collect();
                let blanks = [" ", "  ", "\t"][random.below(3)];
                let comment = ["", "# words", " #", "\n\n# a line"][random.below(4)];
                format!("{blanks}{}{blanks}{comment}\r\n", words.join(blanks).to_lowercase())
            })
            .collect();
        assert_eq!(only(&loose.concat()), record, "{}", loose.concat());
    }
}

/// Each kind as it is written, and its bytes.
#[test]
fn the_nine_kinds_and_their_bytes() {
    let load = "\
load F000000001
    provides 3.4
    calls F000000003 0.1
    grants 3.4 to F000000002
    needs F000000003 0.1
";
    let load_bytes = "\
        00 28 01 01 05 F0 00 00 00 01 01 03 04 01 05 F0 00 00 00 03 00 01 \
        01 05 F0 00 00 00 02 03 04 01 05 F0 00 00 00 03 00 01";
    let service = "add F000000001 provides 3.4\n    to F000000002\n    to F000000003\n";
    let service_bytes = "00 19 01 03 05 F0 00 00 00 01 03 04 02 05 F0 00 00 00 02 05 F0 00 00 00 03";
    let row = "05 F0 00 00 00 01 05 F0 00 00 00 02 FF 7F";
    let update = |kind: &str| format!("00 12 01 {kind} {row}");
    let cases = [
        (load, load_bytes.to_string()),
        ("unload F000000001\n", "00 0A 01 02 05 F0 00 00 00 01".to_string()),
        (service, service_bytes.to_string()),
        ("remove F000000001 provides 3.4\n", "00 0C 01 04 05 F0 00 00 00 01 03 04".to_string()),
        ("add F000000001 calls F000000002 255.127\n", update("05")),
        ("remove F000000001 calls F000000002 255.127\n", update("06")),
        ("add F000000001 grants 255.127 to F000000002\n", update("07")),
        ("remove F000000001 grants 255.127 to F000000002\n", update("08")),
        (&load.replace("load", "replace"), load_bytes.replacen("01 01", "01 0B", 1)),
    ];
    for (text, bytes) in cases {
        let record = only(text);
        assert_eq!(to_hex(&record.bytes(&VERSION_02)), bytes, "{text}");
        assert_eq!(record_text::write(&record, &Names::default()), text);
    }
}

/// Every list at its limit, and every AID as long as one may be.
#[test]
fn the_longest_record_is_read() {
    for (card, rules) in CARDS {
        let aid = |n: usize| format!("{n:032X}");
        let rows = |row: &dyn Fn(usize) -> String| (1..=rules.sizes.rows).map(row).collect::<String>();
        let text = format!("load {}\n", aid(0))
            + &(0..rules.sizes.services).map(|n| format!("provides 255.{n}\n")).collect::<String>()
            + &rows(&|n| format!("calls {} 255.127\n", aid(n)))
            + &rows(&|n| format!("grants 255.127 to {}\n", aid(n)))
            + &rows(&|n| format!("needs {} 255.127\n", aid(n)));
        let longest = only_for(card, &text);
        assert_eq!((longest.bytes(card).len(), contradictions(&longest)), (longest_record(rules.sizes), vec![]));
        assert_eq!(record::read(card, &longest.bytes(card)), Ok(longest.clone()));
        assert_eq!(only_for(card, &record_text::write(&longest, &Names::default())), longest);
    }
}

/// Each message of the reader, with its place.
#[test]
fn bad_texts_have_messages_with_places() {
    let nine = "load F000000001\n".to_string() + &(0..9).map(|n| format!("provides 0.{n}\n")).collect::<String>();
    let calls =
        "load F000000001\n".to_string() + &(0..73).map(|n| format!("calls F000000002 0.{n}\n")).collect::<String>();
    let callers = "add F000000001 provides 0.0\n".to_string()
        + &(10..43).map(|n| format!("to F0000000{n}\n")).collect::<String>();
    let long = format!("unload {}", "AB".repeat(17));
    let cases = [
        ("lode F000000001", "line 1, column 1: 'lode' begins no line: there are load, replace, unload, add, remove, record, expect and name, the rows provides, calls, grants and needs, and to"),
        ("\n  load", "line 2, column 7: the package's AID is missing"),
        ("replace", "line 1, column 8: the package's AID is missing"),
        ("load F0000001", "line 1, column 6: an AID has 5 to 16 bytes, this one has 4"),
        (&long, "line 1, column 8: an AID has 5 to 16 bytes, this one has 17"),
        ("load F0000000001", "line 1, column 6: an AID has two digits for each byte, here are 11 digits"),
        ("load purse", "line 1, column 6: 'purse' is neither an AID in hexadecimal nor a name given above"),
        ("load F000000001 provides 0.0", "line 1, column 17: nothing may follow here, but 'provides' does"),
        ("# x\ncalls F000000001 0.0", "line 2, column 1: 'calls' is a row of a contract, and neither load nor replace stands above it"),
        ("unload F000000001\n  needs F000000002 0.0", "line 2, column 3: 'needs' is a row of a contract, and neither load nor replace stands above it"),
        ("load F000000001\nto F000000002", "line 2, column 1: 'to' follows 'add AID provides SERVICE', and none stands above it"),
        ("replace F000000001\nto F000000002", "line 2, column 1: 'to' follows 'add AID provides SERVICE', and none stands above it"),
        ("replace F000000001\ncalls F000000002 0.128", "line 2, column 20: the method token is 128, not 0 to 127"),
        ("add F000000001", "line 1, column 15: provides, calls or grants is missing"),
        ("add F000000001 has 0.0", "line 1, column 16: provides, calls or grants is expected, not 'has'"),
        ("remove F000000001 to", "line 1, column 19: provides, calls or grants is expected, not 'to'"),
        ("add F000000001 needs", "line 1, column 16: 'add AID needs', kind 9, is retired since R-13, and a card answers 2: a need comes with the whole contract, as a row of 'load' or 'replace'"),
        ("# x\n remove F000000001 needs F000000002 0.0", "line 2, column 20: 'remove AID needs', kind 10, is retired since R-13, and a card answers 2: a need goes with its call, 'remove AID calls AID SERVICE', or with a 'replace' without it"),
        ("add F000000001 provides", "line 1, column 24: a service, as 0.1, is missing"),
        ("add F000000001 provides 0", "line 1, column 25: '0' is not a service: interface to 255 and method to 127, as in 0.1"),
        ("add F000000001 provides 0.256", "line 1, column 25: '0.256' is not a service: interface to 255 and method to 127, as in 0.1"),
        ("add F000000001 provides +1.0", "line 1, column 25: '+1.0' is not a service: interface to 255 and method to 127, as in 0.1"),
        ("add F000000001 provides 0.128", "line 1, column 27: the method token is 128, not 0 to 127"),
        ("remove F000000001 provides 255.255", "line 1, column 32: the method token is 255, not 0 to 127"),
        ("load F000000001\n\tprovides 0.127\n\tprovides 0.128", "line 3, column 13: the method token is 128, not 0 to 127"),
        ("load F000000001\ncalls F000000002 128.128", "line 2, column 22: the method token is 128, not 0 to 127"),
        ("load F000000001\nneeds F000000002 0.129", "line 2, column 20: the method token is 129, not 0 to 127"),
        ("load F000000001\ngrants 0.128 to F000000002", "line 2, column 10: the method token is 128, not 0 to 127"),
        ("add F000000001 grants 00.0128 to F000000002", "line 1, column 26: the method token is 128, not 0 to 127"),
        ("add F000000001 provides .", "line 1, column 25: '.' is not a service: interface to 255 and method to 127, as in 0.1"),
        ("remove F000000001 grants 0.0", "line 1, column 29: 'to' is missing"),
        ("remove F000000001 grants 0.0 F000000002", "line 1, column 30: 'to' is expected, not 'F000000002'"),
        ("remove F000000001 grants 0.0 to  # whom", "line 1, column 32: the caller's AID is missing"),
        ("remove F000000001 calls", "line 1, column 24: the callee's AID is missing"),
        ("name purse", "line 1, column 11: an AID is missing"),
        ("name 1st F000000001", "line 1, column 6: '1st' is no name: a letter, then letters, digits, '-' and '_'"),
        ("name FACE F000000001", "line 1, column 6: 'FACE' is no name: it has hexadecimal digits alone"),
        ("name purse F000000001\nname purse F000000002", "line 2, column 6: the name 'purse' is given already"),
        ("name purse F000000001\nname shop F000000001", "line 2, column 6: the AID F000000001 has the name 'purse' already"),
        (&nine, "line 10, column 1: a record of the small card has at most 8 lines with 'provides', one of the large card (--large) 16"),
        (&nine.replace("load", "replace"), "line 10, column 1: a record of the small card has at most 8 lines with 'provides', one of the large card (--large) 16"),
        (&calls, "line 74, column 1: a record of the small card has at most 72 lines with 'calls', one of the large card (--large) 272"),
        (&callers, "line 34, column 1: a record of the small card has at most 32 lines with 'to'"),
    ];
    for (text, message) in cases {
        assert_eq!(self::message(text), message, "{text}");
    }
}

#[test]
fn contradictions_have_their_place() {
    let cases = [
        (
            "load F000000001\n provides 0.0\n provides 0.0",
            "line 3, column 2: this stands in its list already (a card answers 3)",
        ),
        (
            "load F000000001\n calls F000000002 0.0\n calls F000000002 0.0",
            "line 3, column 2: this stands in its list already (a card answers 3)",
        ),
        (
            "load F000000001\n calls F000000002 0.0\n calls F000000001 0.0",
            "line 3, column 2: a package does not name its own AID here (a card answers 3)",
        ),
        (
            "load F000000001\n\n needs F000000002 0.0",
            "line 3, column 2: what is needed is not among the calls (a card answers 3)",
        ),
        (
            "add F000000001 provides 0.0\n to F000000002\n to F000000002",
            "line 3, column 2: this stands in its list already (a card answers 3)",
        ),
        (
            "add F000000001 provides 0.0\n to F000000001",
            "line 2, column 2: a package does not name its own AID here (a card answers 3)",
        ),
        (
            "# x\nremove F000000001 calls F000000001 0.0",
            "line 2, column 1: a package does not name its own AID here (a card answers 3)",
        ),
        (
            "load F000000001\n provides 0.0\n grants 0.0 to F000000002\n grants 0.0 to F000000002",
            "line 4, column 2: this stands in its list already (a card answers 3)",
        ),
        (
            "load F000000001\n calls F000000002 0.0\n needs F000000002 0.0\n needs F000000002 0.0",
            "line 4, column 2: this stands in its list already (a card answers 3)",
        ),
        (
            "load F000000001\n provides 0.0\n grants 0.0 to F000000001",
            "line 3, column 2: a package does not name its own AID here (a card answers 3)",
        ),
        (
            "load F000000001\n needs F000000001 0.0",
            "line 2, column 2: a package does not name its own AID here (a card answers 3)",
        ),
        (
            "replace F000000001\n provides 0.0\n provides 0.0",
            "line 3, column 2: this stands in its list already (a card answers 3)",
        ),
        (
            "replace F000000001\n grants 0.0 to F000000002\n needs F000000002 0.0",
            "line 3, column 2: what is needed is not among the calls (a card answers 3)",
        ),
    ];
    for (text, message) in cases {
        let read = read(text).expect(text);
        assert_eq!(read.records[0].consistent().expect_err(text).to_string(), message);
    }
}

/// Each part that contradicts its record, with the reason.
#[test]
fn every_contradiction_is_found() {
    let load = "load F000000001\nprovides 0.0\nprovides 0.1\nprovides 0.0\nprovides 0.0\ncalls F000000001 0.0
        calls F000000002 0.0\ncalls F000000002 0.0\ngrants 0.0 to F000000002\ngrants 0.1 to F000000001
        needs F000000002 0.1\nneeds F000000001 0.1\n";
    let parts = [
        (Part::Provides(2), Clash::Repeated(Part::Provides(0))),
        (Part::Provides(3), Clash::Repeated(Part::Provides(0))),
        (Part::Calls(2), Clash::Repeated(Part::Calls(1))),
        (Part::Calls(0), Clash::OwnAid),
        (Part::Grants(1), Clash::OwnAid),
        (Part::Needs(1), Clash::OwnAid),
        (Part::Needs(0), Clash::NotCalled),
        (Part::Needs(1), Clash::NotCalled),
    ];
    assert_eq!(contradictions(&only(load)), parts);
    assert_eq!(contradictions(&only(&load.replace("load", "replace"))), parts);
    let service = "add F000000001 provides 0.0\nto F000000001\nto F000000002\nto F000000001\n";
    let parts = [
        (Part::Callers(2), Clash::Repeated(Part::Callers(0))),
        (Part::Callers(0), Clash::OwnAid),
        (Part::Callers(2), Clash::OwnAid),
    ];
    assert_eq!(contradictions(&only(service)), parts);
    assert_eq!(contradictions(&only("add F000000001 grants 0.0 to F000000001")), [(Part::Row, Clash::OwnAid)]);
    assert_eq!(contradictions(&only("remove F000000001 provides 0.0")), []);
}

/// What the machine and the byte engine answer to a record on an empty card.
fn answer((card, rules): On, bytes: &[u8]) -> u32 {
    let mut image = vec![0; card.size()];
    BYTES.empty(&mut image);
    let answer = BYTES.judge(&mut image, bytes).answer;
    assert_eq!(Machine::default().judge(rules, bytes), answer);
    answer
}

/// The texts with a contradiction are those that a card answers with 3.
#[test]
fn contradictions_are_what_a_card_answers_with_3() {
    for on in CARDS {
        let (mut with, mut without) = (0, 0);
        for bytes in random_records(on, 4000) {
            let Ok(record) = record::read(on.0, &bytes) else { continue };
            let refused = answer(on, &bytes) == 3;
            let read = read_for(on.0, &record_text::write(&record, &Names::default())).expect("a text");
            assert_eq!(read.records[0].consistent().is_err(), refused);
            assert_eq!(!contradictions(&record).is_empty(), refused);
            with += usize::from(refused);
            without += usize::from(!refused);
        }
        assert!(with > 100 && without > 100, "{with} and {without}");
    }
}

/// The line and column of a fault are in the text, or right after a line's end.
fn in_text(fault: &Fault, text: &str) {
    let (At::Text(place) | At::Digits(place, _)) = fault.at else { panic!("{fault}: no place in a text") };
    let line = text.lines().nth(place.line - 1).unwrap_or_else(|| panic!("{fault}: no such line\n{text}"));
    assert!((1..=line.chars().count() + 1).contains(&place.column), "{fault}\n{text}");
    assert!(!fault.words.is_empty());
}

/// A character or a word of a text is changed, dropped or doubled.
fn damaged(text: &str, random: &mut Random) -> String {
    if random.percent(50) {
        let mut characters: Vec<char> = text.chars().collect();
        let at = random.below(characters.len());
        match random.below(3) {
            0 => characters[at] = [' ', 'x', 'Ä', '#', '.', '9', '\n', 'F'][random.below(8)],
            1 => drop(characters.remove(at)),
            _ => characters.insert(at, characters[at]),
        }
        return characters.into_iter().collect();
    }
    let mut words: Vec<&str> = text.split_inclusive([' ', '\n']).collect();
    let at = random.below(words.len());
    match random.below(3) {
        0 => drop(words.remove(at)),
        1 => words.insert(at, words[at]),
        _ => words.swap(at, random.below(at + 1)),
    }
    words.concat()
}

#[test]
fn damaged_texts_are_read_or_faulted_with_a_place() {
    let (mut faults, mut good) = (0, 0);
    let mut random = Random::new(6);
    for record in read_records(CARDS[0], 3000) {
        let names = some_names(&record, &mut random);
        let expect = ["", "expect accepted\n", "expect refused 8\n"][random.below(3)];
        let text = names.text() + &record_text::write(&record, &names) + expect;
        let text = damaged(&text, &mut random);
        match read(&text) {
            Err(fault) => {
                in_text(&fault, &text);
                faults += 1;
            }
            Ok(text) => {
                for placed in &text.records {
                    let again = text.names.text() + &record_text::write(record_of(placed), &text.names);
                    assert_eq!(&only(&again), record_of(placed));
                }
                good += 1;
            }
        }
    }
    assert!(faults > 500 && good > 200, "{faults} and {good}");
}

/// Each message about a malformed record, with its byte and its digits.
#[test]
fn bad_records_have_messages_with_places() {
    let cases = [
        ("00", "line 1, column 3: byte 1: the record ends here, and bytes are missing"),
        (
            "00 0B 01 02 05 F0 00 00 00 01",
            "line 1, column 1: byte 0: the length field says 11, the record has 10 bytes",
        ),
        (
            "\n00 0A 03 02 05 F0 00 00 00 01",
            "line 2, column 7: byte 2: the version is 3, and records have 1 on the small card, 2 on the large card",
        ),
        ("00 0A 01 0C 05 F0 00 00 00 01", "line 1, column 10: byte 3: the kind is 12, and there are 1 to 8 and 11"),
        (
            "00 0A 01 09 05 F0 00 00 00 01",
            "line 1, column 10: byte 3: 'add AID needs', kind 9, is retired since R-13, and a card answers 2: \
             a need comes with the whole contract, as a row of 'load' or 'replace'",
        ),
        (
            "00 04 01 0A",
            "line 1, column 10: byte 3: 'remove AID needs', kind 10, is retired since R-13, and a card answers 2: \
             a need goes with its call, 'remove AID calls AID SERVICE', or with a 'replace' without it",
        ),
        ("00 0A 01 0B 05 F0 00 00 00 01", "line 1, column 30: byte 10: the record ends here, and bytes are missing"),
        ("000A0102 04F000000001", "line 1, column 10: byte 4: the AID's length is 4, not 5 to 16"),
        ("00 0B 01 02 05 F0 00 00 00 01 00", "line 1, column 31: byte 10: 1 byte is left over"),
        ("00 0C 01 02 05 F0 00 00 00 01 00 00", "line 1, column 31: byte 10: 2 bytes are left over"),
        ("00 0A 01 02 06 F0 00 00 00 01", "line 1, column 30: byte 10: the record ends here, and bytes are missing"),
        ("00 0B 01 01 05 F0 00 00 00 01 09", "line 1, column 31: byte 10: the count is 9, at most 8 may stand here"),
        ("00 0C 01 04 05 F0 00 00 00 01 FF 80", "line 1, column 34: byte 11: the method token is 128, not 0 to 127"),
        (
            "00 12 01 05 05 F0 00 00 00 01 05 F0 00 00 00 02 00 FF",
            "line 1, column 52: byte 17: the method token is 255, not 0 to 127",
        ),
        (
            "00 13 01 03 05 F0 00 00 00 01 00 80 01 05 F0 00 00 00 03",
            "line 1, column 34: byte 11: the method token is 128, not 0 to 127",
        ),
        (
            "00 12 01 01 05 F0 00 00 00 01 02 00 7F 00 80 00 00 00",
            "line 1, column 43: byte 14: the method token is 128, not 0 to 127",
        ),
        ("00 0A 01 02 05 F0 00 00 00 0", "line 1, column 28: a byte has two digits, here is one"),
        ("00 0A 01 02 05 F0 00 00 00 0G", "line 1, column 29: 'G' is no hexadecimal digit"),
        ("00 Ä0", "line 1, column 4: 'Ä' is no hexadecimal digit"),
    ];
    for (text, message) in cases {
        let read: Result<Vec<_>, Fault> =
            hexadecimal::records(text).and_then(|lines| lines.iter().map(|digits| digits.record()).collect());
        assert_eq!(read.expect_err(text).to_string(), message, "{text}");
    }
}

/// A byte of a record is changed, dropped or doubled; the length field says how many there are then.
fn damaged_record(bytes: &[u8], random: &mut Random) -> Vec<u8> {
    let mut bytes = if bytes.is_empty() { vec![0] } else { bytes.to_vec() };
    let at = random.below(bytes.len());
    match random.below(4) {
        0 => bytes[at] ^= 1 << random.below(8),
        1 => bytes[at] = [0, 1, 2, 4, 5, 8, 9, 16, 17, 32, 33, 72, 73, 127, 128, 255][random.below(16)],
        2 => drop(bytes.remove(at)),
        _ => bytes.insert(at, bytes[at]),
    }
    if bytes.len() >= 2 && random.percent(80) {
        let length = (bytes.len() as u16).to_be_bytes();
        bytes[..2].copy_from_slice(&length);
    }
    bytes
}

/// What this reader reads the machine's does too, and an engine answers 2 to the rest.
#[test]
fn malformed_records_are_those_that_a_card_answers_with_2() {
    let mut random = Random::new(7);
    for on in CARDS {
        let ((card, rules), mut bad, mut good) = (on, 0, 0);
        for whole in random_records(on, 4000) {
            let damaged = damaged_record(&whole, &mut random);
            for bytes in [whole, damaged] {
                let text = to_hex(&bytes);
                let Some(digits) = hexadecimal::records(&text).expect("hexadecimal").pop() else { continue };
                assert_eq!(digits.bytes, bytes);
                let read = record::read(card, &bytes);
                assert_eq!(read.is_ok(), machine::record::read(rules, &bytes).is_some(), "{text}");
                assert_eq!(read.is_err(), answer(on, &bytes) == 2, "{text}");
                match (digits.record(), read) {
                    (Err(fault), Err(_)) => {
                        in_text(&fault, &text);
                        bad += 1;
                    }
                    (either, Ok(record)) => {
                        assert_eq!((record.bytes(card), either), (bytes, Ok((card, record))));
                        good += 1;
                    }
                    // A record of the other card.
                    (Ok((other, _)), Err(_)) => assert_ne!(card, other),
                }
            }
        }
        assert!(bad > 1000 && good > 1000, "{bad} and {good}");
    }
}

/// A line `record` has any bytes, and is written as it was.
#[test]
fn lines_of_bytes_are_kept() {
    let text = "record 00 0a01 02 05F000000001 # a removal\n  record ff\nrecord\nrecord # none\nunload F000000001\n";
    let read = read(text).expect("a text");
    let bytes: Vec<Vec<u8>> = read.records.iter().map(|placed| placed.bytes(&VERSION_02)).collect();
    let removal = vec![0, 10, 1, 2, 5, 0xF0, 0, 0, 0, 1];
    assert_eq!(bytes, [removal.clone(), vec![0xFF], vec![], vec![], removal.clone()]);
    assert_eq!(read.records[0].written, Written::Bytes(removal));
    let lines: Vec<String> = read.records.iter().map(|placed| placed.first_line(&read.names)).collect();
    assert_eq!(lines, ["record 00 0A 01 02 05 F0 00 00 00 01", "record FF", "record", "record", "unload F000000001"]);
    let places: Vec<String> = read.records.iter().map(|placed| placed.place.to_string()).collect();
    let columns = [(1, 1), (2, 3), (3, 1), (4, 1), (5, 1)];
    assert_eq!(places, columns.map(|(line, column)| format!("line {line}, column {column}")));
}

#[test]
fn random_records_are_lines_of_bytes() {
    let records = random_records(CARDS[0], 500);
    let text: String = records.iter().map(|bytes| format!("record {}\n", to_hex(bytes))).collect();
    let read = read(&text).expect("a text");
    assert!(read.records.iter().map(|placed| placed.bytes(&VERSION_02)).eq(records));
    assert!(read.records.iter().all(|placed| placed.consistent().is_ok()));
    assert_eq!(read.records.len(), 500);
}

/// Bytes may contradict themselves, and are not looked at.
#[test]
fn bytes_that_contradict_themselves_are_no_fault() {
    let text = "add F000000001 grants 0.0 to F000000001";
    assert!(read(text).expect(text).records[0].consistent().is_err());
    let bytes = format!("record {}", to_hex(&only(text).bytes(&VERSION_02)));
    assert_eq!(read(&bytes).expect(text).records[0].consistent(), Ok(()));
}

#[test]
fn bad_lines_of_bytes_have_messages_with_places() {
    let row = "is a row of a contract, and neither load nor replace stands above it";
    let to = "'to' follows 'add AID provides SERVICE', and none stands above it";
    let cases = [
        ("record 00 0", "line 1, column 11: a byte has two digits, here is one".to_string()),
        ("record 00 010", "line 1, column 13: a byte has two digits, here is one".to_string()),
        ("\n record 0x", "line 2, column 10: 'x' is no hexadecimal digit".to_string()),
        ("record 00 Ä", "line 1, column 11: 'Ä' is no hexadecimal digit".to_string()),
        ("record\nprovides 0.0", format!("line 2, column 1: 'provides' {row}")),
        ("record 00\n\n calls F000000002 0.0", format!("line 3, column 2: 'calls' {row}")),
        ("load F000000001\nrecord\nneeds F000000002 0.0", format!("line 3, column 1: 'needs' {row}")),
        ("record\ngrants 0.0 to F000000002", format!("line 2, column 1: 'grants' {row}")),
        ("add F000000001 provides 0.0\nrecord 00\n\tto F000000002", format!("line 3, column 2: {to}")),
    ];
    for (text, message) in cases {
        assert_eq!(self::message(text), message, "{text}");
    }
}

/// What is expected stands under its record, whatever that is, and under its rows.
#[test]
fn expected_answers_are_read() {
    let text = "\
load F000000001
    provides 0.0
expect accepted
name log F000000001
load log
  expect refused        # installed
unload log
expect accepted 0
unload log
\texpect refused 5
record 00
expect refused 11
add log provides 0.0
    to F000000002
expect accepted 7
unload log
";
    let read = read(text).expect("a text");
    let expected: Vec<Option<Expected>> =
        read.records.iter().map(|placed| placed.expected.map(|(_, expected)| expected)).collect();
    let forms = [
        Expected::Accepted(None),
        Expected::Refused(None),
        Expected::Accepted(Some(0)),
        Expected::Refused(Some(5)),
        Expected::Refused(Some(11)),
        Expected::Accepted(Some(7)),
    ];
    assert_eq!(expected[..6], forms.map(Some));
    assert_eq!(expected[6..], [None]);
    let places: Vec<(usize, usize)> =
        read.records.iter().filter_map(|placed| placed.expected).map(|(place, _)| (place.line, place.column)).collect();
    assert_eq!(places, [(3, 1), (6, 3), (8, 1), (10, 2), (12, 1), (15, 1)]);
    let words = forms.map(|form| form.to_string());
    assert_eq!(words, ["accepted", "refused", "accepted 0", "refused 5", "refused 11", "accepted 7"]);
}

#[test]
fn an_expectation_holds_for_its_answers_alone() {
    // Each with the answers and second numbers that it holds for, of all below 3.
    let cases: [(Expected, &[(u32, u32)]); 6] = [
        (Expected::Accepted(None), &[(0, 0), (0, 1), (0, 2)]),
        (Expected::Accepted(Some(1)), &[(0, 1)]),
        (Expected::Accepted(Some(3)), &[]),
        (Expected::Refused(None), &[(1, 0), (1, 1), (1, 2), (2, 0), (2, 1), (2, 2)]),
        (Expected::Refused(Some(2)), &[(2, 0), (2, 1), (2, 2)]),
        (Expected::Refused(Some(0)), &[]),
    ];
    for (expected, answers) in cases {
        let all = (0..3).flat_map(|answer| (0..3).map(move |second| (answer, second)));
        let held: Vec<(u32, u32)> = all.filter(|(answer, second)| expected.holds(*answer, *second)).collect();
        assert_eq!(held, answers, "{expected}");
    }
}

#[test]
fn bad_expectations_have_messages_with_places() {
    let record = |lines: &str| format!("unload F000000001\n{lines}");
    let load = |row: &str| format!("load F000000001\nprovides 0.0\nexpect accepted\n{row}");
    let service = "add F000000001 provides 0.0\nto F000000002\nexpect refused 6\n\nto F000000003";
    let after = |verb: &str, line: usize| {
        format!("'{verb}' belongs to the record above, and stands after its 'expect' on line {line}")
    };
    let cases = [
        (
            "expect accepted".to_string(),
            "line 1, column 1: 'expect' follows a record, and none stands above it".to_string(),
        ),
        (
            "name log F000000001\n expect refused 2".to_string(),
            "line 2, column 2: 'expect' follows a record, and none stands above it".to_string(),
        ),
        (record("expect"), "line 2, column 7: accepted or refused is missing".to_string()),
        (record("expect  # what"), "line 2, column 7: accepted or refused is missing".to_string()),
        (record("expect Accepted"), "line 2, column 8: accepted or refused is expected, not 'Accepted'".to_string()),
        (record("expect 8"), "line 2, column 8: accepted or refused is expected, not '8'".to_string()),
        (record("expect refuse x"), "line 2, column 8: accepted or refused is expected, not 'refuse'".to_string()),
        (record("expect refused x"), "line 2, column 16: 'x' is no cause: there are 1 to 11".to_string()),
        (record("expect refused 0"), "line 2, column 16: '0' is no cause: there are 1 to 11".to_string()),
        (record("expect refused 12"), "line 2, column 16: '12' is no cause: there are 1 to 11".to_string()),
        (
            record("expect accepted -1"),
            "line 2, column 17: '-1' is no package number of the small card: there are 0 to 7".to_string(),
        ),
        (
            record("expect accepted 8"),
            "line 2, column 17: '8' is no package number of the small card: there are 0 to 7".to_string(),
        ),
        (
            record("expect accepted +1"),
            "line 2, column 17: '+1' is no package number of the small card: there are 0 to 7".to_string(),
        ),
        (
            record("expect refused 99999999999"),
            "line 2, column 16: '99999999999' is no cause: there are 1 to 11".to_string(),
        ),
        (record("expect refused 8 9"), "line 2, column 18: nothing may follow here, but '9' does".to_string()),
        (
            record("expect refused\n expect refused"),
            "line 3, column 2: of this record's answer something is expected already, on line 2".to_string(),
        ),
        (
            record("\nexpect refused 5\nname log F000000001\nexpect accepted"),
            "line 5, column 1: of this record's answer something is expected already, on line 3".to_string(),
        ),
        (load("provides 0.1"), format!("line 4, column 1: {}", after("provides", 3))),
        (load(" calls F000000002 0.1"), format!("line 4, column 2: {}", after("calls", 3))),
        (load("grants 0.0 to F000000002"), format!("line 4, column 1: {}", after("grants", 3))),
        (load("name log F000000002\nneeds log 0.0"), format!("line 5, column 1: {}", after("needs", 3))),
        (
            load("to F000000002"),
            "line 4, column 1: 'to' follows 'add AID provides SERVICE', and none stands above it".to_string(),
        ),
        (service.to_string(), format!("line 5, column 1: {}", after("to", 3))),
        (
            record("expect refused\nprovides 0.0"),
            "line 3, column 1: 'provides' is a row of a contract, and neither load nor replace stands above it"
                .to_string(),
        ),
    ];
    for (text, message) in cases {
        assert_eq!(self::message(&text), message, "{text}");
    }
}

/// A byte order mark is no part of a text, nor of its places.
#[test]
fn a_byte_order_mark_is_taken() {
    let marked = |text: &str| [b"\xEF\xBB\xBF", text.as_bytes()].concat();
    let text = "load F000000001\n";
    assert_eq!(read(utf8(&marked(text)).expect("UTF-8")), read(text));
    assert_eq!(utf8(&marked("")), Ok(""));
    let lode = marked("lode");
    let fault = read(utf8(&lode).expect("UTF-8")).expect_err("no line");
    assert!(fault.to_string().starts_with("line 1, column 1: 'lode' begins no line"), "{fault}");
    let bytes = [&marked("ab")[..], b"\xFF"].concat();
    assert_eq!(utf8(&bytes).unwrap_err().to_string(), "line 1, column 3: these bytes are not text in UTF-8");
    let hexadecimal = marked("00 04 01 02");
    let records = hexadecimal::records(utf8(&hexadecimal).expect("UTF-8")).expect("hexadecimal");
    assert_eq!(records.iter().map(|digits| digits.bytes.clone()).collect::<Vec<_>>(), [[0, 4, 1, 2]]);
}

/// A message has at most 40 characters of a word, also where these have several bytes.
#[test]
fn long_words_are_cut() {
    for letter in ["x", "Ä", "日", "🏌"] {
        for (letters, shown) in [(39, 39), (40, 40), (41, 40), (1000, 40)] {
            let word = letter.repeat(letters);
            let cut = letter.repeat(shown) + if letters > 40 { "..." } else { "" };
            let cases = [
                (word.clone(), format!("line 1, column 1: '{cut}' begins no line: there are load")),
                (format!("load {word}"), format!("line 1, column 6: '{cut}' is neither an AID in hexadecimal nor")),
                (
                    format!("unload F000000001 {word}"),
                    format!("line 1, column 19: nothing may follow here, but '{cut}' does"),
                ),
                (
                    format!("add F000000001 {word}"),
                    format!("line 1, column 16: provides, calls or grants is expected, not '{cut}'"),
                ),
                (
                    format!("add F000000001 grants 0.0 {word}"),
                    format!("line 1, column 27: 'to' is expected, not '{cut}'"),
                ),
                (
                    format!("add F000000001 provides 0.{word}"),
                    format!("line 1, column 25: '{}' is not a service: interface", shortened("0.", &word)),
                ),
                (
                    format!("name -{word} F000000001"),
                    format!("line 1, column 6: '{}' is no name: a letter, then", shortened("-", &word)),
                ),
                (
                    format!("unload F000000001\nexpect {word}"),
                    format!("line 2, column 8: accepted or refused is expected, not '{cut}'"),
                ),
                (
                    format!("unload F000000001\nexpect refused {word}"),
                    format!("line 2, column 16: '{cut}' is no cause: there are 1 to 11"),
                ),
            ];
            for (text, begins) in cases {
                assert!(message(&text).starts_with(&begins), "{}\n{begins}", message(&text));
            }
        }
    }
}

/// A word after its first characters, cut as messages have it.
fn shortened(first: &str, rest: &str) -> String {
    let word: Vec<char> = format!("{first}{rest}").chars().collect();
    match word.len() {
        0..=40 => word.into_iter().collect(),
        _ => word[..40].iter().collect::<String>() + "...",
    }
}

/// Names that were given are cut as words are.
#[test]
fn long_names_are_cut() {
    let (a, b) = ("a-".to_string() + &"x".repeat(60), "b".repeat(41) + "-");
    let (short_a, short_b) = (format!("{}...", &a[..40]), format!("{}...", &b[..40]));
    let cases = [
        (
            format!("name {a} F000000001\nname {a} F000000002"),
            format!("line 2, column 6: the name '{short_a}' is given already"),
        ),
        (
            format!("name {a} F000000001\nname {b} F000000001"),
            format!("line 2, column 6: the AID F000000001 has the name '{short_a}' already"),
        ),
        (
            format!("name {a} F000000001\nname {b} {a} 0.0\nname {b} {a} 0.1"),
            format!("line 3, column 6: a service of {short_a} has the name '{short_b}' already"),
        ),
        (
            format!("name {a} F000000001\nname {b} {a} 0.0\nname read {a} 0.0"),
            format!("line 3, column 6: the service 0.0 of {short_a} has the name '{short_b}' already"),
        ),
        (
            format!("name {a} F000000001\nload {a}\nprovides {b}"),
            format!(
                "line 3, column 10: '{short_b}' is neither a service, as in 0.1, nor a name given above to a service \
                 of {short_a}"
            ),
        ),
        (
            format!("name {} F000000001", "ab".repeat(30)),
            format!("line 1, column 6: '{}...' is no name: it has hexadecimal digits alone", "ab".repeat(20)),
        ),
    ];
    for (text, message) in cases {
        assert_eq!(self::message(&text), message, "{text}");
    }
}
