//! Images as text and as dumps, both ways, and why an image is not sound.

use cardtool::contract::Aid;
use cardtool::fault::{At, Fault};
use cardtool::layout::{Image, Layout, VERSION_01, VERSION_02, VERSION_03};
use cardtool::names::Names;
use cardtool::tables::{Tables, Unmet, Waiting};
use cardtool::unsound::faults;
use cardtool::words::utf8;
use cardtool::{contract, dump, hexadecimal, image_text, record, record_text};
use comparison::card::{Bytes, Card, BYTES, IMAGE, LARGE_IMAGE, ON_LARGE};
use comparison::damage::Damage;
use comparison::generate::Source;
use comparison::machine::{self, Machine};
use comparison::random::Random;
use comparison::rules::Rules;
use comparison::tables as apart;
use std::collections::{BTreeMap, BTreeSet};

/// The rules whose images the tool reads: the last of version 01, and those in force on either card.
const EACH: [Rules; 3] = [Rules::R_7, Rules::IN_FORCE, ON_LARGE];

fn layout(rules: Rules) -> &'static Layout {
    match (rules == ON_LARGE, rules.early_grants) {
        (true, _) => &VERSION_03,
        (false, true) => &VERSION_02,
        (false, false) => &VERSION_01,
    }
}

fn empty(rules: Rules) -> Vec<u8> {
    let mut image = vec![0; layout(rules).size()];
    assert_eq!(Bytes(rules).empty(&mut image).answer, 0);
    image
}

/// The image after the records of a text, each of which is accepted.
fn image_after(rules: Rules, text: &str) -> Vec<u8> {
    let mut image = empty(rules);
    let card = layout(rules);
    for placed in record_text::read(card, text, &Names::default()).expect("a text").records {
        assert_eq!(Bytes(rules).judge(&mut image, &placed.bytes(card)).answer, 0, "{:?}", placed.written);
    }
    image
}

/// The names that a text gives.
fn names(text: &str) -> Names {
    record_text::read(&VERSION_02, text, &Names::default()).expect("a text").names
}

/// The tables of a sound image.
fn tables(image: &[u8]) -> Tables {
    Tables::of(image, &Names::default()).unwrap_or_else(|faults| panic!("{faults:?}"))
}

/// The text of a sound image, without names.
fn text_of(image: &[u8]) -> String {
    image_text::write(&tables(image), &Names::default())
}

/// The image of a text without names given beforehand.
fn read(text: &str) -> Result<Vec<u8>, Fault> {
    image_text::read(&VERSION_02, text, &Names::default())
}

/// The source of a history. Those of version 01 get records of later.
fn source(rules: Rules, ordinal: u64) -> Source {
    match rules == ON_LARGE {
        true => Source::with(rules, Vec::new(), Vec::new(), Random::new(90 + ordinal)),
        false => Source::new(9, ordinal),
    }
}

/// Images after the records of random histories.
fn random_images(rules: Rules, histories: u64) -> Vec<Vec<u8>> {
    let mut images = Vec::new();
    for ordinal in 0..histories {
        let (mut source, mut machine, mut image) = (source(rules, ordinal), Machine::default(), empty(rules));
        for _ in 0..source.length() {
            let record = source.record(&machine);
            if machine.judge(rules, &record) == 0 {
                Bytes(rules).judge(&mut image, &record);
                images.push(image.clone());
            }
        }
    }
    images
}

/// Two packages, a call, a grant and a need between them, and a row in each list. Every version can hold it.
const CARD: &str = "\
name log F000000001
load log
    provides 0.0
    provides 0.1
    grants 0.0 to F000000002
    grants 0.1 to F000000009
load F000000002
    calls log 0.0
    calls F000000003 3.7
    needs log 0.0
";

const CARD_TEXT: &str = "\
# 2 packages, 1 unmet call, 1 waiting grant
package 0 F000000001
    service 0 0.0
    service 1 0.1
    grants 0.0 to F000000002
package 1 F000000002
    calls F000000001 0.0
    needs F000000001 0.0
unmet F000000002 calls F000000003 3.7
waiting F000000001 grants 0.1 to F000000009
";

#[test]
fn an_image_is_shown() {
    for rules in EACH {
        let image = image_after(rules, CARD);
        let text = if rules == ON_LARGE { format!("card large\n{CARD_TEXT}") } else { CARD_TEXT.to_string() };
        assert_eq!(text_of(&image), text);
        assert_eq!(image_text::write(&tables(&image), &names(CARD)), text.replace("F000000001", "log"));
    }
    let [small, large] = [Rules::IN_FORCE, ON_LARGE].map(|rules| image_after(rules, CARD));
    assert_eq!((read(CARD_TEXT).as_ref(), read(&format!("card small\n{CARD_TEXT}"))), (Ok(&small), Ok(small.clone())));
    assert_eq!(read(&format!("card large\n{CARD_TEXT}")), Ok(large.clone()));
    assert_eq!(image_text::read(&VERSION_03, CARD_TEXT, &Names::default()), Ok(large));
    assert_eq!(image_text::read(&VERSION_03, &format!("card small\n{CARD_TEXT}"), &Names::default()), Ok(small));
}

/// A grant that waits for its service, to an installed package and to another.
#[test]
fn grants_of_services_not_provided_are_shown() {
    let early = "add F000000001 grants 7.7 to F000000002\nadd F000000001 grants 7.7 to F000000008\n";
    let image = image_after(Rules::IN_FORCE, &format!("{CARD}{early}"));
    let text = text_of(&image);
    let waiting = "waiting F000000001 grants 7.7 to F000000002\nwaiting F000000001 grants 7.7 to F000000008\n";
    assert_eq!(text, format!("{}{waiting}", CARD_TEXT.replace("1 waiting grant", "3 waiting grants")));
    assert_eq!(read(&text), Ok(image));
}

#[test]
fn images_are_text_and_back() {
    for rules in [Rules::IN_FORCE, ON_LARGE] {
        let images = random_images(rules, 12);
        assert!(images.len() > 500, "{}", images.len());
        for image in images {
            let text = text_of(&image);
            assert_eq!(tables(&image).image(), image, "{text}");
            assert!(read(&text) == Ok(image), "{text}");
        }
    }
}

/// What is shown of a small card reads, as a large one, as the image that it is enlarged to; so do its tables.
#[test]
fn the_text_of_a_small_image_is_that_of_the_enlarged_one() {
    for small in random_images(Rules::IN_FORCE, 12) {
        let (text, mut large) = (text_of(&small), vec![0; LARGE_IMAGE]);
        assert_eq!(BYTES.enlarge(&small, &mut large).answer, 0);
        assert_eq!(text_of(&large), format!("card large\n{text}"));
        assert!(image_text::read(&VERSION_03, &text, &Names::default()) == Ok(large.clone()), "{text}");
        let on_large = tables(&small).on(&VERSION_03);
        assert_eq!((&on_large, on_large.contracts()), (&tables(&large), tables(&small).contracts()));
    }
}

/// What is shown of a version 01 image reads as the image that it is converted to.
#[test]
fn the_text_of_an_old_image_is_that_of_the_converted_one() {
    let images = random_images(Rules::R_7, 12);
    assert!(images.len() > 500, "{}", images.len());
    for old in images {
        let text = text_of(&old);
        assert_eq!(tables(&old).image(), old, "{text}");
        let mut converted = vec![0; IMAGE];
        assert_eq!(BYTES.convert(&old, &mut converted).answer, 0);
        assert!(read(&text) == Ok(converted), "{text}");
    }
}

/// Contracts as bytes and numbers: of each AID its four sets, in which a service provided has no AID.
type Plain = BTreeMap<Vec<u8>, [BTreeSet<(Vec<u8>, u8, u8)>; 4]>;

fn plain(contracts: &contract::Contracts) -> Plain {
    let service = |tokens: &contract::Tokens| (Vec::new(), tokens.interface, tokens.method);
    let row = |row: &contract::Row| (row.other.bytes().to_vec(), row.tokens.interface, row.tokens.method);
    let sets = |contract: &contract::Contract| {
        let rows = [&contract.calls, &contract.grants, &contract.needs].map(|rows| rows.iter().map(row).collect());
        let [calls, grants, needs] = rows;
        [contract.provides.iter().map(service).collect(), calls, grants, needs]
    };
    contracts.iter().map(|(aid, contract)| (aid.bytes().to_vec(), sets(contract))).collect()
}

/// The same of the machine's contracts.
fn plain_apart(machine: &Machine) -> Plain {
    let service = |tokens: &machine::Tokens| (Vec::new(), tokens.interface, tokens.method);
    let row = |row: &machine::Row| (row.other.bytes().to_vec(), row.tokens.interface, row.tokens.method);
    let sets = |contract: &machine::Contract| {
        let rows = [&contract.calls, &contract.grants, &contract.needs].map(|rows| rows.iter().map(row).collect());
        let [calls, grants, needs] = rows;
        [contract.provides.iter().map(service).collect(), calls, grants, needs]
    };
    machine.contracts.iter().map(|(aid, contract)| (aid.bytes().to_vec(), sets(contract))).collect()
}

/// The tables are read exactly when the reader that is written apart reads them, and with the same contracts.
#[test]
fn tables_are_those_of_the_reader_apart() {
    let mut random = Random::new(3);
    for rules in EACH {
        let (mut read, mut refused, mut rows) = (0, 0, 0);
        for image in random_images(rules, 12) {
            let damaged = [Damage::one_byte, Damage::two_bytes].map(|draw| draw(&image, &mut random).done_to(&image));
            for image in [&image, &damaged[0], &damaged[1]] {
                let found = Tables::of(image, &Names::default()).ok();
                let contracts = found.as_ref().map(|tables| plain(&tables.contracts()));
                assert_eq!(contracts, apart::contracts(rules, image).map(|machine| plain_apart(&machine)));
                let Some(tables) = found else {
                    refused += 1;
                    continue;
                };
                assert_eq!(&tables.image(), image);
                read += 1;
                rows += tables.unmet.len() + tables.waiting.len() + tables.needs.len();
            }
        }
        assert!(read > 500 && refused > 500 && rows > 1000, "{read}, {refused} and {rows}");
    }
}

/// Rows past the limit of a list are not written, and nothing else is.
#[test]
fn a_list_that_is_too_long_is_cut() {
    for rules in EACH {
        let mut tables = tables(&image_after(rules, CARD));
        let aid = |n: u8| Aid::new(&[0xF1, 0, 0, 0, n]).expect("an AID");
        let tokens = contract::Tokens { interface: 0, method: 1 };
        let rows = tables.layout.rows as u8;
        tables.unmet = (0..rows).map(|n| Unmet { callee: aid(n), tokens, caller: 1 }).collect();
        tables.waiting = (0..rows).map(|n| Waiting { caller: aid(n), callee: 0, tokens }).collect();
        let full = tables.image();
        assert_eq!(faults(&full, &Names::default()), []);
        for n in rows..rows + 24 {
            tables.unmet.push(Unmet { callee: aid(n), tokens, caller: 1 });
            tables.waiting.push(Waiting { caller: aid(n), callee: 0, tokens });
        }
        assert_eq!(tables.image(), full);
    }
}

#[test]
fn dumps_are_read_back() {
    let mut random = Random::new(2);
    let (mut dumps, mut named) = (0, 0);
    for rules in EACH {
        for image in random_images(rules, 6) {
            let damaged = Damage::two_bytes(&image, &mut random).done_to(&image);
            let named_0 = tables(&image).at(0).map(|package| format!("name log {}\n", package.aid));
            let names = names(&named_0.unwrap_or_default());
            for image in [image, damaged] {
                let text = dump::image(Image::new(&image).expect("a card's size"), &names);
                named += usize::from(text.contains("package 0 (log)"));
                assert_eq!(hexadecimal::dump(&text), Ok(image));
                dumps += 1;
            }
        }
    }
    assert!(dumps > 500 && named > 100, "{dumps} and {named}");
}

/// The parts of an image in words, with names where packages have them.
#[test]
fn a_dump_has_words() {
    let small = [4, 21, 140, 268, 284, 340, 412, 468, 469, 789, 790];
    let large = [5, 22, 277, 789, 853, 1333, 1877, 2357, 2358, 2998, 2999];
    for (
        rules,
        [first, second, tokens, provides, calls, grants, needs, unmet, call, waiting, grant],
        end,
        service,
        each,
    ) in [
        (Rules::R_7, small, 1094, "service", "a byte"),
        (Rules::IN_FORCE, small, 1110, "tokens", "a byte"),
        (ON_LARGE, large, 3639, "tokens", "2 bytes"),
    ] {
        let image = image_after(rules, CARD);
        let dump = |names: &Names| dump::image(Image::new(&image).expect("a card's size"), names);
        let words = [
            "0: length, version".to_string(),
            "3: used package numbers, bit by bit".to_string(),
            format!("{first}: AID of package 0: length, bytes, fill"),
            format!("{second}: AID of package 1: length, bytes, fill"),
            format!("{tokens}: tokens of package 0, two bytes for each service"),
            format!("{provides}: services provided, {each} for each package"),
            format!("{calls}: calls of package 1, {each} for each callee"),
            format!("{grants}: grants of package 0, {each} for each caller"),
            format!("{needs}: needs of package 1, {each} for each callee"),
            format!("{unmet}: count of unmet calls"),
            format!("{call}: unmet call 0: callee AID, tokens, caller"),
            format!("{waiting}: count of waiting grants"),
            format!("{grant}: waiting grant 0: caller AID, callee, {service}"),
            format!("{end}:"),
        ];
        let said = |line: &str| {
            let (offset, rest) = line.split_once(':').expect("an offset");
            let words = rest.split_once("# ").map_or(String::new(), |(_, words)| format!(" {words}"));
            format!("{}:{words}", offset.trim_start())
        };
        assert_eq!(dump(&Names::default()).lines().map(said).collect::<Vec<_>>(), words);
        let named: Vec<String> = dump(&names(CARD)).lines().map(said).collect();
        assert_eq!(named, words.map(|line| line.replace("package 0", "package 0 (log)")));
    }
}

/// A dump may begin with a byte order mark.
#[test]
fn a_byte_order_mark_before_a_dump_is_taken() {
    let image = image_after(Rules::IN_FORCE, CARD);
    let dump = dump::image(Image::new(&image).expect("a card's size"), &Names::default());
    let marked = format!("\u{FEFF}{dump}").into_bytes();
    assert_eq!(utf8(&marked).and_then(hexadecimal::dump), Ok(image));
    let bad = utf8(b"\xEF\xBB\xBF0: 0G").and_then(hexadecimal::dump).expect_err("no digit");
    assert_eq!(bad.to_string(), "line 1, column 5: 'G' is no hexadecimal digit");
    let text = format!("\u{FEFF}{CARD_TEXT}").into_bytes();
    assert_eq!(utf8(&text).and_then(read), read(CARD_TEXT));
}

/// A record's dump has its bytes and no others.
#[test]
fn record_dumps_are_read_back() {
    for rules in [Rules::IN_FORCE, ON_LARGE] {
        let (mut source, mut machine, card) = (source(rules, 0), Machine::default(), layout(rules));
        let mut kinds = BTreeSet::new();
        for _ in 0..600 {
            let bytes = source.record(&machine);
            machine.judge(rules, &bytes);
            if let Ok(record) = record::read(card, &bytes) {
                kinds.insert(bytes[3]);
                assert_eq!(hexadecimal::dump(&dump::record(card, &record)), Ok(bytes));
            }
        }
        assert_eq!(kinds.len(), 9);
    }
}

#[test]
fn bad_dumps_have_messages_with_places() {
    let cases = [
        ("04 46\n1: 01", "line 2, column 1: the offset is 1, but 2 bytes stand above"),
        (" x: 01", "line 1, column 2: 'x' is no offset: a decimal number to 65536"),
        ("65537:", "line 1, column 1: '65537' is no offset: a decimal number to 65536"),
        ("0: 04 46 3: 01", "line 1, column 11: ':' is no hexadecimal digit"),
        ("0: 04 4", "line 1, column 7: a byte has two digits, here is one"),
        ("3::", "line 1, column 1: '3:' is no offset: a decimal number to 65536"),
        ("\n :", "line 2, column 2: '' is no offset: a decimal number to 65536"),
        ("+1:", "line 1, column 1: '+1' is no offset: a decimal number to 65536"),
    ];
    let long = format!("{}:", "9".repeat(60));
    let cut = format!("line 1, column 1: '{}...' is no offset: a decimal number to 65536", "9".repeat(40));
    for (text, message) in cases.into_iter().chain([(&*long, &*cut)]) {
        assert_eq!(hexadecimal::dump(text).expect_err(text).to_string(), message);
    }
    assert_eq!(hexadecimal::dump("65536:").map(|bytes| bytes.len()), Ok(65536));
}

/// An image has faults exactly when it is not sound, and each is at one of its bytes.
#[test]
fn faults_are_there_exactly_when_an_image_is_not_sound() {
    let mut random = Random::new(1);
    for rules in EACH {
        let (mut sound, mut unsound) = (0, 0);
        for image in random_images(rules, 12) {
            assert_eq!(faults(&image, &Names::default()), []);
            for draw in [Damage::one_byte, Damage::two_bytes, Damage::two_bytes] {
                let damaged = draw(&image, &mut random).done_to(&image);
                let found = faults(&damaged, &Names::default());
                let refused = Bytes(rules).check(&damaged).answer == 1;
                assert_eq!(!found.is_empty(), refused, "{found:?}");
                let tables = Tables::of(&damaged, &Names::default());
                assert_eq!(tables.err().unwrap_or_default(), found);
                let in_image = |fault: &Fault| matches!(fault.at, At::Byte(byte) if byte < image.len());
                assert!(found.iter().all(in_image), "{found:?}");
                sound += usize::from(!refused);
                unsound += usize::from(refused);
            }
        }
        assert!(sound > 100 && unsound > 1000, "{sound} and {unsound}");
    }
}

/// The messages about an image with some damage.
fn messages(image: &[u8], damage: &str, names: &Names) -> Vec<String> {
    let damaged = Damage::from_text(damage).expect(damage).done_to(image);
    faults(&damaged, names).iter().map(Fault::to_string).collect()
}

fn each_is_found(image: &[u8], names: &Names, cases: &[(&str, &str)]) {
    for (damage, message) in cases {
        let found = messages(image, damage, names);
        assert!(found.iter().any(|fault| fault == message), "{damage}: {found:?}");
    }
}

/// Each reason why an image is not sound, with its byte.
#[test]
fn each_fault_has_its_byte_and_words() {
    let image = image_after(Rules::IN_FORCE, CARD);
    each_is_found(
        &image,
        &Names::default(),
        &[
            ("1=46", "byte 1: here is 46, and the header has 56"),
            ("2=01", "byte 2: here is 01, and the header has 02"),
            ("4=04", "byte 4: the AID of package 0 has the length 4, not 5 to 16"),
            ("20=07", "byte 20: the AID of package 0 has 5 bytes, and the fill after them is not zero but 07"),
            ("2=03", "byte 2: here is 03, and the header has 02"),
            ("0=00", "byte 0: here is 00, and the header has 04"),
            ("26=01", "byte 21: package 1 has the AID of package 0"),
            ("40=01", "byte 40: package 2 is not used, and its AID's place is not zero but 01"),
            ("270=01", "byte 270: package 2 is not used, and what it provides is not zero but 01"),
            ("143=00", "byte 142: service 1 of package 0 has the tokens of service 0"),
            ("141=80", "byte 141: service 0 of package 0 has the method token 128, not 0 to 127"),
            ("143=FF", "byte 143: service 1 of package 0 has the method token 255, not 0 to 127"),
            ("487=80", "byte 487: the unmet call has the method token 128, not 0 to 127"),
            ("144=09", "byte 144: package 0 does not provide service 2, and the tokens' place is not zero but 09"),
            ("276=01", "byte 276: calls: package 0 has bits for itself"),
            ("286=01", "byte 286: calls: package 2 is not used, and has bits"),
            ("348=04", "byte 348: grants: package 1 does not provide service 2, and its bit is set"),
            ("341=00", "byte 284: calls: package 0 does not grant package 1 its service 0"),
            ("412=03", "byte 412: needs: package 1 does not call service 1 of package 0, which it needs"),
            ("468=11", "byte 468: the count is 17, a list has at most 16 rows"),
            ("468=00", "byte 469: the list has 0 rows, and the place past that is not zero but 05"),
            ("468=02", "byte 489: the callee's AID has the length 0, not 5 to 16"),
            ("489=01", "byte 489: the list has 1 row, and the place past that is not zero but 01"),
            ("469=11", "byte 469: the callee's AID has the length 17, not 5 to 16"),
            ("488=02", "byte 488: the caller is package 2, which is not used"),
            ("474=02", "byte 469: package 1 calls itself"),
            ("474=01,486=00,487=01", "byte 469: service 1 of package 0 is provided on the card, and the call is said to be unmet"),
            ("790=00", "byte 790: the caller's AID has the length 0, not 5 to 16"),
            ("795=01", "byte 790: package 0 grants to itself"),
            ("795=02", "byte 790: the caller is package 1 and service 1 of package 0 is provided, and the grant is said to wait"),
            ("807=08", "byte 807: the callee is package 8, which is not used"),
            ("807=02", "byte 807: the callee is package 2, which is not used"),
            ("809=80", "byte 809: the waiting grant has the method token 128, not 0 to 127"),
            ("1109=01", "byte 1109: the list has 1 row, and the place past that is not zero but 01"),
        ],
    );
    // A grant of a service that is not provided may wait, also one to an installed package.
    for damage in ["808=07", "809=7F", "795=02,808=07"] {
        assert_eq!(messages(&image, damage, &Names::default()), [""; 0], "{damage}");
    }
    for (bytes, at) in [(0, 0), (1, 1), (1093, 1093), (1095, 1095), (1109, 1109), (1111, 1110), (4000, 1110)] {
        let found: Vec<String> = faults(&vec![0; bytes], &Names::default()).iter().map(Fault::to_string).collect();
        assert_eq!(
            found,
            [format!(
                "byte {at}: an image has 1110 bytes, of a large card 3639, or 1094 in version 01, here are {bytes}"
            )]
        );
    }
}

/// Names for the packages and services of `CARD`. 0.0 is named, whose tokens are those of a place that is empty.
const NAMES: &str = "\
name log F000000001
name purse F000000002
name read log 0.0
name write log 0.1
name pay purse 0.0
";

/// Each reason that has a package or a service of it, with its names.
#[test]
fn faults_have_names() {
    let image = image_after(Rules::IN_FORCE, CARD);
    let provided = "is provided on the card, and the call is said to be unmet";
    let waits = "and the grant is said to wait";
    each_is_found(
        &image,
        &names(NAMES),
        &[
            ("4=11", "byte 4: the AID of package 0 has the length 17, not 5 to 16"),
            ("20=07", "byte 20: the AID of package 0 (log) has 5 bytes, and the fill after them is not zero but 07"),
            ("26=01", "byte 21: package 1 (log) has the AID of package 0"),
            ("143=00", "byte 142: service 1 of package 0 (log) has the tokens of service 0 (read)"),
            ("141=80", "byte 141: service 0 of package 0 (log) has the method token 128, not 0 to 127"),
            ("144=09", "byte 144: package 0 (log) does not provide service 2, and the tokens' place is not zero but 09"),
            ("276=01", "byte 276: calls: package 0 (log) has bits for itself"),
            ("340=01", "byte 340: grants: package 0 (log) has bits for itself"),
            ("404=01", "byte 404: needs: package 0 (log) has bits for itself"),
            ("348=04", "byte 348: grants: package 1 (purse) does not provide service 2, and its bit is set"),
            ("284=05", "byte 284: calls: package 0 (log) does not provide service 2, and its bit is set"),
            ("284=05", "byte 284: calls: package 0 (log) does not grant package 1 (purse) its service 2"),
            ("284=03", "byte 284: calls: package 0 (log) does not grant package 1 (purse) its service 1 (write)"),
            ("341=00", "byte 284: calls: package 0 (log) does not grant package 1 (purse) its service 0 (read)"),
            ("412=03", "byte 412: needs: package 1 (purse) does not call service 1 (write) of package 0 (log), which it needs"),
            ("412=05", "byte 412: needs: package 1 (purse) does not call service 2 of package 0 (log), which it needs"),
            ("405=01", "byte 405: needs: package 0 (log) does not call service 0 of package 1 (purse), which it needs"),
            ("474=02", "byte 469: package 1 (purse) calls itself"),
            ("474=01,486=00,487=01", &format!("byte 469: service 1 (write) of package 0 (log) {provided}")),
            ("795=01", "byte 790: package 0 (log) grants to itself"),
            ("795=02", &format!("byte 790: the caller is package 1 (purse) and service 1 (write) of package 0 (log) is provided, {waits}")),
            // A package that is not used has no name, whatever stands in its place.
            ("3=01", "byte 21: package 1 is not used, and its AID's place is not zero but 05"),
            ("3=01", "byte 284: calls: package 1 is not used, and has bits"),
            ("3=01", "byte 488: the caller is package 1, which is not used"),
            ("807=02", "byte 807: the callee is package 2, which is not used"),
        ],
    );
    let old = image_after(Rules::R_7, CARD);
    each_is_found(
        &old,
        &names(NAMES),
        &[
            ("808=02", "byte 808: package 0 (log) does not provide service 2"),
            ("795=02", &format!("byte 790: the caller is package 1 (purse) and service 1 (write) of package 0 (log) is provided, {waits}")),
        ],
    );
}

/// Names stand in brackets alone: without these, messages are as without names.
#[test]
fn names_change_nothing_else_in_messages() {
    let names = names(NAMES);
    let named = ["(log)", "(purse)", "(read)", "(write)", "(pay)"];
    let (mut random, mut seen) = (Random::new(10), BTreeSet::new());
    for rules in EACH {
        let image = image_after(rules, CARD);
        for _ in 0..3000 {
            let damaged = Damage::two_bytes(&image, &mut random).done_to(&image);
            let without = faults(&damaged, &Names::default());
            let mut with = faults(&damaged, &names);
            for fault in &mut with {
                for name in named {
                    seen.extend(fault.words.contains(name).then_some(name));
                    fault.words = fault.words.replace(&format!(" {name}"), "");
                }
            }
            assert_eq!(with, without);
        }
    }
    assert_eq!(seen, BTreeSet::from(named));
}

/// Long names are cut as words are.
#[test]
fn long_names_in_faults_are_cut() {
    let long = format!("name l{} F000000001\nname r{} F000000001 0.0\n", "o".repeat(40), "e".repeat(40));
    let (log, read) = (format!("l{}...", "o".repeat(39)), format!("r{}...", "e".repeat(39)));
    let message = format!("byte 284: calls: package 0 ({log}) does not grant package 1 its service 0 ({read})");
    assert_eq!(messages(&image_after(Rules::IN_FORCE, CARD), "341=00", &names(&long)), [message]);
}

/// The same of an image of version 01, where it has other places and reasons.
#[test]
fn each_fault_of_an_old_image_has_its_byte_and_words() {
    let image = image_after(Rules::R_7, CARD);
    let since = "since R-7 method tokens stop at 127, and a card made before may hold more";
    let provided = format!("byte 141: service 0 of package 0 has the method token 128, not 0 to 127: {since}");
    let unmet = format!("byte 487: the unmet call has the method token 255, not 0 to 127: {since}");
    each_is_found(
        &image,
        &Names::default(),
        &[
            ("1=56", "byte 1: here is 56, and the header has 46"),
            ("2=02", "byte 2: here is 02, and the header has 01"),
            ("141=80", &provided),
            ("487=FF", &unmet),
            ("790=00", "byte 790: the caller's AID has the length 0, not 5 to 16"),
            ("795=02", "byte 790: the caller is package 1 and service 1 of package 0 is provided, and the grant is said to wait"),
            ("807=08", "byte 807: the callee is package 8, which is not used"),
            ("808=02", "byte 808: package 0 does not provide service 2"),
            ("808=08", "byte 808: package 0 does not provide service 8"),
            ("809=01", "byte 809: the list has 1 row, and the place past that is not zero but 01"),
        ],
    );
}

/// The same of a large image: its places, its numbers and its limits.
#[test]
fn each_fault_of_a_large_image_has_its_byte_and_words() {
    let image = image_after(ON_LARGE, CARD);
    each_is_found(
        &image,
        &Names::default(),
        &[
            ("0=04", "byte 0: here is 04, and the header has 0E"),
            ("2=02", "byte 2: here is 02, and the header has 03"),
            ("3=80", "byte 260: the AID of package 15 has the length 0, not 5 to 16"),
            ("141=01", "byte 141: package 8 is not used, and its AID's place is not zero but 01"),
            ("5=04", "byte 5: the AID of package 0 has the length 4, not 5 to 16"),
            ("307=09", "byte 307: package 0 does not provide service 15, and the tokens' place is not zero but 09"),
            ("789=80", "byte 307: service 15 of package 0 has the tokens of service 0"),
            ("819=01", "byte 819: package 15 is not used, and what it provides is not zero but 01"),
            ("821=01", "byte 821: calls: package 0 has bits for itself"),
            ("853=01", "byte 853: calls: package 0 does not provide service 8, and its bit is set"),
            ("883=01", "byte 883: calls: package 15 is not used, and has bits"),
            ("1336=00", "byte 853: calls: package 0 does not grant package 1 its service 0"),
            ("1878=03", "byte 1877: needs: package 1 does not call service 1 of package 0, which it needs"),
            ("2357=21", "byte 2357: the count is 33, a list has at most 32 rows"),
            ("2377=10", "byte 2377: the caller is package 16, which is not used"),
            ("2376=80", "byte 2376: the unmet call has the method token 128, not 0 to 127"),
            ("2997=01", "byte 2997: the list has 1 row, and the place past that is not zero but 01"),
            ("3016=08", "byte 3016: the callee is package 8, which is not used"),
            ("3638=01", "byte 3638: the list has 1 row, and the place past that is not zero but 01"),
        ],
    );
}

#[test]
fn a_list_row_that_repeats_is_named() {
    for rules in EACH {
        let (mut image, card) = (image_after(rules, CARD), layout(rules));
        let mut twice = |list: usize, row: usize| {
            image.copy_within(list + 1..list + 1 + row, list + 1 + row);
            image[list] = 2;
            list + 1 + row
        };
        let unmet = twice(card.unmet_at(), card.unmet_row());
        let waiting = twice(card.waiting_at(), card.waiting_row());
        let found: Vec<String> = faults(&image, &Names::default()).iter().map(Fault::to_string).collect();
        let unmet = format!("byte {unmet}: unmet call 1 is unmet call 0 again");
        assert_eq!(found, [unmet, format!("byte {waiting}: waiting grant 1 is waiting grant 0 again")]);
    }
}

/// Each message of the reader of image texts, with its place.
#[test]
fn bad_image_texts_have_messages_with_places() {
    let two = "package 0 F000000001\nservice 0 0.0\npackage 1 F000000002\n";
    let rows = |row: fn(usize) -> String| two.to_string() + &(10..27).map(row).collect::<String>();
    let unmet = rows(|n| format!("unmet F000000001 calls F000000009 0.{n}\n"));
    let waiting = rows(|n| format!("waiting F000000001 grants 0.0 to F0000000{n}\n"));
    let after = |row: &str| two.to_string() + row;
    let cases = [
        ("package 8 F000000001".to_string(), "line 1, column 9: '8' is not a number from 0 to 7: a large card has it, after a line 'card large'"),
        ("package 0".to_string(), "line 1, column 10: the package's AID is missing"),
        (after("package 1 F000000003"), "line 4, column 9: package 1 stands above"),
        (after("package 2 F000000002"), "line 4, column 11: a package with this AID stands above"),
        ("pack 0 F000000001".to_string(), "line 1, column 1: 'pack' begins no line of an image: there are card, package, service, calls, grants, needs, unmet, waiting and name"),
        ("package 0 purse".to_string(), "line 1, column 11: 'purse' is neither an AID in hexadecimal nor a name given above"),
        ("package 00 F000000001".to_string(), "line 1, column 9: '00' is not a number from 0 to 7"),
        ("service 0 0.0".to_string(), "line 1, column 1: 'service' belongs to a package, and none stands above"),
        ("calls F000000001 0.0".to_string(), "line 1, column 1: 'calls' belongs to a package, and none stands above"),
        ("service".to_string(), "line 1, column 1: 'service' belongs to a package, and none stands above"),
        ("grants read to log".to_string(), "line 1, column 1: 'grants' belongs to a package, and none stands above"),
        ("needs".to_string(), "line 1, column 1: 'needs' belongs to a package, and none stands above"),
        (after("service"), "line 4, column 8: a service number is missing"),
        (after("service 0"), "line 4, column 10: a service, as 0.1, is missing"),
        (after("unmet"), "line 4, column 6: the package's AID is missing"),
        (after("waiting F000000001"), "line 4, column 19: 'grants' is missing"),
        (after("service 0 0.0 0.1"), "line 4, column 15: nothing may follow here, but '0.1' does"),
        (after("service 9 0.0"), "line 4, column 9: '9' is not a number from 0 to 7: a large card has it, after a line 'card large'"),
        (after("service 0 0.0\nservice 0 0.1"), "line 5, column 9: service 0 of the package stands above"),
        (after("service 0 0.0\nservice 1 0.0"), "line 5, column 11: the package has this service already"),
        (after("service 1 0.128"), "line 4, column 13: the method token is 128, not 0 to 127"),
        (after("unmet F000000002 calls F000000009 0.128"), "line 4, column 37: the method token is 128, not 0 to 127"),
        (after("waiting F000000001 grants 0.255 to F000000008"), "line 4, column 29: the method token is 255, not 0 to 127"),
        (after("provides 0.0"), "line 4, column 1: 'provides' begins no line of an image: there are card, package, service, calls, grants, needs, unmet, waiting and name"),
        (after("unmet F000000001 grants 0.0 to F000000002"), "line 4, column 18: 'calls' is expected, not 'grants'"),
        (after("waiting F000000001 calls F000000002 0.0"), "line 4, column 20: 'grants' is expected, not 'calls'"),
        (after("calls F000000009 0.0"), "line 4, column 1: the callee is no package here: the call is unmet"),
        (after("calls F000000001 0.1"), "line 4, column 1: the service is not provided here"),
        (after("calls F000000002 0.0"), "line 4, column 1: a package does not name its own AID here"),
        (after("calls F000000001 0.0"), "line 4, column 1: the callee does not grant this"),
        (after("needs F000000001 0.0"), "line 4, column 1: what is needed is not among the calls"),
        (after("grants 0.0 to F000000009"), "line 4, column 1: the caller is no package here: the grant is waiting"),
        (after("grants 0.0 to F000000001"), "line 4, column 1: the service is not provided here"),
        (after("unmet F000000009 calls F000000001 0.1"), "line 4, column 1: the package that calls is no package here"),
        (after("unmet F000000001 calls F000000001 0.1"), "line 4, column 1: a package does not call itself"),
        (after("unmet F000000002 calls F000000001 0.0"), "line 4, column 1: the callee provides this: the call is met"),
        (after("unmet F000000002 calls F000000009 0.0\nunmet F000000002 calls F000000009 0.0"), "line 5, column 1: this row stands above"),
        (after("waiting F000000009 grants 0.0 to F000000008"), "line 4, column 1: the package that grants is no package here"),
        (after("waiting F000000001 grants 0.1 to F000000001"), "line 4, column 1: a package does not grant to itself"),
        (after("waiting F000000001 grants 0.0 to F000000002"), "line 4, column 1: caller and service are on the card: the grant does not wait"),
        (unmet, "line 20, column 1: an image of a small card has at most 16 unmet calls, one of a large card ('card large') 32"),
        (waiting, "line 20, column 1: an image of a small card has at most 16 waiting grants, one of a large card ('card large') 32"),
    ];
    for (text, message) in cases {
        assert_eq!(read(&text).expect_err(&text).to_string(), message, "{text}");
    }
}

/// A line of an image's text that is dropped, doubled or moved gives a sound image or a fault.
#[test]
fn damaged_image_texts_give_a_sound_image_or_a_fault() {
    let mut random = Random::new(8);
    let (mut sound, mut faulted) = (0, 0);
    for image in [Rules::IN_FORCE, ON_LARGE].into_iter().flat_map(|rules| random_images(rules, 12)) {
        let text = text_of(&image);
        let mut rows: Vec<String> = text.lines().map(|line| format!("{line}\n")).collect();
        let at = random.below(rows.len());
        match random.below(4) {
            0 => drop(rows.remove(at)),
            1 => rows.insert(at, rows[at].clone()),
            2 => rows.swap(at, random.below(at + 1)),
            _ => rows[at] = rows[at].replacen(['0', '1'], "2", random.between(1, 3)),
        }
        match read(&rows.concat()) {
            Ok(image) => {
                assert_eq!(faults(&image, &Names::default()), [], "{}", rows.concat());
                assert_eq!(BYTES.check(&image).answer, 0, "{}", rows.concat());
                sound += 1;
            }
            Err(fault) => {
                let At::Text(place) = fault.at else { panic!("{fault}") };
                let line = &rows[place.line - 1];
                assert!((1..=line.chars().count()).contains(&place.column), "{fault}\n{line}");
                faulted += 1;
            }
        }
    }
    assert!(sound > 100 && faulted > 100, "{sound} and {faulted}");
}
