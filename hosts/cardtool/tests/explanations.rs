//! What is said of a refusal, for each cause and each case: the exact words, and the part of the record or the byte.

use cardtool::contract::Aid;
use cardtool::engines::answering;
use cardtool::explain::{explain, Explained, Reason};
use cardtool::layout::{VERSION_01, VERSION_02};
use cardtool::names::Names;
use cardtool::record::Part;
use cardtool::record_text::{read, Text};
use cardtool::tables::Tables;

const NAMES: &str = "\
name log F000000001
name read log 0.0
name write log 0.1
name purse F000000002
name bar F000000003
name pay bar 2.5
";

/// A server that two may read, and one of them.
const CARD: &str = "\
load log
    provides read
    provides write
    grants read to purse
    grants read to bar
load purse
    calls log read
    needs log read
";

fn text(records: &str) -> Text {
    read(&VERSION_02, &format!("{NAMES}{records}"), &Names::default()).expect("a text")
}

/// Judges each record of a text and explains it, from the empty image on. All but the last are accepted.
fn last(records: &str) -> (Explained, Names) {
    let Text { records, names, .. } = text(records);
    let mut image = vec![0; VERSION_02.size()];
    answering().empty(&mut image);
    let mut explained = records.iter().map(|placed| {
        let said = explain(&image, &placed.bytes(&VERSION_02), &names);
        assert_eq!(said.answer, answering().judge(&mut image, &placed.bytes(&VERSION_02)).answer, "{said:?}");
        let after = Tables::of(&image, &names).expect("a sound image").contracts();
        assert_eq!(said.after, (said.answer == 0).then_some(after));
        assert_eq!(said.reasons.is_empty(), said.answer == 0);
        said
    });
    let all: Vec<Explained> = explained.by_ref().collect();
    let (last, before) = all.split_last().expect("a record");
    assert!(before.iter().all(|said| said.answer == 0), "{before:?}");
    (last.clone(), names)
}

/// The last record is refused with this answer, and this is said of it.
fn refused(records: &str, answer: u32, expected: &[(Option<Part>, &str)]) -> Explained {
    let (said, names) = last(records);
    let words: Vec<(Option<Part>, String)> =
        said.reasons.iter().map(|reason| (reason.part(), reason.words(&names))).collect();
    let expected: Vec<(Option<Part>, String)> =
        expected.iter().map(|(part, words)| (*part, words.to_string())).collect();
    assert_eq!((said.answer, words), (answer, expected), "{records}");
    said
}

/// The same of a record behind those of `CARD`.
fn on_the_card(record: &str, answer: u32, expected: &[(Option<Part>, &str)]) -> Explained {
    refused(&format!("{CARD}{record}"), answer, expected)
}

fn aid(last: u8) -> Aid {
    Aid::new(&[0xF0, 0, 0, 0, last]).expect("an AID")
}

/// What is said of a record of any bytes on an image of any bytes.
fn bytes(image: &[u8], record: &[u8]) -> (u32, Vec<(Option<usize>, String)>) {
    let names = text("").names;
    let said = explain(image, record, &names);
    (said.answer, said.reasons.iter().map(|reason| (reason.byte(), reason.words(&names))).collect())
}

#[test]
fn accepted() {
    let (said, _) = last(CARD);
    assert_eq!((said.answer, said.reasons), (0, Vec::new()));
    assert_eq!(said.after.expect("contracts").len(), 2);
}

#[test]
fn cause_1_each_fault_has_its_byte() {
    let mut image = vec![0; VERSION_02.size()];
    image[..3].copy_from_slice(&VERSION_02.header);
    assert_eq!(bytes(&image, b"").0, 2);
    (image[1], image[4]) = (0x46, 5);
    let header = (Some(1), "byte 1: here is 46, and the header has 56".to_string());
    let place = (Some(4), "byte 4: package 0 is not used, and its AID's place is not zero but 05".to_string());
    assert_eq!(bytes(&image, b""), (1, vec![header, place]));
    let size = (
        Some(7),
        "byte 7: an image has 1110 bytes, of a large card 3639, or 1094 in version 01, here are 7".to_string(),
    );
    assert_eq!(bytes(&image[..7], b""), (1, vec![size]));
}

#[test]
fn cause_1_version_01_is_converted_first() {
    let mut image = vec![0; VERSION_01.size()];
    image[..3].copy_from_slice(&VERSION_01.header);
    let words = "byte 2: the image has version 01, and has to be converted before it can be judged: 'cardtool convert'";
    let old = (Some(2), words.to_string());
    assert_eq!(bytes(&image, b""), (1, vec![old.clone()]));
    image[789] = 17;
    let count = (Some(789), "byte 789: the count is 17, a list has at most 16 rows".to_string());
    assert_eq!(bytes(&image, b""), (1, vec![old, count]));
}

#[test]
fn cause_2_has_its_byte() {
    let mut image = vec![0; VERSION_02.size()];
    image[..3].copy_from_slice(&VERSION_02.header);
    let malformed = |record: &[u8], at: usize, words: &str| {
        assert_eq!(bytes(&image, record), (2, vec![(Some(at), format!("byte {at}: {words}"))]));
    };
    malformed(b"", 0, "the record ends here, and bytes are missing");
    malformed(&[0, 4, 1, 12], 3, "the kind is 12, and there are 1 to 8 and 11");
    let other = "the version is 2: a record of the large card, and this card is small; \
                 'cardtool decode' makes a text of it, which is judged on either";
    malformed(&[0, 4, 2, 12], 2, other);
    malformed(&[0, 4, 0, 12], 2, "the version is 0, and records have 1 on the small card, 2 on the large card");
    malformed(&[0, 5, 1, 2, 4], 4, "the AID's length is 4, not 5 to 16");
    malformed(&[0, 12, 1, 4, 5, 0xF0, 0, 0, 0, 1, 0, 128], 11, "the method token is 128, not 0 to 127");
}

#[test]
fn cause_3_each_contradiction() {
    let said = refused(
        "load log
             provides read
             provides read
             calls bar pay
             calls log write
             calls bar pay
             grants read to log
             grants write to purse
             grants write to purse
             needs purse 1.1
             needs purse 1.1
             needs log write",
        3,
        &[
            (Some(Part::Provides(1)), "provides read repeats row 1 of the services"),
            (Some(Part::Calls(2)), "calls bar pay repeats row 1 of the calls"),
            (Some(Part::Calls(1)), "calls log write names the package itself"),
            (Some(Part::Grants(2)), "grants write to purse repeats row 2 of the grants"),
            (Some(Part::Grants(0)), "grants read to log names the package itself"),
            (Some(Part::Needs(1)), "needs purse 1.1 repeats row 1 of the needs"),
            (Some(Part::Needs(2)), "needs log write names the package itself"),
            (Some(Part::Needs(0)), "needs purse 1.1 is not among the calls of this contract"),
            (Some(Part::Needs(1)), "needs purse 1.1 is not among the calls of this contract"),
        ],
    );
    assert_eq!((said.reasons[1].first(), said.reasons[2].first()), (Some(Part::Calls(0)), None));
}

#[test]
fn cause_3_callers_and_single_rows() {
    refused(
        "add log provides read\n to purse\n to log\n to purse",
        3,
        &[
            (Some(Part::Callers(2)), "to purse repeats row 1 of the callers"),
            (Some(Part::Callers(1)), "to log names the package itself"),
        ],
    );
    refused("add log calls log read", 3, &[(Some(Part::Row), "calls log read names the package itself")]);
    refused("remove log calls log read", 3, &[(Some(Part::Row), "calls log read names the package itself")]);
    refused("add log grants read to log", 3, &[(Some(Part::Row), "grants read to log names the package itself")]);
    refused(
        "replace log\n needs bar pay",
        3,
        &[(Some(Part::Needs(0)), "needs bar pay is not among the calls of this contract")],
    );
}

#[test]
fn causes_4_and_5() {
    let said = on_the_card("load purse", 4, &[(None, "purse is on the card already, as package 1")]);
    assert_eq!(said.reasons[0].number(), Some(1));
    on_the_card("unload bar", 5, &[(None, "bar is not on the card, which has log, purse")]);
    refused("replace F0000000AB", 5, &[(None, "F0000000AB is not on the card, which is empty")]);
}

#[test]
fn cause_6_what_is_there_already() {
    let said = on_the_card("add log provides write", 6, &[(None, "log provides write already, as service 1")]);
    assert_eq!(said.reasons[0].number(), Some(1));
    let row = Some(Part::Row);
    let said =
        on_the_card("add purse calls log read", 6, &[(row, "purse calls log read already, and the call is met")]);
    let ends = said.reasons[0].ends().expect("two ends");
    assert_eq!((ends.caller, ends.callee, ends.service.to_string().as_str()), (aid(2), aid(1), "0.0"));
    let words = "purse calls bar pay already, and the call is unmet";
    on_the_card("add purse calls bar pay\nadd purse calls bar pay", 6, &[(row, words)]);
    let words = "log grants read to purse already, and the grant is in force";
    on_the_card("add log grants read to purse", 6, &[(row, words)]);
    let words = "log grants read to bar already, and the grant waits for bar";
    on_the_card("add log grants read to bar", 6, &[(row, words)]);
    let again = |grant: &str| format!("{grant}\n{grant}");
    let words = "log grants 7.7 to purse already, and the grant waits for the service";
    on_the_card(&again("add log grants 7.7 to purse"), 6, &[(row, words)]);
    let words = "log grants 7.7 to bar already, and the grant waits for bar and the service";
    on_the_card(&again("add log grants 7.7 to bar"), 6, &[(row, words)]);
}

#[test]
fn cause_6_what_is_not_there() {
    let row = Some(Part::Row);
    on_the_card("remove purse provides 1.1", 6, &[(None, "purse does not provide 1.1")]);
    on_the_card("remove purse calls log write", 6, &[(row, "purse does not call log write")]);
    on_the_card("remove log grants write to purse", 6, &[(row, "log does not grant write to purse")]);
}

#[test]
fn cause_7_who_has_the_numbers() {
    let packages: String = (1..=9).map(|n| format!("load F00000000{n}\n")).collect();
    let words = "all 8 package numbers are used: \
                 log, purse, bar, F000000004, F000000005, F000000006, F000000007, F000000008";
    let said = refused(&packages, 7, &[(None, words)]);
    assert_eq!(said.reasons[0].count(), Some((8, 8)));
    let services: String = (0..=8).map(|n| format!("add log provides 0.{n}\n")).collect();
    let words = "all 8 service numbers of log are used: read, write, 0.2, 0.3, 0.4, 0.5, 0.6, 0.7";
    let said = refused(&format!("load log\n{services}"), 7, &[(None, words)]);
    assert_eq!(said.reasons[0].count(), Some((8, 8)));
}

#[test]
fn cause_8_a_call_of_the_record() {
    let call = "bar calls log write, and log does not grant it to bar";
    let load = "load bar\n calls log read\n calls log 9.9\n calls log write";
    on_the_card(load, 8, &[(Some(Part::Calls(2)), call)]);
    on_the_card("load bar\nreplace bar\n calls log write", 8, &[(Some(Part::Calls(0)), call)]);
    let said = on_the_card("load bar\nadd bar calls log write", 8, &[(Some(Part::Row), call)]);
    assert!(matches!(said.reasons[..], [Reason::Row { .. }]));
}

#[test]
fn cause_8_a_service_that_comes() {
    let callers = "load purse\n calls log read\n calls log write\nload bar\n calls log read\n";
    let [read, write, second] = [
        "purse calls log read, which this record brings, and log does not grant it to purse",
        "purse calls log write, which this record brings, and log does not grant it to purse",
        "bar calls log read, which this record brings, and log does not grant it to bar",
    ];
    let log = |verb: &str| format!("{callers}{verb} log\n provides write\n provides read\n grants read to purse");
    let both = [(Some(Part::Provides(0)), write), (Some(Part::Provides(1)), second)];
    refused(&log("load"), 8, &both);
    refused(&log("load log\nreplace"), 8, &both);
    let added = format!("{callers}load log\nadd log provides read");
    refused(&added, 8, &[(None, read), (None, second)]);
    refused(&format!("{added}\n to purse"), 8, &[(None, second)]);
}

#[test]
fn cause_8_a_grant_that_goes() {
    let words = "purse calls log read, and log would no longer grant it to purse";
    on_the_card("remove log grants read to purse", 8, &[(Some(Part::Row), words)]);
    on_the_card("replace log\n provides read", 8, &[(None, words)]);
}

#[test]
fn cause_9_a_need_of_the_record() {
    let load = "load bar\n calls purse 1.1\n calls F000000009 0.0\n needs F000000009 0.0\n needs purse 1.1";
    let needs = [
        (Some(Part::Needs(0)), "bar needs F000000009 0.0, and F000000009 is not on the card"),
        (Some(Part::Needs(1)), "bar needs purse 1.1, and purse does not provide it"),
    ];
    on_the_card(load, 9, &needs);
    on_the_card(&load.replace("load bar", "load bar\nreplace bar"), 9, &needs);
}

#[test]
fn cause_9_a_need_on_the_card() {
    on_the_card("unload log", 9, &[(None, "purse needs log read, and log would no longer be on the card")]);
    let words = "purse needs log read, and log would no longer provide it";
    on_the_card("remove log provides read", 9, &[(None, words)]);
    on_the_card("replace log\n provides write", 9, &[(None, words)]);
}

#[test]
fn cause_10_counts_and_shows_the_new() {
    let calls = |calls: usize| (0..calls).map(|n| format!("calls F000000009 0.{n}\n")).collect::<String>();
    let count = (None, "17 calls would be unmet, at most 16 may be, and this record brings 1 of them");
    let call = "bar calls log 9.9, and log does not provide it";
    let said =
        on_the_card(&format!("load bar\n{}add bar calls log 9.9", calls(16)), 10, &[count, (Some(Part::Row), call)]);
    assert_eq!(said.reasons[0].count(), Some((17, 16)));
    // Sixteen were unmet and stay so.
    let replaced = format!("load bar\n{}replace bar\ncalls log 9.9\n{}", calls(16), calls(16));
    on_the_card(&replaced, 10, &[count, (Some(Part::Calls(0)), call)]);
    // The record's own, in its order, and that of another package.
    let card =
        format!("load log\nprovides read\ngrants read to purse\nload purse\ncalls log read\nload bar\n{}", calls(15));
    let count = (None, "18 calls would be unmet, at most 16 may be, and this record brings 3 of them");
    let replaced = "replace log\ncalls purse 3.3\ncalls F000000008 2.2";
    refused(
        &format!("{card}{replaced}"),
        10,
        &[
            count,
            (Some(Part::Calls(0)), "log calls purse 3.3, and purse does not provide it"),
            (Some(Part::Calls(1)), "log calls F000000008 2.2, and F000000008 is not on the card"),
            (None, "purse calls log read, and log would no longer provide it"),
        ],
    );
    let card = card + "add bar calls F000000008 0.0\nunload log";
    let count = (None, "17 calls would be unmet, at most 16 may be, and this record brings 1 of them");
    refused(&card, 10, &[count, (None, "purse calls log read, and log would no longer be on the card")]);
}

#[test]
fn cause_11_counts_and_shows_what_is_waited_for() {
    let grants = |grants: usize| (0..grants).map(|n| format!("grants 9.{n} to F000000009\n")).collect::<String>();
    let card = format!("load log\nprovides read\ngrants read to purse\nload purse\nload bar\n{}", grants(16));
    let count = (None, "17 grants would wait, at most 16 may, and this record brings 1 of them");
    let waits = |record: &str, part: Option<Part>, words: &str| {
        let said = refused(&format!("{card}{record}"), 11, &[count, (part, words)]);
        assert_eq!(said.reasons[0].count(), Some((17, 16)));
    };
    let row = Some(Part::Row);
    waits("add log grants write to purse", row, "log grants write to purse, which would wait for the service");
    waits("add log grants read to F000000009", row, "log grants read to F000000009, which would wait for F000000009");
    let both = "log grants write to F000000009, which would wait for F000000009 and the service";
    waits("add log grants write to F000000009", row, both);
    let caller = "log grants write to F000000009, which would wait for F000000009";
    waits("add log provides write\nto purse\nto F000000009", Some(Part::Callers(1)), caller);
    waits("unload purse", None, "log grants read to purse, which would wait for purse");
    waits("remove log provides read", None, "log grants read to purse, which would wait for the service");
    waits(
        "replace log\ngrants read to purse",
        Some(Part::Grants(0)),
        "log grants read to purse, which would wait for the service",
    );
    waits(
        "load F000000008\ngrants 1.1 to bar",
        Some(Part::Grants(0)),
        "F000000008 grants 1.1 to bar, which would wait for the service",
    );
}
