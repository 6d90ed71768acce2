//! Names for packages and services: where they may stand, both ways, and every message with its place.

use cardtool::contract::{Aid, Tokens};
use cardtool::fault::Fault;
use cardtool::layout::VERSION_02;
use cardtool::names::Names;
use cardtool::record_text::{Placed, Text, Written};
use cardtool::tables::Tables;
use cardtool::{image_text, record_text};

/// Two packages. Names of services may be digits alone, and the same for two packages.
const NAMES: &str = "\
name log F000000001
name purse F000000002
name add log 0.1
name face log 3.127
name read log 0.0
name pay purse 255.0
name read purse 0.1
";

/// Every place of a record that has a service.
const RECORDS: &str = "\
load log
    provides read
    provides add
    calls purse pay
    calls purse read
    grants read to purse
    grants face to F000000009
    needs purse read
replace purse
    provides pay
    provides 7.7
    calls log face
    calls F000000009 0.0
    grants read to log
    needs log face
add log provides face
    to purse
remove log provides add
add purse calls log add
remove purse calls log read
add log grants face to purse
remove log grants read to F000000009
unload purse
";

/// The same in digits.
const RECORDS_IN_DIGITS: &str = "\
load F000000001
    provides 0.0
    provides 0.1
    calls F000000002 255.0
    calls F000000002 0.1
    grants 0.0 to F000000002
    grants 3.127 to F000000009
    needs F000000002 0.1
replace F000000002
    provides 255.0
    provides 7.7
    calls F000000001 3.127
    calls F000000009 0.0
    grants 0.1 to F000000001
    needs F000000001 3.127
add F000000001 provides 3.127
    to F000000002
remove F000000001 provides 0.1
add F000000002 calls F000000001 0.1
remove F000000002 calls F000000001 0.0
add F000000001 grants 3.127 to F000000002
remove F000000001 grants 0.0 to F000000009
unload F000000002
";

/// Every place of an image that has a service.
const IMAGE: &str = "\
# 2 packages, 1 unmet call, 2 waiting grants
package 0 log
    service 0 read
    service 2 add
    calls purse pay
    grants read to purse
    needs purse pay
package 1 purse
    service 1 pay
    calls log read
    grants pay to log
unmet purse calls log face
waiting log grants face to purse
waiting purse grants read to F000000009
";

const IMAGE_IN_DIGITS: &str = "\
# 2 packages, 1 unmet call, 2 waiting grants
package 0 F000000001
    service 0 0.0
    service 2 0.1
    calls F000000002 255.0
    grants 0.0 to F000000002
    needs F000000002 255.0
package 1 F000000002
    service 1 255.0
    calls F000000001 0.0
    grants 255.0 to F000000001
unmet F000000002 calls F000000001 3.127
waiting F000000001 grants 3.127 to F000000002
waiting F000000002 grants 0.1 to F000000009
";

fn read(text: &str) -> Result<Text, Fault> {
    record_text::read(&VERSION_02, text, &Names::default())
}

/// The names that a text gives.
fn names(text: &str) -> Names {
    read(text).unwrap_or_else(|fault| panic!("{fault}\n{text}")).names
}

fn bytes(text: &Text) -> Vec<Vec<u8>> {
    text.records.iter().map(|placed| placed.bytes(&VERSION_02)).collect()
}

/// The records of a text with these names for what they have.
fn written(text: &Text, names: &Names) -> String {
    let write = |placed: &Placed| match &placed.written {
        Written::Record(record) => record_text::write(record, names),
        Written::Bytes(bytes) => panic!("bytes alone: {bytes:?}"),
    };
    text.records.iter().map(write).collect()
}

fn aid(last: u8) -> Aid {
    Aid::new(&[0xF0, 0, 0, 0, last]).expect("an AID")
}

#[test]
fn records_have_names_in_every_place() {
    let named = read(&format!("{NAMES}{RECORDS}")).expect("a text");
    let digits = read(RECORDS_IN_DIGITS).expect("a text");
    assert_eq!(bytes(&named), bytes(&digits));
    assert_eq!(written(&digits, &named.names), RECORDS);
    assert_eq!(written(&named, &Names::default()), RECORDS_IN_DIGITS);
    let first = |text: &Text, names: &Names| -> Vec<String> {
        text.records.iter().map(|placed| placed.first_line(names)).collect()
    };
    let lines = |text: &str| -> Vec<String> {
        text.lines().filter(|line| !line.starts_with(' ')).map(str::to_string).collect()
    };
    assert_eq!(first(&digits, &named.names), lines(RECORDS));
    assert_eq!(first(&named, &Names::default()), lines(RECORDS_IN_DIGITS));
}

#[test]
fn images_have_names_in_every_place() {
    let image = image_text::read(&VERSION_02, IMAGE_IN_DIGITS, &Names::default()).expect("a text");
    assert_eq!(image_text::read(&VERSION_02, &format!("{NAMES}{IMAGE}"), &Names::default()), Ok(image.clone()));
    let tables = Tables::of(&image, &Names::default()).expect("a sound image");
    assert_eq!(image_text::write(&tables, &names(NAMES)), IMAGE);
    assert_eq!(image_text::write(&tables, &Names::default()), IMAGE_IN_DIGITS);
}

/// A name may be given before the package has its own, by digits or by a name.
#[test]
fn names_are_written_as_they_are_read() {
    assert_eq!(names(NAMES).text(), NAMES);
    let mixed = "name read f000000001 0.0 # reads\nname log F000000001\n  name write log 000.001\n";
    let sorted = "name log F000000001\nname read log 0.0\nname write log 0.1\n";
    assert_eq!(names(mixed), names(sorted));
    assert_eq!(names(mixed).text(), sorted);
    let services_alone = "name read F000000001 0.0\nname read F000000002 0.0\n";
    assert_eq!(names(services_alone).text(), services_alone);
    assert_eq!(names("load F000000001").text(), "");
}

#[test]
fn names_are_asked_for() {
    let names = names(NAMES);
    let tokens = |interface, method| Tokens { interface, method };
    assert_eq!((names.name(aid(1)), names.name(aid(9))), (Some("log"), None));
    assert_eq!((names.word(aid(2)), names.word(aid(9))), ("purse".to_string(), "F000000009".to_string()));
    let services = [(1, tokens(0, 1)), (2, tokens(0, 1)), (1, tokens(255, 0)), (9, tokens(0, 1))];
    let words = services.map(|(last, tokens)| names.service_word(aid(last), tokens));
    assert_eq!(words, ["add", "read", "255.0", "0.1"]);
}

/// Names hold from their line on.
#[test]
fn a_name_below_is_not_known_above() {
    for text in [
        "load log\nname log F000000001",
        "load F000000001\nprovides read\nname read F000000001 0.0",
        "name read log 0.0\nname log F000000001",
    ] {
        assert!(read(text).is_err(), "{text}");
    }
    let between = "load F000000001\nname read F000000001 0.0\nprovides read\nname log F000000001\ngrants read to log\n";
    let digits = "load F000000001\nprovides 0.0\ngrants 0.0 to F000000001\n";
    assert_eq!(bytes(&read(between).expect("a text")), bytes(&read(digits).expect("a text")));
}

/// The same name again is no fault, for the same package or service.
#[test]
fn names_may_be_given_again_alike() {
    let given = names(NAMES);
    assert_eq!(names(&format!("{NAMES}{NAMES}")), given);
    assert_eq!(names(&NAMES.replace("log 3", "F000000001 03").replace("log 0", "F000000001 0")), given);
    let again = record_text::read(&VERSION_02, &format!("{NAMES}{RECORDS}"), &given).expect("a text");
    assert_eq!((bytes(&again), again.names), (bytes(&read(RECORDS_IN_DIGITS).expect("a text")), given));
}

/// Names given beforehand are those of the text, and further ones join them.
#[test]
fn names_are_given_beforehand() {
    let given = names(NAMES);
    let text = record_text::read(&VERSION_02, RECORDS, &given).expect("a text");
    assert_eq!((bytes(&text), &text.names), (bytes(&read(RECORDS_IN_DIGITS).expect("a text")), &given));
    let image = image_text::read(&VERSION_02, IMAGE_IN_DIGITS, &Names::default());
    assert_eq!(image_text::read(&VERSION_02, IMAGE, &given), image);
    assert_eq!(image_text::read(&VERSION_02, &format!("{NAMES}{IMAGE}"), &given), image);
    let more = "name shop F000000003\nname sell shop 1.1\n";
    assert_eq!(record_text::read(&VERSION_02, more, &given).expect("a text").names, names(&format!("{NAMES}{more}")));
    // Without them the words are not known.
    assert!(read(RECORDS).is_err() && image_text::read(&VERSION_02, IMAGE, &Names::default()).is_err());
}

#[test]
fn names_that_differ_from_those_given_beforehand_are_faults() {
    let cases = [
        ("name log F000000003", "line 1, column 6: the name 'log' is given already"),
        ("name shop F000000001", "line 1, column 6: the AID F000000001 has the name 'log' already"),
        (" name read log 0.2", "line 1, column 7: a service of log has the name 'read' already"),
        ("name sell purse 0.1", "line 1, column 6: the service 0.1 of purse has the name 'read' already"),
    ];
    let given = names(NAMES);
    for (text, message) in cases {
        assert_eq!(record_text::read(&VERSION_02, text, &given).expect_err(text).to_string(), message);
        assert_eq!(image_text::read(&VERSION_02, text, &given).expect_err(text).to_string(), message);
    }
}

/// Each message about a line `name`, which texts of records and of images share.
#[test]
fn bad_names_have_messages_with_places() {
    let service = "is not a service: interface to 255 and method to 127, as in 0.1";
    let no_name = "is no name: a letter, then letters, digits, '-' and '_'";
    let cases = [
        ("name", "line 1, column 5: a name is missing".to_string()),
        ("name log", "line 1, column 9: an AID is missing".to_string()),
        ("name log F00000001", "line 1, column 10: an AID has two digits for each byte, here are 9 digits".to_string()),
        (
            "name read log 0.0",
            "line 1, column 11: 'log' is neither an AID in hexadecimal nor a name given above".to_string(),
        ),
        ("name log F000000001 0", format!("line 1, column 21: '0' {service}")),
        ("name log F000000001 read", format!("line 1, column 21: 'read' {service}")),
        ("name read F000000001 0.256", format!("line 1, column 22: '0.256' {service}")),
        ("name read F000000001 0.128", "line 1, column 24: the method token is 128, not 0 to 127".to_string()),
        ("name read F000000001 0.0 0.1", "line 1, column 26: nothing may follow here, but '0.1' does".to_string()),
        ("name 0.1 F000000001 0.1", format!("line 1, column 6: '0.1' {no_name}")),
        ("name 1st F000000001 0.1", format!("line 1, column 6: '1st' {no_name}")),
        ("name lesen! F000000001 0.1", format!("line 1, column 6: 'lesen!' {no_name}")),
        ("name Ärger F000000001 0.1", format!("line 1, column 6: 'Ärger' {no_name}")),
        ("name Ärger F000000001", format!("line 1, column 6: 'Ärger' {no_name}")),
        ("name _log F000000001", format!("line 1, column 6: '_log' {no_name}")),
        ("name add F000000001", "line 1, column 6: 'add' is no name: it has hexadecimal digits alone".to_string()),
        (
            "name read F000000001 0.0\nname read F000000001 0.1",
            "line 2, column 6: a service of F000000001 has the name 'read' already".to_string(),
        ),
        (
            "name log F000000001\nname read log 0.0\n name read log 0.1",
            "line 3, column 7: a service of log has the name 'read' already".to_string(),
        ),
        (
            "name read F000000001 0.0\nname write F000000001 0.0",
            "line 2, column 6: the service 0.0 of F000000001 has the name 'read' already".to_string(),
        ),
        (
            "name log F000000001\nname read log 0.0\nname face log 0.0",
            "line 3, column 6: the service 0.0 of log has the name 'read' already".to_string(),
        ),
    ];
    for (text, message) in cases {
        assert_eq!(read(text).expect_err(text).to_string(), message, "{text}");
        assert_eq!(
            image_text::read(&VERSION_02, text, &Names::default()).expect_err(text).to_string(),
            message,
            "{text}"
        );
    }
}

/// A word that names no service of the package that is meant, in every place of a record that has a service.
#[test]
fn unknown_services_in_records_have_messages_with_places() {
    let of =
        |package: &str| format!("is neither a service, as in 0.1, nor a name given above to a service of {package}");
    let cases = [
        ("load log\nprovides pay", format!("line 9, column 10: 'pay' {}", of("log"))),
        ("replace F000000001\n provides pay", format!("line 9, column 11: 'pay' {}", of("log"))),
        ("load log\ncalls purse face", format!("line 9, column 13: 'face' {}", of("purse"))),
        ("load log\ngrants pay to purse", format!("line 9, column 8: 'pay' {}", of("log"))),
        ("load log\nneeds purse add", format!("line 9, column 13: 'add' {}", of("purse"))),
        ("add purse provides add", format!("line 8, column 20: 'add' {}", of("purse"))),
        ("remove purse provides add", format!("line 8, column 23: 'add' {}", of("purse"))),
        ("add log calls purse add", format!("line 8, column 21: 'add' {}", of("purse"))),
        ("remove log calls F000000009 add", format!("line 8, column 29: 'add' {}", of("F000000009"))),
        ("add log grants pay to purse", format!("line 8, column 16: 'pay' {}", of("log"))),
        ("remove log grants READ to purse", format!("line 8, column 19: 'READ' {}", of("log"))),
        ("add log provides log", format!("line 8, column 18: 'log' {}", of("log"))),
    ];
    for (text, message) in cases {
        assert_eq!(read(&format!("{NAMES}{text}")).expect_err(text).to_string(), message, "{text}");
    }
    // Where no record is above, that is said.
    for text in ["provides read", "calls log raed", "grants", "needs log read"] {
        let verb = text.split(' ').next().expect("a word");
        let message =
            format!("line 8, column 1: '{verb}' is a row of a contract, and neither load nor replace stands above it");
        assert_eq!(read(&format!("{NAMES}{text}")).expect_err(text).to_string(), message, "{text}");
    }
}

/// The same in every place of an image.
#[test]
fn unknown_services_in_images_have_messages_with_places() {
    let of =
        |package: &str| format!("is neither a service, as in 0.1, nor a name given above to a service of {package}");
    let cases = [
        ("service 0 pay", format!("line 9, column 11: 'pay' {}", of("log"))),
        ("calls purse add", format!("line 9, column 13: 'add' {}", of("purse"))),
        ("grants pay to purse", format!("line 9, column 8: 'pay' {}", of("log"))),
        ("needs purse add", format!("line 9, column 13: 'add' {}", of("purse"))),
        ("unmet log calls purse add", format!("line 9, column 23: 'add' {}", of("purse"))),
        ("waiting log grants pay to purse", format!("line 9, column 20: 'pay' {}", of("log"))),
        ("waiting F000000009 grants pay to purse", format!("line 9, column 27: 'pay' {}", of("F000000009"))),
    ];
    for (text, message) in cases {
        let text = format!("{NAMES}package 0 log\n{text}");
        assert_eq!(
            image_text::read(&VERSION_02, &text, &Names::default()).expect_err(&text).to_string(),
            message,
            "{text}"
        );
    }
}
