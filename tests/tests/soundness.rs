//! Each condition of a sound image, broken by itself. The engines and the tests' own reader agree.

use comparison::card::{linked, Bytes, Card, Verdict, BYTES, IMAGE, LARGE_IMAGE, ON_LARGE};
use comparison::cases::{B, C, H, X};
use comparison::rules::Rules;
use comparison::tables::{self, Form};
use comparison::write::{load, remove, remove_service, Row, Tokens};

/// Bytes put at a place.
type Edit = (usize, &'static [u8]);
/// Edits with what they are.
type Edits = &'static [(&'static str, &'static [Edit])];

/// Packages 0 (H), 2 (C, which calls and needs a service of H) and 3 (a longer AID); number 1 and
/// H's service 1 are unused; two unmet calls of C and two waiting grants of H. Both versions can hold it.
fn sample(rules: Rules) -> Vec<u8> {
    let row = |other: &[u8], tokens: Tokens| -> Row { (other.to_vec(), tokens) };
    let records = [
        load(H, &[(1, 1), (1, 2), (1, 3)], &[], &[row(C, (1, 1)), row(C, (1, 3)), row(X, (1, 1)), row(X, (1, 3))], &[]),
        load(B, &[], &[], &[], &[]),
        load(C, &[(2, 2)], &[row(H, (1, 1)), row(X, (5, 5)), row(H, (6, 6))], &[], &[row(H, (1, 1))]),
        load(&[0xF0; 16], &[(3, 3)], &[], &[], &[]),
        remove(B),
        remove_service(H, (1, 2)),
    ];
    let mut image = vec![0; Form::of(rules).size];
    Bytes(rules).empty(&mut image);
    for record in records {
        assert_eq!(Bytes(rules).judge(&mut image, &record).answer, 0);
    }
    assert_eq!((image[3], image[268], image[468], image[789]), (0x0D, 0x05, 2, 2));
    image
}

const UNMET: usize = 469;
const WAITING: usize = 790;

/// Edits that leave an image of either version sound.
const HARMLESS: Edits = &[
    ("another AID", &[(4 + 34 + 5, &[7])]),
    ("an AID that takes its fill", &[(4 + 34, &[6])]),
    ("other tokens", &[(140, &[9, 9])]),
    ("a method token of 127", &[(140 + 1, &[127])]),
    ("an interface token of 255", &[(140, &[255, 127])]),
    ("unmet: a method token of 127", &[(UNMET + 17, &[5, 127])]),
    ("unmet: an interface token of 255", &[(UNMET + 20 + 17, &[255, 127])]),
    ("tokens of another package", &[(140, &[2, 2])]),
    ("a service with tokens 0, 0", &[(268, &[0x07])]),
    ("a grant without a call", &[(340 + 3, &[0x05])]),
    ("a call and its grant", &[(276 + 24, &[0x01]), (340 + 3, &[0x01])]),
    ("a granted call", &[(276 + 16, &[0x05])]),
    ("a need less", &[(404 + 16, &[0])]),
    ("a grant less", &[(340 + 2, &[0x01])]),
    ("an unmet call of another", &[(UNMET + 19, &[0])]),
    ("two callers of one unmet service", &[(UNMET + 20, &[5, 0xF0, 0, 0, 0, 9]), (UNMET + 20 + 17, &[5, 5, 0])]),
    ("a list without its last row", &[(468, &[1]), (UNMET + 20, &[0; 20])]),
    ("waiting: another caller", &[(WAITING + 5, &[7])]),
];

/// Edits of waiting grants that leave an image of version 02 sound.
const HARMLESS_02: Edits = &[
    ("a waiting grant by another", &[(WAITING + 17, &[2, 2, 2])]),
    ("waiting: a service not provided", &[(WAITING + 18, &[1, 2])]),
    ("waiting: a service not provided, to an installed caller", &[(WAITING + 5, &[2]), (WAITING + 18, &[9, 9])]),
    ("waiting: a service that another provides, to that other", &[(WAITING + 5, &[2]), (WAITING + 18, &[2, 2])]),
    ("waiting: a method token of 127", &[(WAITING + 20 + 18, &[1, 127])]),
    ("waiting: an interface token of 255", &[(WAITING + 18, &[255, 127])]),
    ("waiting: tokens 0, 0", &[(WAITING + 18, &[0, 0])]),
];

/// Edits of waiting grants that leave an image of version 01 sound.
const HARMLESS_01: Edits = &[("a waiting grant by another", &[(WAITING + 17, &[2, 0])])];

/// Edits that break one condition each, in either version.
const HARMFUL: Edits = &[
    ("length, high", &[(0, &[0x05])]),
    ("length, low", &[(1, &[0x47])]),
    ("version", &[(2, &[0x03])]),
    ("a used number without AID", &[(3, &[0x0F])]),
    ("an unused number with AID", &[(3, &[0x05])]),
    ("AID length 4", &[(4, &[4, 0xF0, 0, 0, 1, 0])]),
    ("AID length 17", &[(4 + 51, &[17])]),
    ("AID fill", &[(4 + 16, &[1])]),
    ("AID of an unused number", &[(4 + 17 + 16, &[1])]),
    ("one AID twice", &[(4 + 34 + 5, &[1])]),
    ("one service twice", &[(140 + 4, &[1, 1])]),
    ("a method token of 128", &[(140 + 1, &[128])]),
    ("a method token of 255, of a service that nobody calls", &[(140 + 32, &[2, 255])]),
    ("a method token of 128 of the last service", &[(268 + 3, &[0x81]), (140 + 48 + 14, &[0, 128])]),
    ("unmet: a method token of 128", &[(UNMET + 18, &[128])]),
    ("unmet: a method token of 255 in the last row", &[(UNMET + 20 + 18, &[255])]),
    ("tokens of an unused service", &[(140 + 3, &[1])]),
    ("tokens of an unused number", &[(140 + 16, &[1])]),
    ("services of an unused number", &[(268 + 1, &[1])]),
    ("calls by an unused number", &[(276 + 8, &[0x01])]),
    ("calls by and grants to an unused number", &[(276 + 8, &[0x01]), (340 + 1, &[0x01])]),
    ("calls on an unused number", &[(276 + 17, &[0x01])]),
    ("grants to an unused number", &[(340 + 1, &[0x01])]),
    ("grants by an unused number", &[(340 + 8, &[0x01])]),
    ("needs of an unused number", &[(404 + 8, &[0x01])]),
    ("a call on itself", &[(276, &[0x01])]),
    ("a grant to itself", &[(340, &[0x01])]),
    ("a need of itself", &[(404, &[0x01])]),
    ("call, grant and need of itself", &[(276, &[0x01]), (340, &[0x01]), (404, &[0x01])]),
    ("a call on a service not provided", &[(276 + 16, &[0x03]), (340 + 2, &[0x07])]),
    ("a grant of a service not provided", &[(340 + 2, &[0x07])]),
    ("a need that is not called", &[(404 + 16, &[0x05])]),
    ("a met call that is not granted", &[(276 + 24, &[0x01])]),
    ("a called service not provided", &[(268, &[0x04]), (140, &[0, 0])]),
    ("17 unmet calls", &[(468, &[17])]),
    ("an unmet row past the count", &[(468, &[1])]),
    ("an unmet row that is zero", &[(468, &[3])]),
    ("a byte after the unmet rows", &[(788, &[1])]),
    ("unmet: AID length 4", &[(UNMET, &[4, 0xF0, 0, 0, 9, 0])]),
    ("unmet: AID length 17", &[(UNMET, &[17])]),
    ("unmet: AID fill", &[(UNMET + 16, &[1])]),
    ("unmet: an unused caller", &[(UNMET + 19, &[1])]),
    ("unmet: a caller past 7", &[(UNMET + 19, &[8])]),
    ("unmet: the caller's own AID", &[(UNMET + 5, &[2])]),
    ("unmet: a service on the card", &[(UNMET + 20 + 17, &[1, 3])]),
    ("unmet: a row twice", &[(UNMET + 20 + 5, &[9]), (UNMET + 20 + 17, &[5, 5])]),
    ("17 waiting grants", &[(789, &[17])]),
    ("a waiting row past the count", &[(789, &[1])]),
    ("a waiting row that is zero", &[(789, &[3])]),
    ("waiting: AID length 4", &[(WAITING, &[4, 0xF0, 0, 0, 9, 0])]),
    ("waiting: AID length 17", &[(WAITING, &[17])]),
    ("waiting: AID fill", &[(WAITING + 16, &[1])]),
    ("waiting: an installed caller of a service provided", &[(WAITING + 5, &[2])]),
    ("waiting: the callee itself", &[(WAITING + 5, &[1])]),
    ("waiting: an unused callee", &[(WAITING + 17, &[1])]),
    ("waiting: a callee past 7", &[(WAITING + 17, &[8])]),
];

/// Edits of waiting grants that break one condition each in version 02.
const HARMFUL_02: Edits = &[
    ("the header of version 01", &[(0, &[0x04, 0x46, 0x01])]),
    ("a byte after the waiting rows", &[(1109, &[1])]),
    ("waiting: an installed caller of another service provided", &[(WAITING + 5, &[2]), (WAITING + 18, &[1, 3])]),
    ("waiting: the callee itself, of a service not provided", &[(WAITING + 5, &[1]), (WAITING + 18, &[9, 9])]),
    ("waiting: a method token of 128", &[(WAITING + 19, &[128])]),
    ("waiting: a method token of 255 in the last row", &[(WAITING + 20 + 19, &[255])]),
    ("waiting: a row twice", &[(WAITING + 20 + 18, &[1, 1])]),
];

/// Edits of waiting grants that break one condition each in version 01.
const HARMFUL_01: Edits = &[
    ("the header of version 02", &[(0, &[0x04, 0x56, 0x02])]),
    ("a byte after the waiting rows", &[(1093, &[1])]),
    ("waiting: a service not provided", &[(WAITING + 18, &[1])]),
    ("waiting: a service past 7", &[(WAITING + 18, &[8])]),
    ("waiting: a row twice", &[(WAITING + 19 + 18, &[0])]),
];

/// The rules with their edits of waiting grants: the last of version 01, and those in force.
const VERSIONS: [(Rules, Edits, Edits); 2] =
    [(Rules::R_7, HARMLESS_01, HARMFUL_01), (Rules::R_2, HARMLESS_02, HARMFUL_02)];

/// The sample on the large card.
fn large_sample() -> Vec<u8> {
    let mut large = vec![0; LARGE_IMAGE];
    assert_eq!(BYTES.enlarge(&sample(Rules::IN_FORCE), &mut large), Verdict::new(0, 0));
    large
}

/// Edits that leave a large image sound.
const HARMLESS_03: Edits = &[
    ("a service 8 with tokens 0, 0", &[(789, &[0x01, 0x05])]),
    ("a service 15", &[(789, &[0x80, 0x05]), (277 + 30, &[9, 9])]),
    ("a service 8, granted", &[(789, &[0x01, 0x05]), (1333 + 4, &[0x01, 0x05])]),
    ("a service 8, called", &[(789, &[0x01, 0x05]), (1333 + 4, &[0x01, 0x05]), (821 + 64, &[0x01, 0x01])]),
    ("a package 8", &[(3, &[0x01]), (5 + 8 * 17, &[5, 0xF8, 0, 0, 0, 8])]),
    (
        "a package 15, which has an unmet call",
        &[(3, &[0x80]), (5 + 15 * 17, &[5, 0xFF, 0, 0, 0, 15]), (2358 + 19, &[15])],
    ),
];

/// Edits that break one condition each of a large image.
const HARMFUL_03: Edits = &[
    ("the length of the small card", &[(0, &[0x04, 0x56])]),
    ("the version of the small card", &[(2, &[0x02])]),
    ("a used number 8 without AID", &[(3, &[0x01])]),
    ("an AID of the unused number 15", &[(5 + 15 * 17, &[5, 0xFF, 0, 0, 0, 15])]),
    ("bytes of the used field the other way round", &[(3, &[0x0D, 0x00])]),
    ("bytes of a row of services the other way round", &[(789, &[0x05, 0x00])]),
    ("bytes of a row of calls the other way round", &[(821 + 64, &[0x01, 0x00])]),
    ("tokens of the unused service 15", &[(277 + 31, &[1])]),
    ("a grant of a service 8 that is not provided", &[(1333 + 4, &[0x01, 0x05])]),
    ("a call on a service 8 without its grant", &[(789, &[0x01, 0x05]), (821 + 64, &[0x01, 0x01])]),
    (
        "a need on a service 8 that is not called",
        &[(789, &[0x01, 0x05]), (1333 + 4, &[0x01, 0x05]), (1845 + 64, &[0x01, 0x01])],
    ),
    ("grants to an unused number 15", &[(1333 + 31, &[0x01])]),
    ("33 unmet calls", &[(2357, &[33])]),
    ("unmet: an unused caller 8", &[(2358 + 19, &[8])]),
    ("unmet: a caller past 15", &[(2358 + 19, &[16])]),
    ("33 waiting grants", &[(2998, &[33])]),
    ("waiting: a callee past 15", &[(2999 + 17, &[16])]),
    ("a byte after the unmet rows", &[(2997, &[1])]),
    ("a byte after the waiting rows", &[(3638, &[1])]),
];

#[test]
fn a_large_image_is_looked_at() {
    assert!(sound_everywhere(ON_LARGE, &large_sample(), "sample"));
    for (edits, sound) in [(HARMLESS_03, true), (HARMFUL_03, false)] {
        for (name, edits) in edits {
            let mut image = large_sample();
            edits.iter().for_each(|(at, bytes)| image[*at..at + bytes.len()].copy_from_slice(bytes));
            assert_ne!(image, large_sample(), "{name}");
            assert_eq!(sound_everywhere(ON_LARGE, &image, name), sound, "{name}");
        }
    }
}

/// Whether an image is sound by the rules. An old one is converted then, one of the small card is enlarged, and every engine
/// refuses it otherwise.
fn sound_everywhere(rules: Rules, image: &[u8], name: &str) -> bool {
    let contracts = tables::contracts(rules, image);
    let own = contracts.is_some();
    let expected = contracts.map_or(Verdict::new(1, 255), |card| Verdict::new(0, card.contracts.len() as u32));
    assert_eq!(Bytes(rules).check(image), expected, "{name}");
    for card in linked() {
        let place = || format!("{}: {name}", card.name());
        let mut enlarged = vec![0xA5; LARGE_IMAGE];
        let taken = own && image.len() == IMAGE;
        let verdict = if taken { Verdict::new(0, 0) } else { Verdict::new(1, 255) };
        assert_eq!(card.enlarge(image, &mut enlarged), verdict, "{}", place());
        assert_eq!(enlarged == [0xA5; LARGE_IMAGE], !taken, "{}", place());
        let stands_for = tables::contracts(ON_LARGE, &enlarged);
        assert_eq!(stands_for, tables::contracts(rules, image).filter(|_| taken), "{}", place());
        let mut converted = vec![0xA5; IMAGE];
        let verdict = card.convert(image, &mut converted);
        if rules.early_grants {
            assert_eq!(card.check(image), expected, "{}", place());
            assert_eq!((verdict, converted), (Verdict::new(1, 255), vec![0xA5; IMAGE]), "{}", place());
        } else {
            refuses(card, image);
            assert_eq!(verdict, if own { Verdict::new(0, 0) } else { Verdict::new(1, 255) }, "{}", place());
            let stands_for = tables::contracts(Rules::IN_FORCE, &converted);
            assert_eq!(stands_for, tables::contracts(rules, image), "{}", place());
        }
    }
    own
}

/// Checking, judging and reading out give 1, and change nothing.
fn refuses(card: &dyn Card, image: &[u8]) {
    let (mut own, mut buffer) = (image.to_vec(), [0xA5; 128]);
    assert_eq!(card.check(image), Verdict::new(1, 255));
    assert_eq!(card.judge(&mut own, &remove(H)), Verdict::new(1, 255));
    assert_eq!(card.read_out(image, 0, &mut buffer), Verdict::new(1, 0));
    assert!(own == image && buffer == [0xA5; 128]);
}

fn edited(rules: Rules, edits: &[Edit]) -> Vec<u8> {
    let mut image = sample(rules);
    for (at, bytes) in edits {
        image[*at..at + bytes.len()].copy_from_slice(bytes);
    }
    image
}

#[test]
fn the_sample_is_sound() {
    for (rules, ..) in VERSIONS {
        assert!(sound_everywhere(rules, &sample(rules), "sample"));
    }
}

#[test]
fn harmless_edits_leave_an_image_sound() {
    for (rules, own, _) in VERSIONS {
        for (name, edits) in HARMLESS.iter().chain(own) {
            assert_ne!(edited(rules, edits), sample(rules), "{name}");
            assert!(sound_everywhere(rules, &edited(rules, edits), name), "{name}");
        }
    }
}

#[test]
fn every_condition_is_looked_at() {
    for (rules, _, own) in VERSIONS {
        for (name, edits) in HARMFUL.iter().chain(own) {
            assert!(!sound_everywhere(rules, &edited(rules, edits), name), "{name}");
        }
    }
}

/// By document 01's rules an image with any method token is sound, and it is the same otherwise.
#[test]
fn method_tokens_are_what_r_7_changed() {
    let then = Bytes(Rules::DOCUMENT_01);
    let (provided, unmet) = ([140 + 1, 140 + 32 + 1], [UNMET + 18, UNMET + 20 + 18]);
    for at in provided.into_iter().chain(unmet) {
        for method in [126, 127, 128, 129, 255] {
            let mut image = sample(Rules::R_7);
            image[at] = method;
            assert_eq!(then.check(&image), Verdict::new(0, 3), "byte {at}: {method}");
            assert!(tables::contracts(Rules::DOCUMENT_01, &image).is_some(), "byte {at}: {method}");
            assert_eq!(sound_everywhere(Rules::R_7, &image, "a method token"), method <= 127, "byte {at}: {method}");
        }
    }
    for (name, edits) in HARMFUL.iter().chain(HARMFUL_01).filter(|(name, _)| !name.contains("method token")) {
        assert_eq!(then.check(&edited(Rules::R_7, edits)), Verdict::new(1, 255), "{name}");
    }
}

/// In version 02 waiting grants have method tokens too.
#[test]
fn method_tokens_stop_at_127_in_every_place() {
    for at in [140 + 1, 140 + 32 + 1, UNMET + 18, UNMET + 20 + 18, WAITING + 19, WAITING + 20 + 19] {
        for method in [126, 127, 128, 129, 255] {
            let mut image = sample(Rules::IN_FORCE);
            image[at] = method;
            assert_eq!(
                sound_everywhere(Rules::IN_FORCE, &image, "a method token"),
                method <= 127,
                "byte {at}: {method}"
            );
            linked().into_iter().filter(|_| method > 127).for_each(|card| refuses(card, &image));
        }
    }
}

#[test]
fn every_byte_changed_is_judged_alike() {
    let samples = VERSIONS.map(|(rules, ..)| (rules, sample(rules))).into_iter().chain([(ON_LARGE, large_sample())]);
    for (rules, sample) in samples {
        for at in 0..sample.len() {
            for flip in [0x01, 0x80, 0xFF] {
                let mut image = sample.clone();
                image[at] ^= flip;
                sound_everywhere(rules, &image, &format!("byte {at} ^ {flip:02X}"));
            }
        }
    }
}
