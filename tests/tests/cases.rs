//! The table of cases holds on the machine and on every engine.

use comparison::card::{linked, Card, Verdict, BYTES, IMAGE};
use comparison::cases::{all, conditions, early, large, named, replace, retired, tokens, watched, worked, Step, B};
use comparison::conditions::Outcome;
use comparison::damage::Damage;
use comparison::early::Early;
use comparison::large::Large;
use comparison::machine::Aid;
use comparison::methods::Place;
use comparison::replace::Replaced;
use comparison::retired::Retired;
use comparison::run::replay;
use comparison::watched::{alike, Watched};
use std::collections::BTreeSet;

#[test]
fn every_case_is_answered_as_expected() {
    let cards = linked();
    for case in all() {
        assert!(!case.history().is_empty());
        case.run(&cards).unwrap_or_else(|difference| panic!("{}: {difference}", case.name));
    }
}

#[test]
fn a_case_that_comes_out_otherwise_is_told() {
    let mut case = named("removal on the empty image");
    case.steps[0].verdict = Verdict::new(6, 255);
    assert_eq!(case.run(&linked()), Err("5 -; expected 6 -".to_string()));
}

#[test]
fn the_table_has_the_papers_cases() {
    let cases = all();
    let names: BTreeSet<&str> = cases.iter().map(|case| case.name).collect();
    assert_eq!(names.len(), cases.len());
    assert_eq!(cases.iter().filter(|case| case.marked).count(), 10);
}

/// Each place of records has a method token of 127 that is read, and one of 128 in a record that nothing else is wrong with.
#[test]
fn every_place_of_tokens_has_its_case() {
    let cards = linked();
    let mut seen = [(); 14].map(|()| [0; 2]);
    let (mut left_out, mut gone_on, mut cleared) = (0, 0, 0);
    for case in tokens::cases() {
        let tally = replay(&cards, 0, &case.history(), &Damage::default())
            .unwrap_or_else(|difference| panic!("{}: {difference}", case.name));
        for (seen, place) in seen.iter_mut().zip(Place::all()) {
            let [last, past] = tally.methods.get(&place).copied().unwrap_or_default();
            *seen = [seen[0] + last, seen[1] + past];
        }
        (left_out, gone_on, cleared) = (left_out + tally.left_out, gone_on + tally.gone_on, cleared + tally.cleared);
    }
    assert!(seen.iter().flatten().all(|count| *count > 0), "{seen:?}");
    assert_eq!((left_out, gone_on, cleared), (3, 6, 2));
}

/// Each thing that R-2 brings about has its case, and cards go over the conversion.
#[test]
fn every_early_grant_has_its_case() {
    let cards = linked();
    let (mut seen, mut left_out, mut gone_on) = (BTreeSet::new(), 0, 0);
    for case in early::cases() {
        let tally = replay(&cards, 0, &case.history(), &Damage::default())
            .unwrap_or_else(|difference| panic!("{}: {difference}", case.name));
        seen.extend(tally.early.keys().copied());
        (left_out, gone_on) = (left_out + tally.left_out, gone_on + tally.gone_on);
    }
    assert_eq!(seen, BTreeSet::from(Early::ALL));
    assert_eq!((left_out, gone_on), (1, 4));
}

/// Each thing that R-1 brings about has its case, and cards go over the change that kind 11 begins with.
#[test]
fn every_whole_contract_has_its_case() {
    let cards = linked();
    let (mut seen, mut left_out, mut gone_on, mut too_early) = (BTreeSet::new(), 0, 0, 0);
    for case in replace::cases() {
        let tally = replay(&cards, 0, &case.history(), &Damage::default())
            .unwrap_or_else(|difference| panic!("{}: {difference}", case.name));
        seen.extend(tally.replaced.keys().copied());
        (left_out, gone_on) = (left_out + tally.left_out, gone_on + tally.gone_on);
        too_early += tally.too_early;
    }
    assert_eq!(seen, BTreeSet::from(Replaced::ALL));
    assert_eq!((left_out, gone_on, too_early), (1, 2, 7));
}

/// Each thing that R-13 leaves has its case, and cards go over its change.
#[test]
fn every_need_of_before_has_its_case() {
    let cards = linked();
    let (mut seen, mut gone_on) = (BTreeSet::new(), 0);
    for case in retired::cases() {
        let tally = replay(&cards, 0, &case.history(), &Damage::default())
            .unwrap_or_else(|difference| panic!("{}: {difference}", case.name));
        seen.extend(tally.retired.keys().copied());
        gone_on += tally.gone_on;
    }
    assert_eq!(seen, BTreeSet::from(Retired::ALL));
    assert_eq!(gone_on, 7);
}

/// Each combination of the report's conditions has its case, and each answer.
#[test]
fn every_outcome_of_the_conditions_has_its_case() {
    let cards = linked();
    let mut seen = BTreeSet::new();
    for case in conditions::cases() {
        let tally = replay(&cards, 0, &case.history(), &Damage::default())
            .unwrap_or_else(|difference| panic!("{}: {difference}", case.name));
        seen.extend(tally.loads.keys().copied());
    }
    assert_eq!(seen, Outcome::all().collect());
}

/// Each thing that R-9 has on the large card has its case, and cards go over its conversion.
#[test]
fn everything_on_the_large_card_has_its_case() {
    let cards = linked();
    let (mut seen, mut of_other) = (BTreeSet::new(), [0; 2]);
    for case in large::cases() {
        let tally = replay(&cards, 0, &case.history(), &Damage::default())
            .unwrap_or_else(|difference| panic!("{}: {difference}", case.name));
        let large = tally.large.unwrap_or_default();
        seen.extend(large.on_large.keys().copied());
        of_other = [of_other[0] + tally.of_other, of_other[1] + large.of_other];
    }
    let unseen: Vec<Large> = Large::all().filter(|shown| !seen.contains(shown)).collect();
    assert_eq!(unseen, []);
    assert!(of_other.iter().all(|count| *count > 9), "{of_other:?}");
}

/// The line of a case says on which card its records are.
#[test]
fn a_line_names_the_card() {
    let line = |name: &str| named(name).line(&named(name).run(&linked()).expect(name));
    assert_eq!(line("removal on the empty image"), "M removal on the empty image: small card 5 -");
    assert_eq!(line("R-9: a 33rd unmet call"), "R-9: a 33rd unmet call: large card 10 -, 0 0, 10 -, 0 0, 0 0");
    let enlarged = "R-9: an empty card is enlarged";
    assert_eq!(line(enlarged), format!("{enlarged}: small card 2 - | large card 5 -, 2 -, 0 0"));
}

/// Each thing that two cards may differ in that are alike for B has its pair, and the cards stay alike.
#[test]
fn every_difference_among_others_has_its_pair_of_cases() {
    let own = Aid::new(B);
    let mut seen = BTreeSet::new();
    let judge = |image: &mut Vec<u8>, step: &Step| assert_eq!(BYTES.judge(image, &step.record), step.verdict);
    for pair in watched::pairs() {
        let mut images = [(); 2].map(|()| vec![0; IMAGE]);
        for (image, steps) in images.iter_mut().zip(&pair.cards) {
            BYTES.empty(image);
            steps.iter().for_each(|step| judge(image, step));
        }
        let alike =
            |images: &[Vec<u8>; 2]| alike(own, images.each_ref().map(Vec::as_slice)).expect("cards alike for B");
        let tables = alike(&images);
        seen.extend(Watched::differences(own, &tables));
        seen.insert(Watched::standing(&tables[0], own));
        for step in &pair.own {
            images.iter_mut().for_each(|image| judge(image, step));
            alike(&images);
        }
    }
    let unseen = Watched::ALL.into_iter().filter(|shown| !seen.contains(shown)).collect::<Vec<_>>();
    assert_eq!(unseen, [Watched::Unnamed, Watched::OneChanges, Watched::BothChange]);
}

/// The report's Examples 5 to 8: the mapping, the tables of jTicket's needs and ePurse's grants.
#[test]
fn the_worked_example_has_the_reports_tables() {
    let case = named("worked example: EMV, ePurse and jTicket are loaded");
    let mut image = vec![0; IMAGE];
    BYTES.empty(&mut image);
    for step in &case.steps {
        assert_eq!(BYTES.judge(&mut image, &step.record), step.verdict);
    }
    for (number, aid) in [worked::EMV, worked::EPURSE, worked::JTICKET].into_iter().enumerate() {
        assert_eq!(image[4 + 17 * number], 6);
        assert_eq!(image[5 + 17 * number..][..6], *aid);
    }
    assert_eq!(image[268..276], [1, 1, 0, 0, 0, 0, 0, 0]);
    // Example 7. Calls are the same.
    assert_eq!(image[404 + 16..][..8], [0, 1, 0, 0, 0, 0, 0, 0]);
    assert_eq!(image[276 + 16..][..8], [0, 1, 0, 0, 0, 0, 0, 0]);
    // Example 8, without the grant to itself.
    assert_eq!(image[340 + 8..][..8], [1, 0, 1, 0, 0, 0, 0, 0]);
}
