//! Each cause by itself, and the lowest number where several apply.

use comparison::card::{linked, Bytes, Card, Verdict, IMAGE, OLD_IMAGE};
use comparison::cases::{B, C, H, X};
use comparison::compare::{Compare, Tally};
use comparison::conditions::Conditions;
use comparison::machine::{Change, Machine};
use comparison::rules::Rules;
use comparison::tables::Form;
use comparison::write::{
    add_service, load, record, remove, remove_service, replace, row as written, update, Row, Tokens,
};
use std::collections::BTreeSet;

const S: Tokens = (0, 0);
const T: Tokens = (0, 1);

fn row(other: &[u8], tokens: Tokens) -> Row {
    (other.to_vec(), tokens)
}

fn unmet(count: u8) -> Vec<Row> {
    (0..count).map(|n| row(X, (9, n))).collect()
}

fn strangers(count: u8) -> Vec<Row> {
    (0..count).map(|n| row(&[0xEE, 0, 0, 0, n], S)).collect()
}

/// Judges records everywhere, each from the state that the one before left.
fn answers(records: &[Vec<u8>]) -> Vec<u32> {
    let cards = linked();
    let mut compare = Compare::new(&cards, 1).expect("an empty card");
    let mut tally = Tally::default();
    let judged = records.iter().map(|record| compare.step(record, &mut tally));
    judged.map(|verdict| verdict.unwrap_or_else(|difference| panic!("{difference}")).answer).collect()
}

#[test]
fn cause_2_the_form() {
    let mut wrong_version = remove(H);
    wrong_version[2] = 2;
    let mut wrong_length = remove(H);
    wrong_length[1] += 1;
    let mut left_over = remove(H);
    left_over.push(0);
    let records = [
        wrong_version,
        wrong_length,
        left_over,
        record(0, &[&written(H, S)]),
        record(11, &[&written(H, S)]),
        record(12, &[&written(H, S)]),
        record(2, &[&[5], &H[..4]]),
        record(2, &[&[0]]),
        record(1, &[&written(H, S)]),
        record(4, &[&[5], H, &[0]]),
        load(H, &[], &unmet(73), &[], &[]),
        load(H, &[S], &[], &strangers(73), &[]),
        load(H, &[], &unmet(72), &[], &unmet(73)),
        replace(H, &[], &unmet(73), &[], &[]),
        replace(H, &[S], &[], &strangers(73), &[]),
        replace(H, &[], &unmet(72), &[], &unmet(73)),
        replace(H, &[S, T, (0, 2), (0, 3), (0, 4), (0, 5), (0, 6), (0, 7), (0, 8)], &[], &[], &[]),
        add_service(H, S, &vec![C.to_vec(); 33]),
        vec![0],
        vec![0, 3, 1],
        vec![0, 4, 1, 2],
    ];
    assert_eq!(answers(&records), vec![2; records.len()]);
}

#[test]
fn the_longest_lists_are_read() {
    let callers: Vec<Vec<u8>> = strangers(32).into_iter().map(|(aid, _)| aid).collect();
    let records = [
        load(H, &[S], &unmet(72), &strangers(72), &[]),
        load(H, &[S], &unmet(72), &strangers(72), &unmet(72)),
        load(H, &[], &[], &[], &[]),
        add_service(H, S, &callers),
    ];
    assert_eq!(answers(&records), [10, 9, 0, 11]);
}

#[test]
fn the_longest_record_has_4145_bytes() {
    let long = |n: u8| [vec![0xEE; 15], vec![n]].concat();
    let services: Vec<Tokens> = (0..8).map(|n| (0, n)).collect();
    let rows: Vec<Row> = (0..72).map(|n| row(&long(n), S)).collect();
    let longest = load(&[0xF0; 16], &services, &rows, &rows, &rows);
    assert_eq!(longest.len(), 4145);
    assert_eq!(answers(&[longest]), [9]);
    let bare = load(&[0xF0; 16], &[], &[], &[], &[]);
    let longest = replace(&[0xF0; 16], &services, &rows, &rows, &rows);
    assert_eq!(longest.len(), 4145);
    assert_eq!(answers(&[bare, longest]), [0, 9]);
}

/// The kind was not known before R-1, whatever follows it.
#[test]
fn kind_11_is_read_from_r_1_on() {
    let records = [
        replace(H, &[], &[], &[], &[]),
        replace(H, &[S], &[row(X, S)], &[row(C, T)], &[row(X, S)]),
        replace(H, &[S, S], &[], &[], &[]),
    ];
    for (record, since) in records.iter().zip([5, 5, 3]) {
        for (rules, read) in Rules::ALL.into_iter().zip([false, false, false, true, true]) {
            assert_eq!(answers_by(rules, record), [if read { since } else { 2 }; 2], "{rules:?}");
            assert_eq!(Bytes(rules).aid(record), if read { H } else { &[] });
        }
        assert_eq!(answers_by(Rules::R_1, &record[..record.len() - 1]), [2; 2]);
    }
}

/// Kinds 9 and 10 by the rules of every time, each cause of theirs; since R-13 they get 2, whatever follows the kind.
#[test]
fn kinds_9_and_10_are_read_up_to_r_13() {
    let card = [load(H, &[S], &[], &[row(C, S)], &[]), load(C, &[], &[row(H, S), row(X, S)], &[], &[])];
    let records = [
        (update(9, C, C, S), 3),
        (update(10, C, C, S), 3),
        (update(9, B, H, S), 5),
        (update(10, B, H, S), 5),
        // A service not called, and one not needed.
        (update(9, C, X, T), 6),
        (update(9, C, B, S), 6),
        (update(10, C, H, S), 6),
        (update(10, C, X, S), 6),
        (update(9, C, X, S), 9),
        (update(9, C, H, S), 0),
        (update(9, C, H, S), 6),
        (update(10, C, H, T), 6),
        (update(10, C, H, S), 0),
        (update(10, C, H, S), 6),
    ];
    for (rules, read) in Rules::ALL.into_iter().zip([true, true, true, true, false]) {
        let (mut machine, mut image) = (Machine::default(), vec![0; Form::of(rules).size]);
        Bytes(rules).empty(&mut image);
        let mut judge = |record: &[u8]| [machine.judge(rules, record), Bytes(rules).judge(&mut image, record).answer];
        assert!(card.iter().all(|record| judge(record) == [0; 2]));
        for (n, (record, answer)) in records.iter().enumerate() {
            assert_eq!(judge(record), [if read { *answer } else { 2 }; 2], "{n}, {rules:?}");
            assert_eq!(Bytes(rules).aid(record).is_empty(), !read);
        }
    }
    let bodies: [&[u8]; 3] = [&[], &[5, 0xF0, 0, 0, 0, 1], &replace(H, &[], &[], &[], &[])[4..]];
    let retired = [9, 10].into_iter().flat_map(|kind| bodies.map(|body| record(kind, &[body])));
    let retired: Vec<Vec<u8>> = records.into_iter().map(|(record, _)| record).chain(retired).collect();
    assert_eq!(answers(&[&card[..], &retired].concat()), [vec![0; 2], vec![2; 20]].concat());
}

/// A load's record as one of kind 11.
fn as_kind_11(load: &[u8]) -> Vec<u8> {
    [&load[..3], &[11], &load[4..]].concat()
}

/// What the machine and the byte engine answer to a record on the empty card, each by the rules.
fn answers_by(rules: Rules, record: &[u8]) -> [u32; 2] {
    let mut image = vec![0; Form::of(rules).size];
    Bytes(rules).empty(&mut image);
    [Machine::default().judge(rules, record), Bytes(rules).judge(&mut image, record).answer]
}

/// The machine and the byte engine, each by the rules of every time.
#[test]
fn cause_2_a_method_token() {
    let methods = [0, 1, 126, 127, 128, 129, 200, 254, 255];
    let at = |tokens: Tokens| {
        let rows = [row(X, tokens)];
        let grants = [row(C, S), row(X, tokens)];
        let mut records = vec![
            load(H, &[tokens], &[], &[], &[]),
            load(H, &[T, tokens], &[], &[], &[]),
            load(H, &[], &rows, &[], &[]),
            load(H, &[S], &[], &grants, &[]),
            load(H, &[], &[row(X, S)], &[], &rows),
            add_service(H, tokens, &[C.to_vec()]),
            remove_service(H, tokens),
        ];
        records.extend((5..=10).map(|kind| update(kind, H, X, tokens)));
        // Kind 11 as the loads.
        let replaced: Vec<Vec<u8>> = records[..5].iter().map(|record| as_kind_11(record)).collect();
        [records, replaced].concat()
    };
    for (interface, method) in [0, 127, 128, 255].into_iter().flat_map(|one| methods.map(|other| (one, other))) {
        for (n, record) in at((interface, method)).into_iter().enumerate() {
            for (rules, most) in Rules::ALL.into_iter().zip([255, 127, 127, 127, 127]) {
                let answers = answers_by(rules, &record);
                let read = method <= most && rules.reads(record[3]);
                assert!(answers.iter().all(|answer| (*answer == 2) != read), "{n}, {interface}.{method}: {answers:?}");
                assert_eq!(Bytes(rules).aid(&record), if read { H } else { &[] });
            }
        }
    }
}

/// The rules in force stop where R-7 says.
#[test]
fn method_tokens_stop_at_127() {
    let records = [
        load(H, &[(255, 127)], &[row(X, (128, 127))], &[row(C, (255, 127))], &[]),
        load(C, &[], &[row(H, (255, 127))], &[], &[row(H, (255, 127))]),
        update(5, C, X, (0, 128)),
        update(5, C, X, (128, 127)),
        add_service(H, (0, 128), &[]),
        add_service(H, (0, 127), &[]),
        // 2 before 3, 4, 5 and 6.
        load(H, &[(0, 128), (0, 128)], &[], &[], &[]),
        load(H, &[(0, 128)], &[], &[], &[]),
        update(6, B, X, (0, 128)),
        update(6, H, H, (0, 128)),
        update(6, C, X, (0, 128)),
        remove_service(H, (127, 255)),
    ];
    assert_eq!(answers(&records), [0, 0, 2, 0, 2, 0, 2, 2, 2, 2, 2, 2]);
}

#[test]
fn cause_3_a_record_against_itself() {
    let (call, grant) = (|| row(X, S), || row(X, S));
    let records = [
        load(H, &[S, T, S], &[], &[], &[]),
        load(H, &[], &[call(), row(X, T), call()], &[], &[]),
        load(H, &[S], &[], &[grant(), grant()], &[]),
        load(H, &[], &[call()], &[], &[call(), call()]),
        load(H, &[], &[row(H, S)], &[], &[]),
        load(H, &[S], &[], &[row(H, S)], &[]),
        load(H, &[], &[call()], &[], &[row(H, S)]),
        load(H, &[], &[call()], &[], &[row(X, T)]),
        add_service(H, S, &[H.to_vec()]),
        add_service(H, S, &[C.to_vec(), B.to_vec(), C.to_vec()]),
    ];
    assert_eq!(answers(&records), vec![3; records.len()]);
    // 3 comes before 5.
    let replaced: Vec<Vec<u8>> = records[..8].iter().map(|record| as_kind_11(record)).collect();
    assert_eq!(answers(&replaced), [3; 8]);
    let updates: Vec<Vec<u8>> = (5..=8).map(|kind| update(kind, H, H, S)).collect();
    assert_eq!(answers(&updates), [3; 4]);
}

/// A load's grant of a service that it does not provide was 3, and is accepted since R-2. What else is wrong stays so.
#[test]
fn early_grants_were_cause_3() {
    let early = [row(X, T), row(C, T)];
    for (provides, grants) in [(vec![], &early[..1]), (vec![S], &early[..]), (vec![(1, 0)], &early[1..])] {
        let record = load(H, &provides, &[], grants, &[]);
        for (rules, answer) in Rules::ALL.into_iter().zip([3, 3, 0, 0, 0]) {
            assert_eq!(answers_by(rules, &record), [answer; 2], "{rules:?}");
        }
        assert_eq!(answers(&[load(H, &[], &[], &[], &[]), as_kind_11(&record)]), [0, 0]);
    }
    for grants in [[row(X, T), row(X, T)], [row(X, T), row(H, T)]] {
        for rules in Rules::ALL {
            assert_eq!(answers_by(rules, &load(H, &[], &[], &grants, &[])), [3; 2], "{rules:?}");
        }
    }
}

#[test]
fn causes_4_and_5_installed_or_not() {
    let mut records = vec![load(H, &[], &[], &[], &[]), load(H, &[S], &unmet(17), &[], &[])];
    records.extend([remove(C), add_service(C, S, &[]), remove_service(C, S)]);
    records.extend((5..=8).map(|kind| update(kind, C, H, S)));
    records.push(replace(C, &[S], &unmet(17), &[], &[]));
    let expected = [vec![0, 4], vec![5; 8]].concat();
    assert_eq!(answers(&records), expected);
    // An AID is another with a zero byte more.
    let longer = [H, &[0]].concat();
    assert_eq!(answers(&[load(H, &[], &[], &[], &[]), remove(&longer), load(&longer, &[], &[], &[], &[])]), [0, 5, 0]);
}

#[test]
fn cause_6_nothing_to_change() {
    let records = [
        load(H, &[S], &[], &[row(C, S), row(X, S)], &[]),
        load(C, &[], &[row(H, S), row(X, S)], &[], &[row(H, S)]),
        // What the contract has.
        add_service(H, S, &[]),
        update(5, C, H, S),
        update(5, C, X, S),
        update(7, H, C, S),
        update(7, H, X, S),
        // What it lacks.
        remove_service(H, T),
        update(6, C, H, T),
        update(6, C, X, T),
        update(8, H, C, T),
        update(8, H, B, S),
    ];
    assert_eq!(answers(&records), [vec![0, 0], vec![6; 10]].concat());
}

/// Kind 7 for a service not provided was 6, and is so since R-2 only where the contract has the grant.
#[test]
fn cause_6_of_early_grants() {
    let records = [
        load(H, &[S], &[], &[row(B, T)], &[]),
        load(C, &[], &[], &[], &[]),
        update(7, H, B, T),
        update(7, H, C, T),
        update(7, H, C, T),
        update(8, H, X, T),
        update(8, H, C, T),
        update(8, H, C, T),
        add_service(H, T, &[]),
        update(7, H, B, T),
    ];
    assert_eq!(answers(&records), [0, 0, 6, 0, 6, 6, 0, 6, 0, 6]);
    for rules in [Rules::DOCUMENT_01, Rules::R_7] {
        let (mut machine, mut image) = (Machine::default(), vec![0; OLD_IMAGE]);
        Bytes(rules).empty(&mut image);
        let mut judge = |record: &[u8]| [machine.judge(rules, record), Bytes(rules).judge(&mut image, record).answer];
        assert_eq!(judge(&load(H, &[S], &[], &[row(B, S)], &[])), [0; 2]);
        assert_eq!(judge(&update(7, H, C, T)), [6; 2]);
        assert_eq!(judge(&update(8, H, C, T)), [6; 2]);
        // Its grants go with the service.
        assert_eq!(judge(&remove_service(H, S)), [0; 2]);
        assert_eq!(judge(&update(8, H, B, S)), [6; 2]);
    }
}

/// A met call would stand without its grant, also where another grant waits.
#[test]
fn cause_8_looks_at_grants_that_waited() {
    let records = [
        load(H, &[], &[], &[row(C, S), row(B, T)], &[]),
        load(C, &[], &[row(H, S), row(H, T)], &[], &[]),
        add_service(H, S, &[]),
        add_service(H, T, &[]),
        add_service(H, T, &[B.to_vec()]),
        load(B, &[], &[row(H, S)], &[], &[]),
        load(B, &[], &[row(H, T)], &[], &[]),
        add_service(H, T, &[C.to_vec()]),
        update(8, H, B, T),
    ];
    assert_eq!(answers(&records), [0, 0, 0, 8, 8, 8, 0, 0, 8]);
}

/// "More than 16 waiting grants afterwards": kind 4 comes to it, after 9 and 10.
#[test]
fn cause_11_of_kind_4() {
    let early: Vec<Row> = strangers(16).into_iter().map(|(aid, _)| row(&aid, T)).collect();
    let mut records = vec![
        load(C, &[], &[row(H, S)], &[], &[]),
        load(B, &[], &unmet(15), &[], &[]),
        load(H, &[S], &[], &[vec![row(C, S)], early].concat(), &[]),
        // 10 and 11 apply; then 9 too; then 11 alone; then neither.
        update(5, B, X, (8, 0)),
        remove_service(H, S),
        replace(C, &[], &[row(H, S)], &[], &[row(H, S)]),
        remove_service(H, S),
        update(6, C, H, S),
        remove_service(H, S),
        update(8, H, &strangers(1)[0].0, T),
    ];
    records.push(remove_service(H, S));
    assert_eq!(answers(&records), [0, 0, 0, 0, 10, 0, 9, 0, 11, 0, 0]);
}

#[test]
fn the_lowest_number_is_given() {
    let eight: Vec<Tokens> = (0..8).map(|n| (1, n)).collect();
    let both = [unmet(16), vec![row(H, S)]].concat();
    let records = [
        // 2 before 3, 3 before 5.
        [load(H, &[S, S], &[], &[], &[]), vec![0]].concat(),
        add_service(B, S, &[B.to_vec()]),
        load(H, &eight, &[], &[], &[]),
        // 3 before 4; 6 before 7; 7 before 11.
        load(H, &[S, S], &[], &[], &[]),
        add_service(H, (1, 0), &[]),
        add_service(H, S, &strangers(17).into_iter().map(|(aid, _)| aid).collect::<Vec<_>>()),
        // 8 before 9, 10 and 11; 9 before 10; 10 before 11.
        remove(H),
        load(H, &[S], &[], &[], &[]),
        load(C, &[S], &both, &strangers(17), &both),
        load(C, &[S], &unmet(17), &strangers(17), &unmet(1)),
        load(C, &[S], &unmet(17), &strangers(17), &[]),
        load(C, &[S], &unmet(16), &strangers(17), &[]),
        load(C, &[S], &unmet(16), &strangers(16), &[]),
    ];
    assert_eq!(answers(&records), [2, 3, 0, 3, 6, 7, 0, 0, 8, 9, 10, 11, 0]);
    // 1 before 2.
    for card in linked() {
        let mut image = vec![0; IMAGE];
        assert_eq!(card.judge(&mut image, &[]), Verdict::new(1, 255));
        assert_eq!(card.judge(&mut image[..OLD_IMAGE], &[]), Verdict::new(1, 255));
        assert_eq!(card.judge(&mut image[..5], &[]), Verdict::new(1, 255));
    }
}

/// Kind 11 on what it would leave: each cause with all those behind it, and then without it.
#[test]
fn the_lowest_number_of_kind_11() {
    let with = |mut rows: Vec<Row>, more: Row| {
        rows.push(more);
        rows
    };
    let needed = unmet(1);
    let card = [
        load(H, &[S], &[], &[row(B, S)], &[]),
        load(B, &[T], &[row(H, S)], &[], &[row(H, S)]),
        load(C, &[], &[row(H, T)], &[], &[]),
    ];
    let records = [
        // 8: its call on B, then B's on what stays, then C's on what comes.
        replace(H, &[], &with(unmet(17), row(B, T)), &strangers(17), &needed),
        replace(H, &[S], &unmet(17), &strangers(17), &needed),
        replace(H, &[S, T], &unmet(17), &with(strangers(17), row(B, S)), &needed),
        // 9: its own need, then B's.
        replace(H, &[S], &unmet(17), &with(strangers(17), row(B, S)), &needed),
        replace(H, &[], &unmet(17), &strangers(17), &[]),
        // C's call on what is not there stays unmet.
        replace(H, &[S], &unmet(16), &with(strangers(17), row(B, S)), &[]),
        replace(H, &[S], &unmet(15), &with(strangers(17), row(B, S)), &[]),
        replace(H, &[S], &unmet(15), &with(strangers(16), row(B, S)), &[]),
    ];
    assert_eq!(answers(&[&card[..], &records].concat())[3..], [8, 8, 8, 9, 9, 10, 11, 0]);
}

/// R-3, by the rules of every time, for every load of B beside H, when each has to do with two services of the other at most: the
/// report's conditions all hold exactly when the card is lawful afterwards, and decide whether 8 or 9 comes.
#[test]
fn the_reports_conditions_decide_8_and_9() {
    const SUBSETS: [&[Tokens]; 4] = [&[], &[S], &[T], &[S, T]];
    let rows =
        |other: &[u8], services: &[Tokens]| services.iter().map(|tokens| row(other, *tokens)).collect::<Vec<_>>();
    let contracts = |own: &[u8], other: &[u8], needs: &[&[Tokens]]| {
        let mut records = Vec::new();
        for (provides, calls) in SUBSETS.iter().flat_map(|one| SUBSETS.map(|two| (one, two))) {
            for (grants, needs) in SUBSETS.iter().flat_map(|one| needs.iter().map(move |two| (one, two))) {
                records.push(load(own, provides, &rows(other, calls), &rows(other, grants), &rows(other, needs)));
            }
        }
        records
    };
    let (servers, newcomers) = (contracts(H, B, &SUBSETS[..1]), contracts(B, H, &SUBSETS));
    for rules in Rules::ALL {
        let bytes = Bytes(rules);
        let cards: Vec<&dyn Card> = if rules == Rules::IN_FORCE { linked() } else { vec![&bytes] };
        let mut seen = BTreeSet::new();
        for server in &servers {
            let (mut held, mut image) = (Machine::default(), vec![0; Form::of(rules).size]);
            bytes.empty(&mut image);
            if [held.judge(rules, server), bytes.judge(&mut image, server).answer] != [0; 2] {
                continue;
            }
            for newcomer in &newcomers {
                let Ok(record) = held.to_try(rules, newcomer) else { continue };
                let Change::Load(lists) = &record.change else { panic!("a load") };
                let conditions = Conditions::of(&held, record.aid, &lists.contract());
                assert_eq!(conditions.all_hold(), held.changed(rules, &record).lawful(), "{newcomer:02X?}");
                for card in &cards {
                    let answer = card.judge(&mut image.clone(), newcomer).answer;
                    assert!(conditions.answers().contains(&answer), "{conditions}, {answer}: {newcomer:02X?}");
                }
                seen.insert(conditions);
            }
        }
        assert_eq!(seen, BTreeSet::from(Conditions::ALL), "{rules:?}");
    }
}

#[test]
fn cause_4_before_7_on_a_full_card() {
    let aid = |n: u8| [0xF0, 0, 0, 1, n];
    let mut records: Vec<Vec<u8>> = (0..8).map(|n| load(&aid(n), &[], &[], &[], &[])).collect();
    records.push(load(&aid(3), &[], &[], &[], &[]));
    // 7 before 8, 9 and 10: nothing is tried.
    records.push(load(&aid(8), &[], &unmet(17), &[], &unmet(17)));
    // Neither is for kind 11.
    records.push(replace(&aid(3), &[], &unmet(16), &[], &[]));
    records.push(replace(&aid(8), &[], &unmet(17), &[], &unmet(17)));
    assert_eq!(answers(&records)[8..], [4, 7, 0, 5]);
}

#[test]
fn removing_a_package_can_fail_on_waiting_grants() {
    let mut records = vec![load(H, &[S, T], &[], &[strangers(15), vec![row(C, S), row(C, T)]].concat(), &[])];
    assert_eq!(answers(&records), [11]);
    records.insert(0, load(C, &[], &[], &[], &[]));
    records.push(remove(C));
    records.push(update(8, H, C, T));
    records.push(remove(C));
    assert_eq!(answers(&records), [0, 0, 11, 0, 0]);
}
