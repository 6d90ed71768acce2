//! R-6, "Suppliers must not watch each other": the comparison on pairs of cards by itself, each clause of 'alike for B', and every
//! pair of a small world.

use comparison::card::{linked, Bytes, Card, Verdict, BYTES, IMAGE, LARGE_IMAGE, ON_LARGE};
use comparison::cases::{B, C, H, X};
use comparison::faults;
use comparison::generate::Source;
use comparison::hex::from_hex;
use comparison::machine::{Aid, Machine, Tokens as Service};
use comparison::random::Random;
use comparison::rules::Rules;
use comparison::tables::{self, Bit, Package, Tables, Unmet, Waiting};
use comparison::watched::{alike, turns, Clause, Seen, View, Watched};
use comparison::write::{add_service, contract, load, remove, remove_service, update, Row, Tokens};
use std::collections::{BTreeMap, BTreeSet};

const IN_FORCE: Rules = Rules::IN_FORCE;

/// The engines that look at rows among others, at service numbers or at the order of lists.
const WATCHING: [&str; 10] = [
    "one-caller",
    "needed-by-another",
    "next-callers-number",
    "every-call-counted",
    "every-grant-counted",
    "last-row-unsearched",
    "seventh-ungranted",
    "caller-not-compared",
    "callee-not-compared",
    "grant-goes-with-last-call",
];

/// So many pairs of small cards, on which the engine alone judges B's records: it is held to nothing but itself. The cards are from
/// histories that the right engine has judged.
fn watch(card: &dyn Card, pairs: usize) -> Result<Seen, String> {
    watch_on(IN_FORCE, card, pairs)
}

/// The same of cards of the rules' sizes.
fn watch_on(rules: Rules, card: &dyn Card, pairs: usize) -> Result<Seen, String> {
    let (mut seen, mut ordinal, mut left) = (Seen::default(), 0, pairs);
    while left > 0 {
        let mut source = match rules {
            IN_FORCE => Source::new(6, ordinal),
            _ => Source::with(rules, Vec::new(), Vec::new(), Random::new(ordinal)),
        };
        let (mut machine, mut image) = (Machine::default(), Tables::empty(rules).write(rules));
        for n in 1..=source.length().min(8 * left) {
            let record = source.record(&machine);
            assert_eq!(machine.judge(rules, &record), BYTES.judge(&mut image, &record).answer);
            if n % 8 == 0 {
                turns::compare(&[card], &image, Random::of_bytes(ordinal, &image), &mut seen)?;
                left -= 1;
            }
        }
        ordinal += 1;
    }
    Ok(seen)
}

fn fault(name: &str) -> &'static dyn Card {
    faults::named(name).expect("a fault of that name")
}

/// What is told of a difference shows it again: the engine, B, the record and both images.
#[test]
fn a_pair_of_cards_alone_finds_an_engine_that_watches() {
    for name in WATCHING {
        let told = watch(fault(name), 400).err().unwrap_or_else(|| panic!("{name} was not found"));
        let [first, record, one, other] = told.lines().collect::<Vec<_>>()[..] else { panic!("{told}") };
        let own = first.strip_prefix(&format!("{name}: on two cards that are alike for ")).expect(first);
        let bytes = |line: &str, label: &str| line.strip_prefix(label).and_then(from_hex).expect(line);
        let own = Aid::new(&bytes(own.split(',').next().expect(first), ""));
        let record = bytes(record, "record ");
        let images = [bytes(one, "one "), bytes(other, "other ")];
        let verdicts = |card: &dyn Card| {
            let mut images = images.clone();
            let verdicts = images.each_mut().map(|image| card.judge(image, &record));
            (verdicts, alike(own, images.each_ref().map(Vec::as_slice)).is_ok())
        };
        assert!(alike(own, images.each_ref().map(Vec::as_slice)).is_ok(), "{told}");
        let (right, wrong) = (verdicts(&BYTES), verdicts(fault(name)));
        assert!(right.0[0] == right.0[1] && right.1, "{told}");
        assert!(wrong.0[0] != wrong.0[1] || !wrong.1, "{told}");
    }
}

/// On the large card too: the right engine passes, and each that watches is found.
#[test]
fn a_pair_of_large_cards_finds_them_too() {
    let seen = watch_on(ON_LARGE, &BYTES, 400).unwrap_or_else(|told| panic!("{told}"));
    assert_eq!(Watched::ALL.map(|shown| seen.shown.contains_key(&shown)), [true; 12]);
    for name in WATCHING {
        assert!(watch_on(ON_LARGE, fault(name), 400).is_err(), "{name} was not found");
    }
}

/// Two cards are of one size, or no pair.
#[test]
fn a_small_card_and_a_large_one_are_no_pair() {
    let (small, mut large) = (card(&[load(B, &[], &[], &[], &[])]), vec![0; LARGE_IMAGE]);
    assert_eq!(BYTES.enlarge(&small, &mut large).answer, 0);
    assert_eq!(alike(Aid::new(B), [&small, &large]).err(), Some(vec![Clause::Sound]));
    assert!(alike(Aid::new(B), [&large, &large]).is_ok());
}

/// Two of the faults of before tell the order of the waiting grants too: one looks for its rows from the last on, the other at the
/// last row, whoever has it.
#[test]
fn two_other_faults_watch_too() {
    for name in ["grants-lost", "early-grant-refused"] {
        assert!(watch(fault(name), 400).is_err(), "{name}");
    }
}

/// The right engine passes, and so do engines that are wrong, and alike wrong on cards that are alike for B.
#[test]
fn a_pair_of_cards_lets_others_pass() {
    let seen = watch(&BYTES, 1_000).unwrap_or_else(|told| panic!("{told}"));
    assert_eq!(Watched::ALL.map(|shown| seen.shown.contains_key(&shown)), [true; 12]);
    for name in [
        "never-changes",
        "changes-once",
        "ten-uncounted",
        "made-up-number",
        "always-no",
        "rows-swapped",
        "method-127-refused",
        "early-load-refused",
        "grants-go-with-service",
        "kept-grants-first",
        "eleven-at-sixteen",
        "load-takes-all",
        "replace-renumbers",
        "left-calls-first",
        "nine-before-eight",
        "removes-and-loads",
        "needs-dropped",
        "stops-at-needs",
        "equal-sets",
        "calls-for-needs",
    ] {
        watch(fault(name), 200).unwrap_or_else(|told| panic!("{told}"));
    }
}

const S: Tokens = (0, 0);

fn row(other: &[u8], tokens: Tokens) -> Row {
    (other.to_vec(), tokens)
}

/// The card after these records.
fn card(records: &[Vec<u8>]) -> Vec<u8> {
    let mut image = vec![0; IMAGE];
    BYTES.empty(&mut image);
    for record in records {
        assert_eq!(BYTES.judge(&mut image, record).answer, 0, "{record:02X?}");
    }
    image
}

/// Two cards that break one clause alone, and a record of B's with what it gets on each.
struct Broken {
    clause: Clause,
    cards: [Vec<u8>; 2],
    record: Vec<u8>,
    verdicts: [Verdict; 2],
}

fn broken() -> Vec<Broken> {
    let bare = |own: &[u8]| load(own, &[], &[], &[], &[]);
    let calls = |own: &[u8], rows: &[Row]| load(own, &[], rows, &[], &[]);
    let gives = |own: &[u8], rows: &[Row]| load(own, &[S], &[], rows, &[]);
    let (yes, no) = (|number| Verdict::new(0, number), |cause| Verdict::new(cause, 255));
    let rows = |count: u8| -> Vec<Row> { (0..count).map(|n| row(X, (7, n))).collect() };
    let two = |clause, one: &[Vec<u8>], other: &[Vec<u8>], record, verdicts| Broken {
        clause,
        cards: [card(one), card(other)],
        record,
        verdicts,
    };
    let mut unsound = card(&[bare(B)]);
    unsound[IMAGE - 1] = 1;
    vec![
        Broken {
            clause: Clause::Sound,
            cards: [card(&[bare(B)]), unsound],
            record: remove(B),
            verdicts: [yes(0), no(1)],
        },
        two(Clause::UsedNumbers, &[bare(H)], &[bare(H), bare(C)], bare(B), [yes(1), yes(2)]),
        two(Clause::Aids, &[gives(H, &[])], &[gives(C, &[])], calls(B, &[row(H, S)]), [no(8), yes(1)]),
        two(Clause::Aids, &[bare(H), bare(B)], &[bare(B), bare(H)], remove(B), [yes(1), yes(0)]),
        two(Clause::Services, &[gives(H, &[])], &[bare(H)], calls(B, &[row(H, S)]), [no(8), yes(1)]),
        // A call of B's that is met, and one that is unmet.
        two(
            Clause::CallsOf,
            &[gives(H, &[row(B, S)]), calls(B, &[row(H, S)])],
            &[gives(H, &[row(B, S)]), bare(B)],
            update(5, B, H, S),
            [no(6), yes(1)],
        ),
        two(
            Clause::CallsOf,
            &[bare(C), calls(B, &[row(X, S)])],
            &[calls(C, &[row(X, S)]), bare(B)],
            update(5, B, X, S),
            [no(6), yes(1)],
        ),
        two(
            Clause::CallsOn,
            &[gives(B, &[row(C, S)]), calls(C, &[row(B, S)])],
            &[gives(B, &[row(C, S)]), bare(C)],
            update(8, B, C, S),
            [no(8), yes(0)],
        ),
        two(
            Clause::CallsOn,
            &[bare(B), calls(C, &[row(B, S)])],
            &[bare(B), calls(C, &[row(X, S)])],
            add_service(B, S, &[]),
            [no(8), yes(0)],
        ),
        // A grant of B's that is set, and one that waits.
        two(
            Clause::GrantsOf,
            &[bare(C), gives(B, &[row(C, S)])],
            &[bare(C), gives(B, &[])],
            update(7, B, C, S),
            [no(6), yes(1)],
        ),
        two(
            Clause::GrantsOf,
            &[gives(C, &[]), gives(B, &[row(X, S)])],
            &[gives(C, &[row(X, S)]), gives(B, &[])],
            update(7, B, X, S),
            [no(6), yes(1)],
        ),
        two(
            Clause::GrantsTo,
            &[bare(B), gives(H, &[row(B, S)])],
            &[bare(B), gives(H, &[])],
            update(5, B, H, S),
            [yes(0), no(8)],
        ),
        two(
            Clause::GrantsTo,
            &[gives(H, &[row(B, S)])],
            &[gives(H, &[row(X, S)])],
            calls(B, &[row(H, S)]),
            [yes(1), no(8)],
        ),
        two(
            Clause::NeedsOn,
            &[gives(B, &[row(C, S)]), load(C, &[], &[row(B, S)], &[], &[row(B, S)])],
            &[gives(B, &[row(C, S)]), calls(C, &[row(B, S)])],
            remove(B),
            [no(9), yes(0)],
        ),
        two(
            Clause::UnmetCount,
            &[bare(B), calls(C, &rows(16))],
            &[bare(B), calls(C, &rows(15))],
            update(5, B, X, S),
            [no(10), yes(0)],
        ),
        two(
            Clause::WaitingCount,
            &[gives(B, &[]), gives(C, &rows(16))],
            &[gives(B, &[]), gives(C, &rows(15))],
            update(7, B, X, S),
            [no(11), yes(0)],
        ),
    ]
}

/// Each clause is meant: cards that break it alone are told apart by a record of B's. B's own needs are the one exception.
#[test]
fn every_clause_but_one_is_told_by_a_record() {
    let mut told = BTreeSet::new();
    for Broken { clause, cards, record, verdicts } in broken() {
        let breaks = alike(Aid::new(B), cards.each_ref().map(Vec::as_slice)).err();
        assert_eq!(breaks, Some(vec![clause]), "{verdicts:?}");
        assert_ne!(verdicts[0], verdicts[1]);
        for engine in linked() {
            assert_eq!(cards.clone().each_mut().map(|image| engine.judge(image, &record)), verdicts, "{clause}");
        }
        for (image, verdict) in cards.iter().zip(verdicts).filter(|(_, verdict)| verdict.answer != 1) {
            let mut machine = tables::contracts(IN_FORCE, image).expect("a sound card");
            assert_eq!(machine.judge(IN_FORCE, &record), verdict.answer, "{clause}");
        }
        told.insert(clause);
    }
    let untold: Vec<Clause> = Clause::ALL.into_iter().filter(|clause| !told.contains(clause)).collect();
    assert_eq!(untold, [Clause::NeedsOf]);
}

/// Every card of H, C and B, of which B may be absent, with one service each at most, and so many more rows of H's in both lists;
/// between B and C, if both are there, there is nothing or all that can be. Services have any number, and list rows any order.
fn world(more: u8) -> Vec<Tables> {
    [2, 3].into_iter().flat_map(|packages| (0..1 << 15).filter_map(move |n| world_card(n, packages, more))).collect()
}

/// The card with this number of the world, of the first packages; `None` where it has rows of an absent package, or too many.
fn world_card(n: usize, packages: usize, more: u8) -> Option<Tables> {
    let aids = [H, C, B].map(Aid::new);
    let tokens = service(S);
    let provides = |package: usize| package < packages && n >> package & 1 == 1;
    // By the rows between H and C: cards that are alike for B have different ones.
    let number = |package: usize| ((n >> 3) + 3 * package) % IN_FORCE.sizes.services;
    let mut card = Tables::empty(IN_FORCE);
    for package in 0..packages {
        let mut services = vec![None; IN_FORCE.sizes.services];
        services[number(package)] = provides(package).then_some(tokens);
        card.packages[package] = Some(Package { aid: aids[package], services });
    }
    for (place, (caller, callee)) in [(0, 1), (1, 0), (0, 2), (2, 0), (1, 2), (2, 1)].into_iter().enumerate() {
        let state = n >> (3 + 2 * place) & 3;
        if packages == 3 && matches!((place, state), (4 | 5, 1 | 2)) {
            return None;
        }
        if provides(callee) && caller < packages {
            // Nothing, a grant, a call besides, or a need besides.
            let bit = Bit { callee, caller, service: number(callee) };
            for (bits, least) in [(&mut card.grants, 1), (&mut card.calls, 2), (&mut card.needs, 3)] {
                bits.extend((state >= least).then_some(bit));
            }
        } else {
            card.unmet.extend((state & 1 == 1).then_some(Unmet { callee: aids[callee], tokens, caller }));
            card.waiting.extend((state & 2 == 2).then_some(Waiting { caller: aids[caller], tokens, callee }));
        }
    }
    for method in 0..more {
        let (stranger, tokens) = (Aid::new(X), service((7, method)));
        card.unmet.push(Unmet { callee: stranger, tokens, caller: 0 });
        card.waiting.push(Waiting { caller: stranger, tokens, callee: 0 });
    }
    let (unmet, waiting) = (card.unmet.len(), card.waiting.len());
    card.unmet.rotate_left((n >> 3) % unmet.max(1));
    card.waiting.rotate_left((n >> 4) % waiting.max(1));
    // While B is absent it has no service, and the reader finds no card sound that has rows of its own.
    let absent = (packages..3).any(|package| n >> package & 1 == 1);
    let sound = || Tables::of(IN_FORCE, &card.write(IN_FORCE)).is_some();
    (!absent && unmet.max(waiting) <= IN_FORCE.sizes.listed && sound()).then_some(card)
}

fn service((interface, method): Tokens) -> Service {
    Service { interface, method }
}

/// Every record of B's over the names of the world. Of whole contracts one alone is a load where B is installed, or kind 11 where it
/// The four lists of a contract.
type Whole<'a> = (&'a [Tokens], Vec<Row>, Vec<Row>, Vec<Row>);

/// is absent.
fn records(installed: bool) -> Vec<Vec<u8>> {
    let some =
        |n: usize| [H, C].into_iter().enumerate().filter(move |(at, _)| n >> at & 1 == 1).map(|(_, other)| other);
    let rows = |n: usize| -> Vec<Row> { some(n).map(|other| row(other, S)).collect() };
    let callers = |n: usize| -> Vec<Vec<u8>> { some(n).map(<[u8]>::to_vec).collect() };
    let mut contracts = Vec::new();
    for (n, needs) in (0..32).flat_map(|n| (0..4).map(move |needs| (n, needs))).filter(|(n, needs)| needs & n == *needs)
    {
        let provides = &[S][..n >> 4];
        contracts.push((provides, rows(n & 3), rows(n >> 2 & 3), rows(needs)));
    }
    assert_eq!(contracts.len(), 72);
    let whole = |kind, contracts: &[Whole]| -> Vec<Vec<u8>> {
        let written = contracts.iter();
        written.map(|(provides, calls, grants, needs)| contract(kind, B, provides, calls, grants, needs)).collect()
    };
    let [every, one] = if installed { [11, 1] } else { [1, 11] };
    let mut records = [whole(every, &contracts), whole(one, &contracts[..1])].concat();
    records.extend([remove(B), remove_service(B, S)]);
    records.extend((0..4).map(|n| add_service(B, S, &callers(n))));
    records.extend((5..=8).flat_map(|kind| [H, C].map(|other| update(kind, B, other, S))));
    records
}

/// What the records of B's show on every card of a world.
#[derive(Debug, Default, PartialEq)]
struct Told {
    /// Cards that show B the same as another one, and pairs of such.
    cards: usize,
    pairs: usize,
    answers: BTreeSet<u32>,
}

/// Judges every record of B's on every card of a world. Cards that show the same are to get the same, of every engine and of the
/// machine, and to leave cards that show the same; else it gives the record, and the cards.
fn judge_world(engines: &[&dyn Card], more: u8, shown: impl Fn(&Tables) -> View) -> Result<Told, String> {
    let mut classes = BTreeMap::<View, Vec<Tables>>::new();
    for card in world(more) {
        classes.entry(shown(&card)).or_default().push(card);
    }
    let mut told = Told::default();
    for class in classes.values().filter(|class| class.len() > 1) {
        told.cards += class.len();
        told.pairs += class.len() * (class.len() - 1) / 2;
        let cards: Vec<_> = class.iter().map(|card| (card.write(IN_FORCE), card.machine())).collect();
        for record in records(class[0].number(Aid::new(B)).is_some()) {
            let mut outcomes = cards.iter().map(|(image, machine)| {
                let by_engines: Vec<_> = engines.iter().map(|engine| judged(*engine, image, &record, &shown)).collect();
                (by_engines, machine.clone().judge(IN_FORCE, &record))
            });
            let first = outcomes.next().expect("a card");
            told.answers.insert(first.1);
            if !outcomes.all(|outcome| outcome == first) {
                return Err(format!("{record:02X?} on {class:?}"));
            }
        }
    }
    Ok(told)
}

/// What an engine gives, and what the card shows that it leaves if it accepts the record.
fn judged(engine: &dyn Card, image: &[u8], record: &[u8], shown: impl Fn(&Tables) -> View) -> (Verdict, Option<View>) {
    let mut image = image.to_vec();
    let verdict = engine.judge(&mut image, record);
    let left = (verdict.answer == 0).then(|| shown(&Tables::of(IN_FORCE, &image).expect("a sound card")));
    (verdict, left)
}

fn alike_for_b(card: &Tables) -> View {
    View::of(card, Aid::new(B))
}

#[test]
#[cfg_attr(debug_assertions, ignore = "takes long without --release")]
fn no_pair_of_a_small_world_is_told_apart() {
    let answers = BTreeSet::from([0, 4, 5, 6, 8, 9]);
    assert_eq!(judge_world(&linked(), 0, alike_for_b), Ok(Told { cards: 8640, pairs: 25_632, answers }));
}

#[test]
#[cfg_attr(debug_assertions, ignore = "takes long without --release")]
fn no_pair_with_lists_nearly_full_is_told_apart() {
    let answers = BTreeSet::from([0, 4, 5, 6, 8, 9, 10, 11]);
    assert_eq!(judge_world(&linked(), 14, alike_for_b), Ok(Told { cards: 6464, pairs: 23_120, answers }));
}

#[test]
#[cfg_attr(debug_assertions, ignore = "takes long without --release")]
fn the_small_world_tells_engines_that_watch() {
    for name in WATCHING {
        assert!(judge_world(&[fault(name)], 14, alike_for_b).is_err(), "{name}");
    }
}

/// B's own needs are on services of others, which B's records do not touch: no record of B's shows them, by the rules in force.
/// Cards that differ in them get the same, and differ in nothing else afterwards. Before R-13 kind 9 showed them.
#[test]
#[cfg_attr(debug_assertions, ignore = "takes long without --release")]
fn no_record_tells_b_s_own_needs() {
    let but_for_needs = |card: &Tables| alike_for_b(card).without(Clause::NeedsOf);
    let answers = BTreeSet::from([0, 4, 5, 6, 8, 9]);
    assert_eq!(judge_world(&[&BYTES], 0, but_for_needs), Ok(Told { cards: 8640, pairs: 35_872, answers }));
}

#[test]
fn no_two_records_tell_b_s_own_needs() {
    let needs = |rows: &[Row]| {
        let caller = load(C, &[S], &[row(B, S)], &[row(B, S)], &[]);
        let whole = load(B, &[S], &[row(H, S), row(C, S)], &[row(H, S), row(C, S)], rows);
        card(&[load(H, &[S], &[row(B, S)], &[row(B, S), row(C, S)], &[]), caller, whole])
    };
    let cards = [needs(&[row(H, S)]), needs(&[])];
    assert_eq!(alike(Aid::new(B), cards.each_ref().map(Vec::as_slice)).err(), Some(vec![Clause::NeedsOf]));
    let both = |cards: &[Vec<u8>; 2], record: &[u8]| {
        let mut after = cards.clone();
        let [one, other] = after.each_mut().map(|image| BYTES.judge(image, record));
        assert_eq!(one, other, "{record:02X?}");
        after
    };
    let every = [records(true), records(false)].concat();
    for record in &every {
        let after = both(&cards, record);
        every.iter().for_each(|next| drop(both(&after, next)));
    }
    let by_kind_9 = cards.map(|mut image| Bytes(Rules::R_1).judge(&mut image, &update(9, B, H, S)).answer);
    assert_eq!(by_kind_9, [6, 0]);
}
