//! Every answer is explained: over random histories the tool's own reading of the contracts gives the machine's answer and
//! the byte engine's, its reasons are true of the contracts, and none is left out.

use cardtool::contract;
use cardtool::explain::{explain, Ends, Explained, Item, Matter, Reason, Waits};
use cardtool::names::Names;
use cardtool::record::{Clash, Part};
use cardtool::tables::Tables;
use comparison::card::{Bytes, Card, BYTES, IMAGE, LARGE_IMAGE, OLD_IMAGE, ON_LARGE};
use comparison::damage::Damage;
use comparison::generate::Source;
use comparison::machine::{record, Aid, Change, Machine, Record, Row, Tokens};
use comparison::pairs::{self, Kind, Pairs};
use comparison::random::Random;
use comparison::rules::{Rules, Sizes};
use comparison::tables::Form;
use std::collections::BTreeSet;

const SEED: u64 = 455;
const RECORDS: u64 = if cfg!(debug_assertions) { 10_000 } else { 20_000 };
/// On the large card, whose images take longer to look at.
const ON_LARGE_RECORDS: u64 = 5_000;

/// Caller, callee and service.
type Both = (Aid, Aid, Tokens);

fn aid(aid: &contract::Aid) -> Aid {
    Aid::new(aid.bytes())
}

fn tokens(tokens: contract::Tokens) -> Tokens {
    Tokens { interface: tokens.interface, method: tokens.method }
}

fn both(ends: Ends) -> Both {
    (aid(&ends.caller), aid(&ends.callee), tokens(ends.service))
}

fn called((caller, call): (&Aid, &Row)) -> Both {
    (*caller, call.other, call.tokens)
}

fn granted((callee, grant): (&Aid, &Row)) -> Both {
    (grant.other, *callee, grant.tokens)
}

/// The explanation, once the byte engine has judged the record on this image too and answered alike.
fn held(image: &[u8], record: &[u8]) -> (Explained, Vec<u8>) {
    let names = Names::default();
    let said = explain(image, record, &names);
    let mut after = image.to_vec();
    assert_eq!(said.answer, BYTES.judge(&mut after, record).answer, "{said:?}\n{record:02X?}\n{image:02X?}");
    assert_eq!(said.reasons.is_empty(), said.answer == 0);
    let contracts = Tables::of(&after, &names).map(|tables| tables.contracts()).ok();
    assert_eq!(said.after, contracts.filter(|_| said.answer == 0));
    for reason in &said.reasons {
        let words = reason.words(&names);
        assert!(!words.is_empty() && !words.contains('\n') && !words.ends_with('.'), "{words}");
        let aids = reason.ends().map(|ends| [ends.caller, ends.callee]);
        let clash = matches!(reason, Reason::Row { matter: Matter::Clash(_), .. });
        assert!(clash || aids.is_none_or(|aids| aids.iter().all(|aid| words.contains(&aid.to_string()))), "{words}");
        assert_eq!(reason.byte().is_some(), said.answer <= 2, "{words}");
    }
    (said, after)
}

#[test]
fn every_answer_of_random_histories() {
    let seen = every_answer(Rules::IN_FORCE, RECORDS, |ordinal| Source::new(SEED, ordinal));
    assert_eq!(seen.missing(pairs::all(Rules::IN_FORCE)), [], "{seen}");
}

#[test]
fn every_answer_of_random_histories_on_the_large_card() {
    let random = |ordinal| Random::new(SEED + ordinal);
    let source = |ordinal| Source::with(ON_LARGE, Vec::new(), Vec::new(), random(ordinal));
    let seen = every_answer(ON_LARGE, ON_LARGE_RECORDS, source);
    // Every answer, though not of every kind: among so many rows, few records add one that is there.
    let missing = seen.missing(pairs::all(ON_LARGE));
    let found = pairs::all(ON_LARGE).filter(|pair| !missing.contains(pair)).map(|(_, answer)| answer);
    assert_eq!(found.collect::<BTreeSet<u32>>(), BTreeSet::from_iter(0..=11), "{seen}");
}

fn every_answer(rules: Rules, count: u64, source: impl Fn(u64) -> Source) -> Pairs {
    let (mut seen, mut random) = (Pairs::default(), Random::new(SEED));
    let (mut records, mut ordinal) = (0, 0);
    while records < count {
        let mut source = source(ordinal);
        let (mut machine, mut image) = (Machine::default(), vec![0; Form::of(rules).size]);
        BYTES.empty(&mut image);
        for _ in 0..source.length() {
            let record = source.record(&machine);
            let (said, after) = held(&image, &record);
            let before = machine.clone();
            assert_eq!(said.answer, machine.judge(rules, &record));
            all_true(rules, &said, &before, &record);
            seen.count(Kind::of(&record), said.answer);
            damaged(&after, &record, &mut seen, &mut random);
            if random.percent(20) {
                held(&after, &short(rules.sizes, &mut random));
            }
            image = after;
            records += 1;
        }
        ordinal += 1;
    }
    seen
}

/// Judged on a damaged image too, which is not sound, or stands for other contracts.
fn damaged(image: &[u8], record: &[u8], seen: &mut Pairs, random: &mut Random) {
    let damage = if random.percent(50) { Damage::one_byte(image, random) } else { Damage::two_bytes(image, random) };
    let damaged = damage.done_to(image);
    let (said, _) = held(&damaged, record);
    assert_eq!(said.answer == 1, BYTES.check(&damaged).answer == 1);
    if said.answer == 1 {
        seen.count(Kind::of(record), 1);
    }
}

/// A few bytes, which may begin as a record does.
fn short(sizes: &Sizes, random: &mut Random) -> Vec<u8> {
    let length = random.below(14);
    let mut record: Vec<u8> = (0..length).map(|_| random.byte() % 18).collect();
    let begin = [0, length as u8, sizes.record_version, random.between(0, 12) as u8, 5];
    let right = random.below(6).min(length);
    record[..right].copy_from_slice(&begin[..right]);
    record
}

#[test]
fn an_image_of_another_size_is_cause_1() {
    let mut image = vec![0; IMAGE];
    BYTES.empty(&mut image);
    image.push(0);
    for size in [0, 1, 3, OLD_IMAGE - 1, OLD_IMAGE, OLD_IMAGE + 1, IMAGE - 1, IMAGE + 1] {
        let (said, _) = held(&image[..size], &[0, 4, 1, 12]);
        assert_eq!(said.answer, 1);
    }
    // The large card: a byte too few, and one too many.
    let mut large = vec![0; LARGE_IMAGE];
    BYTES.empty(&mut large);
    large.push(0);
    for size in [LARGE_IMAGE - 1, LARGE_IMAGE, LARGE_IMAGE + 1] {
        let (said, _) = held(&large[..size], &[0, 4, 2, 12]);
        assert_eq!(said.answer, if size == LARGE_IMAGE { 2 } else { 1 });
    }
    let mut old = vec![0; OLD_IMAGE];
    Bytes(Rules::R_7).empty(&mut old);
    let (said, _) = held(&old, &[]);
    assert_eq!(said.reasons, [Reason::Old]);
}

/// Every reason is true, and every one is there.
fn all_true(rules: Rules, said: &Explained, before: &Machine, bytes: &[u8]) {
    let Some(record) = record::read(rules, bytes) else { return };
    let reasons = &said.reasons[..];
    match said.answer {
        3 => assert_eq!(reasons.iter().map(clash).collect::<BTreeSet<_>>(), contradictions(&record)),
        4 => assert!(matches!(reasons, [Reason::Installed { package, .. }] if aid(package) == record.aid)),
        5 | 7 => numbers(rules.sizes, reasons, before, &record),
        6 => pointless(reasons, before, &record),
        8..=11 => left(rules, said, before, &record),
        _ => {}
    }
}

/// A row that contradicts its record: its part, the part that it repeats, and whether it is not called.
type Contradiction = (Part, Option<Part>, bool);

fn clash(reason: &Reason) -> Contradiction {
    let Reason::Row { matter: Matter::Clash(clash), part: Some(part), .. } = reason else { panic!("{reason:?}") };
    (*part, reason.first(), *clash == Clash::NotCalled)
}

/// Cause 3: every contradiction of a record.
fn contradictions(record: &Record) -> BTreeSet<Contradiction> {
    let mut found = BTreeSet::new();
    // A list's rows, each as its other end and its service.
    let mut look = |part: fn(usize) -> Part, rows: Vec<(Option<Aid>, Option<Tokens>)>| {
        for (at, row) in rows.iter().enumerate() {
            let first = rows[..at].iter().position(|other| other == row);
            found.extend(first.map(|first| (part(at), Some(part(first)), false)));
            found.extend((row.0 == Some(record.aid)).then_some((part(at), None, false)));
        }
    };
    let full = |rows: &[Row]| rows.iter().map(|row| (Some(row.other), Some(row.tokens))).collect();
    match &record.change {
        Change::Load(lists) | Change::Replace(lists) => {
            look(Part::Provides, lists.provides.iter().map(|service| (None, Some(*service))).collect());
            look(Part::Calls, full(&lists.calls));
            look(Part::Grants, full(&lists.grants));
            look(Part::Needs, full(&lists.needs));
            let needs = lists.needs.iter().enumerate().filter(|(_, need)| !lists.calls.contains(need));
            found.extend(needs.map(|(at, _)| (Part::Needs(at), None, true)));
        }
        Change::AddService(_, callers) => {
            look(Part::Callers, callers.iter().map(|caller| (Some(*caller), None)).collect())
        }
        Change::AddCall(row) | Change::RemoveCall(row) | Change::AddGrant(row) | Change::RemoveGrant(row) => {
            look(|_| Part::Row, full(std::slice::from_ref(row)));
        }
        _ => {}
    }
    found
}

/// Causes 5 and 7: who and what is on the card.
fn numbers(sizes: &Sizes, reasons: &[Reason], before: &Machine, record: &Record) {
    let on_card: BTreeSet<Aid> = before.contracts.keys().copied().collect();
    let named = |aids: &[contract::Aid]| aids.iter().map(aid).collect::<BTreeSet<Aid>>();
    match reasons {
        [Reason::Absent { package, installed }] => {
            assert_eq!((aid(package), named(installed)), (record.aid, on_card));
        }
        [Reason::PackageNumbers { limit, installed }] => {
            assert_eq!((*limit, installed.len(), named(installed)), (sizes.packages, sizes.packages, on_card));
        }
        [Reason::ServiceNumbers { limit, package, services }] => {
            let found: BTreeSet<Tokens> = services.iter().map(|service| tokens(*service)).collect();
            assert_eq!((*limit, services.len(), aid(package)), (sizes.services, sizes.services, record.aid));
            assert_eq!(found, before.contracts[&record.aid].provides);
        }
        _ => panic!("{reasons:?}"),
    }
}

/// Cause 6: what the contract has or lacks.
fn pointless(reasons: &[Reason], before: &Machine, record: &Record) {
    let [Reason::Row { item, matter, part }] = reasons else { panic!("{reasons:?}") };
    let contract = &before.contracts[&record.aid];
    let right = match (&record.change, item) {
        (Change::AddService(added, _), Item::Service(own, service)) => {
            (aid(own), tokens(*service)) == (record.aid, *added) && matches!(matter, Matter::Provided(0..=15))
        }
        (Change::RemoveService(removed), Item::Service(own, service)) => {
            (aid(own), tokens(*service)) == (record.aid, *removed) && *matter == Matter::Lacking
        }
        (Change::AddCall(row), Item::Call(ends)) => {
            both(*ends) == called((&record.aid, row)) && *matter == Matter::Called { met: before.met(row) }
        }
        (Change::RemoveCall(row), Item::Call(ends)) => {
            both(*ends) == called((&record.aid, row)) && *matter == Matter::Lacking
        }
        (Change::AddGrant(row), Item::Grant(ends)) => {
            both(*ends) == granted((&record.aid, row)) && *matter == Matter::Granted(waits(before, contract, row))
        }
        (Change::RemoveGrant(row), Item::Grant(ends)) => {
            both(*ends) == granted((&record.aid, row)) && *matter == Matter::Lacking
        }
        _ => false,
    };
    assert!(right, "{reasons:?}");
    assert_eq!(*part, (!matches!(item, Item::Service(..))).then_some(Part::Row));
}

fn waits(card: &Machine, own: &comparison::machine::Contract, grant: &Row) -> Option<Waits> {
    let (caller, service) = (card.contracts.contains_key(&grant.other), own.provides.contains(&grant.tokens));
    assert_eq!(card.waits(own, grant), !(caller && service));
    match (caller, service) {
        (true, true) => None,
        (false, true) => Some(Waits::Caller),
        (true, false) => Some(Waits::Service),
        (false, false) => Some(Waits::Both),
    }
}

/// Causes 8 to 11: the contracts that the record would leave.
fn left(rules: Rules, said: &Explained, before: &Machine, record: &Record) {
    let (after, listed) = (&before.changed(rules, record), rules.sizes.listed);
    let unmet = |card: &Machine| card.unmet().map(called).collect::<BTreeSet<Both>>();
    let waiting = |card: &Machine| card.waiting().map(granted).collect::<BTreeSet<Both>>();
    let (rows, expected): (&[Reason], BTreeSet<Both>) = match said.answer {
        8 => {
            let bare = |(caller, call): &(&Aid, &Row)| after.met(call) && !after.granted(**caller, call);
            (&said.reasons, after.calls().filter(bare).map(called).collect())
        }
        9 => {
            let contracts = after.contracts.iter();
            let needs = contracts.flat_map(|(own, contract)| contract.needs.iter().map(move |need| (own, need)));
            (&said.reasons, needs.filter(|(_, need)| !after.met(need)).map(called).collect())
        }
        10 => (counted(&said.reasons, unmet(after).len(), listed), &unmet(after) - &unmet(before)),
        _ => (counted(&said.reasons, waiting(after).len(), listed), &waiting(after) - &waiting(before)),
    };
    let found: BTreeSet<Both> = rows.iter().filter_map(|row| row.ends().map(both)).collect();
    assert_eq!((rows.len(), &found), (expected.len(), &expected));
    // Nothing is said of what other packages have among themselves.
    assert!(found.iter().all(|(caller, callee, _)| [caller, callee].contains(&&record.aid)));
    for reason in rows {
        let Reason::Row { item, matter, part } = reason else { panic!("{reason:?}") };
        let sort = match said.answer {
            8 | 10 => matches!(item, Item::Call(_)),
            9 => matches!(item, Item::Need(_)),
            _ => matches!(item, Item::Grant(_)),
        };
        let ends = item.ends().map(both).expect("two ends");
        assert!(sort && holds(ends, *matter, said.answer, before, after, record), "{reason:?}\n{record:?}");
        assert!(placed(ends, *matter, *part, record), "{reason:?}\n{record:?}");
    }
}

/// The rows behind a right count.
fn counted(reasons: &[Reason], found: usize, listed: usize) -> &[Reason] {
    let (first, rows) = reasons.split_first().expect("a count");
    let (Reason::UnmetCalls { count, limit, new } | Reason::WaitingGrants { count, limit, new }) = first else {
        panic!("{first:?}")
    };
    assert_eq!((*count, *limit, *new), (found, listed, rows.len()));
    assert!(found > listed && !rows.is_empty());
    rows
}

/// Whether what is said to be the matter with a row is.
fn holds(
    (caller, callee, tokens): Both,
    matter: Matter,
    cause: u32,
    before: &Machine,
    after: &Machine,
    record: &Record,
) -> bool {
    let (call, grant) = (Row { other: callee, tokens }, Row { other: caller, tokens });
    let (there, own) = (after.contracts.contains_key(&callee), caller == record.aid);
    match matter {
        Matter::NotGranted => cause == 8 && own,
        Matter::ServiceComes => cause == 8 && !own && callee == record.aid && !before.met(&call),
        Matter::GrantGoes => cause == 8 && !own && callee == record.aid && before.granted(caller, &call),
        Matter::NoPackage => matches!(cause, 9 | 10) && own && !there,
        Matter::NoService => matches!(cause, 9 | 10) && own && there,
        Matter::PackageGoes => matches!(cause, 9 | 10) && callee == record.aid && before.met(&call) && !there,
        Matter::ServiceGoes => matches!(cause, 9 | 10) && callee == record.aid && before.met(&call) && there,
        Matter::Waits(what) => cause == 11 && waits(after, &after.contracts[&callee], &grant) == Some(what),
        _ => false,
    }
}

/// Whether the part is that of the record's own row, of the service that comes or of the grant that goes; and whether there
/// is one where there can be.
fn placed((caller, callee, tokens): Both, matter: Matter, part: Option<Part>, record: &Record) -> bool {
    let (call, grant) = (Row { other: callee, tokens }, Row { other: caller, tokens });
    let Some(part) = part else {
        return match (&record.change, matter) {
            (_, Matter::ServiceComes) => matches!(record.change, Change::AddService(..)),
            (_, Matter::GrantGoes) => matches!(record.change, Change::Replace(_)),
            (Change::Remove | Change::RemoveService(_), Matter::Waits(_)) => true,
            _ => caller != record.aid && matches!(matter, Matter::PackageGoes | Matter::ServiceGoes),
        };
    };
    match (&record.change, part) {
        (Change::Load(lists) | Change::Replace(lists), Part::Provides(at)) => {
            lists.provides[at] == tokens && matter == Matter::ServiceComes
        }
        (Change::Load(lists) | Change::Replace(lists), Part::Calls(at)) => {
            lists.calls[at] == call && caller == record.aid
        }
        (Change::Load(lists) | Change::Replace(lists), Part::Needs(at)) => {
            lists.needs[at] == call && caller == record.aid
        }
        (Change::Load(lists) | Change::Replace(lists), Part::Grants(at)) => {
            lists.grants[at] == grant && callee == record.aid
        }
        (Change::AddService(service, callers), Part::Callers(at)) => callers[at] == caller && *service == tokens,
        (Change::AddCall(row), Part::Row) => *row == call && caller == record.aid,
        (Change::AddGrant(row) | Change::RemoveGrant(row), Part::Row) => *row == grant && callee == record.aid,
        _ => false,
    }
}
