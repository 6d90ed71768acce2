//! Engines that are wrong on purpose, each in one way, to show that the comparison finds it: the
//! paper's list of what a reviewer will try, its misreadings of the report, requests misread, and a few more.

mod conditions;
mod large;
mod replace;
mod retired;
mod watched;

use crate::bytes::layout::{is_aid, Version, Version02};
use crate::bytes::relation::{Listed, Relation};
use crate::card::{Bytes, Card, Verdict, BYTES, IMAGE, LARGE_IMAGE, OLD_IMAGE};
use crate::machine::record::{self, contradicts, Change};
use crate::machine::Aid;
use crate::methods::{self, Held};
use crate::program::Failure;
use crate::rules::{Rules, Sizes};
use crate::tables::{self, Form, Tables, Waiting};

/// The byte engine with one of its entries replaced, or by other rules.
pub struct Fault {
    name: &'static str,
    entry: Entry,
}

enum Entry {
    Check(fn(&[u8]) -> Verdict),
    Empty(fn(&mut [u8]) -> Verdict),
    Convert(fn(&[u8], &mut [u8]) -> Verdict),
    Enlarge(fn(&[u8], &mut [u8]) -> Verdict),
    Judge(fn(&mut [u8], &[u8]) -> Verdict),
    ReadOut(fn(&[u8], u32, &mut [u8]) -> Verdict),
    Aid(fn(&[u8]) -> &[u8]),
    /// Every entry by other rules.
    Rules(Rules),
    /// Right by the rules in force, and wrong before each change, the last change first.
    Before(&'static [Fault; Rules::CHANGES]),
}

impl Fault {
    fn bytes(&self) -> Bytes {
        match self.entry {
            Entry::Rules(rules) => Bytes(rules),
            _ => BYTES,
        }
    }
}

impl Card for Fault {
    fn name(&self) -> &'static str {
        self.name
    }

    fn check(&self, image: &[u8]) -> Verdict {
        match self.entry {
            Entry::Check(check) => check(image),
            _ => self.bytes().check(image),
        }
    }

    fn empty(&self, image: &mut [u8]) -> Verdict {
        match self.entry {
            Entry::Empty(empty) => empty(image),
            _ => self.bytes().empty(image),
        }
    }

    fn convert(&self, old: &[u8], image: &mut [u8]) -> Verdict {
        match self.entry {
            Entry::Convert(convert) => convert(old, image),
            _ => self.bytes().convert(old, image),
        }
    }

    fn enlarge(&self, image: &[u8], large: &mut [u8]) -> Verdict {
        match self.entry {
            Entry::Enlarge(enlarge) => enlarge(image, large),
            _ => self.bytes().enlarge(image, large),
        }
    }

    fn judge(&self, image: &mut [u8], record: &[u8]) -> Verdict {
        match self.entry {
            Entry::Judge(judge) => judge(image, record),
            _ => self.bytes().judge(image, record),
        }
    }

    fn read_out(&self, image: &[u8], number: u32, out: &mut [u8]) -> Verdict {
        match self.entry {
            Entry::ReadOut(read_out) => read_out(image, number, out),
            _ => self.bytes().read_out(image, number, out),
        }
    }

    fn aid<'a>(&self, record: &'a [u8]) -> &'a [u8] {
        match self.entry {
            Entry::Aid(aid) => aid(record),
            _ => self.bytes().aid(record),
        }
    }

    fn before(&self, changes: usize) -> Option<&dyn Card> {
        match self.entry {
            Entry::Before(engines) => Some(&engines[changes - 1]),
            _ => None,
        }
    }
}

const IN_FORCE: Rules = Rules::IN_FORCE;

/// The count of unmet calls or of waiting grants was below the most that the card's list has, and is there now.
fn comes_to_limit(list: fn(&Form) -> usize, before: &[u8], after: &[u8]) -> bool {
    let form = Form::of_image(after);
    let most = form.sizes.listed as u8;
    before[list(&form)] < most && after[list(&form)] == most
}

pub const FAULTS: &[Fault] = &[
    Fault { name: "never-changes", entry: Entry::Judge(never_changes) },
    Fault { name: "changes-once", entry: Entry::Judge(changes_once) },
    Fault { name: "ten-uncounted", entry: Entry::Judge(ten_uncounted) },
    Fault { name: "made-up-number", entry: Entry::Judge(made_up_number) },
    Fault {
        name: "always-yes",
        entry: Entry::Judge(|image, record| Verdict::new(0, BYTES.judge(image, record).second)),
    },
    Fault { name: "always-no", entry: Entry::Judge(|_, _| Verdict::new(2, 255)) },
    Fault { name: "refusal-writes", entry: Entry::Judge(refusal_writes) },
    Fault { name: "grants-lost", entry: Entry::Judge(grants_lost) },
    Fault { name: "rows-swapped", entry: Entry::Judge(rows_swapped) },
    Fault { name: "left-over-read", entry: Entry::Judge(left_over_read) },
    Fault { name: "judges-unsound", entry: Entry::Judge(judges_unsound) },
    Fault { name: "panics", entry: Entry::Judge(panics) },
    Fault { name: "last-byte-unchecked", entry: Entry::Check(last_byte_unchecked) },
    Fault { name: "count-forgotten", entry: Entry::Check(|image| Verdict::new(BYTES.check(image).answer, 0)) },
    Fault { name: "empty-any-length", entry: Entry::Empty(empty_any_length) },
    Fault { name: "past-the-record", entry: Entry::ReadOut(past_the_record) },
    Fault { name: "made-up-length", entry: Entry::ReadOut(made_up_length) },
    Fault { name: "number-cut-to-a-byte", entry: Entry::ReadOut(number_cut) },
    Fault { name: "aid-with-length", entry: Entry::Aid(aid_with_length) },
    Fault { name: "rules-of-document-01", entry: Entry::Rules(Rules::DOCUMENT_01) },
    Fault { name: "method-128-read", entry: Entry::Judge(method_128_read) },
    Fault { name: "method-127-refused", entry: Entry::Judge(method_127_refused) },
    Fault { name: "provided-128-sound", entry: Entry::Check(|image| lets_in(Held::Provided, image)) },
    Fault { name: "unmet-128-sound", entry: Entry::Check(|image| lets_in(Held::Unmet, image)) },
    Fault { name: "goes-on-with-128", entry: Entry::Judge(goes_on_with_128) },
    Fault { name: "reads-out-128", entry: Entry::ReadOut(reads_out_128) },
    Fault { name: "aid-with-128", entry: Entry::Aid(|record| Bytes(TO_255).aid(record)) },
    Fault { name: "rules-of-R-7", entry: Entry::Rules(Rules::R_7) },
    Fault { name: "early-load-refused", entry: Entry::Judge(|image, record| early_refused(1, image, record)) },
    Fault { name: "early-grant-refused", entry: Entry::Judge(early_grant_refused) },
    Fault { name: "grants-go-with-service", entry: Entry::Judge(grants_go_with_service) },
    Fault { name: "kept-grants-first", entry: Entry::Judge(kept_grants_first) },
    Fault { name: "kept-grants-backwards", entry: Entry::Judge(kept_grants_backwards) },
    Fault { name: "eleven-at-sixteen", entry: Entry::Judge(eleven_at_sixteen) },
    Fault { name: "doubled-grant-twice", entry: Entry::Judge(doubled_grant_twice) },
    Fault { name: "doubled-grant-moved", entry: Entry::Judge(doubled_grant_moved) },
    Fault { name: "added-service-leaves", entry: Entry::Judge(|image, record| leaves(3, image, record)) },
    Fault { name: "listed-callers-alone", entry: Entry::Judge(listed_callers_alone) },
    Fault { name: "load-leaves", entry: Entry::Judge(|image, record| leaves(1, image, record)) },
    Fault { name: "load-takes-all", entry: Entry::Judge(load_takes_all) },
    Fault { name: "waiting-128-sound", entry: Entry::Check(|image| lets_in(Held::Waiting, image)) },
    Fault { name: "settled-row-sound", entry: Entry::Check(settled_row_sound) },
    Fault { name: "own-aid-row-sound", entry: Entry::Check(own_aid_row_sound) },
    Fault { name: "installed-row-unsound", entry: Entry::Check(installed_row_unsound) },
    Fault { name: "checks-version-01", entry: Entry::Check(|image| by_version(image).check(image)) },
    Fault { name: "judges-version-01", entry: Entry::Judge(|image, record| by_version(image).judge(image, record)) },
    Fault {
        name: "reads-out-version-01",
        entry: Entry::ReadOut(|image, n, out| by_version(image).read_out(image, n, out)),
    },
    Fault { name: "rows-of-19-bytes", entry: Entry::Convert(rows_of_19_bytes) },
    Fault { name: "converts-backwards", entry: Entry::Convert(converts_backwards) },
    Fault { name: "converts-128", entry: Entry::Convert(converts_128) },
    Fault { name: "converts-unsound", entry: Entry::Convert(converts_unsound) },
    Fault { name: "converts-into-more", entry: Entry::Convert(converts_into_more) },
    Fault { name: "converts-with-a-count", entry: Entry::Convert(converts_with_a_count) },
    Fault { name: "refused-conversion-writes", entry: Entry::Convert(refused_conversion_writes) },
    Fault { name: "rules-of-R-2", entry: Entry::Rules(Rules::R_2) },
    Fault { name: replace::TOO_EARLY, entry: Entry::Before(replace::READS_11) },
    Fault { name: "early-replace-refused", entry: Entry::Judge(|image, record| early_refused(11, image, record)) },
    Fault { name: "replace-renumbers", entry: Entry::Judge(replace::renumbers) },
    Fault { name: "replace-frees-no-number", entry: Entry::Judge(replace::numbers_not_freed) },
    Fault { name: "left-calls-first", entry: Entry::Judge(replace::left_calls_first) },
    Fault { name: "left-calls-by-service", entry: Entry::Judge(replace::left_calls_by_service) },
    Fault { name: "others-needs-unseen", entry: Entry::Judge(replace::others_needs_unseen) },
    Fault { name: "kept-calls-unseen", entry: Entry::Judge(replace::kept_calls_unseen) },
    Fault { name: "old-grants-kept", entry: Entry::Judge(replace::old_grants_kept) },
    Fault { name: "nine-before-eight", entry: Entry::Judge(replace::nine_before_eight) },
    Fault { name: "own-rows-kept", entry: Entry::Judge(replace::own_rows_kept) },
    Fault { name: "own-rows-in-place", entry: Entry::Judge(replace::own_rows_in_place) },
    Fault { name: "met-rows-kept", entry: Entry::Judge(replace::met_rows_kept) },
    Fault { name: "own-grants-first", entry: Entry::Judge(replace::own_grants_first) },
    Fault { name: "given-grants-taken", entry: Entry::Judge(replace::given_grants_taken) },
    Fault { name: "limits-on-the-way", entry: Entry::Judge(replace::limits_on_the_way) },
    Fault { name: "replace-loads-absent", entry: Entry::Judge(replace::loads_absent) },
    Fault { name: "removes-and-loads", entry: Entry::Judge(replace::removes_and_loads) },
    Fault { name: "rules-of-R-1", entry: Entry::Rules(Rules::R_1) },
    Fault { name: "kind-9-read", entry: Entry::Rules(retired::READS_9) },
    Fault { name: "kind-10-read", entry: Entry::Rules(retired::READS_10) },
    Fault { name: retired::TOO_EARLY, entry: Entry::Before(retired::READS_NEITHER) },
    Fault { name: "retired-gets-6", entry: Entry::Judge(retired::gets_6) },
    Fault { name: "retired-looked-at", entry: Entry::Judge(retired::looked_at) },
    Fault { name: "aid-of-retired", entry: Entry::Aid(retired::aid) },
    Fault { name: "needs-dropped", entry: Entry::Judge(retired::needs_dropped) },
    Fault { name: "needs-not-in-force", entry: Entry::Judge(retired::not_in_force) },
    Fault { name: "need-outlives-call", entry: Entry::Judge(retired::outlives_call) },
    Fault { name: "need-outlives-contract", entry: Entry::Judge(retired::outlives_contract) },
    Fault { name: "needs-not-read-out", entry: Entry::ReadOut(retired::not_read_out) },
    Fault { name: "stops-at-needs", entry: Entry::Judge(conditions::stops_at_needs) },
    Fault { name: "third-left-out", entry: Entry::Judge(conditions::third_left_out) },
    Fault { name: "eight-takes-both", entry: Entry::Judge(conditions::eight_takes_both) },
    Fault { name: "equal-sets", entry: Entry::Judge(conditions::equal_sets) },
    Fault { name: "any-grant-will-do", entry: Entry::Judge(conditions::any_grant_will_do) },
    Fault { name: "waiting-grants-unseen", entry: Entry::Judge(conditions::waiting_grants_unseen) },
    Fault { name: "calls-for-needs", entry: Entry::Judge(conditions::calls_for_needs) },
    Fault { name: "one-caller", entry: Entry::Judge(watched::one_caller) },
    Fault { name: "needed-by-another", entry: Entry::Judge(watched::needed_by_another) },
    Fault { name: "next-callers-number", entry: Entry::Judge(watched::next_callers_number) },
    Fault { name: "every-call-counted", entry: Entry::Judge(watched::every_call_counted) },
    Fault { name: "every-grant-counted", entry: Entry::Judge(watched::every_grant_counted) },
    Fault { name: "last-row-unsearched", entry: Entry::Judge(watched::last_row_unsearched) },
    Fault { name: "seventh-ungranted", entry: Entry::Judge(watched::seventh_ungranted) },
    Fault { name: "caller-not-compared", entry: Entry::Judge(watched::caller_not_compared) },
    Fault { name: "callee-not-compared", entry: Entry::Judge(watched::callee_not_compared) },
    Fault { name: "grant-goes-with-last-call", entry: Entry::Judge(watched::grant_goes_with_last_call) },
    Fault { name: "used-bytes-swapped", entry: Entry::Judge(large::used_swapped) },
    Fault { name: "provides-bytes-swapped", entry: Entry::Judge(large::provides_swapped) },
    Fault { name: "calls-bytes-swapped", entry: Entry::Judge(large::calls_swapped) },
    Fault { name: "version-01-on-large", entry: Entry::Judge(large::version_01_on_large) },
    Fault { name: "version-02-on-small", entry: Entry::Judge(large::version_02_on_small) },
    Fault { name: "aid-of-version-01-alone", entry: Entry::Aid(large::aid_of_version_01_alone) },
    Fault { name: "row-33-let-in", entry: Entry::Judge(large::thirty_third_row) },
    Fault { name: "eight-packages-on-large", entry: Entry::Judge(large::eight_packages) },
    Fault { name: "eight-services-on-large", entry: Entry::Judge(large::eight_services) },
    Fault { name: "sixteen-unmet-on-large", entry: Entry::Judge(large::sixteen_unmet_calls) },
    Fault { name: "sixteen-waiting-on-large", entry: Entry::Judge(large::sixteen_waiting_grants) },
    Fault { name: "counts-of-a-byte", entry: Entry::Judge(large::counts_of_a_byte) },
    Fault { name: "row-273-read", entry: Entry::Judge(large::row_273_read) },
    Fault { name: "checks-small-alone", entry: Entry::Check(large::small_alone) },
    Fault { name: "version-03-unchecked", entry: Entry::Check(large::version_unchecked) },
    Fault { name: "empties-small-alone", entry: Entry::Empty(large::empties_small_alone) },
    Fault { name: "reads-out-with-01", entry: Entry::ReadOut(large::reads_out_version_01) },
    Fault { name: "reads-out-to-7", entry: Entry::ReadOut(large::reads_out_numbers_to_7) },
    Fault { name: "enlarging-closes-up", entry: Entry::Enlarge(large::closes_up) },
    Fault { name: "enlarging-renumbers", entry: Entry::Enlarge(large::closes_up_services) },
    Fault { name: "enlarges-backwards", entry: Entry::Enlarge(large::backwards) },
    Fault { name: "enlarges-without-needs", entry: Entry::Enlarge(large::without_needs) },
    Fault { name: "enlarges-into-high-bytes", entry: Entry::Enlarge(large::into_high_bytes) },
    Fault { name: "enlarges-unsound", entry: Entry::Enlarge(large::unsound) },
    Fault { name: "enlarges-version-01", entry: Entry::Enlarge(large::version_01) },
    Fault { name: "enlarges-into-more", entry: Entry::Enlarge(large::into_more) },
    Fault { name: "enlarges-with-a-count", entry: Entry::Enlarge(large::with_a_count) },
    Fault { name: "refused-enlarging-writes", entry: Entry::Enlarge(large::refused_writes) },
];

/// The fault that the option `--fault` names.
pub fn named(name: &str) -> Result<&'static dyn Card, Failure> {
    let named = FAULTS.iter().find(|fault| fault.name() == name);
    let names = || FAULTS.iter().map(|fault| fault.name()).collect::<Vec<_>>().join(", ");
    let bad = || Failure::bad_use(format!("--fault {name}: not known; there are {}", names()));
    named.map(|fault| fault as &dyn Card).ok_or_else(bad)
}

/// Judges rightly, but never changes the image.
fn never_changes(image: &mut [u8], record: &[u8]) -> Verdict {
    BYTES.judge(&mut image.to_vec(), record)
}

/// Changes the empty image, and afterwards just answers.
fn changes_once(image: &mut [u8], record: &[u8]) -> Verdict {
    match image.get(3) {
        Some(0) => BYTES.judge(image, record),
        _ => never_changes(image, record),
    }
}

/// Gives 10 where the unmet calls would be as many as fit.
fn ten_uncounted(image: &mut [u8], record: &[u8]) -> Verdict {
    let before = image.to_vec();
    let verdict = BYTES.judge(image, record);
    if verdict.answer == 0 && comes_to_limit(|form| form.unmet, &before, image) {
        image.copy_from_slice(&before);
        return Verdict::new(10, 255);
    }
    verdict
}

fn made_up_number(image: &mut [u8], record: &[u8]) -> Verdict {
    match BYTES.judge(image, record) {
        Verdict { answer: 0, .. } => Verdict::new(0, 0),
        refused => refused,
    }
}

/// Sets the call's bit before it looks for the grant, and leaves it.
fn refusal_writes(image: &mut [u8], record: &[u8]) -> Verdict {
    let verdict = BYTES.judge(image, record);
    if verdict.answer == 8 && record[3] == 5 {
        image[Form::of_image(image).calls] |= 1;
    }
    verdict
}

/// Forgets the grants to a removed package.
fn grants_lost(image: &mut [u8], record: &[u8]) -> Verdict {
    let verdict = BYTES.judge(image, record);
    if verdict.answer == 0 && record[3] == 2 {
        let (form, written) = (Form::of_image(image), &record[4..]);
        while image[form.waiting] > 0 {
            let last = form.waiting_at(usize::from(image[form.waiting]) - 1);
            if !image[last..].starts_with(written) {
                break;
            }
            image[last..last + form.waiting_row].fill(0);
            image[form.waiting] -= 1;
        }
    }
    verdict
}

/// Puts the last two unmet calls after a removal the other way round.
fn rows_swapped(image: &mut [u8], record: &[u8]) -> Verdict {
    let verdict = BYTES.judge(image, record);
    if verdict.answer == 0 && record[3] == 2 && image[Form::of_image(image).unmet] >= 2 {
        let form = Form::of_image(image);
        let end = usize::from(image[form.unmet]);
        image[form.unmet_at(end - 2)..form.unmet_at(end)].rotate_left(form.unmet_row);
    }
    verdict
}

/// Reads only as much as the length field says.
fn left_over_read(image: &mut [u8], record: &[u8]) -> Verdict {
    let length = match record {
        [high, low, ..] => usize::from(*high) * 256 + usize::from(*low),
        _ => record.len(),
    };
    BYTES.judge(image, &record[..length.min(record.len())])
}

/// Looks at the record before the image.
fn judges_unsound(image: &mut [u8], bytes: &[u8]) -> Verdict {
    match record::read(tables::in_force(image), bytes) {
        None => Verdict::new(2, 255),
        Some(_) => BYTES.judge(image, bytes),
    }
}

fn panics(image: &mut [u8], record: &[u8]) -> Verdict {
    let verdict = BYTES.judge(image, record);
    assert_ne!(verdict.answer, 9, "on purpose");
    verdict
}

fn last_byte_unchecked(image: &[u8]) -> Verdict {
    let mut image = image.to_vec();
    let form = Form::of(tables::in_force(&image));
    if image.len() == form.size && usize::from(image[form.waiting]) < form.sizes.listed {
        image[form.size - 1] = 0;
    }
    BYTES.check(&image)
}

fn empty_any_length(image: &mut [u8]) -> Verdict {
    match image.len() >= IMAGE {
        true => BYTES.empty(&mut image[..IMAGE]),
        false => Verdict::new(1, 255),
    }
}

fn past_the_record(image: &[u8], number: u32, out: &mut [u8]) -> Verdict {
    let verdict = BYTES.read_out(image, number, out);
    if let (0, Some(past)) = (verdict.answer, out.get_mut(verdict.second as usize)) {
        *past = 0;
    }
    verdict
}

fn made_up_length(image: &[u8], number: u32, out: &mut [u8]) -> Verdict {
    match BYTES.read_out(image, number, out) {
        Verdict { answer: 0, .. } => Verdict::new(0, out.len() as u32),
        refused => refused,
    }
}

fn number_cut(image: &[u8], number: u32, out: &mut [u8]) -> Verdict {
    BYTES.read_out(image, number & 0xFF, out)
}

fn aid_with_length(record: &[u8]) -> &[u8] {
    match BYTES.aid(record).len() {
        0 => &record[..0],
        length => &record[4..5 + length],
    }
}

/// Method tokens go up to 255, as before R-7.
const TO_255: Rules = Rules { most_method: 255, ..Rules::IN_FORCE };
/// Method tokens stop at 128.
const TO_128: Rules = Rules { most_method: 128, ..Rules::IN_FORCE };
/// Method tokens stop at 126.
const TO_126: Rules = Rules { most_method: 126, ..Rules::IN_FORCE };

/// Reads a record whose method tokens go up to 128. Images are checked rightly.
fn method_128_read(image: &mut [u8], record: &[u8]) -> Verdict {
    match BYTES.check(image).answer {
        0 => Bytes(TO_128).judge(image, record),
        _ => BYTES.judge(image, record),
    }
}

/// Takes a record with a method token of 127 for malformed.
fn method_127_refused(image: &mut [u8], record: &[u8]) -> Verdict {
    match BYTES.check(image).answer == 0 && Bytes(TO_126).aid(record).is_empty() {
        true => Verdict::new(2, 255),
        false => BYTES.judge(image, record),
    }
}

/// Lets any method token in that stands in this part of the image.
fn lets_in(part: Held, image: &[u8]) -> Verdict {
    let other = |image: &[u8]| methods::of_image(image).into_iter().any(|(held, at)| held != part && image[at] > 127);
    match [IMAGE, LARGE_IMAGE].contains(&image.len()) && !other(image) {
        true => Bytes(TO_255).check(image),
        false => BYTES.check(image),
    }
}

/// Judges records rightly, but lets any method token stand in the image.
fn goes_on_with_128(image: &mut [u8], record: &[u8]) -> Verdict {
    match BYTES.aid(record).is_empty() {
        true => BYTES.judge(image, record),
        false => Bytes(TO_255).judge(image, record),
    }
}

/// Reads out of a card with any method token.
fn reads_out_128(image: &[u8], number: u32, out: &mut [u8]) -> Verdict {
    Bytes(TO_255).read_out(image, number, out)
}

/// A whole contract with a grant of a service that it does not provide contradicts itself, as before R-2.
fn early_refused(kind: u8, image: &mut [u8], bytes: &[u8]) -> Verdict {
    let read = record::read(tables::in_force(image), bytes);
    let refused = read.is_some_and(|record| contradicts(Rules::R_7, &record)) && bytes[3] == kind;
    match refused && BYTES.check(image).answer == 0 {
        true => Verdict::new(3, 255),
        false => BYTES.judge(image, bytes),
    }
}

/// Kind 7 for a service not provided is 6, as before R-2.
fn early_grant_refused(image: &mut [u8], bytes: &[u8]) -> Verdict {
    let before = image.to_vec();
    let verdict = BYTES.judge(image, bytes);
    let early = |tables: Tables| {
        tables.waiting.last().is_some_and(|grant| tables.service(grant.callee, grant.tokens).is_none())
    };
    if verdict.answer == 0 && bytes[3] == 7 && Tables::in_force(image).is_some_and(early) {
        image.copy_from_slice(&before);
        return Verdict::new(6, 255);
    }
    verdict
}

/// Judges rightly, and changes the tables after an accepted record of the kind, by the package's number and those before;
/// or refuses the record after all.
fn tables_after(
    kind: u8,
    image: &mut [u8],
    bytes: &[u8],
    change: impl FnOnce(usize, &Tables, &mut Tables) -> Result<(), u32>,
) -> Verdict {
    let mut own = image.to_vec();
    let verdict = BYTES.judge(&mut own, bytes);
    let rules = tables::in_force(image);
    let [before, after] = [&image[..], &own].map(|image| Tables::of(rules, image));
    if let (0, Some(before), Some(mut after)) = (verdict.answer, before, after) {
        if bytes[3] == kind {
            if let Err(cause) = change(verdict.second as usize, &before, &mut after) {
                return Verdict::new(cause, 255);
            }
            after.unmet.truncate(rules.sizes.listed);
            after.waiting.truncate(rules.sizes.listed);
            own = after.write(rules);
        }
    }
    image.copy_from_slice(&own);
    verdict
}

/// Judges rightly, and changes the waiting grants after an accepted record of the kind, by those before.
fn after_kind(kind: u8, image: &mut [u8], bytes: &[u8], change: impl Fn(&[Waiting], &mut Vec<Waiting>)) -> Verdict {
    tables_after(kind, image, bytes, |_, before, after| {
        change(&before.waiting, &mut after.waiting);
        Ok(())
    })
}

/// The grants of a service that goes are lost.
fn grants_go_with_service(image: &mut [u8], bytes: &[u8]) -> Verdict {
    after_kind(4, image, bytes, |before, after| after.retain(|grant| before.contains(grant)))
}

/// They wait before the rows already there.
fn kept_grants_first(image: &mut [u8], bytes: &[u8]) -> Verdict {
    after_kind(4, image, bytes, |before, after| after.rotate_left(before.len()))
}

/// They wait by caller number downwards.
fn kept_grants_backwards(image: &mut [u8], bytes: &[u8]) -> Verdict {
    after_kind(4, image, bytes, |before, after| after[before.len()..].reverse())
}

/// Grants that become bits wait too.
fn leaves(kind: u8, image: &mut [u8], bytes: &[u8]) -> Verdict {
    after_kind(kind, image, bytes, |before, after| {
        let settled: Vec<Waiting> = before.iter().filter(|grant| !after.contains(grant)).copied().collect();
        after.extend(settled);
    })
}

/// Kind 4 gives 11 where its grants would make as many as fit.
fn eleven_at_sixteen(image: &mut [u8], bytes: &[u8]) -> Verdict {
    let before = image.to_vec();
    let verdict = BYTES.judge(image, bytes);
    if verdict.answer == 0 && bytes[3] == 4 && comes_to_limit(|form| form.waiting, &before, image) {
        image.copy_from_slice(&before);
        return Verdict::new(11, 255);
    }
    verdict
}

/// The grants that kind 3 lists and that wait, before it and after it.
fn doubled(bytes: &[u8], before: &[Waiting], after: &[Waiting]) -> Vec<Waiting> {
    // Kind 3 has one form on both cards, but for the version.
    let Some(record) = Sizes::ALL.into_iter().find_map(|sizes| record::read(IN_FORCE.on(sizes), bytes)) else {
        return Vec::new();
    };
    let Change::AddService(tokens, callers) = record.change else { return Vec::new() };
    let listed = |grant: &&Waiting| grant.tokens == tokens && callers.contains(&grant.caller) && after.contains(grant);
    before.iter().filter(listed).copied().collect()
}

/// Kind 3 takes twice a grant that is in both places.
fn doubled_grant_twice(image: &mut [u8], bytes: &[u8]) -> Verdict {
    after_kind(3, image, bytes, |before, after| after.extend(doubled(bytes, before, after)))
}

/// Kind 3 moves a grant that is in both places behind the others.
fn doubled_grant_moved(image: &mut [u8], bytes: &[u8]) -> Verdict {
    after_kind(3, image, bytes, |before, after| {
        let doubled = doubled(bytes, before, after);
        after.retain(|grant| !doubled.contains(grant));
        after.extend(doubled);
    })
}

/// Kind 3 lets those alone call that it lists.
fn listed_callers_alone(image: &mut [u8], bytes: &[u8]) -> Verdict {
    let mut without = image.to_vec();
    if let (Some(mut tables), Some(3)) = (Tables::in_force(image), bytes.get(3)) {
        tables.waiting.clear();
        without = tables.write(tables::in_force(image));
    }
    match BYTES.judge(&mut without, bytes) {
        refused @ Verdict { answer: 8, .. } => refused,
        _ => BYTES.judge(image, bytes),
    }
}

/// A load takes every grant to it out of the list, also those of services not provided.
fn load_takes_all(image: &mut [u8], bytes: &[u8]) -> Verdict {
    after_kind(1, image, bytes, |_, after| after.retain(|grant| grant.caller != Aid::new(BYTES.aid(bytes))))
}

/// Checks the image, of the small card, without the waiting rows that may stand there.
fn check_without(image: &[u8], may_stand: impl Fn(&[u8], Listed) -> bool) -> Verdict {
    let mut without = image.to_vec();
    let form = Form::of(IN_FORCE);
    let whole = |row: &Listed| row.own < form.sizes.packages && Aid::LENGTHS.contains(&usize::from(row.other[0]));
    if image.len() == IMAGE && usize::from(image[form.waiting]) <= form.sizes.listed {
        Relation::Grants.close_up::<Version02>(&mut without, |tables, row| whole(&row) && may_stand(tables, row));
    }
    BYTES.check(&without)
}

/// A row may stand for a grant whose caller and service are on the card.
fn settled_row_sound(image: &[u8]) -> Verdict {
    check_without(image, |tables, row| Relation::Grants.bit::<Version02>(tables, row.own, row.row()).is_some())
}

/// A row may name its callee's own AID.
fn own_aid_row_sound(image: &[u8]) -> Verdict {
    check_without(image, |tables, row| is_aid(Version02::aid(tables, row.own), row.row().aid))
}

/// A row may not name an installed caller, as before R-2.
fn installed_row_unsound(image: &[u8]) -> Verdict {
    let installed = |tables: Tables| {
        let mut packages = tables.packages.iter().flatten();
        packages.any(|package| tables.waiting.iter().any(|grant| grant.caller == package.aid))
    };
    match Tables::in_force(image).is_some_and(installed) {
        true => Verdict::new(1, 255),
        false => BYTES.check(image),
    }
}

/// The byte engine by the rules of the image's version.
fn by_version(image: &[u8]) -> Bytes {
    Bytes(if image.len() == OLD_IMAGE { Rules::R_7 } else { Rules::IN_FORCE })
}

/// Keeps the rows of version 01, and service numbers in them.
fn rows_of_19_bytes(old: &[u8], image: &mut [u8]) -> Verdict {
    let verdict = BYTES.convert(old, image);
    if verdict.answer == 0 {
        image[3..OLD_IMAGE].copy_from_slice(&old[3..]);
        image[OLD_IMAGE..].fill(0);
    }
    verdict
}

/// Puts the waiting grants in the order from the last to the first.
fn converts_backwards(old: &[u8], image: &mut [u8]) -> Verdict {
    let verdict = BYTES.convert(old, image);
    if let (0, Some(mut tables)) = (verdict.answer, Tables::of(Rules::R_2, image)) {
        tables.waiting.reverse();
        image.copy_from_slice(&tables.write(Rules::R_2));
    }
    verdict
}

/// Takes a card over that document 01's rules find sound.
fn converts_128(old: &[u8], image: &mut [u8]) -> Verdict {
    match (Tables::of(Rules::DOCUMENT_01, old), image.len()) {
        (Some(tables), IMAGE) => {
            image.copy_from_slice(&tables.write(Rules::R_2));
            Verdict::new(0, 0)
        }
        _ => BYTES.convert(old, image),
    }
}

/// Looks at a card's size and header alone.
fn converts_unsound(old: &[u8], image: &mut [u8]) -> Verdict {
    let verdict = BYTES.convert(old, image);
    if verdict.answer == 1
        && (old.len(), image.len()) == (OLD_IMAGE, IMAGE)
        && old.starts_with(&Form::of(Rules::R_7).header)
    {
        BYTES.empty(image);
        return Verdict::new(0, 0);
    }
    verdict
}

fn converts_into_more(old: &[u8], image: &mut [u8]) -> Verdict {
    let size = image.len().min(IMAGE);
    BYTES.convert(old, &mut image[..size])
}

fn converts_with_a_count(old: &[u8], image: &mut [u8]) -> Verdict {
    match BYTES.convert(old, image) {
        Verdict { answer: 0, .. } => BYTES.check(image),
        refused => refused,
    }
}

/// Empties the buffer before it looks at the old image.
fn refused_conversion_writes(old: &[u8], image: &mut [u8]) -> Verdict {
    BYTES.empty(image);
    BYTES.convert(old, image)
}
