//! The placing rules, against images written down by hand from the offsets of the paper and of R-2, also for R-1's kind 11, and
//! from those that R-9's sizes make on the large card.

use comparison::card::{linked, Bytes, Card, Verdict, IMAGE, LARGE_IMAGE, LONGEST_LARGE_RECORD, OLD_IMAGE};
use comparison::cases::{B, C, H, X};
use comparison::rules::{Rules, Sizes};
use comparison::write::{add_service, load, remove, remove_service, replace, update, Row, Tokens, Writer};

const D: &[u8] = &[0xF0, 0, 0, 0, 4, 0];

/// The image after records that are all accepted, the same from every engine.
fn after(records: &[Vec<u8>]) -> Vec<u8> {
    after_on(IMAGE, records)
}

/// The same on the card that has images of this size.
fn after_on(size: usize, records: &[Vec<u8>]) -> Vec<u8> {
    let mut images = linked().into_iter().map(|card| after_with(card, size, records));
    let first = images.next().expect("an engine");
    assert!(images.all(|image| image == first));
    first
}

/// The version 01 image after records that were all accepted by R-7's rules.
fn old_after(records: &[Vec<u8>]) -> Vec<u8> {
    after_with(&Bytes(Rules::R_7), OLD_IMAGE, records)
}

fn after_with(card: &dyn Card, size: usize, records: &[Vec<u8>]) -> Vec<u8> {
    let mut image = vec![0; size];
    card.empty(&mut image);
    for (n, record) in records.iter().enumerate() {
        assert_eq!(card.judge(&mut image, record).answer, 0, "{}: record {n}", card.name());
    }
    image
}

/// An image that is zero but for the header and some places.
fn image(places: &[(usize, &[u8])]) -> Vec<u8> {
    with_places(IMAGE, [0x04, 0x56, 0x02], places)
}

/// One of version 01.
fn old_image(places: &[(usize, &[u8])]) -> Vec<u8> {
    with_places(OLD_IMAGE, [0x04, 0x46, 0x01], places)
}

/// One of the large card.
fn large_image(places: &[(usize, &[u8])]) -> Vec<u8> {
    with_places(LARGE_IMAGE, [0x0E, 0x37, 0x03], places)
}

fn with_places(size: usize, header: [u8; 3], places: &[(usize, &[u8])]) -> Vec<u8> {
    let mut image = vec![0; size];
    image[..3].copy_from_slice(&header);
    for (at, bytes) in places {
        image[*at..at + bytes.len()].copy_from_slice(bytes);
    }
    image
}

fn row(other: &[u8], tokens: Tokens) -> Row {
    (other.to_vec(), tokens)
}

/// The unmet calls of an image: the last byte of the callee's AID, the tokens, the caller.
fn unmet(image: &[u8]) -> Vec<(u8, Tokens, u8)> {
    let rows = image[469..789].chunks(20).take(image[468].into());
    rows.map(|row| (row[5], (row[17], row[18]), row[19])).collect()
}

/// The waiting grants of an image: the last byte of the caller's AID, the callee, the tokens.
fn waiting(image: &[u8]) -> Vec<(u8, u8, Tokens)> {
    let rows = image[790..].chunks(20).take(image[789].into());
    rows.map(|row| (row[5], row[17], (row[18], row[19]))).collect()
}

#[test]
fn a_first_load() {
    let record = load(H, &[(1, 2), (3, 4)], &[row(X, (5, 6))], &[row(D, (3, 4))], &[]);
    let expected = image(&[
        (3, &[0x01]),
        (4, &[5, 0xF0, 0, 0, 0, 1]),
        (140, &[1, 2, 3, 4]),
        (268, &[0x03]),
        (468, &[1]),
        (469, &[5, 0xF0, 0, 0, 0, 9]),
        (486, &[5, 6, 0]),
        (789, &[1]),
        (790, &[6, 0xF0, 0, 0, 0, 4, 0]),
        (807, &[0, 3, 4]),
    ]);
    assert_eq!(after(&[record]), expected);
}

#[test]
fn a_load_turns_rows_into_bits() {
    let caller = load(C, &[], &[row(H, (3, 4)), row(H, (7, 7))], &[], &[]);
    let server = load(H, &[(1, 2), (3, 4)], &[], &[row(B, (1, 2)), row(C, (3, 4)), row(C, (1, 2))], &[]);
    let second_caller = load(B, &[], &[row(H, (1, 2))], &[], &[row(H, (1, 2))]);
    let expected = image(&[
        (3, &[0x07]),
        (4, &[5, 0xF0, 0, 0, 0, 2]),
        (4 + 17, &[5, 0xF0, 0, 0, 0, 1]),
        (4 + 34, &[5, 0xF0, 0, 0, 0, 3]),
        (140 + 16, &[1, 2, 3, 4]),
        (268 + 1, &[0x03]),
        // Calls: row the caller, column the callee. C (0) calls service 1 of H (1), B (2) service 0.
        (276 + 1, &[0x02]),
        (276 + 17, &[0x01]),
        // Grants: row the callee. H (1) grants both to C (0), and service 0 to B (2).
        (340 + 8, &[0x03]),
        (340 + 10, &[0x01]),
        // Needs, as calls.
        (404 + 17, &[0x01]),
        // C's call on what H does not provide stays.
        (468, &[1]),
        (469, &[5, 0xF0, 0, 0, 0, 1]),
        (486, &[7, 7, 0]),
    ]);
    assert_eq!(after(&[caller, server, second_caller]), expected);
}

#[test]
fn a_load_takes_the_lowest_unused_number() {
    let empty = |aid| load(aid, &[], &[], &[], &[]);
    let image = after(&[empty(H), empty(C), empty(B), remove(C), empty(X)]);
    assert_eq!(image[3], 0x07);
    assert_eq!(image[4 + 17 + 5], 9);
}

#[test]
fn a_service_takes_the_lowest_unused_number() {
    let image = after(&[
        load(H, &[(0, 0), (0, 1), (0, 2)], &[], &[], &[]),
        remove_service(H, (0, 1)),
        add_service(H, (5, 5), &[]),
        add_service(H, (0, 1), &[]),
    ]);
    assert_eq!(image[140..150], [0, 0, 5, 5, 0, 2, 0, 1, 0, 0]);
    assert_eq!(image[268], 0x0F);
}

#[test]
fn removing_a_service_clears_its_place() {
    let image = after(&[
        load(H, &[(1, 1), (2, 2)], &[], &[row(C, (1, 1)), row(C, (2, 2)), row(X, (1, 1)), row(X, (2, 2))], &[]),
        load(B, &[], &[row(X, (0, 0))], &[], &[]),
        load(C, &[], &[row(H, (1, 1)), row(H, (2, 2))], &[], &[]),
        remove_service(H, (1, 1)),
    ]);
    assert_eq!(image[140..144], [0, 0, 2, 2]);
    assert_eq!(image[268], 0x02);
    assert_eq!((image[276 + 16], image[340 + 2]), (0x02, 0x02));
    assert_eq!(unmet(&image), [(9, (0, 0), 1), (1, (1, 1), 2)]);
    // The grant that was a bit waits behind those already there.
    assert_eq!(waiting(&image), [(9, 0, (1, 1)), (9, 0, (2, 2)), (2, 0, (1, 1))]);
}

#[test]
fn after_a_removal_unmet_calls_come_by_caller_then_service() {
    let server =
        load(H, &[(0, 0), (0, 1)], &[], &[row(B, (0, 1)), row(C, (0, 0)), row(C, (0, 1)), row(B, (0, 0))], &[]);
    let caller = |aid| load(aid, &[], &[row(H, (0, 1)), row(X, (8, 8)), row(H, (0, 0))], &[], &[]);
    let image = after(&[caller(C), server, caller(B), update(5, H, X, (9, 9)), remove(H)]);
    let expected = [(9, (8, 8), 0), (9, (8, 8), 2), (1, (0, 0), 0), (1, (0, 1), 0), (1, (0, 0), 2), (1, (0, 1), 2)];
    assert_eq!(unmet(&image), expected);
    assert_eq!(waiting(&image), []);
    let gone = |at: usize, length: usize| image[at..at + length].iter().all(|byte| *byte == 0);
    assert!(gone(4 + 17, 17) && gone(140, 128) && gone(268, 200));
    assert_eq!(image[3], 0x05);
}

#[test]
fn after_a_removal_grants_wait_by_callee_then_service() {
    let server = |aid| load(aid, &[(0, 0), (0, 1)], &[], &[row(X, (0, 0)), row(C, (0, 1)), row(C, (0, 0))], &[]);
    let image = after(&[server(H), load(C, &[(1, 1)], &[], &[row(X, (1, 1))], &[]), server(B), remove(C)]);
    assert_eq!(
        waiting(&image),
        [(9, 0, (0, 0)), (9, 2, (0, 0)), (2, 0, (0, 0)), (2, 0, (0, 1)), (2, 2, (0, 0)), (2, 2, (0, 1))]
    );
}

#[test]
fn new_rows_come_in_record_order() {
    let calls = [row(X, (3, 3)), row(B, (1, 1)), row(X, (2, 2))];
    let grants = [row(X, (0, 1)), row(C, (0, 0)), row(X, (0, 0))];
    let image =
        after(&[load(H, &[(0, 0), (0, 1)], &calls, &grants, &[]), add_service(H, (0, 2), &[X.into(), B.into()])]);
    assert_eq!(unmet(&image), [(9, (3, 3), 0), (3, (1, 1), 0), (9, (2, 2), 0)]);
    assert_eq!(waiting(&image), [(9, 0, (0, 1)), (2, 0, (0, 0)), (9, 0, (0, 0)), (9, 0, (0, 2)), (3, 0, (0, 2))]);
}

#[test]
fn what_leaves_a_list_is_closed_up() {
    let calls: Vec<Row> = (0..4).map(|n| row(X, (0, n))).collect();
    let grants = [row(X, (0, 0)), row(C, (0, 0)), row(B, (0, 0))];
    let image = after(&[load(H, &[(0, 0)], &calls, &grants, &[]), update(6, H, X, (0, 1)), update(8, H, X, (0, 0))]);
    assert_eq!(unmet(&image), [(9, (0, 0), 0), (9, (0, 2), 0), (9, (0, 3), 0)]);
    assert_eq!(waiting(&image), [(2, 0, (0, 0)), (3, 0, (0, 0))]);
    assert!(image[469 + 60..789].iter().chain(&image[790 + 40..]).all(|byte| *byte == 0));
}

#[test]
fn a_list_that_passes_16_on_the_way_fits() {
    let unmet_calls: Vec<Row> = (0..15).map(|n| row(X, (0, n))).collect();
    let image = after(&[
        load(H, &[(0, 0)], &unmet_calls, &[row(C, (0, 0)), row(B, (0, 0))], &[]),
        load(C, &[(1, 1)], &[row(H, (0, 0))], &[row(H, (1, 1))], &[]),
        load(B, &[], &[row(H, (0, 0)), row(X, (9, 9))], &[], &[]),
        update(5, H, C, (1, 1)),
        // 16 unmet; 15 go with H and two come: without the going first, it would be 18.
        remove(H),
    ]);
    assert_eq!(unmet(&image), [(9, (9, 9), 2), (1, (0, 0), 1), (1, (0, 0), 2)]);
    assert_eq!(waiting(&image), [(1, 1, (1, 1))]);
}

const S: Tokens = (0, 0);
const T: Tokens = (0, 1);
const U: Tokens = (0, 2);

fn bare(aid: &[u8]) -> Vec<u8> {
    load(aid, &[], &[], &[], &[])
}

/// "Kind 4 keeps the grants, which wait behind the rows already there, by caller number."
#[test]
fn a_service_that_goes_leaves_its_grants_by_caller() {
    let image = after(&[
        bare(C),
        bare(B),
        load(H, &[S, T], &[], &[row(X, S), row(X, T), row(B, S), row(C, S), row(B, T), row(B, U)], &[]),
        remove_service(H, S),
    ]);
    assert_eq!(waiting(&image), [(9, 2, S), (9, 2, T), (3, 2, U), (2, 2, S), (3, 2, S)]);
    assert_eq!((image[268 + 2], image[340 + 16], image[340 + 17]), (0x02, 0, 0x02));
    assert_eq!(image[140 + 32..][..4], [0, 0, 0, 1]);
}

/// "Kind 3 takes once a grant that is in both places." What became a bit leaves, the others keep their place, and new rows
/// follow in record order.
#[test]
fn an_added_service_settles_its_grants() {
    let before = [
        bare(C),
        load(H, &[T], &[], &[row(D, S), row(C, S), row(X, U), row(B, S), row(C, U)], &[]),
        bare(B),
        update(5, B, H, S),
    ];
    let image = after(&[&before[..], &[add_service(H, S, &[])]].concat());
    assert_eq!(waiting(&image), [(4, 1, S), (9, 1, U), (2, 1, U)]);
    assert_eq!((image[340 + 8], image[340 + 10], image[276 + 17]), (0x02, 0x02, 0x02));
    // D, C and B are in both places; X and another are in the record alone.
    let other = [0xF0, 0, 0, 0, 8];
    let callers = [other.to_vec(), B.to_vec(), D.to_vec(), X.to_vec(), C.to_vec()];
    let listed = after(&[&before[..], &[add_service(H, S, &callers)]].concat());
    assert_eq!(waiting(&listed), [(4, 1, S), (9, 1, U), (2, 1, U), (8, 1, S), (9, 1, S)]);
    assert_eq!(listed[..789], image[..789]);
}

/// A load turns those grants to it into bits whose service is provided; the others go on waiting, in place.
#[test]
fn a_load_settles_grants_of_services_provided() {
    let image = after(&[
        load(H, &[S], &[], &[row(C, T), row(X, S), row(C, S), row(X, T)], &[]),
        load(B, &[T], &[], &[row(C, T), row(C, S)], &[]),
        load(C, &[U], &[], &[row(X, S), row(H, U), row(H, T), row(B, S), row(B, U), row(X, U)], &[]),
    ]);
    // Of C's own grants those to H and B of what it provides are bits.
    let expected = [(2, 0, T), (9, 0, S), (9, 0, T), (2, 1, S), (9, 2, S), (1, 2, T), (3, 2, S), (9, 2, U)];
    assert_eq!(waiting(&image), expected);
    assert_eq!((image[340 + 2], image[340 + 8 + 2]), (0x01, 0x01));
    assert_eq!(image[340 + 16..][..8], [0x01, 0x01, 0, 0, 0, 0, 0, 0]);
}

/// After kind 2 grants wait by callee number then service number, behind the rows that stay. The package's own go.
#[test]
fn after_a_removal_early_grants_stay_in_place() {
    let server = |aid| load(aid, &[T, S], &[], &[row(C, U), row(C, S), row(X, U), row(C, T)], &[]);
    let image = after(&[server(H), load(C, &[], &[], &[row(H, S), row(X, S)], &[]), server(B), remove(C)]);
    let early = [(2, 0, U), (9, 0, U), (2, 2, U), (9, 2, U)];
    assert_eq!(waiting(&image), [&early[..], &[(2, 0, T), (2, 0, S), (2, 2, T), (2, 2, S)]].concat());
}

/// Kind 7 puts a row at the end where the caller or the service is not there, and kind 8 closes the list up.
#[test]
fn early_grants_are_added_and_removed() {
    let begun = [load(H, &[S], &[], &[row(X, T), row(C, T)], &[]), bare(C), update(7, H, C, U), update(7, H, C, S)];
    let image = after(&begun);
    assert_eq!(waiting(&image), [(9, 0, T), (2, 0, T), (2, 0, U)]);
    assert_eq!(image[340 + 1], 0x01);
    let image = after(&[&begun[..], &[update(8, H, C, T), update(8, H, C, S)]].concat());
    assert_eq!(waiting(&image), [(9, 0, T), (2, 0, U)]);
    assert_eq!(image[340 + 1], 0);
    assert!(image[790 + 40..].iter().all(|byte| *byte == 0));
}

#[test]
fn early_grants_are_read_out_behind_the_bits() {
    let grants = [row(X, T), row(C, T), row(C, S), row(B, S)];
    let image = after(&[load(H, &[S], &[], &grants, &[]), bare(C), update(7, H, B, U)]);
    let expected = load(H, &[S], &[], &[row(C, S), row(X, T), row(C, T), row(B, S), row(B, U)], &[]);
    for card in linked() {
        let mut buffer = vec![0xA5; expected.len()];
        assert_eq!(card.read_out(&image, 0, &mut buffer), Verdict::new(0, expected.len() as u32));
        assert_eq!(buffer, expected);
    }
}

/// H, C and B with all that kind 11 touches: services that others call and need, rows of both lists, grants given early.
fn before_a_release() -> Vec<Vec<u8>> {
    let given = [row(C, T), row(C, U), row(B, S), row(X, S), row(X, T)];
    vec![
        load(H, &[S, T, U], &[row(X, (1, 1)), row(C, (5, 5))], &given, &[]),
        load(
            C,
            &[(5, 5)],
            &[row(H, T), row(H, U), row(H, (7, 7)), row(X, (1, 1))],
            &[row(H, (5, 5)), row(H, (6, 6)), row(X, (5, 5))],
            &[row(H, U)],
        ),
        load(B, &[], &[row(X, (2, 2)), row(H, S)], &[], &[]),
    ]
}

fn release() -> Vec<u8> {
    let calls = [row(X, (3, 3)), row(C, (5, 5)), row(X, (1, 1))];
    let grants = [row(X, (0, 3)), row(C, U), row(C, (7, 7)), row(B, (8, 8))];
    replace(H, &[(7, 7), (0, 3), U], &calls, &grants, &[row(C, (5, 5))])
}

/// "Services in both contracts keep theirs; dropped ones free theirs, then the others take the lowest unused in record order.
/// The package's own list rows and rows now met leave; its unmet calls follow in record order, then other packages' calls on
/// dropped services by caller number and service number; its waiting grants follow in record order."
#[test]
fn a_whole_contract_in_place_of_another() {
    let expected = image(&[
        (3, &[0x07]),
        (4, &[5, 0xF0, 0, 0, 0, 1]),
        (4 + 17, &[5, 0xF0, 0, 0, 0, 2]),
        (4 + 34, &[5, 0xF0, 0, 0, 0, 3]),
        // S and T gave their numbers to 7.7 and 0.3; U keeps 2.
        (140, &[7, 7, 0, 3, 0, 2]),
        (140 + 16, &[5, 5]),
        (268, &[0x07, 0x01]),
        // H calls C's service, and C calls 7.7, which came, and U.
        (276 + 1, &[0x01]),
        (276 + 8, &[0x05]),
        (340 + 1, &[0x05]),
        (340 + 8, &[0x01]),
        (404 + 1, &[0x01]),
        (404 + 8, &[0x04]),
        (468, &[6]),
        // C's and B's rows stay, H's follow, then C's call on T and B's on S.
        (469, &[5, 0xF0, 0, 0, 0, 9]),
        (486, &[1, 1, 1]),
        (489, &[5, 0xF0, 0, 0, 0, 9]),
        (506, &[2, 2, 2]),
        (509, &[5, 0xF0, 0, 0, 0, 9]),
        (526, &[3, 3, 0]),
        (529, &[5, 0xF0, 0, 0, 0, 9]),
        (546, &[1, 1, 0]),
        (549, &[5, 0xF0, 0, 0, 0, 1]),
        (566, &[0, 1, 1]),
        (569, &[5, 0xF0, 0, 0, 0, 1]),
        (586, &[0, 0, 2]),
        (789, &[4]),
        // C's rows stay, that to H too, and H's follow.
        (790, &[5, 0xF0, 0, 0, 0, 1]),
        (807, &[1, 6, 6]),
        (810, &[5, 0xF0, 0, 0, 0, 9]),
        (827, &[1, 5, 5]),
        (830, &[5, 0xF0, 0, 0, 0, 9]),
        (847, &[0, 0, 3]),
        (850, &[5, 0xF0, 0, 0, 0, 3]),
        (867, &[0, 8, 8]),
    ]);
    let replaced = after(&[before_a_release(), vec![release()]].concat());
    assert_eq!(replaced, expected);
    // The same again changes nothing but the order of the unmet calls: H's own go to the end.
    let again = after(&[before_a_release(), vec![release(), release()]].concat());
    assert_eq!(again[..468], expected[..468]);
    assert_eq!(again[789..], expected[789..]);
    let own = [(9, (3, 3), 0), (9, (1, 1), 0)];
    let others = [(9, (1, 1), 1), (9, (2, 2), 2), (1, T, 1), (1, S, 2)];
    assert_eq!(unmet(&again), [&others[..], &own].concat());
}

/// What a contract in place of another reads out as: by the numbers, and behind them the lists.
#[test]
fn a_whole_contract_is_read_out() {
    let image = after(&[before_a_release(), vec![release()]].concat());
    let calls = [row(C, (5, 5)), row(X, (3, 3)), row(X, (1, 1))];
    let grants = [row(C, (7, 7)), row(C, U), row(X, (0, 3)), row(B, (8, 8))];
    let expected = load(H, &[(7, 7), (0, 3), U], &calls, &grants, &[row(C, (5, 5))]);
    for card in linked() {
        let mut buffer = vec![0xA5; expected.len()];
        assert_eq!(card.read_out(&image, 0, &mut buffer), Verdict::new(0, expected.len() as u32));
        assert_eq!(buffer, expected);
    }
}

#[test]
fn left_calls_come_by_caller_and_the_number_that_the_service_had() {
    let every = |aid| [U, S, T].map(|tokens| row(aid, tokens));
    let grants = [every(C), every(B)].concat();
    let caller = |aid| load(aid, &[], &every(H), &[], &[]);
    let begun = [load(H, &[T, S, U], &[], &grants, &[]), caller(C), caller(B)];
    // S stays with number 1. What comes stands first in the record, and takes the numbers of T and U.
    let kept = [row(B, S), row(C, S)];
    let image = after(&[&begun[..], &[replace(H, &[(9, 9), (8, 8), S], &[row(X, S)], &kept, &[])]].concat());
    assert_eq!(unmet(&image), [(9, S, 0), (1, T, 1), (1, U, 1), (1, T, 2), (1, U, 2)]);
    assert_eq!(image[140..148], [9, 9, 0, 0, 8, 8, 0, 0]);
    assert_eq!((image[276 + 8], image[276 + 16]), (0x02, 0x02));
    assert_eq!(image[340..348], [0, 0x02, 0x02, 0, 0, 0, 0, 0]);
}

/// Fewer services than before, and then more: the lowest numbers that are free, in record order.
#[test]
fn numbers_that_are_freed_are_taken_from_the_lowest_on() {
    let provides = |services: &[Tokens]| replace(H, services, &[], &[], &[]);
    let begun = [bare(H), provides(&[(1, 0), (1, 1), (1, 2), (1, 3)]), provides(&[(1, 3), (1, 1)])];
    let image = after(&begun);
    assert_eq!((&image[140..148], image[268]), (&[0, 0, 1, 1, 0, 0, 1, 3][..], 0x0A));
    let image = after(&[&begun[..], &[provides(&[(2, 0), (1, 3), (2, 1), (1, 1), (2, 2)])]].concat());
    assert_eq!((&image[140..150], image[268]), (&[2, 0, 1, 1, 2, 1, 1, 3, 2, 2][..], 0x1F));
}

/// Both lists pass 16 on the way and end at 16: nothing is written past them.
#[test]
fn a_whole_contract_passes_16_on_the_way() {
    let calls = |count: u8| (0..count).map(|n| row(X, (8, n))).collect::<Vec<_>>();
    let grants = |count: u8| (0..count).map(|n| row(X, (7, n))).collect::<Vec<_>>();
    let image = after(&[
        load(C, &[], &[calls(11), vec![row(H, S)]].concat(), &grants(12), &[]),
        load(H, &[S], &calls(5), &[grants(4), vec![row(C, S)]].concat(), &[]),
        replace(H, &[], &calls(4), &[vec![row(C, S)], grants(3)].concat(), &[]),
    ]);
    let rows = |count: u8, own: u8| (0..count).map(move |n| (9, (8, n), own));
    assert_eq!(unmet(&image), rows(11, 0).chain(rows(4, 1)).chain([(1, S, 0)]).collect::<Vec<_>>());
    let rows = |count: u8, own: u8| (0..count).map(move |n| (9, own, (7, n)));
    assert_eq!(waiting(&image), rows(12, 0).chain([(2, 1, S)]).chain(rows(3, 1)).collect::<Vec<_>>());
    assert_eq!((image[468], image[789]), (16, 16));
}

/// Version 01, by the rules of then: rows of 19 bytes with service numbers, which went with their service.
#[test]
fn an_old_image_has_service_numbers() {
    let server = load(H, &[S, T, U], &[row(X, U)], &[row(D, U), row(X, T), row(D, S)], &[]);
    let expected = [
        (3, &[0x01][..]),
        (4, &[5, 0xF0, 0, 0, 0, 1]),
        (140, &[0, 0, 0, 0, 0, 2]),
        (268, &[0x05]),
        (468, &[1]),
        (469, &[5, 0xF0, 0, 0, 0, 9]),
        (486, &[0, 2, 0]),
        (789, &[2]),
        (790, &[6, 0xF0, 0, 0, 0, 4, 0]),
        (807, &[0, 2]),
        (809, &[6, 0xF0, 0, 0, 0, 4, 0]),
        (826, &[0, 0]),
    ];
    assert_eq!(old_after(&[server, remove_service(H, T)]), old_image(&expected));
}

/// "A converter takes sound version 01 images, numbers and list order kept."
#[test]
fn conversion_keeps_numbers_and_order() {
    let front: [(usize, &[u8]); 12] = [
        // Packages 1 (H) and 3 (C); H has the services 1 and 6, and grants the first to C, which calls and needs it.
        (3, &[0x0A]),
        (4 + 17, &[5, 0xF0, 0, 0, 0, 1]),
        (4 + 51, &[5, 0xF0, 0, 0, 0, 2]),
        (140 + 16 + 2, &[3, 4]),
        (140 + 16 + 12, &[5, 127]),
        (140 + 48, &[255, 0]),
        (268 + 1, &[0x42, 0, 0x01]),
        (276 + 24 + 1, &[0x02]),
        (340 + 8 + 3, &[0x02]),
        (404 + 24 + 1, &[0x02]),
        (468, &[1, 5, 0xF0, 0, 0, 0, 9]),
        (486, &[7, 7, 3]),
    ];
    let old = [
        (789, &[4, 6, 0xF0, 0, 0, 0, 4, 0][..]),
        (807, &[1, 6]),
        (809, &[5, 0xF0, 0, 0, 0, 9]),
        (826, &[3, 0]),
        (828, &[6, 0xF0, 0, 0, 0, 4, 0]),
        (845, &[1, 1]),
        (847, &[5, 0xF0, 0, 0, 0, 9]),
        (864, &[1, 1]),
    ];
    let new = [
        (789, &[4, 6, 0xF0, 0, 0, 0, 4, 0][..]),
        (807, &[1, 5, 127]),
        (810, &[5, 0xF0, 0, 0, 0, 9]),
        (827, &[3, 255, 0]),
        (830, &[6, 0xF0, 0, 0, 0, 4, 0]),
        (847, &[1, 3, 4]),
        (850, &[5, 0xF0, 0, 0, 0, 9]),
        (867, &[1, 3, 4]),
    ];
    let (old, new) = (old_image(&[&front[..], &old].concat()), image(&[&front[..], &new].concat()));
    for card in linked() {
        let mut buffer = vec![0xA5; IMAGE];
        assert_eq!(card.convert(&old, &mut buffer), Verdict::new(0, 0));
        assert_eq!(buffer, new);
        assert_eq!(card.check(&buffer), Verdict::new(0, 2));
        // What was converted is not taken for an old image, whole or cut to its size.
        let mut untouched = vec![0xA5; IMAGE];
        for no_old in [&new[..], &new[..OLD_IMAGE], &old[1..], &[]] {
            assert_eq!(card.convert(no_old, &mut untouched), Verdict::new(1, 255));
        }
        assert_eq!(card.convert(&old, &mut untouched[1..]), Verdict::new(1, 255));
        assert_eq!(untouched, [0xA5; IMAGE]);
    }
}

/// Numbers 0 to 15 of packages and of services, at both ends of a call, a grant and a need; a row in each list.
#[test]
fn a_large_card() {
    let large = Writer(&Sizes::LARGE);
    let package = |n: u8| [0xF0, 0, 0, 1, n];
    let services: Vec<Tokens> = (0..16).map(|method| (1, method)).collect();
    let granted = [row(&package(9), (1, 15)), row(&package(9), (1, 0)), row(&package(0), (1, 8)), row(X, (1, 3))];
    let called = [row(&package(15), (1, 15)), row(&package(15), (1, 0)), row(X, (4, 5))];
    let mut records: Vec<Vec<u8>> = (0..15).map(|n| large.load(&package(n), &[], &[], &[], &[])).collect();
    records.push(large.load(&package(15), &services, &[], &granted, &[]));
    records.push(large.replace(&package(9), &[], &called, &[], &called[..1]));
    let aids: Vec<u8> = (0..16).flat_map(|n| [&[5][..], &package(n), &[0; 11]].concat()).collect();
    let tokens: Vec<u8> = (0..16).flat_map(|method| [1, method]).collect();
    let expected = large_image(&[
        (3, &[0xFF, 0xFF]),
        (5, &aids),
        (277 + 32 * 15, &tokens),
        (789 + 2 * 15, &[0xFF, 0xFF]),
        (821 + 32 * 9 + 2 * 15, &[0x80, 0x01]),
        (1333 + 32 * 15, &[0x01, 0x00]),
        (1333 + 32 * 15 + 2 * 9, &[0x80, 0x01]),
        (1845 + 32 * 9 + 2 * 15, &[0x80, 0x00]),
        (2357, &[1, 5, 0xF0, 0, 0, 0, 9]),
        (2358 + 17, &[4, 5, 9]),
        (2998, &[1, 5, 0xF0, 0, 0, 0, 9]),
        (2999 + 17, &[15, 1, 3]),
    ]);
    assert_eq!(after_on(LARGE_IMAGE, &records), expected);
    // Grants by caller number and service number, then the waiting.
    let granted = [row(&package(0), (1, 8)), row(&package(9), (1, 0)), row(&package(9), (1, 15)), row(X, (1, 3))];
    let contract = large.load(&package(15), &services, &[], &granted, &[]);
    for card in linked() {
        let mut out = vec![0; LONGEST_LARGE_RECORD];
        assert_eq!(card.read_out(&expected, 15, &mut out), Verdict::new(0, contract.len() as u32));
        assert!(out.starts_with(&contract), "{}", card.name());
        assert_eq!(card.read_out(&expected, 16, &mut out), Verdict::new(5, 0));
    }
}

/// "Contracts, numbers and list order kept": package 0 and service 1 of package 1 are unused.
#[test]
fn a_card_is_enlarged() {
    let small = after(&[
        load(B, &[], &[], &[], &[]),
        load(H, &[(1, 1), (1, 2), (1, 3)], &[row(X, (7, 7)), row(X, (7, 6))], &[row(C, (1, 3)), row(C, (1, 1))], &[]),
        load(C, &[], &[row(H, (1, 3))], &[row(X, (6, 6)), row(B, (6, 5))], &[row(H, (1, 3))]),
        remove(B),
        remove_service(H, (1, 2)),
    ]);
    let large = large_image(&[
        (3, &[0x00, 0x06]),
        (5 + 17, &[5, 0xF0, 0, 0, 0, 1]),
        (5 + 34, &[5, 0xF0, 0, 0, 0, 2]),
        (277 + 32, &[1, 1, 0, 0, 1, 3]),
        (789 + 2, &[0x00, 0x05]),
        (821 + 32 * 2 + 2, &[0x00, 0x04]),
        (1333 + 32 + 4, &[0x00, 0x05]),
        (1845 + 32 * 2 + 2, &[0x00, 0x04]),
        (2357, &[2, 5, 0xF0, 0, 0, 0, 9]),
        (2358 + 17, &[7, 7, 1, 5, 0xF0, 0, 0, 0, 9]),
        (2378 + 17, &[7, 6, 1]),
        (2998, &[2, 5, 0xF0, 0, 0, 0, 9]),
        (2999 + 17, &[2, 6, 6, 5, 0xF0, 0, 0, 0, 3]),
        (3019 + 17, &[2, 6, 5]),
    ]);
    for card in linked() {
        let mut buffer = vec![0xA5; LARGE_IMAGE];
        assert_eq!(card.enlarge(&small, &mut buffer), Verdict::new(0, 0));
        assert_eq!(buffer, large);
        assert_eq!(card.check(&buffer), Verdict::new(0, 2));
        let mut untouched = vec![0xA5; LARGE_IMAGE];
        for no_small in [&large[..], &large[..IMAGE], &small[1..], &[]] {
            assert_eq!(card.enlarge(no_small, &mut untouched), Verdict::new(1, 255));
        }
        assert_eq!(card.enlarge(&small, &mut untouched[1..]), Verdict::new(1, 255));
        assert_eq!(card.convert(&small, &mut untouched), Verdict::new(1, 255));
        assert_eq!(untouched, [0xA5; LARGE_IMAGE]);
    }
}

#[test]
fn reading_out_is_ordered() {
    let records = [
        load(B, &[(3, 0)], &[], &[row(C, (3, 0))], &[]),
        load(H, &[(1, 0), (1, 1), (1, 2)], &[], &[row(C, (1, 2)), row(C, (1, 0))], &[]),
        remove_service(H, (1, 1)),
        load(
            C,
            &[(2, 0), (2, 1)],
            &[row(X, (9, 9)), row(H, (1, 2)), row(B, (3, 0)), row(D, (0, 0)), row(H, (1, 0))],
            &[row(X, (2, 1)), row(H, (2, 1)), row(D, (2, 0)), row(B, (2, 1)), row(B, (2, 0))],
            &[row(H, (1, 2)), row(B, (3, 0))],
        ),
    ];
    let image = after(&records);
    let expected = load(
        C,
        &[(2, 0), (2, 1)],
        &[row(B, (3, 0)), row(H, (1, 0)), row(H, (1, 2)), row(X, (9, 9)), row(D, (0, 0))],
        &[row(B, (2, 0)), row(B, (2, 1)), row(H, (2, 1)), row(X, (2, 1)), row(D, (2, 0))],
        &[row(B, (3, 0)), row(H, (1, 2))],
    );
    let length = expected.len();
    for card in linked() {
        let mut buffer = vec![0xA5; length + 3];
        assert_eq!(card.read_out(&image, 2, &mut buffer), Verdict::new(0, length as u32));
        assert_eq!(buffer, [&expected[..], &[0xA5; 3]].concat());
        let mut short = vec![0xA5; length - 1];
        assert_eq!(card.read_out(&image, 2, &mut short), Verdict::new(12, 0));
        assert_eq!(short, vec![0xA5; length - 1]);
        assert_eq!(card.read_out(&image, 3, &mut buffer), Verdict::new(5, 0));
        assert_eq!(card.read_out(&image[1..], 2, &mut buffer), Verdict::new(1, 0));
    }
}

#[test]
fn the_first_aid_is_a_part_of_the_record() {
    let record = update(5, H, D, (1, 1));
    for card in linked() {
        let part = card.aid(&record);
        assert_eq!(part, H);
        assert!(std::ptr::eq(part.as_ptr(), &record[5]));
        // Naming itself as the other end is cause 3, not 2: the record can be read.
        assert_eq!(card.aid(&update(5, H, H, (1, 1))), H);
        assert_eq!(card.aid(&record[..17]), []);
        assert_eq!(card.aid(&[]), []);
    }
}
