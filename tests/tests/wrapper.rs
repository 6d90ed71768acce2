//! The safe wrapper of the exported functions says what their numbers say.
#![cfg(feature = "engine")]

use card::{exact, Refusal, IMAGE_SIZE, LARGE_IMAGE_SIZE, LARGE_RECORD_SIZE, OLD_IMAGE_SIZE, RECORD_SIZE};
use comparison::card::{Bytes, Card, Verdict, BYTES};
use comparison::card::{IMAGE, LARGE_IMAGE, LONGEST_LARGE_RECORD, LONGEST_RECORD, OLD_IMAGE};
use comparison::cases::{all, C, H};
use comparison::rules::{Rules, Sizes};
use comparison::write::{load, update, Writer};
use std::collections::BTreeSet;

/// What an answer and a second number mean.
fn meaning(verdict: Verdict) -> Result<u32, u32> {
    match verdict.answer {
        0 => Ok(verdict.second),
        cause => Err(cause),
    }
}

#[test]
fn judging_gives_the_numbers_of_every_case() {
    let mut seen = BTreeSet::new();
    for case in all() {
        let mut image = case.image();
        for step in &case.steps {
            let judged = card::judge(&mut image, &step.record);
            assert_eq!(judged.map_err(Refusal::number), meaning(step.verdict), "{}", case.name);
            assert_eq!(card::check(&image).map_err(Refusal::number), meaning(exact::check(&image).into()));
            seen.extend(judged.err());
        }
    }
    assert!(seen.len() >= 6, "{seen:?}");
}

#[test]
fn refusals_of_the_other_entries() {
    let mut image = [0xA5; IMAGE + 1];
    assert_eq!(card::empty(&mut image), Err(Refusal::Unsound));
    assert_eq!(image, [0xA5; IMAGE + 1]);
    assert_eq!(card::check(&image), Err(Refusal::Unsound));
    assert_eq!(card::judge(&mut image, &[]), Err(Refusal::Unsound));
    let mut buffer = [0xA5; LONGEST_RECORD];
    assert_eq!(card::read_out(&image, 0, &mut buffer), Err(Refusal::Unsound));
    assert_eq!(card::empty(&mut image[..IMAGE]), Ok(()));
    let image = &mut image[..IMAGE];
    assert_eq!(card::read_out(image, 0, &mut buffer), Err(Refusal::NotInstalled));
    assert_eq!(card::judge(image, &[]), Err(Refusal::Malformed));
}

#[test]
fn a_contract_is_read_out_as_a_part_of_the_buffer() {
    let record = load(H, &[(1, 2)], &[], &[], &[]);
    let mut image = [0; IMAGE];
    assert_eq!(card::empty(&mut image), Ok(()));
    assert_eq!(card::judge(&mut image, &record), Ok(0));
    let mut buffer = vec![0xA5; record.len() - 1];
    assert_eq!(card::read_out(&image, 0, &mut buffer), Err(Refusal::BufferShort));
    assert_eq!(buffer, vec![0xA5; record.len() - 1]);
    let mut buffer = vec![0xA5; record.len() + 3];
    assert_eq!(card::read_out(&image, 0, &mut buffer), Ok(&record[..]));
    assert_eq!(buffer[record.len()..], [0xA5; 3]);
    assert_eq!(card::aid(&record), H);
    assert_eq!(card::aid(&record[1..]), []);
}

#[test]
fn an_old_image_is_converted() {
    let (then, mut old) = (Bytes(Rules::R_7), [0; OLD_IMAGE]);
    then.empty(&mut old);
    let record = load(H, &[(1, 2)], &[], &[(C.to_vec(), (1, 2))], &[]);
    assert_eq!(then.judge(&mut old, &record), Verdict::new(0, 0));
    let mut image = [0xA5; IMAGE];
    assert_eq!(card::check(&old), Err(Refusal::Unsound));
    assert_eq!(card::convert(&old[1..], &mut image), Err(Refusal::Unsound));
    assert_eq!(card::convert(&old, &mut image[1..]), Err(Refusal::Unsound));
    assert_eq!(image, [0xA5; IMAGE]);
    assert_eq!(card::convert(&old, &mut image), Ok(()));
    assert_eq!(card::check(&image), Ok(1));
    let mut buffer = [0; LONGEST_RECORD];
    assert_eq!(card::read_out(&image, 0, &mut buffer), Ok(&record[..]));
    let early = update(7, H, C, (3, 4));
    assert_eq!(card::judge(&mut image, &early), Ok(0));
    assert_eq!(card::judge(&mut image, &early), Err(Refusal::Pointless));
}

/// A card goes on under the same numbers after it is enlarged, with the large card's records.
#[test]
fn a_small_image_is_enlarged() {
    let mut image = [0; IMAGE];
    assert_eq!(card::empty(&mut image), Ok(()));
    assert_eq!(card::judge(&mut image, &load(H, &[(1, 2)], &[], &[(C.to_vec(), (3, 4))], &[])), Ok(0));
    let mut large = [0xA5; LARGE_IMAGE];
    assert_eq!(card::enlarge(&image[1..], &mut large), Err(Refusal::Unsound));
    assert_eq!(card::enlarge(&image, &mut large[1..]), Err(Refusal::Unsound));
    assert_eq!(large, [0xA5; LARGE_IMAGE]);
    assert_eq!(card::enlarge(&image, &mut large), Ok(()));
    let mut apart = [0; LARGE_IMAGE];
    assert_eq!((BYTES.enlarge(&image, &mut apart), apart), (Verdict::new(0, 0), large));
    assert_eq!(card::check(&large), Ok(1));
    let written = Writer(&Sizes::LARGE);
    let record = written.load(H, &[(1, 2)], &[], &[(C.to_vec(), (3, 4))], &[]);
    let mut buffer = [0; LONGEST_LARGE_RECORD];
    assert_eq!(card::read_out(&large, 0, &mut buffer), Ok(&record[..]));
    assert_eq!(card::aid(&record), H);
    assert_eq!(card::judge(&mut large, &update(8, H, C, (3, 4))), Err(Refusal::Malformed));
    assert_eq!(card::judge(&mut large, &written.update(8, H, C, (3, 4))), Ok(0));
    assert_eq!(card::judge(&mut image, &written.update(8, H, C, (3, 4))), Err(Refusal::Malformed));
}

#[test]
fn the_sizes_are_those_of_the_second_engine() {
    assert_eq!((IMAGE_SIZE, OLD_IMAGE_SIZE, RECORD_SIZE), (IMAGE, OLD_IMAGE, LONGEST_RECORD));
    assert_eq!((LARGE_IMAGE_SIZE, LARGE_RECORD_SIZE), (LARGE_IMAGE, LONGEST_LARGE_RECORD));
}

/// Each number has its cause and its own words, in the wrapper and in the tool.
#[test]
fn each_number_has_its_cause() {
    let mut words = BTreeSet::new();
    for (number, refusal) in (1..).zip(Refusal::ALL) {
        assert_eq!((refusal.number(), Refusal::of(number)), (number, Some(refusal)));
        assert_eq!(refusal.to_string(), format!("{number}: {}", refusal.words()));
        assert_eq!(refusal.words(), cardtool::cause::words(number));
        assert!(words.insert(refusal.words()));
    }
    assert_eq!(Refusal::of(0), None);
    assert_eq!(Refusal::of(1 + Refusal::ALL.len() as u32), None);
}

/// The archive says what it was proved with, and that is the pinned logic.
#[test]
fn the_logic_is_the_pinned_one() {
    let pinned = include_str!("../../toolchain.txt");
    assert!(card::LOGIC.len() == 16 && pinned.trim_end().ends_with(card::LOGIC), "{}", card::LOGIC);
}
