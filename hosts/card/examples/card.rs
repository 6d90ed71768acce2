//! A host in Rust of both cards: converts a card of version 01, judges four records and reads a contract out; then
//! enlarges the card, and does the same on the large one. `examples/run` builds it, runs it and compares what it prints
//! with `examples/card.out`.

use card::{Refusal, IMAGE_SIZE, LARGE_IMAGE_SIZE, LARGE_RECORD_SIZE, OLD_IMAGE_SIZE};

/// The package F000000001 provides the service 0.0 and grants it to F000000002.
const HANDICAP_LOG: [u8; 24] = [0, 24, 1, 1, 5, 0xF0, 0, 0, 0, 1, 1, 0, 0, 0, 1, 5, 0xF0, 0, 0, 0, 2, 0, 0, 0];

/// F000000003 calls the service, which is not granted to it.
const BAR_PURSE: [u8; 22] = [0, 22, 1, 1, 5, 0xF0, 0, 0, 0, 3, 0, 1, 5, 0xF0, 0, 0, 0, 1, 0, 0, 0, 0];

/// F000000002 calls the service and needs it.
const ORGANISER: [u8; 30] =
    [0, 30, 1, 1, 5, 0xF0, 0, 0, 0, 2, 0, 1, 5, 0xF0, 0, 0, 0, 1, 0, 0, 0, 1, 5, 0xF0, 0, 0, 0, 1, 0, 0];

/// F000000001 grants the service 0.1, which it does not provide yet, to F000000003.
const EARLY_GRANT: [u8; 18] = [0, 18, 1, 7, 5, 0xF0, 0, 0, 0, 1, 5, 0xF0, 0, 0, 0, 3, 0, 1];

/// For the large card: F000000003 calls that service. The counts of calls, grants and needs have two bytes.
const LARGE_PURSE: [u8; 25] = [0, 25, 2, 1, 5, 0xF0, 0, 0, 0, 3, 0, 0, 1, 5, 0xF0, 0, 0, 0, 1, 0, 1, 0, 0, 0, 0];

/// Bytes in hexadecimal digits, with a space between two.
fn hex(bytes: &[u8]) -> String {
    bytes.iter().map(|byte| format!("{byte:02X}")).collect::<Vec<_>>().join(" ")
}

/// Judges a record and prints what the card says. The length of the image says which card it is.
fn judge(image: &mut [u8], record: &[u8]) {
    let aid = hex(card::aid(record));
    match card::judge(image, record) {
        Ok(number) => println!("accepted, package {number}, AID {aid}"),
        Err(refusal) => println!("refused, cause {}, AID {aid}", refusal.number()),
    }
}

/// Prints how many packages a card has, and the contract of package 0.
fn report(image: &[u8]) -> Result<(), Refusal> {
    println!("packages on the card: {}", card::check(image)?);
    let mut buffer = [0; LARGE_RECORD_SIZE];
    println!("contract of package 0: {}", hex(card::read_out(image, 0, &mut buffer)?));
    Ok(())
}

fn main() -> Result<(), Refusal> {
    // A card that was made before version 02: its length, its version, and no package.
    let (mut old, mut image) = ([0; OLD_IMAGE_SIZE], [0; IMAGE_SIZE]);
    old[..3].copy_from_slice(&[0x04, 0x46, 0x01]);
    // A card that begins now is written by card::empty(&mut image).
    card::convert(&old, &mut image)?;
    for record in [&HANDICAP_LOG[..], &BAR_PURSE, &ORGANISER, &EARLY_GRANT] {
        judge(&mut image, record);
    }
    report(&image)?;

    let mut large = [0; LARGE_IMAGE_SIZE];
    card::enlarge(&image, &mut large)?;
    println!("enlarged");
    // A record of the small card's version gets 2 now.
    for record in [&BAR_PURSE[..], &LARGE_PURSE] {
        judge(&mut large, record);
    }
    report(&large)
}
