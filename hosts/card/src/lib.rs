//! The proved engine of the member card behind safe functions: one for each of the seven that its archive exports.
//!
//! Any bytes of any length may be given, and every function returns: none panics. Every byte that a function may write
//! is lent to it for writing, and every length is that of a slice, so no call can reach outside what is lent. A refusal
//! leaves every lent byte as it was. Nothing is allocated, and nothing is kept between two calls, which may come from
//! several threads at once.
//!
//! There are two cards, and the length of a lent image says which. The small card has images of [`IMAGE_SIZE`] bytes and
//! records of version 01 and at most [`RECORD_SIZE`] bytes, with 8 packages of 8 services; the large card has images of
//! [`LARGE_IMAGE_SIZE`] bytes and records of version 02 and at most [`LARGE_RECORD_SIZE`] bytes, with 16 of 16.
//!
//! The functions here say what an answer means; those of [`exact`] give the numbers.
//!
//! ```
//! use card::{Refusal, IMAGE_SIZE, RECORD_SIZE};
//!
//! let mut image = [0; IMAGE_SIZE];
//! card::empty(&mut image)?;
//!
//! // The package F000000001 provides the service 0.0, and grants nothing.
//! let server = [0, 16, 1, 1, 5, 0xF0, 0, 0, 0, 1, 1, 0, 0, 0, 0, 0];
//! assert_eq!(card::aid(&server), [0xF0, 0, 0, 0, 1]);
//! assert_eq!(card::judge(&mut image, &server), Ok(0));
//!
//! // The package F000000002 calls it, which is not granted: nothing changes.
//! let caller = [0, 22, 1, 1, 5, 0xF0, 0, 0, 0, 2, 0, 1, 5, 0xF0, 0, 0, 0, 1, 0, 0, 0, 0];
//! assert_eq!(card::judge(&mut image, &caller), Err(Refusal::Ungranted));
//! assert_eq!(card::check(&image), Ok(1));
//!
//! // The contract of package 0 is the record that loaded it.
//! let mut buffer = [0; RECORD_SIZE];
//! assert_eq!(card::read_out(&image, 0, &mut buffer)?, server);
//! # Ok::<(), Refusal>(())
//! ```

#![no_std]
#![deny(missing_docs, unsafe_code)]

pub mod exact;
mod refusal;

pub use refusal::Refusal;

use exact::Verdict;

/// Bytes of an image of the small card.
pub const IMAGE_SIZE: usize = 1110;

/// Bytes of an image of the large card.
pub const LARGE_IMAGE_SIZE: usize = 3639;

/// Bytes of an image of version 01, which [`convert`] takes.
pub const OLD_IMAGE_SIZE: usize = 1094;

/// Bytes of the small card's longest record: a buffer of this size holds whatever is read out of one.
pub const RECORD_SIZE: usize = 4145;

/// Bytes of the large card's longest record: a buffer of this size holds whatever is read out of either card.
pub const LARGE_RECORD_SIZE: usize = 15_564;

/// The logic that the linked archive was proved with, as `rt version` names it.
pub const LOGIC: &str = env!("CARD_LOGIC");

/// Checks an image: the count of its packages where it is sound, else [`Refusal::Unsound`], as of one of version 01 or
/// with a method token of 128 or more.
pub fn check(image: &[u8]) -> Result<u32, Refusal> {
    meaning(exact::check(image))
}

/// Writes the empty image of the card that has as many bytes. A buffer that has neither [`IMAGE_SIZE`] nor
/// [`LARGE_IMAGE_SIZE`] bytes is [`Refusal::Unsound`].
pub fn empty(image: &mut [u8]) -> Result<(), Refusal> {
    meaning(exact::empty(image)).map(|_| ())
}

/// Writes an image of version 01, which has [`OLD_IMAGE_SIZE`] bytes, as one of version 02 into a buffer of
/// [`IMAGE_SIZE`] bytes: the same contracts, under the same numbers and in the same order. [`Refusal::Unsound`] when
/// the old image is not sound, or either has another size.
pub fn convert(old: &[u8], image: &mut [u8]) -> Result<(), Refusal> {
    meaning(exact::convert(old, image)).map(|_| ())
}

/// Writes an image of the small card, which has [`IMAGE_SIZE`] bytes, as one of the large card into a buffer of
/// [`LARGE_IMAGE_SIZE`] bytes: the same contracts, under the same numbers and in the same order. [`Refusal::Unsound`]
/// when the small image is not sound, or either has another size.
pub fn enlarge(image: &[u8], large: &mut [u8]) -> Result<(), Refusal> {
    meaning(exact::enlarge(image, large)).map(|_| ())
}

/// Judges a record on an image. Accepted, the image is changed, and the number is the package's (on removal, the one it
/// had). Refused with any cause but [`Refusal::BufferShort`]; a record of the other card's version with
/// [`Refusal::Malformed`].
pub fn judge(image: &mut [u8], record: &[u8]) -> Result<u32, Refusal> {
    meaning(exact::judge(image, record))
}

/// Writes the contract of a package number, as a record of kind 1 of the image's card, to the start of a buffer, and
/// gives that part; the bytes past it stay. A buffer of [`RECORD_SIZE`] bytes is long enough for the small card, one of
/// [`LARGE_RECORD_SIZE`] for both. Refused with [`Refusal::Unsound`], [`Refusal::NotInstalled`] or
/// [`Refusal::BufferShort`].
pub fn read_out<'a>(image: &[u8], number: u32, out: &'a mut [u8]) -> Result<&'a [u8], Refusal> {
    let length = meaning(exact::read_out(image, number, out))?;
    // By proof the length that is accepted is at most the buffer's.
    Ok(&out[..length as usize])
}

/// The part of a record of either card that is its first AID's bytes, without the length byte; of a malformed record, an
/// empty part.
#[must_use]
pub fn aid(record: &[u8]) -> &[u8] {
    exact::aid(record)
}

/// The second number of an acceptance, or the cause of a refusal.
fn meaning(verdict: Verdict) -> Result<u32, Refusal> {
    match verdict.answer {
        0 => Ok(verdict.second),
        // By proof no function of the archive gives another answer than 0 to 12.
        answer => Err(Refusal::of(answer).expect("an answer is 0 to 12")),
    }
}
