//! The seven functions with the numbers of their answers.
//!
//! All the unsafe code is here: a call for each function of the archive. What the archive's header asks of a caller is
//! what slices are: no pointer is null, each has the length of its slice, the bytes are initialised, a slice that is
//! lent for writing overlaps no other, and until the call returns nobody else writes what is lent.
#![allow(unsafe_code)]

/// What a function gives: the answer, 0 or the cause of a refusal, and the second number.
#[derive(Clone, Copy, Debug, PartialEq, Eq)]
#[must_use]
pub struct Verdict {
    /// 0 for accepted, or the number of the cause, 1 to 12.
    pub answer: u32,
    /// What stands with each function.
    pub second: u32,
}

unsafe extern "C" {
    fn card_check(image: *const u8, image_length: usize) -> u32;
    fn card_empty(image: *mut u8, image_length: usize) -> u32;
    fn card_convert(old: *const u8, old_length: usize, image: *mut u8, image_length: usize) -> u32;
    fn card_enlarge(image: *const u8, image_length: usize, large: *mut u8, large_length: usize) -> u32;
    fn card_judge(image: *mut u8, image_length: usize, record: *const u8, record_length: usize) -> u32;
    fn card_read_out(image: *const u8, image_length: usize, number: u32, out: *mut u8, out_length: usize) -> u32;
    fn card_aid(record: *const u8, record_length: usize) -> u32;
}

/// The archive takes lengths of 64 bits.
const _: () = assert!(usize::BITS == 64);

/// 0 with the count of installed packages, or 1 with 255.
pub fn check(image: &[u8]) -> Verdict {
    // SAFETY: pointer and length are those of one lent slice, which is only read.
    verdict(unsafe { card_check(image.as_ptr(), image.len()) })
}

/// 0 with 0, or 1 with 255.
pub fn empty(image: &mut [u8]) -> Verdict {
    // SAFETY: pointer and length are those of one slice lent for writing.
    verdict(unsafe { card_empty(image.as_mut_ptr(), image.len()) })
}

/// 0 with 0, or 1 with 255.
pub fn convert(old: &[u8], image: &mut [u8]) -> Verdict {
    // SAFETY: each pointer has the length of its slice; the borrows keep the old image and the buffer apart.
    verdict(unsafe { card_convert(old.as_ptr(), old.len(), image.as_mut_ptr(), image.len()) })
}

/// 0 with 0, or 1 with 255.
pub fn enlarge(image: &[u8], large: &mut [u8]) -> Verdict {
    // SAFETY: each pointer has the length of its slice; the borrows keep the small image and the buffer apart.
    verdict(unsafe { card_enlarge(image.as_ptr(), image.len(), large.as_mut_ptr(), large.len()) })
}

/// 0 with the package's number, or the cause, 1 to 11, with 255.
pub fn judge(image: &mut [u8], record: &[u8]) -> Verdict {
    // SAFETY: each pointer has the length of its slice; the borrows keep image and record apart.
    verdict(unsafe { card_judge(image.as_mut_ptr(), image.len(), record.as_ptr(), record.len()) })
}

/// 0 with the record's length, or 1, 5 or 12 with 0.
pub fn read_out(image: &[u8], number: u32, out: &mut [u8]) -> Verdict {
    // SAFETY: each pointer has the length of its slice; the borrows keep image and buffer apart.
    verdict(unsafe { card_read_out(image.as_ptr(), image.len(), number, out.as_mut_ptr(), out.len()) })
}

/// The part of a record that is its first AID's bytes; of a malformed record, an empty part.
#[must_use]
pub fn aid(record: &[u8]) -> &[u8] {
    // SAFETY: pointer and length are those of one lent slice, which is only read.
    let (start, length) = halves(unsafe { card_aid(record.as_ptr(), record.len()) });
    // By proof the part lies in the record; of a malformed one both numbers are 0.
    &record[start as usize..][..length as usize]
}

fn verdict(result: u32) -> Verdict {
    let (answer, second) = halves(result);
    Verdict { answer, second }
}

/// A result has its first number in the high 16 bits and its second in the low ones.
fn halves(result: u32) -> (u32, u32) {
    (result >> 16, result & 0xFFFF)
}
