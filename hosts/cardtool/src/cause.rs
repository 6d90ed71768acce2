//! The causes of refusals in words, by their numbers.

/// The last cause that judging a record gives.
pub const LAST_CAUSE: u32 = 11;

/// What a refusal with this answer means.
pub fn words(answer: u32) -> &'static str {
    match answer {
        1 => "the image is not sound, or has not a card's size",
        2 => "the record is malformed",
        3 => "the record contradicts itself",
        4 => "the package is installed",
        5 => "the package is not installed",
        6 => "the contract has what is added, or lacks what is removed",
        7 => "no package or service number is free",
        8 => "a met call would stand without its grant",
        9 => "a need would be unmet",
        10 => "too many unmet calls",
        11 => "too many waiting grants",
        12 => "the buffer is shorter than the record",
        _ => "an answer that no rule has",
    }
}
