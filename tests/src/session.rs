//! The session program by the second engine, from the paper alone: what it prints for an input.

pub mod streams;

use crate::card::{Card, BYTES, LONGEST_RECORD};
use crate::compare::Compare;
use crate::pairs::Pairs;
use crate::rules::Rules;

/// An input as the paper reads it.
pub struct Frames<'a> {
    /// The records, each as long as its length field says.
    pub records: Vec<&'a [u8]>,
    /// What they leave: nothing, or a bad frame and all that stands behind it.
    pub rest: &'a [u8],
}

pub fn frames(input: &[u8]) -> Frames<'_> {
    let mut frames = Frames { records: Vec::new(), rest: input };
    while let Some(length) = length(frames.rest) {
        let (record, rest) = frames.rest.split_at(length);
        frames.records.push(record);
        frames.rest = rest;
    }
    frames
}

/// The length of the record that stands first. None does when no byte is left, or a single one, or when the length is
/// below 4, above that of the longest record or past the end of input.
fn length(bytes: &[u8]) -> Option<usize> {
    let [high, low, ..] = *bytes else { return None };
    let length = usize::from(u16::from_be_bytes([high, low]));
    let good = (4..=LONGEST_RECORD).contains(&length) && length <= bytes.len();
    good.then_some(length)
}

impl Frames<'_> {
    /// A line for each record, and one for a bad frame. The machine and the byte engine agree on every answer, or what
    /// differs is said; the number is the byte engine's.
    pub fn lines(&self) -> Result<Vec<String>, String> {
        self.lines_by(Rules::IN_FORCE)
    }

    /// The lines by the rules of some time.
    pub fn lines_by(&self, rules: Rules) -> Result<Vec<String>, String> {
        let cards: [&dyn Card; 1] = [&BYTES];
        let (mut compare, mut pairs) = (Compare::before(&cards, 0, rules.changes_since())?, Pairs::default());
        let mut lines = Vec::new();
        for (ordinal, record) in (1..).zip(&self.records) {
            let verdict = compare.judge(record, &mut pairs)?;
            lines.push(format!("{ordinal} {} {verdict}\n", record[3]));
        }
        if !self.rest.is_empty() {
            lines.push(format!("{} - 2 -\n", lines.len() + 1));
        }
        Ok(lines)
    }
}

/// All that the program prints for an input.
pub fn transcript(input: &[u8]) -> String {
    frames(input).lines().expect("no difference in the second engine").concat()
}

#[cfg(test)]
mod tests {
    use super::streams::paper;
    use super::*;

    #[test]
    fn the_papers_four_lines() {
        assert_eq!(transcript(&paper().concat()), "1 1 0 0\n2 1 8 -\n3 1 0 1\n4 2 9 -\n");
    }

    #[test]
    fn what_is_no_record_ends_the_run() {
        assert_eq!(transcript(&[]), "");
        assert_eq!(transcript(&[0, 4, 1, 99]), "1 99 2 -\n");
        let longest = |length: u16| [&length.to_be_bytes()[..], &[0; 70_000]].concat();
        let most = LONGEST_RECORD as u16;
        assert!(transcript(&longest(most)).starts_with("1 0 2 -\n2 - 2 -\n"));
        let bad: [&[u8]; 6] = [&[0], &[0, 3, 1], &[0, 0, 0, 0], &[0, 4], &[0, 5, 1, 2], &longest(most + 1)];
        for bad in bad {
            assert_eq!(transcript(bad), "1 - 2 -\n");
            assert_eq!(transcript(&[&paper()[0], bad].concat()), "1 1 0 0\n2 - 2 -\n");
        }
    }
}
