//! A text as lines of words, each with its place. From `#` on a line is a comment.

use crate::fault::{Fault, Place};
use std::collections::VecDeque;

#[derive(Clone, Copy, Debug, PartialEq, Eq)]
pub struct Word<'a> {
    pub text: &'a str,
    pub place: Place,
}

impl Word<'_> {
    pub fn fault(&self, words: impl Into<String>) -> Fault {
        Fault::text(self.place, words)
    }

    /// The word as messages have it.
    pub fn cut(&self) -> String {
        cut(self.text)
    }
}

/// The most characters of a word that a message has.
const SHOWN: usize = 40;

/// A word or a name as messages have it: a long one is cut, and what cannot be seen is written as its number.
pub fn cut(text: &str) -> String {
    let shown = text.chars().take(SHOWN).map(shown).collect::<String>();
    let more = if text.chars().nth(SHOWN).is_some() { "..." } else { "" };
    shown + more
}

/// A character as messages have it.
pub fn shown(c: char) -> String {
    if c.is_control() {
        c.escape_default().to_string()
    } else {
        c.to_string()
    }
}

/// A count with its word, as in `1 row` and `2 rows`.
pub fn counted(count: usize, what: &str) -> String {
    format!("{count} {what}{}", if count == 1 { "" } else { "s" })
}

/// The words of a line that are not read yet.
pub struct Line<'a> {
    words: VecDeque<Word<'a>>,
    /// The place after the last word.
    pub end: Place,
}

impl<'a> Line<'a> {
    /// The next word; `what` says what is expected when there is none.
    pub fn next(&mut self, what: &str) -> Result<Word<'a>, Fault> {
        self.words.pop_front().ok_or_else(|| Fault::text(self.end, format!("{what} is missing")))
    }

    /// The next word, if it is one that is wanted.
    pub fn next_if(&mut self, wanted: impl Fn(&str) -> bool) -> Option<Word<'a>> {
        self.words.front().filter(|word| wanted(word.text))?;
        self.words.pop_front()
    }

    /// The next word, which must be this one.
    pub fn expect(&mut self, expected: &str) -> Result<Word<'a>, Fault> {
        let word = self.next(&format!("'{expected}'"))?;
        match word.text == expected {
            true => Ok(word),
            false => Err(word.fault(format!("'{expected}' is expected, not '{}'", word.cut()))),
        }
    }

    /// Nothing may follow.
    pub fn finish(&mut self) -> Result<(), Fault> {
        match self.words.pop_front() {
            None => Ok(()),
            Some(word) => Err(word.fault(format!("nothing may follow here, but '{}' does", word.cut()))),
        }
    }

    /// The words that are left.
    pub fn rest(self) -> impl Iterator<Item = Word<'a>> {
        self.words.into_iter()
    }
}

/// The lines that have words.
pub fn lines(text: &str) -> impl Iterator<Item = Line<'_>> {
    (1..).zip(text.lines()).map(|(number, line)| line_words(number, line)).filter(|line| !line.words.is_empty())
}

fn line_words(number: usize, line: &str) -> Line<'_> {
    let said = line.split('#').next().unwrap_or("");
    let (mut column, mut counted_to) = (1, 0);
    // Each place is past the one before, so that a long line is counted once.
    let mut place = |byte: usize| {
        column += said[counted_to..byte].chars().count();
        counted_to = byte;
        Place { line: number, column }
    };
    let start_of = |word: &str| word.as_ptr() as usize - said.as_ptr() as usize;
    let words = said.split_whitespace().map(|text| Word { text, place: place(start_of(text)) }).collect();
    Line { words, end: place(said.trim_end().len()) }
}

/// The text of an input's bytes, without a byte order mark before it; a fault where they are not UTF-8.
pub fn utf8(bytes: &[u8]) -> Result<&str, Fault> {
    let bytes = bytes.strip_prefix("\u{FEFF}".as_bytes()).unwrap_or(bytes);
    std::str::from_utf8(bytes).map_err(|error| {
        let before = String::from_utf8_lossy(&bytes[..error.valid_up_to()]);
        let (line, last) = (before.matches('\n').count() + 1, before.rsplit('\n').next().unwrap_or(""));
        Fault::text(Place { line, column: last.chars().count() + 1 }, "these bytes are not text in UTF-8")
    })
}

#[cfg(test)]
mod tests {
    use super::*;

    #[test]
    fn words_have_their_places() {
        let text = "# nothing\n\n  load  F000000001 # a load\r\n\tä b#c";
        let found: Vec<(String, usize, usize)> = lines(text)
            .flat_map(|line| line.rest())
            .map(|word| (word.text.to_string(), word.place.line, word.place.column))
            .collect();
        let expected = [("load", 3, 3), ("F000000001", 3, 9), ("ä", 4, 2), ("b", 4, 4)];
        assert_eq!(found, expected.map(|(word, line, column)| (word.to_string(), line, column)));
    }

    #[test]
    fn what_is_missing_or_left_over_has_its_place() {
        let mut line = lines("ab cd   # ef").next().unwrap();
        assert_eq!(line.next("a word").unwrap().text, "ab");
        assert_eq!(line.expect("to").unwrap_err().to_string(), "line 1, column 4: 'to' is expected, not 'cd'");
        assert_eq!(line.next("an AID").unwrap_err().to_string(), "line 1, column 6: an AID is missing");
        let mut line = lines("\nab").next().unwrap();
        assert_eq!(line.finish().unwrap_err().to_string(), "line 2, column 1: nothing may follow here, but 'ab' does");
    }

    #[test]
    fn bytes_that_are_no_text_have_their_place() {
        let fault = utf8(b"load\nun\xFFload").unwrap_err();
        assert_eq!(fault.to_string(), "line 2, column 3: these bytes are not text in UTF-8");
        assert_eq!(utf8(b"load"), Ok("load"));
    }
}
