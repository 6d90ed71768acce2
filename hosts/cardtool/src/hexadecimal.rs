//! Hexadecimal with places: records, a line each, and dumps of an image.

use crate::fault::{At, Fault, Place};
use crate::layout::Layout;
use crate::record::{self, Record};
use crate::words::{cut, lines, shown, Line, Word};

/// The bytes of a line, and where the digits of each stand.
pub struct Digits {
    pub bytes: Vec<u8>,
    places: Vec<Place>,
    end: Place,
}

impl Digits {
    /// What is left of a line.
    pub fn of(line: &mut Line) -> Result<Digits, Fault> {
        let mut digits = Digits { bytes: Vec::new(), places: Vec::new(), end: line.end };
        while let Some(word) = line.next_if(|_| true) {
            digits.word(word)?;
        }
        Ok(digits)
    }

    /// Where the first byte stands, or would.
    pub fn place(&self) -> Place {
        self.places.first().copied().unwrap_or(self.end)
    }

    /// A word has two digits for each byte.
    fn word(&mut self, word: Word) -> Result<(), Fault> {
        let place = |at: usize| Place { column: word.place.column + at, ..word.place };
        if let Some((at, other)) = word.text.chars().enumerate().find(|(_, c)| !c.is_ascii_hexdigit()) {
            return Err(Fault::text(place(at), format!("'{}' is no hexadecimal digit", shown(other))));
        }
        for at in (0..word.text.len()).step_by(2) {
            let pair = word.text.get(at..at + 2);
            let byte = pair.and_then(|pair| u8::from_str_radix(pair, 16).ok());
            let odd = || Fault::text(place(at), "a byte has two digits, here is one");
            self.bytes.push(byte.ok_or_else(odd)?);
            self.places.push(place(at));
        }
        Ok(())
    }

    /// A fault at a byte; past the last one it is at the end of the line.
    fn fault(&self, byte: usize, words: String) -> Fault {
        Fault { at: At::Digits(self.places.get(byte).copied().unwrap_or(self.end), byte), words }
    }

    /// The record of either card.
    pub fn record(&self) -> Result<(&'static Layout, Record), Fault> {
        record::read_either(&self.bytes).map_err(|malformed| self.fault(malformed.at, malformed.why.to_string()))
    }
}

/// The lines of a text, each the bytes of a record.
pub fn records(text: &str) -> Result<Vec<Digits>, Fault> {
    lines(text).map(|mut line| Digits::of(&mut line)).collect()
}

/// The bytes of a dump: a line may begin with the offset of its first byte, in decimal and with a
/// colon. Bytes that are left out before an offset are zero.
pub fn dump(text: &str) -> Result<Vec<u8>, Fault> {
    let mut bytes = Vec::new();
    for mut line in lines(text) {
        if let Some(offset) = line.next_if(|word| word.ends_with(':')) {
            skip(&mut bytes, offset)?;
        }
        bytes.extend(Digits::of(&mut line)?.bytes);
    }
    Ok(bytes)
}

/// The most bytes of a dump.
const MOST_BYTES: usize = 65_536;

/// Fills with zeros up to an offset.
fn skip(bytes: &mut Vec<u8>, word: Word) -> Result<(), Fault> {
    let offset = word.text.strip_suffix(':').unwrap_or(word.text);
    let digits = offset.chars().all(|c| c.is_ascii_digit());
    let number = digits.then(|| offset.parse().ok()).flatten().filter(|number| *number <= MOST_BYTES);
    let Some(number) = number else {
        return Err(word.fault(format!("'{}' is no offset: a decimal number to {MOST_BYTES}", cut(offset))));
    };
    if number < bytes.len() {
        return Err(word.fault(format!("the offset is {number}, but {} bytes stand above", bytes.len())));
    }
    bytes.resize(number, 0);
    Ok(())
}
