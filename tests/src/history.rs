//! A history: records in order, and the changes of the rules among them. The rules in force are those after its last
//! change; without one it has them from the start. Each change has the next rules take the place of those before. By the rules
//! in force the card may be enlarged, once; where nothing stands before this, the history starts on the empty large image.

use crate::hex::{from_hex, to_hex};

#[derive(Clone, Debug, PartialEq, Eq)]
pub enum Event {
    /// A record to judge, of any bytes.
    Record(Vec<u8>),
    /// The next rules come into force. Where these have another version of images, the card is converted.
    Change,
    /// R-9's converter takes the card over into a large one.
    Enlarge,
}

const CHANGE: &str = "change";
const ENLARGE: &str = "enlarge";

impl Event {
    /// The record's bytes; of another event, none.
    pub fn record(&self) -> &[u8] {
        match self {
            Event::Record(bytes) => bytes,
            Event::Change | Event::Enlarge => &[],
        }
    }

    /// A line of a file that `differ --replay` reads.
    pub fn to_text(&self) -> String {
        match self {
            Event::Record(bytes) => to_hex(bytes),
            Event::Change => CHANGE.to_string(),
            Event::Enlarge => ENLARGE.to_string(),
        }
    }

    /// Reads what `to_text` writes; `None` when something else stands there.
    pub fn from_text(line: &str) -> Option<Event> {
        match line.trim() {
            CHANGE => Some(Event::Change),
            ENLARGE => Some(Event::Enlarge),
            bytes => from_hex(bytes).map(Event::Record),
        }
    }
}

/// How many changes a history has.
pub fn changes(history: &[Event]) -> usize {
    history.iter().filter(|event| **event == Event::Change).count()
}

/// How many records a history has.
pub fn records(history: &[Event]) -> usize {
    history.iter().filter(|event| matches!(event, Event::Record(_))).count()
}

#[cfg(test)]
mod tests {
    use super::*;

    #[test]
    fn events_are_text_and_back() {
        for event in [Event::Change, Event::Enlarge, Event::Record(vec![]), Event::Record(vec![0, 255])] {
            assert_eq!(Event::from_text(&event.to_text()), Some(event));
        }
        assert_eq!(Event::from_text("changes"), None);
    }
}
