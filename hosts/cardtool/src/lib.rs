//! What a host and a tester read and write: records and images as text, and hexadecimal with
//! comments. Every message about a bad input has its place.

// Contracts and records, and the sizes of a card.
pub mod contract;
pub mod layout;
pub mod record;
pub mod tables;

// Texts: words with their places, and names.
pub mod fault;
pub mod names;
pub mod words;

// Records and images as text, and why an image is not sound.
pub mod image_text;
pub mod record_text;
pub mod unsound;

// Bytes in hexadecimal: reading with places, and dumps with words.
pub mod dump;
pub mod hex;
pub mod hexadecimal;

// What the contracts on a card say together: of a record, of a service, and beside another card's.
pub mod changes;
pub mod draw;
pub mod explain;
pub mod reach;
pub mod who;

// The engines that answer, and what their answers mean.
pub mod cause;
pub mod engines;

// The program `cardtool`, and what it shares with other programs.
pub mod json;
pub mod program;
pub mod tool;
