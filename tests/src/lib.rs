//! What compares the proved engine with the second engine.

// The second engine, and the rules that both its halves judge by.
pub use second::{bytes, machine, rules};

// What the programs share with the tool.
pub use cardtool::{hex, program, say, say_line};

// What makes engines alike for the comparison.
pub mod card;

// The comparison.
pub mod compare;
pub mod conditions;
pub mod damage;
pub mod early;
pub mod faults;
pub mod generate;
pub mod history;
pub mod large;
pub mod methods;
pub mod pairs;
pub mod replace;
pub mod retired;
pub mod run;
pub mod shrink;
pub mod tables;
pub mod watched;

// The cases of the paper and of the report.
pub mod cases;

// What the session program prints.
pub mod session;

// What is timed.
pub mod full_card;

pub mod encode;
pub mod random;
pub mod write;
