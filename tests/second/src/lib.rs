//! A second engine, written from the papers alone, twice: `machine` holds contracts, `bytes` an image. They share no
//! code, and both are handed the rules to judge by.

pub mod bytes;
pub mod machine;
pub mod rules;

#[cfg(test)]
mod large;
