//! The other witness: paper 01 in plain Rust, written from the paper alone.
//! One file per section of the paper; README.md says how to run it.

pub mod answer;
pub mod betting;
pub mod book;
pub mod clerk;
pub mod crown;
pub mod entries;
pub mod hands;
pub mod mend;
pub mod pair;
pub mod pay;
pub mod pots;
pub mod random;
pub mod refusals;
pub mod seats;
pub mod table;
pub mod text;
