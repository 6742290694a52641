//! An independent, unproved implementation of timing sheets in plain Rust, and what is needed to hold the proved library
//! against it: two ways of lowering from above, random sheets and damaged texts.

pub mod clock;
pub mod generate;
pub mod hard;
pub mod independent;
pub mod lowering;
pub mod random;
pub mod report;
pub mod rules;
pub mod sheet;
pub mod shipped;
pub mod text;
