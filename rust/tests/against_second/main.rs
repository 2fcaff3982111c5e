//! The proved library held against the second program.

#![deny(missing_docs)]

mod comparison;
mod compile;
mod document;
mod exhaustive;
mod greedy;
mod limits;
mod paper;
mod random;
mod settings;
mod table;
