//! Inputs for tests and benchmarks: records, valid circuits of every shape, damage done to them,
//! circuits of the source paper, tables made by hand, and pairs to offer.
//!
//! A circuit made here is valid by the way it is made. Nothing here reads or judges one, so that
//! neither program is tested against itself.

#![deny(missing_docs)]
#![forbid(unsafe_code)]

pub mod circuits;
pub mod damage;
pub mod document;
pub mod pairs;
pub mod paper;
pub mod random;
pub mod records;
pub mod tables;

pub use random::Random;
