//! The same job in plain Rust, written for speed: what the benchmarks measure the library against.
//!
//! It makes every check that the library makes, in the same order, and answers the same bytes. It is
//! one pass over the circuit, with the wires' states as bits of numbers; one node for each
//! instruction with pointers to the next ones on its wires; a set of ready instructions in which the
//! earliest is found by counting zeros; and a table of 32-bit rows. No unsafe code, and no
//! instruction that only some processors have.

#![deny(missing_docs)]
#![forbid(unsafe_code)]

mod circuit;
mod compile;
mod greedy;
mod table;

pub use circuit::{read, Circuit};
pub use compile::compile;
pub use greedy::{greedy, Chosen};
pub use table::start;

/// Why an input is refused, and where.
#[derive(Clone, Copy, Debug, PartialEq, Eq)]
pub struct Refusal {
    /// The number in document 01's table.
    pub number: u8,
    /// The place that goes with it.
    pub place: usize,
}

/// The room for an output, or 31 with the length needed.
fn room(out: &mut [u8], needed: usize) -> Result<&mut [u8], Refusal> {
    out.get_mut(..needed).ok_or(Refusal {
        number: 31,
        place: needed,
    })
}
