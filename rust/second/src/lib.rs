//! The second program: what the scope document asks of the pass, in plain Rust.
//!
//! All of it was written from document 01 alone, by people who had not seen the proved crates, and
//! it shares no code with them; only its public calls and the bytes of a table were laid down
//! beforehand. Marks are kept in sets, a pair list is judged by a search of the graph and never by
//! the table, and the next instruction is found by asking each one what it waits for. It is meant
//! to be seen to be right, not to be fast.

#![deny(missing_docs)]
#![forbid(unsafe_code)]

mod circuit;
mod compile;
mod graph;
mod greedy;
mod instruction;
mod pair;
mod refusal;
mod table;

pub use circuit::{read, rewrite, Circuit};
pub use compile::compile;
pub use graph::Accepted;
pub use greedy::{greedy, Greedy};
pub use instruction::{Bit, Instruction, Wire};
pub use pair::Pair;
pub use refusal::Refusal;
pub use table::Table;
