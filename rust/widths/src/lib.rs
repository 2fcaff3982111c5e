//! The widths that the second program reaches on the source paper's circuits, and what the tests
//! here share: a circuit's start table, judged on its graph.

#![deny(missing_docs)]
#![forbid(unsafe_code)]

pub mod paper;

use second::{Accepted, Circuit, Pair, Table};
use std::collections::BTreeSet;

/// The start table of a circuit: a mark for each pair that the graph alone accepts.
pub fn start_table(circuit: &Circuit) -> Table {
    table_of(&Accepted::none(circuit))
}

/// The marks of the pairs that could be accepted next, with no wire marked as used.
pub fn table_of(accepted: &Accepted) -> Table {
    let width = accepted.circuit().width;
    let lenders = 0..width;
    let pairs = lenders.flat_map(|lender| (0..width).map(move |taker| Pair::of(lender, taker)));
    Table {
        width,
        marks: pairs.filter(|&pair| accepted.judge(pair).is_ok()).collect(),
        lending: BTreeSet::new(),
        taking: BTreeSet::new(),
    }
}

/// The records of a pair list.
pub fn pair_records(pairs: &[Pair]) -> Vec<u8> {
    let records = pairs
        .iter()
        .flat_map(|pair| [0x60, pair.lender.0, pair.taker.0]);
    records.collect()
}
