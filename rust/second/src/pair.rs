//! A reuse pair.

use crate::Wire;

/// A reuse pair: the lender's measurement comes before the taker's reset, and the taker takes the
/// lender's qubit. Pairs are ordered by their lenders, then by their takers.
#[derive(Clone, Copy, Debug, PartialEq, Eq, PartialOrd, Ord)]
pub struct Pair {
    /// The wire that lends.
    pub lender: Wire,
    /// The wire that takes.
    pub taker: Wire,
}

impl Pair {
    /// The pair of the wires with these numbers.
    pub fn of(lender: u8, taker: u8) -> Pair {
        Pair {
            lender: Wire(lender),
            taker: Wire(taker),
        }
    }
}
