//! The greedy choice of pairs.

use crate::{bytes, Refusal, Table, Wire};

/// How many bytes the record of a pair has: its kind, the lender, the taker.
const RECORD_LENGTH: usize = 3;
/// The kind of a reuse pair.
const KIND: u8 = 0x60;

/// A reuse pair: the taker takes the lender's qubit after the lender's measurement.
#[derive(Clone, Copy, Debug, PartialEq, Eq, Hash)]
pub struct Pair {
    /// The wire that lends.
    pub lender: Wire,
    /// The wire that takes.
    pub taker: Wire,
}

impl Pair {
    /// The pair as a record of a pair list, for [`crate::compile`].
    ///
    /// ```
    /// use thaksipho::{Pair, Wire};
    ///
    /// let pair = Pair { lender: Wire(0), taker: Wire(2) };
    /// assert_eq!(pair.record(), [0x60, 0, 2]);
    /// ```
    pub fn record(&self) -> [u8; RECORD_LENGTH] {
        [KIND, self.lender.0, self.taker.0]
    }
}

/// What the greedy choice gives.
#[derive(Clone, Debug, PartialEq, Eq)]
pub struct Greedy {
    /// The pairs, in the order chosen.
    pub pairs: Vec<Pair>,
    /// How many pairs were tried: the sum over the rounds of the yes marks at the round's start.
    pub trials: u32,
}

/// Chooses pairs until none is yes: in each round the one after which most pairs are yes; ties go to
/// the lowest lender, then to the lowest taker.
///
/// ```
/// use thaksipho::{greedy, start, Pair, Refusal, Wire};
///
/// // B, of document 01: three wires without gates.
/// let b = [
///     0x01, 3, 0x10, 0, 0x10, 1, 0x10, 2, 0x11, 0, 0, 0x11, 1, 1, 0x11, 2, 2,
/// ];
/// let chosen = greedy(&start(&b)?)?;
/// let pair = |lender, taker| Pair { lender: Wire(lender), taker: Wire(taker) };
/// assert_eq!(chosen.pairs, [pair(0, 1), pair(1, 2)]);
/// assert_eq!(chosen.trials, 8);
/// # Ok::<(), Refusal>(())
/// ```
pub fn greedy(table: &Table) -> Result<Greedy, Refusal> {
    let mut records = [0; Table::MOST_WIRES * RECORD_LENGTH];
    let chosen = bytes::greedy(table.as_bytes(), &mut records)?;
    let pair = |record: &[u8]| Pair {
        lender: Wire(record[1]),
        taker: Wire(record[2]),
    };
    let records = records.chunks_exact(RECORD_LENGTH).take(chosen.pairs);
    Ok(Greedy {
        pairs: records.map(pair).collect(),
        trials: chosen.trials,
    })
}
