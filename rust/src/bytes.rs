//! The calls on tables as the static library has them: a table is any byte slice, and a call that
//! writes does so into a lent buffer of any length.
//!
//! The bytes of a table are its width, its 32 rows of marks, the used lenders and the used takers,
//! each of the last 34 in four bytes, lowest byte first, wire 0 the lowest bit. Missing bytes count
//! as 0, and further ones are not read.
//!
//! Where a lent buffer is too short the refusal is 31, and its place is the length needed; it comes
//! after every other refusal. What is written stands at the buffer's start, and the rest stays.
//!
//! ```
//! use thaksipho::{bytes, Refusal, Table, Wire};
//!
//! // B, of document 01: three wires without gates.
//! let b = [
//!     0x01, 3, 0x10, 0, 0x10, 1, 0x10, 2, 0x11, 0, 0, 0x11, 1, 1, 0x11, 2, 2,
//! ];
//! let mut table = [0; Table::LENGTH];
//! assert_eq!(bytes::start(&b, &mut table), Ok(Table::LENGTH));
//! assert_eq!(bytes::may(&table, Wire(0), Wire(1)), Ok(true));
//! assert_eq!(bytes::count(&table), Ok(6));
//! assert_eq!(bytes::score(&table, Wire(0), Wire(1)), Ok(2));
//!
//! let mut list = [7; 8];
//! assert_eq!(bytes::greedy(&table, &mut list), Ok(bytes::Chosen { pairs: 2, trials: 8 }));
//! assert_eq!(list, [0x60, 0, 1, 0x60, 1, 2, 7, 7]);
//!
//! // Room one byte short: nothing is written.
//! let mut after = [7; Table::LENGTH - 1];
//! let refused = Refusal { number: 31, place: 137 };
//! assert_eq!(bytes::offer(&table, Wire(0), Wire(1), &mut after), Err(refused));
//! assert_eq!(after, [7; Table::LENGTH - 1]);
//! ```

use crate::{boundary, outcome, Refusal, Wire};

/// Writes a static circuit's table, and gives the number of bytes written: [`crate::Table::LENGTH`].
/// A circuit is refused as [`crate::read`] refuses it.
pub fn start(circuit: &[u8], out: &mut [u8]) -> Result<usize, Refusal> {
    let written = outcome(boundary::start(circuit, out))?;
    Ok(written as usize)
}

/// Whether the lender may lend to the taker. See [`crate::may`].
pub fn may(table: &[u8], lender: Wire, taker: Wire) -> Result<bool, Refusal> {
    match outcome(boundary::may(table, lender.0, taker.0))? {
        0 => Ok(false),
        1 => Ok(true),
        other => unreachable!("a mark is yes or no, not {other}"),
    }
}

/// Offers a pair. Where it is taken the new table is written, and the answer is the number of bytes
/// written; a refused offer writes nothing. See [`crate::offer`].
pub fn offer(table: &[u8], lender: Wire, taker: Wire, out: &mut [u8]) -> Result<usize, Refusal> {
    let written = outcome(boundary::offer(table, lender.0, taker.0, out))?;
    Ok(written as usize)
}

/// How many pairs are yes. See [`crate::count`].
pub fn count(table: &[u8]) -> Result<u32, Refusal> {
    outcome(boundary::count(table))
}

/// How many pairs are yes after accepting a pair. See [`crate::score`].
pub fn score(table: &[u8], lender: Wire, taker: Wire) -> Result<u32, Refusal> {
    outcome(boundary::score(table, lender.0, taker.0))
}

/// How many pairs were chosen, and how many trials it took.
#[derive(Clone, Copy, Debug, PartialEq, Eq)]
pub struct Chosen {
    /// How many pairs were chosen: each is a record of three bytes.
    pub pairs: usize,
    /// How many pairs were tried, over all rounds.
    pub trials: u32,
}

/// Chooses pairs greedily and writes them as records of kind 60, in the order chosen: the kind, the
/// lender, the taker. See [`crate::greedy`].
pub fn greedy(table: &[u8], out: &mut [u8]) -> Result<Chosen, Refusal> {
    let value = outcome(boundary::greedy(table, out))?;
    Ok(Chosen {
        pairs: (value % 256) as usize,
        trials: value / 256,
    })
}
