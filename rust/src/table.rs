//! The table of possible reuse pairs, by value.

use crate::{bytes, Refusal};

/// A line of the static circuit, by its number.
#[derive(Clone, Copy, Debug, PartialEq, Eq, PartialOrd, Ord, Hash)]
pub struct Wire(pub u8);

/// The table of possible reuse pairs: who may lend to whom, and who lends or takes already.
///
/// [`start`] makes a circuit's table and [`offer`] grows it. One made by hand from any bytes is
/// answered too; where its width is 0 or above 32 the refusal is 27.
#[derive(Clone, Copy, Debug, PartialEq, Eq)]
pub struct Table([u8; Table::LENGTH]);

impl Table {
    /// The most wires that a table may have.
    pub const MOST_WIRES: usize = 32;
    /// How many bytes hold a mark for each wire.
    const ROW_LENGTH: usize = Table::MOST_WIRES / 8;
    /// How many bytes a table has: the width, a row for each lender, the used lenders and takers.
    pub const LENGTH: usize = 1 + (Table::MOST_WIRES + 2) * Table::ROW_LENGTH;

    /// The table with these bytes. Missing ones count as 0, and further ones are not read.
    ///
    /// ```
    /// use thaksipho::{may, Refusal, Table, Wire};
    ///
    /// // Two wires, and one mark: wire 0 may lend to wire 1.
    /// let table = Table::from_bytes(&[2, 0b10]);
    /// assert_eq!(table.width(), 2);
    /// assert_eq!(may(&table, Wire(0), Wire(1)), Ok(true));
    /// assert_eq!(Table::from_bytes(table.as_bytes()), table);
    /// // A table without bytes has width 0.
    /// let refused = Refusal { number: 27, place: 0 };
    /// assert_eq!(may(&Table::from_bytes(&[]), Wire(0), Wire(1)), Err(refused));
    /// ```
    pub fn from_bytes(bytes: &[u8]) -> Table {
        let mut table = [0; Table::LENGTH];
        for (byte, &given) in table.iter_mut().zip(bytes) {
            *byte = given;
        }
        Table(table)
    }

    /// The table's bytes.
    pub fn as_bytes(&self) -> &[u8; Table::LENGTH] {
        &self.0
    }

    /// How many wires it has.
    pub fn width(&self) -> u8 {
        self.0[0]
    }
}

/// The table of a static circuit with no pairs accepted: a pair is yes exactly when the taker's
/// reset does not lead to the lender's measurement. A circuit is refused as [`crate::read`] refuses
/// it.
///
/// ```
/// use thaksipho::{count, may, offer, start, Refusal, Wire};
///
/// // Two wires without gates: either may lend to the other, but not both.
/// let circuit = [0x01, 2, 0x10, 0, 0x10, 1, 0x11, 0, 0, 0x11, 1, 1];
/// let table = start(&circuit)?;
/// assert_eq!(count(&table), Ok(2));
/// let table = offer(&table, Wire(0), Wire(1))?;
/// assert_eq!(may(&table, Wire(1), Wire(0)), Ok(false));
/// assert_eq!(offer(&table, Wire(1), Wire(0)), Err(Refusal { number: 23, place: 0 }));
/// # Ok::<(), Refusal>(())
/// ```
pub fn start(circuit: &[u8]) -> Result<Table, Refusal> {
    let mut table = [0; Table::LENGTH];
    bytes::start(circuit, &mut table)?;
    Ok(Table(table))
}

/// Whether the lender may lend to the taker. Numbers at or above the width are no.
///
/// ```
/// use thaksipho::{may, start, Refusal, Wire};
///
/// // A, of document 01: a gate on wires 0 and 1, then one on 1 and 2. Wire 0 can be done before
/// // wire 2 begins, and not the other way round.
/// let a = [
///     0x01, 3, 0x10, 0, 0x10, 1, 0x10, 2, 0x40, 0, 1, 0x40, 1, 2, 0x11, 0, 0, 0x11, 1, 1, 0x11, 2, 2,
/// ];
/// let table = start(&a)?;
/// assert_eq!(may(&table, Wire(0), Wire(2)), Ok(true));
/// assert_eq!(may(&table, Wire(2), Wire(0)), Ok(false));
/// # Ok::<(), Refusal>(())
/// ```
pub fn may(table: &Table, lender: Wire, taker: Wire) -> Result<bool, Refusal> {
    bytes::may(&table.0, lender, taker)
}

/// Offers a pair: the table after accepting it, or why it is not accepted. It is accepted exactly
/// when [`may`] says yes.
///
/// The refusals are 27, then 20 where a number is not below the width, 21 where the lender already
/// lends, 22 where the taker already takes and 23 where the pair closes a loop, at place 0.
///
/// ```
/// use thaksipho::{count, offer, start, Refusal, Wire};
///
/// // B, of document 01: three wires without gates.
/// let b = [
///     0x01, 3, 0x10, 0, 0x10, 1, 0x10, 2, 0x11, 0, 0, 0x11, 1, 1, 0x11, 2, 2,
/// ];
/// let refused = |number| Err(Refusal { number, place: 0 });
/// let table = offer(&start(&b)?, Wire(0), Wire(1))?;
/// assert_eq!(offer(&table, Wire(0), Wire(3)), refused(20));
/// assert_eq!(offer(&table, Wire(0), Wire(2)), refused(21));
/// assert_eq!(offer(&table, Wire(2), Wire(1)), refused(22));
/// assert_eq!(offer(&table, Wire(1), Wire(0)), refused(23));
/// // A wire that has taken may still lend; after that no pair is left.
/// let table = offer(&table, Wire(1), Wire(2))?;
/// assert_eq!(count(&table), Ok(0));
/// # Ok::<(), Refusal>(())
/// ```
pub fn offer(table: &Table, lender: Wire, taker: Wire) -> Result<Table, Refusal> {
    let mut after = [0; Table::LENGTH];
    bytes::offer(&table.0, lender, taker, &mut after)?;
    Ok(Table(after))
}

/// How many pairs are yes.
///
/// ```
/// use thaksipho::{count, start, Refusal};
///
/// // A, of document 01: only wire 0 may lend, and only to wire 2.
/// let a = [
///     0x01, 3, 0x10, 0, 0x10, 1, 0x10, 2, 0x40, 0, 1, 0x40, 1, 2, 0x11, 0, 0, 0x11, 1, 1, 0x11, 2, 2,
/// ];
/// assert_eq!(count(&start(&a)?), Ok(1));
/// # Ok::<(), Refusal>(())
/// ```
pub fn count(table: &Table) -> Result<u32, Refusal> {
    bytes::count(&table.0)
}

/// How many pairs are yes after accepting this one, which is refused as [`offer`] would refuse it.
///
/// ```
/// use thaksipho::{count, score, start, Refusal, Wire};
///
/// // B, of document 01: three wires without gates.
/// let b = [
///     0x01, 3, 0x10, 0, 0x10, 1, 0x10, 2, 0x11, 0, 0, 0x11, 1, 1, 0x11, 2, 2,
/// ];
/// let table = start(&b)?;
/// assert_eq!(count(&table), Ok(6));
/// assert_eq!(score(&table, Wire(0), Wire(1)), Ok(2));
/// # Ok::<(), Refusal>(())
/// ```
pub fn score(table: &Table, lender: Wire, taker: Wire) -> Result<u32, Refusal> {
    bytes::score(&table.0, lender, taker)
}

#[cfg(test)]
mod tests {
    use super::*;

    #[test]
    fn a_table_has_137_bytes_and_missing_ones_are_0() {
        assert_eq!(Table::LENGTH, 137);
        let table = Table::from_bytes(&[2, 0x02]);
        assert_eq!(table.width(), 2);
        assert_eq!(table.as_bytes()[..3], [2, 0x02, 0]);
        assert!(table.as_bytes()[2..].iter().all(|&byte| byte == 0));
        assert_eq!(Table::from_bytes(&[7; 200]), Table([7; Table::LENGTH]));
    }
}
