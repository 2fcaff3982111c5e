//! The table of possible reuse pairs, by 32-bit rows, and its bytes.

use crate::circuit::{below, pass, Visitor, MOST_WIRES};
use crate::{room, Refusal};

/// How many bytes a row has.
const ROW_LENGTH: usize = 4;
/// How many bytes a table has: the width, the rows, the used lenders and the used takers.
pub(crate) const TABLE_LENGTH: usize = 1 + (MOST_WIRES + 2) * ROW_LENGTH;

/// Who may lend to whom. Every mark that stands in a row counts.
#[derive(Clone, Copy)]
pub(crate) struct Table {
    pub width: u8,
    pub rows: [u32; MOST_WIRES],
    lending: u32,
    taking: u32,
}

impl Table {
    /// The table that bytes say, without the marks that do not count; 27 for a wrong width.
    pub fn from_bytes(bytes: &[u8]) -> Result<Table, Refusal> {
        let mut padded = [0; TABLE_LENGTH];
        let given = bytes.len().min(TABLE_LENGTH);
        padded[..given].copy_from_slice(&bytes[..given]);
        let width = padded[0];
        if width == 0 || usize::from(width) > MOST_WIRES {
            return Err(Refusal {
                number: 27,
                place: 0,
            });
        }
        let number = |index: usize| {
            let at = 1 + index * ROW_LENGTH;
            u32::from_le_bytes([padded[at], padded[at + 1], padded[at + 2], padded[at + 3]])
        };
        let lending = number(MOST_WIRES) & below(width);
        let taking = number(MOST_WIRES + 1) & below(width);
        let free_lenders = below(width) & !lending;
        let free_takers = below(width) & !taking;
        let row = |lender: usize| match free_lenders >> lender & 1 {
            0 => 0,
            _ => number(lender) & free_takers & !(1 << lender),
        };
        Ok(Table {
            width,
            rows: std::array::from_fn(row),
            lending,
            taking,
        })
    }

    fn write(&self, out: &mut [u8]) {
        let (width, rest) = out.split_at_mut(1);
        width[0] = self.width;
        let numbers = self.rows.iter().chain([&self.lending, &self.taking]);
        for (bytes, number) in rest.chunks_exact_mut(ROW_LENGTH).zip(numbers) {
            bytes.copy_from_slice(&number.to_le_bytes());
        }
    }

    /// Accepts a pair, or refuses it by its number: 20, 21, 22, 23.
    pub fn offer(&mut self, lender: u8, taker: u8) -> Result<(), u8> {
        if lender >= self.width || taker >= self.width {
            return Err(20);
        }
        if self.lending >> lender & 1 != 0 {
            return Err(21);
        }
        if self.taking >> taker & 1 != 0 {
            return Err(22);
        }
        if self.rows[usize::from(lender)] >> taker & 1 == 0 {
            return Err(23);
        }
        self.accept(lender, taker);
        Ok(())
    }

    /// Accepts a pair that is yes.
    pub fn accept(&mut self, lender: u8, taker: u8) {
        let given = self.rows[usize::from(lender)];
        for row in &mut self.rows[..usize::from(self.width)] {
            *row = row_after(*row, given, taker);
        }
        self.rows[usize::from(lender)] = 0;
        self.lending |= 1 << lender;
        self.taking |= 1 << taker;
    }
}

/// What an accepted pair leaves of another lender's row: all but the taker where the lender may lend
/// to the taker, and else only what the pair's lender has too.
#[inline]
pub(crate) fn row_after(row: u32, given: u32, taker: u8) -> u32 {
    let may = (row >> taker & 1).wrapping_neg();
    row & (given | may) & !(1 << taker)
}

/// For each wire the wires whose resets lead to the last instruction on it so far.
pub(crate) struct Sets([u32; MOST_WIRES]);

impl Sets {
    pub fn none() -> Sets {
        Sets([0; MOST_WIRES])
    }

    #[inline]
    pub fn reset(&mut self, wire: u8) {
        self.0[usize::from(wire)] = 1 << wire;
    }

    #[inline]
    pub fn join(&mut self, first: u8, second: u8) {
        let both = self.0[usize::from(first)] | self.0[usize::from(second)];
        self.0[usize::from(first)] = both;
        self.0[usize::from(second)] = both;
    }

    /// The table after the last instruction: a wire may lend to those whose resets do not lead to
    /// its measurement.
    pub fn table(&self, width: u8) -> Table {
        let row = |wire: usize| match wire < usize::from(width) {
            true => below(width) & !self.0[wire],
            false => 0,
        };
        Table {
            width,
            rows: std::array::from_fn(row),
            lending: 0,
            taking: 0,
        }
    }
}

impl Visitor for Sets {
    fn reset(&mut self, _: usize, wire: u8) {
        Sets::reset(self, wire);
    }
    fn measurement(&mut self, _: usize, _: u8) {}
    fn gate(&mut self, _: usize, _: u8) {}
    fn gate_on_two(&mut self, _: usize, first: u8, second: u8) {
        self.join(first, second);
    }
}

/// Writes the table of a static circuit, and gives the number of bytes written.
#[inline(never)]
pub fn start(circuit: &[u8], out: &mut [u8]) -> Result<usize, Refusal> {
    let mut sets = Sets::none();
    let read = pass(circuit, &mut sets)?;
    sets.table(read.wires).write(room(out, TABLE_LENGTH)?);
    Ok(TABLE_LENGTH)
}
