//! The greedy choice over 32-bit rows: a pair is tried by counting what it would leave, row by row,
//! and no table is made for a trial.

use crate::table::{row_after, Table};
use crate::{room, Refusal};

const PAIR: u8 = 0x60;
/// How many bytes the record of a pair has.
pub(crate) const PAIR_LENGTH: usize = 3;

/// How many pairs were chosen, and how many trials it took.
#[derive(Clone, Copy, Debug, PartialEq, Eq)]
pub struct Chosen {
    /// How many pairs were chosen.
    pub pairs: usize,
    /// How many pairs were tried, over all rounds.
    pub trials: u32,
}

/// Chooses pairs greedily and writes them as records of kind 60, in the order chosen.
#[inline(never)]
pub fn greedy(table: &[u8], out: &mut [u8]) -> Result<Chosen, Refusal> {
    let mut table = Table::from_bytes(table)?;
    let mut pairs = Vec::with_capacity(usize::from(table.width));
    let mut trials = 0;
    loop {
        let marks: u32 = table.rows.iter().map(|row| row.count_ones()).sum();
        if marks == 0 {
            break;
        }
        trials += marks;
        let (lender, taker) = best_pair(&table);
        table.accept(lender, taker);
        pairs.push([PAIR, lender, taker]);
    }
    let records = room(out, pairs.len() * PAIR_LENGTH)?;
    records.copy_from_slice(pairs.as_flattened());
    Ok(Chosen {
        pairs: pairs.len(),
        trials,
    })
}

/// The pair that leaves most yes marks, the lowest lender and then the lowest taker on a tie. There
/// is a yes.
fn best_pair(table: &Table) -> (u8, u8) {
    let rows = &table.rows[..usize::from(table.width)];
    let mut best = (0, 0);
    let mut highest = None;
    for (lender, &given) in rows.iter().enumerate() {
        let mut takers = given;
        while takers != 0 {
            let taker = takers.trailing_zeros() as u8;
            takers &= takers - 1;
            let score = Some(marks_left(rows, given, taker));
            if score > highest {
                highest = score;
                best = (lender as u8, taker);
            }
        }
    }
    best
}

/// How many yes marks are left after a pair is accepted. The lender's own row, which it loses, has
/// all its marks but the taker's after the rule for other rows, so these are taken off.
#[inline]
fn marks_left(rows: &[u32], given: u32, taker: u8) -> u32 {
    let in_all: u32 = rows
        .iter()
        .map(|&row| row_after(row, given, taker).count_ones())
        .sum();
    in_all - (given.count_ones() - 1)
}
