//! Tables made by hand, as bytes of any length: many that no circuit has, and many of a wrong width.

use crate::circuits::MOST_WIRES;
use crate::Random;

/// How many bytes hold a mark for each wire.
pub const ROW_LENGTH: usize = MOST_WIRES as usize / 8;
/// Where the rows of marks end and the used lenders begin.
const END_OF_ROWS: usize = 1 + MOST_WIRES as usize * ROW_LENGTH;
/// How many bytes a table has: the width, a row for each lender, the used lenders and takers.
pub const TABLE_LENGTH: usize = END_OF_ROWS + 2 * ROW_LENGTH;
/// How many bytes the longest table made here has, with bytes too many.
const MOST_BYTES: usize = 150;

/// The table of this width with these rows of marks and these used lenders and takers. Rows that
/// are not given have no marks.
pub fn table(width: u8, rows: &[u32], lending: u32, taking: u32) -> Vec<u8> {
    let mut bytes = vec![width];
    bytes.extend(rows.iter().flat_map(|row| row.to_le_bytes()));
    bytes.resize(END_OF_ROWS, 0);
    bytes.extend(lending.to_le_bytes());
    bytes.extend(taking.to_le_bytes());
    bytes
}

/// Every table of this width whose marks all stand below it.
pub fn every_table(width: u8) -> impl Iterator<Item = Vec<u8>> {
    let bits = u32::from(width);
    let row = move |marks: u32, at: u32| marks >> (at * bits) & ((1 << bits) - 1);
    (0..1_u32 << (bits * (bits + 2))).map(move |marks| {
        let rows: Vec<u32> = (0..bits).map(|at| row(marks, at)).collect();
        table(width, &rows, row(marks, bits), row(marks, bits + 1))
    })
}

/// Any table: mostly narrow, and half of the time with bytes missing or too many. Marks stand
/// anywhere, on the diagonal and at or above the width too.
pub fn any_table(random: &mut Random) -> Vec<u8> {
    let width = any_width(random);
    table_of_width(random, width)
}

/// Any table of this width, which may be wrong.
pub fn table_of_width(random: &mut Random, width: u8) -> Vec<u8> {
    let yes = random.one_of(&[1, 4, 7, 8]);
    let used = random.one_of(&[0, 1, 3]);
    let mut bytes = vec![width];
    bytes.extend((1..END_OF_ROWS).map(|_| byte_of(random, yes)));
    bytes.extend((END_OF_ROWS..MOST_BYTES).map(|_| byte_of(random, used)));
    bytes.truncate(match random.once_in(2) {
        true => TABLE_LENGTH,
        false => random.below(MOST_BYTES + 1),
    });
    bytes
}

/// A width: mostly small, sometimes at or beside a limit, sometimes any byte.
fn any_width(random: &mut Random) -> u8 {
    match random.below(12) {
        0 => random.one_of(&[0, MOST_WIRES + 1, u8::MAX]),
        1 => random.byte(),
        2 => MOST_WIRES - random.below(2) as u8,
        3 => 1 + random.below(usize::from(MOST_WIRES)) as u8,
        _ => 1 + random.below(6) as u8,
    }
}

/// A byte in which so many bits of eight are set, on average.
fn byte_of(random: &mut Random, bits: usize) -> u8 {
    (0..8).fold(0, |byte, bit| {
        byte | u8::from(random.below(8) < bits) << bit
    })
}

#[cfg(test)]
mod tests {
    use super::*;

    #[test]
    fn a_table_has_137_bytes() {
        assert_eq!(TABLE_LENGTH, 137);
        let bytes = table(2, &[0x02, 0x03], 0x0400_0001, 0x80);
        assert_eq!(bytes.len(), TABLE_LENGTH);
        assert_eq!(bytes[..9], [2, 2, 0, 0, 0, 3, 0, 0, 0]);
        assert_eq!(bytes[129..], [1, 0, 0, 4, 0x80, 0, 0, 0]);
    }

    #[test]
    fn tables_made_at_random_have_every_length_and_the_widths_at_the_limits() {
        let mut random = Random::new(5);
        let tables: Vec<_> = (0..20_000).map(|_| any_table(&mut random)).collect();
        for length in 0..=MOST_BYTES {
            assert!(tables.iter().any(|table| table.len() == length), "{length}");
        }
        for width in [0, 1, 2, 31, 32, 33, 255] {
            assert!(
                tables.iter().any(|table| table.first() == Some(&width)),
                "{width}"
            );
        }
    }
}
