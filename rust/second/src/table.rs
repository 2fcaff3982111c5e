//! The table of possible pairs: which lender may still lend to which taker.

use crate::{Pair, Refusal, Wire};
use std::collections::BTreeSet;
use std::ops::Range;

/// How many wires a table has room for, and the most that its width may be.
const MOST_WIRES: u8 = 32;
/// How many bytes hold a mark for each wire.
const ROW_LENGTH: usize = 4;
/// The bytes of the rows of marks, one row a lender, after the byte of the width.
const ROWS: Range<usize> = 1..1 + MOST_WIRES as usize * ROW_LENGTH;
/// The bytes of the used lenders.
const LENDING: Range<usize> = ROWS.end..ROWS.end + ROW_LENGTH;
/// The bytes of the used takers.
const TAKING: Range<usize> = LENDING.end..LENDING.end + ROW_LENGTH;

/// A table. One made by hand may hold any marks, also such as do not count.
#[derive(Clone, Debug, PartialEq, Eq)]
pub struct Table {
    /// How many wires the circuit has. Only 1 to 32 is a width that a call takes.
    pub width: u8,
    /// The marks, whether they count or not, of wires 0 to 31.
    pub marks: BTreeSet<Pair>,
    /// The lenders that are marked as lending.
    pub lending: BTreeSet<Wire>,
    /// The takers that are marked as taking.
    pub taking: BTreeSet<Wire>,
}

impl Table {
    /// The table that the bytes hold: the width; for each of 32 lenders a mark for each of 32
    /// takers, four bytes, the lowest taker in the lowest place of the first; the used lenders and
    /// the used takers, four bytes each. Missing bytes count as 0, further ones are not read.
    pub fn from_bytes(bytes: &[u8]) -> Table {
        let mut whole = bytes.to_vec();
        whole.resize(TAKING.end, 0);
        let rows = whole[ROWS].chunks(ROW_LENGTH);
        let marks = wires(MOST_WIRES).zip(rows).flat_map(|(lender, row)| {
            let takers = marked(row).into_iter();
            takers.map(move |taker| Pair { lender, taker })
        });
        Table {
            width: whole[0],
            marks: marks.collect(),
            lending: marked(&whole[LENDING]),
            taking: marked(&whole[TAKING]),
        }
    }

    /// The table's 137 bytes, as [`Table::from_bytes`] takes them.
    pub fn bytes(&self) -> Vec<u8> {
        let mut bytes = vec![self.width];
        for lender in wires(MOST_WIRES) {
            bytes.extend(row(|taker| self.marks.contains(&Pair { lender, taker })));
        }
        bytes.extend(row(|wire| self.lending.contains(&wire)));
        bytes.extend(row(|wire| self.taking.contains(&wire)));
        bytes
    }

    /// The marks that count as yes.
    pub fn counting(&self) -> BTreeSet<Pair> {
        let marks = self.marks.iter().copied();
        marks.filter(|&mark| self.counts(mark)).collect()
    }

    /// Whether the lender may lend to the taker: 27, or yes or no.
    pub fn may(&self, pair: Pair) -> Result<bool, Refusal> {
        self.check_width()?;
        Ok(self.counts(pair))
    }

    /// How many marks count as yes, or 27.
    pub fn count(&self) -> Result<usize, Refusal> {
        self.check_width()?;
        Ok(self.counting().len())
    }

    /// The table after the pair is accepted, or the refusal of the offer.
    pub fn offer(&self, pair: Pair) -> Result<Table, Refusal> {
        self.check_offer(pair)?;
        let mut after = Table {
            width: self.width,
            marks: self.counting(),
            lending: self.below_width(&self.lending),
            taking: self.below_width(&self.taking),
        };
        let lenders_with_no = self.lenders_with_no(pair.taker);
        for &v in &self.takers_with_no(pair.lender) {
            for &u in &lenders_with_no {
                after.marks.remove(&Pair {
                    lender: u,
                    taker: v,
                });
            }
        }
        after
            .marks
            .retain(|mark| mark.lender != pair.lender && mark.taker != pair.taker);
        after.lending.insert(pair.lender);
        after.taking.insert(pair.taker);
        Ok(after)
    }

    /// How many yes marks are left after the pair is accepted, or the refusal of its offer.
    pub fn score(&self, pair: Pair) -> Result<usize, Refusal> {
        self.offer(pair)?.count()
    }

    /// Whether the pair has a mark that counts as yes.
    fn counts(&self, pair: Pair) -> bool {
        let Pair { lender, taker } = pair;
        self.marks.contains(&pair)
            && self.is_below_width(lender)
            && self.is_below_width(taker)
            && lender != taker
            && !self.lending.contains(&lender)
            && !self.taking.contains(&taker)
    }

    /// The takers to which this lender may not lend, itself among them.
    fn takers_with_no(&self, lender: Wire) -> BTreeSet<Wire> {
        let takers = wires(self.width);
        takers
            .filter(|&taker| !self.counts(Pair { lender, taker }))
            .collect()
    }

    /// The lenders that may not lend to this taker, itself among them.
    fn lenders_with_no(&self, taker: Wire) -> BTreeSet<Wire> {
        let lenders = wires(self.width);
        lenders
            .filter(|&lender| !self.counts(Pair { lender, taker }))
            .collect()
    }

    fn check_width(&self) -> Result<(), Refusal> {
        match self.width {
            1..=MOST_WIRES => Ok(()),
            _ => refused(27),
        }
    }

    fn check_offer(&self, pair: Pair) -> Result<(), Refusal> {
        self.check_width()?;
        let Pair { lender, taker } = pair;
        if !self.is_below_width(lender) || !self.is_below_width(taker) {
            refused(20)
        } else if self.lending.contains(&lender) {
            refused(21)
        } else if self.taking.contains(&taker) {
            refused(22)
        } else if !self.counts(pair) {
            refused(23)
        } else {
            Ok(())
        }
    }

    fn is_below_width(&self, wire: Wire) -> bool {
        wire.0 < self.width
    }

    fn below_width(&self, used: &BTreeSet<Wire>) -> BTreeSet<Wire> {
        let used = used.iter().copied();
        used.filter(|&wire| self.is_below_width(wire)).collect()
    }
}

fn refused(number: u8) -> Result<(), Refusal> {
    Err(Refusal { number, place: 0 })
}

fn wires(end: u8) -> impl Iterator<Item = Wire> {
    (0..end).map(Wire)
}

/// The wires that have a mark in these four bytes, the lowest byte first.
fn marked(row: &[u8]) -> BTreeSet<Wire> {
    let has_mark = |wire: &Wire| row[usize::from(wire.0 / 8)] >> (wire.0 % 8) & 1 == 1;
    wires(MOST_WIRES).filter(has_mark).collect()
}

/// The four bytes, the lowest first, with a mark for each wire for which the question says yes.
fn row(question: impl Fn(Wire) -> bool) -> [u8; ROW_LENGTH] {
    let mut row = [0; ROW_LENGTH];
    for wire in wires(MOST_WIRES).filter(|&wire| question(wire)) {
        row[usize::from(wire.0 / 8)] |= 1 << (wire.0 % 8);
    }
    row
}

#[cfg(test)]
mod tests {
    use super::*;

    fn pairs<const N: usize>(pairs: [(u8, u8); N]) -> BTreeSet<Pair> {
        let pairs = pairs.into_iter();
        pairs
            .map(|(lender, taker)| Pair::of(lender, taker))
            .collect()
    }

    fn wire_set<const N: usize>(numbers: [u8; N]) -> BTreeSet<Wire> {
        numbers.into_iter().map(Wire).collect()
    }

    /// A table with no wire used.
    fn fresh<const N: usize>(width: u8, marks: [(u8, u8); N]) -> Table {
        Table {
            width,
            marks: pairs(marks),
            lending: BTreeSet::new(),
            taking: BTreeSet::new(),
        }
    }

    /// The table of B: no wire leads to another.
    fn of_b() -> Table {
        fresh(3, [(0, 1), (0, 2), (1, 0), (1, 2), (2, 0), (2, 1)])
    }

    /// The table of P11's circuit: 0 and 1 may lend to 2 and 3, and these to those.
    fn of_p11() -> Table {
        let one_way = [(0, 2), (0, 3), (1, 2), (1, 3)];
        let other_way = [(2, 0), (2, 1), (3, 0), (3, 1)];
        let mut table = fresh(4, one_way);
        table.marks.extend(pairs(other_way));
        table
    }

    /// The table of Fig. 4 in source document 000.
    fn of_fig_4() -> Table {
        fresh(
            5,
            [
                (0, 1),
                (0, 2),
                (0, 3),
                (1, 0),
                (1, 2),
                (1, 3),
                (1, 4),
                (2, 1),
                (2, 3),
                (3, 1),
                (4, 1),
            ],
        )
    }

    fn refusal(number: u8) -> Refusal {
        Refusal { number, place: 0 }
    }

    #[test]
    fn the_first_offer_on_b_leaves_two_marks() {
        // No at (0, 0) and at (1, 1): (1, 0) becomes no. Row 0 and column 1 go.
        let table = of_b().offer(Pair::of(0, 1)).unwrap();
        assert_eq!(
            table,
            Table {
                width: 3,
                marks: pairs([(1, 2), (2, 0)]),
                lending: wire_set([0]),
                taking: wire_set([1]),
            }
        );
        // A wire that has taken may still lend. Then the loop back to 0 is no.
        let table = table.offer(Pair::of(1, 2)).unwrap();
        assert_eq!(table.marks, BTreeSet::new());
        assert_eq!(table.lending, wire_set([0, 1]));
        assert_eq!(table.taking, wire_set([1, 2]));
        assert_eq!(table.offer(Pair::of(2, 0)), Err(refusal(23)));
    }

    #[test]
    fn after_0_to_2_of_p11_only_1_to_3_is_left() {
        let table = of_p11().offer(Pair::of(0, 2)).unwrap();
        assert_eq!(table.marks, pairs([(1, 3)]));
        assert_eq!(table.offer(Pair::of(3, 1)), Err(refusal(23)));
        assert_eq!(of_p11().score(Pair::of(0, 2)), Ok(1));
        assert!(of_p11().offer(Pair::of(3, 1)).is_ok());
    }

    #[test]
    fn fig_4_of_the_source_paper_comes_out() {
        let table = of_fig_4().offer(Pair::of(3, 1)).unwrap();
        assert_eq!(table.marks, pairs([(0, 2), (0, 3), (2, 3)]));
        // "Two edges share the highest score 7."
        let scores = of_fig_4().marks.into_iter().map(|pair| {
            let score = of_fig_4().score(pair).unwrap();
            (pair, score)
        });
        let highest: BTreeSet<Pair> = scores
            .inspect(|(_, score)| assert!(*score <= 7))
            .filter(|(_, score)| *score == 7)
            .map(|(pair, _)| pair)
            .collect();
        assert_eq!(highest, pairs([(0, 2), (2, 3)]));
    }

    #[test]
    fn a_mark_counts_only_below_the_width_off_the_diagonal_and_unused() {
        let mut table = fresh(3, [(0, 0), (0, 1), (0, 2), (0, 3), (1, 2), (2, 1), (3, 0)]);
        table.lending = wire_set([1, 31]);
        table.taking = wire_set([2, 30]);
        assert_eq!(table.counting(), pairs([(0, 1), (2, 1)]));
        assert_eq!(table.count(), Ok(2));
        assert_eq!(table.may(Pair::of(0, 1)), Ok(true));
        assert_eq!(table.may(Pair::of(0, 0)), Ok(false));
        assert_eq!(table.may(Pair::of(3, 0)), Ok(false));
        assert_eq!(table.may(Pair::of(255, 255)), Ok(false));
    }

    #[test]
    fn an_accepted_offer_clears_what_does_not_count() {
        let mut table = fresh(4, [(0, 1), (2, 2), (2, 3), (3, 0), (3, 2), (4, 5), (9, 0)]);
        table.lending = wire_set([3, 31]);
        table.taking = wire_set([0, 4]);
        // No at (0, v) for 0, 2, 3; no at (u, 1) for 1, 2, 3. So (2, 3) becomes no, though it
        // would count. Nothing else counted.
        let after = table.offer(Pair::of(0, 1)).unwrap();
        assert_eq!(
            after,
            Table {
                width: 4,
                marks: BTreeSet::new(),
                lending: wire_set([0, 3]),
                taking: wire_set([0, 1]),
            }
        );
    }

    #[test]
    fn a_mark_on_the_diagonal_does_not_keep_another_alive() {
        // (0, 0) and (1, 1) do not count, so (1, 0) becomes no, as it does without them.
        let table = fresh(2, [(0, 0), (0, 1), (1, 0), (1, 1)]);
        let after = table.offer(Pair::of(0, 1)).unwrap();
        assert_eq!(after.marks, BTreeSet::new());
        assert_eq!(table.score(Pair::of(0, 1)), Ok(0));
    }

    #[test]
    fn a_mark_stays_where_one_of_the_two_others_is_yes() {
        // Accepting 0 to 1. (2, 3): yes at (0, 3). (3, 2): yes at (3, 1). (2, 0): no at (0, 0)
        // and at (2, 1).
        let table = fresh(4, [(0, 1), (0, 3), (2, 3), (3, 2), (3, 1), (2, 0)]);
        let after = table.offer(Pair::of(0, 1)).unwrap();
        assert_eq!(after.marks, pairs([(2, 3), (3, 2)]));
    }

    #[test]
    fn an_offer_is_judged_in_the_order_of_the_document() {
        let mut table = of_b();
        table.lending = wire_set([0, 3]);
        table.taking = wire_set([1, 3]);
        let cases = [
            ((3, 0), 20),
            ((0, 3), 20),
            ((0, 2), 21),
            ((0, 1), 21),
            ((0, 0), 21),
            ((2, 1), 22),
            ((1, 1), 22),
            ((2, 2), 23),
        ];
        for ((lender, taker), number) in cases {
            let pair = Pair::of(lender, taker);
            assert_eq!(table.offer(pair), Err(refusal(number)), "{pair:?}");
            assert_eq!(table.score(pair), Err(refusal(number)), "{pair:?}");
        }
    }

    #[test]
    fn a_wrong_width_is_refused_by_every_call_and_first() {
        for width in [0, 33, 255] {
            let table = Table { width, ..of_b() };
            let pair = Pair::of(255, 0);
            assert_eq!(table.may(pair), Err(refusal(27)));
            assert_eq!(table.count(), Err(refusal(27)));
            assert_eq!(table.offer(pair), Err(refusal(27)));
            assert_eq!(table.score(pair), Err(refusal(27)));
        }
        for width in [1, 32] {
            assert!(Table { width, ..of_b() }.count().is_ok());
        }
    }

    #[test]
    fn bytes_are_read_and_written() {
        let mut bytes = vec![0; 137];
        bytes[0] = 40;
        bytes[1] = 0b10;
        bytes[8] = 0x80;
        bytes[125] = 1;
        bytes[130] = 1;
        bytes[136] = 0x40;
        let table = Table {
            width: 40,
            marks: pairs([(0, 1), (1, 31), (31, 0)]),
            lending: wire_set([8]),
            taking: wire_set([30]),
        };
        assert_eq!(Table::from_bytes(&bytes), table);
        assert_eq!(table.bytes(), bytes);
    }

    #[test]
    fn missing_bytes_are_0_and_further_ones_are_not_read() {
        assert_eq!(Table::from_bytes(&[]).bytes(), [0; 137]);
        assert_eq!(Table::from_bytes(&[3, 2]), fresh(3, [(0, 1)]));
        let all = vec![0xFF; 150];
        assert_eq!(Table::from_bytes(&all).bytes(), all[..137]);
    }
}
