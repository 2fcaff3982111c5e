//! The greedy choice of pairs, from a table alone.

use crate::{Pair, Refusal, Table, Wire};
use std::cmp::Reverse;
use std::collections::BTreeSet;

/// What the greedy choice gives.
#[derive(Clone, Debug, PartialEq, Eq)]
pub struct Greedy {
    /// The pairs, in the order in which they were chosen.
    pub pairs: Vec<Pair>,
    /// The table as the offers of these pairs leave it; the one given, where there are none.
    pub table: Table,
    /// How many pairs were tried: the sum over the rounds of the yes marks at the round's start.
    pub trials: usize,
}

/// Chooses pairs until the table has no yes left, or gives 27 for a wrong width.
pub fn greedy(table: &Table) -> Result<Greedy, Refusal> {
    let mut greedy = Greedy {
        pairs: Vec::new(),
        table: table.clone(),
        trials: 0,
    };
    loop {
        let yes_marks = greedy.table.count()?;
        if yes_marks == 0 {
            return Ok(greedy);
        }
        let pair = Round::of(&greedy.table).best();
        greedy.table = greedy.table.offer(pair)?;
        greedy.pairs.push(pair);
        greedy.trials += yes_marks;
    }
}

/// The yes marks at the start of a round, sorted out so that very many pairs can be tried quickly.
/// The score is the one of [`Table::score`].
struct Round {
    yes: BTreeSet<Pair>,
    /// The same as a square: a row for each lender, in it a yes or no for each taker.
    rows: Vec<Vec<bool>>,
    /// For each two lenders, how many takers have a yes with both.
    shared: Vec<Vec<usize>>,
}

impl Round {
    fn of(table: &Table) -> Round {
        let yes = table.counting();
        let width = usize::from(table.width);
        let mut rows = vec![vec![false; width]; width];
        for mark in &yes {
            rows[index(mark.lender)][index(mark.taker)] = true;
        }
        let shared_by_all = |row: &Vec<bool>| rows.iter().map(|other| shared(row, other)).collect();
        Round {
            shared: rows.iter().map(shared_by_all).collect(),
            yes,
            rows,
        }
    }

    /// The pair with the highest score; of several the one with the lowest lender, then the lowest
    /// taker. There is at least one yes.
    fn best(&self) -> Pair {
        let tried = self.yes.iter().copied();
        tried
            .min_by_key(|&pair| (Reverse(self.score(pair)), pair))
            .expect("a round begins with a yes")
    }

    /// How many yes marks are left after l to t is accepted. Row l goes. Another lender that may
    /// lend to t keeps all its takers but t. One that may not keeps those with which l has a yes.
    fn score(&self, pair: Pair) -> usize {
        let (lender, taker) = (index(pair.lender), index(pair.taker));
        let others = (0..self.rows.len()).filter(|&other| other != lender);
        let left = others.map(|other| match self.rows[other][taker] {
            true => self.shared[other][other] - 1,
            false => self.shared[lender][other],
        });
        left.sum()
    }
}

/// How many takers have a yes in both rows.
fn shared(row: &[bool], other: &[bool]) -> usize {
    row.iter().zip(other).filter(|(a, b)| **a && **b).count()
}

fn index(wire: Wire) -> usize {
    usize::from(wire.0)
}

#[cfg(test)]
mod tests {
    use super::*;

    fn table(width: u8, marks: &[(u8, u8)]) -> Table {
        let marks = marks.iter();
        Table {
            width,
            marks: marks
                .map(|&(lender, taker)| Pair::of(lender, taker))
                .collect(),
            lending: BTreeSet::new(),
            taking: BTreeSet::new(),
        }
    }

    /// The table of a circuit without gates.
    fn bare(width: u8) -> Table {
        let lenders = 0..width;
        let marks = lenders.flat_map(|lender| (0..width).map(move |taker| (lender, taker)));
        let off_diagonal = marks.filter(|(lender, taker)| lender != taker);
        table(width, &off_diagonal.collect::<Vec<_>>())
    }

    #[test]
    fn p5_is_as_the_document_has_it() {
        let greedy = greedy(&bare(3)).unwrap();
        assert_eq!(greedy.pairs, [Pair::of(0, 1), Pair::of(1, 2)]);
        assert_eq!(greedy.trials, 8);
        assert_eq!(greedy.table.marks, BTreeSet::new());
        assert_eq!(greedy.table.lending, BTreeSet::from([Wire(0), Wire(1)]));
        assert_eq!(greedy.table.taking, BTreeSet::from([Wire(1), Wire(2)]));
    }

    #[test]
    fn of_a_there_is_one_pair_and_one_trial() {
        let greedy = greedy(&table(3, &[(0, 2)])).unwrap();
        assert_eq!((greedy.pairs, greedy.trials), (vec![Pair::of(0, 2)], 1));
    }

    #[test]
    fn of_p11_two_pairs_are_chosen() {
        // Every first pair leaves one mark, so 0 to 2 wins; then 1 to 3 is left.
        let marks = [
            (0, 2),
            (0, 3),
            (1, 2),
            (1, 3),
            (2, 0),
            (2, 1),
            (3, 0),
            (3, 1),
        ];
        let greedy = greedy(&table(4, &marks)).unwrap();
        assert_eq!(greedy.pairs, [Pair::of(0, 2), Pair::of(1, 3)]);
        assert_eq!(greedy.trials, 8 + 1);
    }

    #[test]
    fn the_highest_score_wins_and_a_tie_goes_to_the_lowest_lender() {
        // Fig. 4 of source document 000: the highest score is 7, of 0 to 2 and of 2 to 3. The
        // first pair in order, 0 to 1, has a score of 3.
        let (of_0, of_1) = ([(0, 1), (0, 2), (0, 3)], [(1, 0), (1, 2), (1, 3), (1, 4)]);
        let of_others = [(2, 1), (2, 3), (3, 1), (4, 1)];
        let start = table(5, &[&of_0[..], &of_1, &of_others].concat());
        assert_eq!(start.score(Pair::of(0, 1)), Ok(3));
        assert_eq!(greedy(&start).unwrap().pairs[0], Pair::of(0, 2));
    }

    #[test]
    fn without_a_yes_the_table_comes_back_untouched() {
        let mut given = table(3, &[(0, 0), (1, 2), (9, 9)]);
        given.lending = BTreeSet::from([Wire(1), Wire(31)]);
        let greedy = greedy(&given).unwrap();
        assert_eq!(
            greedy,
            Greedy {
                pairs: Vec::new(),
                table: given,
                trials: 0
            }
        );
    }

    #[test]
    fn a_wrong_width_is_refused() {
        for width in [0, 33] {
            let refusal = Refusal {
                number: 27,
                place: 0,
            };
            assert_eq!(greedy(&table(width, &[(0, 1)])), Err(refusal));
        }
    }

    #[test]
    fn without_gates_all_wires_are_joined() {
        for width in 1..=32 {
            let greedy = greedy(&bare(width)).unwrap();
            let n = usize::from(width);
            assert_eq!(greedy.pairs.len(), n - 1);
            assert!(greedy.trials <= n * (n - 1) * (n - 1));
        }
    }

    #[test]
    fn the_score_of_a_round_is_the_score_of_the_table() {
        // Every table of width 3, also those with marks on the diagonal and used wires.
        for marks in 0..1_u32 << 15 {
            let part = |at: u32| (marks >> (3 * at) & 7) as u8;
            let mut bytes = [0; 137];
            bytes[0] = 3;
            (bytes[1], bytes[5], bytes[9]) = (part(0), part(1), part(2));
            (bytes[129], bytes[133]) = (part(3), part(4));
            let table = Table::from_bytes(&bytes);
            let round = Round::of(&table);
            for &pair in &round.yes {
                assert_eq!(Ok(round.score(pair)), table.score(pair), "{table:?}");
            }
        }
    }
}
