//! Sequences of offers to the table of a circuit, each answer and the marks after it held against
//! the search for a cycle.

use super::{compare_every_mark, compare_offer, table_by_search, wires, SPARE_ROOM};
use crate::comparison::{of_second, Seen};
use crate::settings::count_and_source;
use samples::circuits::{any_circuit, bare, joined, MOST_WIRES};
use samples::pairs::{any_pair, every_pair};
use samples::records::*;
use samples::Random;
use second::{Accepted, Pair};
use thaksipho::{bytes, may, offer, start, Refusal, Table, Wire};

const COUNT: u64 = 20_000;
const SEED: u64 = 11;

/// Up to this width every mark is looked at after every offer.
const NARROW: u8 = 6;

/// How many marks of a wider table are looked at after every offer.
const MARKS_LOOKED_AT: usize = 8;

/// A circuit's table as the proved library has it, beside the pairs that the second program has.
struct Both<'a> {
    table: Table,
    accepted: Accepted<'a>,
}

impl<'a> Both<'a> {
    fn start(input: &[u8], circuit: &'a second::Circuit) -> Both<'a> {
        Both {
            table: start(input).expect("the circuit is valid"),
            accepted: Accepted::none(circuit),
        }
    }

    fn width(&self) -> u8 {
        self.accepted.circuit().width
    }

    /// The table as sets. It has no mark that does not count, and its used wires are those of the
    /// accepted pairs.
    fn sets(&self) -> second::Table {
        let sets = second::Table::from_bytes(self.table.as_bytes());
        let pairs = self.accepted.pairs();
        assert_eq!(sets.width, self.width());
        assert_eq!(sets.lending, pairs.iter().map(|pair| pair.lender).collect());
        assert_eq!(sets.taking, pairs.iter().map(|pair| pair.taker).collect());
        assert_eq!(sets.marks, sets.counting());
        sets
    }

    /// Offers a pair to both, with more room than needed, just as much, and too little. Whether it
    /// is taken the search decides, and the whole table after it is what the rule gives on sets.
    fn offer(&mut self, pair: Pair, seen: &mut Seen) {
        let before = self.table;
        let by_rule = second::Table::from_bytes(before.as_bytes()).offer(pair);
        let by_search = self.accepted.offer(pair).map_err(of_second);
        for room in [Table::LENGTH + SPARE_ROOM, Table::LENGTH] {
            let answer = compare_offer(before.as_bytes(), pair, room, &by_rule);
            let expected = by_search.map(|()| Table::LENGTH);
            assert_eq!(answer, expected, "then {:?}", self.accepted.pairs());
        }
        let too_little = Table::LENGTH - 1;
        let answer = compare_offer(before.as_bytes(), pair, too_little, &by_rule);
        assert!(answer.is_err());

        if by_search.is_ok() {
            let (lender, taker) = wires(pair);
            self.table = offer(&before, lender, taker).expect("the offer was taken");
        }
        seen.note(&by_search);
    }

    /// Looks at marks of the table: all of a narrow one, some of a wider one.
    fn compare_marks(&self, random: &mut Random) {
        let sets = self.sets();
        if self.width() <= NARROW {
            let by_search = table_by_search(&self.accepted);
            assert_eq!(sets, by_search, "after {:?}", self.accepted.pairs());
            compare_every_mark(self.table.as_bytes(), &by_search.marks, self.width());
            return;
        }
        let count = bytes::count(self.table.as_bytes());
        assert_eq!(count, Ok(sets.marks.len() as u32));
        for _ in 0..MARKS_LOOKED_AT {
            let pair = any_offer(random, &sets, 2);
            let (lender, taker) = wires(pair);
            let yes = self.accepted.judge(pair).is_ok();
            let pairs = self.accepted.pairs();
            assert_eq!(
                may(&self.table, lender, taker),
                Ok(yes),
                "{pairs:?}, {pair:?}"
            );
        }
    }
}

/// A pair to offer: once in some times one that is yes, if there is one, else any.
fn any_offer(random: &mut Random, sets: &second::Table, times: usize) -> Pair {
    let yes: Vec<Pair> = sets.marks.iter().copied().collect();
    if !yes.is_empty() && random.once_in(times) {
        return random.one_of(&yes);
    }
    let (lender, taker) = any_pair(random, sets.width);
    Pair::of(lender, taker)
}

#[test]
fn random_offers_to_random_circuits() {
    let (count, mut random) = count_and_source(COUNT, SEED);
    let mut seen = Seen::default();
    let mut widths = [0; MOST_WIRES as usize + 1];
    let mut longest = 0;
    for _ in 0..count {
        let input = any_circuit(&mut random);
        let circuit = second::read(&input).expect("the circuit is valid");
        let mut both = Both::start(&input, &circuit);
        widths[usize::from(circuit.width)] += 1;
        both.compare_marks(&mut random);
        for _ in 0..8 + 3 * usize::from(circuit.width) {
            let pair = any_offer(&mut random, &both.sets(), 3);
            both.offer(pair, &mut seen);
            both.compare_marks(&mut random);
        }
        let sets = both.sets();
        compare_every_mark(both.table.as_bytes(), &sets.marks, sets.width);
        longest = longest.max(both.accepted.pairs().len());
    }
    println!("{} taken, {:?} refused", seen.accepted, seen.refused);
    assert!(widths[1..].iter().all(|&circuits| circuits > 0));
    assert!(longest > 15);
    assert!(seen.accepted > count);
    assert_eq!(seen.numbers(), [20, 21, 22, 23]);
    assert!(seen.refused.values().all(|&times| times > count));
}

#[test]
fn every_sequence_of_offers_over_4_wires_with_up_to_3_gates() {
    let mut seen = Seen::default();
    let two_wires = every_pair(3).filter(|(first, second)| first < second);
    let gates: Vec<_> = two_wires
        .map(|(first, second)| pair_gate(TWO_WIRES, first, second))
        .collect();
    extend_by_gates(&mut Vec::new(), 3, &gates, &mut seen);
    assert!(seen.accepted > 0);
    assert_eq!(seen.numbers(), [20, 21, 22, 23]);
}

/// Makes every sequence of offers to the circuit with these gates, then to the circuit with each
/// gate after them, and so on until `left` gates were added.
fn extend_by_gates(so_far: &mut Vec<Vec<u8>>, left: usize, gates: &[Vec<u8>], seen: &mut Seen) {
    let resets = (0..4).map(reset);
    let measurements = (0..4).map(|wire| measurement(wire, wire));
    let between = so_far.iter().cloned();
    let records: Vec<_> = resets.chain(between).chain(measurements).collect();
    let input = joined(4, &records);
    let circuit = second::read(&input).expect("the circuit is valid");
    offer_on(&Both::start(&input, &circuit), seen);
    if left > 0 {
        for gate in gates {
            so_far.push(gate.clone());
            extend_by_gates(so_far, left - 1, gates, seen);
            so_far.pop();
        }
    }
}

/// Offers every pair, and goes on from every one that is taken.
fn offer_on(both: &Both, seen: &mut Seen) {
    let by_search = table_by_search(&both.accepted);
    assert_eq!(both.sets(), by_search);
    for (lender, taker) in every_pair(both.width()) {
        let mut next = Both {
            table: both.table,
            accepted: both.accepted.clone(),
        };
        next.offer(Pair::of(lender, taker), seen);
        if next.accepted.pairs().len() > both.accepted.pairs().len() {
            offer_on(&next, seen);
        }
    }
}

#[test]
fn the_widest_circuit_becomes_one_chain() {
    // Without gates the wires lend in any order: here each to the one below it.
    let input = bare(MOST_WIRES);
    let circuit = second::read(&input).expect("the circuit is valid");
    let mut both = Both::start(&input, &circuit);
    let mut seen = Seen::default();
    for lender in (1..MOST_WIRES).rev() {
        both.offer(Pair::of(lender, lender - 1), &mut seen);
        let by_search = table_by_search(&both.accepted);
        assert_eq!(both.sets(), by_search);
    }
    assert_eq!(seen.accepted, u64::from(MOST_WIRES) - 1);
    let closing = offer(&both.table, Wire(0), Wire(MOST_WIRES - 1));
    assert_eq!(
        closing,
        Err(Refusal {
            number: 23,
            place: 0
        })
    );
}
