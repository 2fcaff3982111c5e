//! The graph of Theorem 1: the arrows between a circuit's instructions, and the pairs accepted so
//! far. An instruction is named by its index in the circuit.

use crate::instruction::{MEASUREMENT, RESET};
use crate::{Circuit, Pair, Refusal, Wire};
use std::collections::BTreeSet;

/// A circuit with the pairs accepted so far. Pairs are judged by a search of the graph alone.
#[derive(Clone, Debug)]
pub struct Accepted<'a> {
    circuit: &'a Circuit,
    pairs: Vec<Pair>,
    /// For each instruction, those that an arrow to it comes from.
    before: Vec<BTreeSet<usize>>,
}

impl<'a> Accepted<'a> {
    /// The circuit, as [`read`](crate::read) gave it, with no pairs yet: there is an arrow between
    /// neighbouring instructions of each wire.
    pub fn none(circuit: &'a Circuit) -> Accepted<'a> {
        let mut before = vec![BTreeSet::new(); circuit.instructions.len()];
        for wire in (0..circuit.width).map(Wire) {
            for neighbours in instructions_on(circuit, wire).windows(2) {
                before[neighbours[1]].insert(neighbours[0]);
            }
        }
        Accepted {
            circuit,
            pairs: Vec::new(),
            before,
        }
    }

    /// The circuit.
    pub fn circuit(&self) -> &Circuit {
        self.circuit
    }

    /// The pairs accepted so far, in the order of their offers.
    pub fn pairs(&self) -> &[Pair] {
        &self.pairs
    }

    /// Accepts the pair, or gives the refusal of a single offer and leaves everything as it was.
    pub fn offer(&mut self, pair: Pair) -> Result<(), Refusal> {
        self.judge(pair)?;
        let reset = self.only(RESET, pair.taker);
        let measurement = self.only(MEASUREMENT, pair.lender);
        self.before[reset].insert(measurement);
        self.pairs.push(pair);
        Ok(())
    }

    /// The answer that an offer of the pair would get.
    pub fn judge(&self, pair: Pair) -> Result<(), Refusal> {
        let refused = |number| Err(Refusal { number, place: 0 });
        let Pair { lender, taker } = pair;
        if lender.0 >= self.circuit.width || taker.0 >= self.circuit.width {
            refused(20)
        } else if self.pairs.iter().any(|other| other.lender == lender) {
            refused(21)
        } else if self.pairs.iter().any(|other| other.taker == taker) {
            refused(22)
        } else if self.closes_a_loop(pair) {
            refused(23)
        } else {
            Ok(())
        }
    }

    /// For each instruction, those that an arrow to it comes from.
    pub(crate) fn before(&self) -> &[BTreeSet<usize>] {
        &self.before
    }

    /// Whether the arrow of this pair would close a cycle. There was none before, so a cycle uses
    /// that arrow: the rest of it leads from the taker's reset to the lender's measurement.
    fn closes_a_loop(&self, pair: Pair) -> bool {
        let reset = self.only(RESET, pair.taker);
        let measurement = self.only(MEASUREMENT, pair.lender);
        self.leads(reset, measurement)
    }

    /// Whether the arrows lead from one instruction to the other; searched against the arrows.
    fn leads(&self, from: usize, to: usize) -> bool {
        let mut seen = vec![false; self.before.len()];
        let mut left_to_visit = vec![to];
        while let Some(instruction) = left_to_visit.pop() {
            if instruction == from {
                return true;
            }
            if !seen[instruction] {
                seen[instruction] = true;
                left_to_visit.extend(&self.before[instruction]);
            }
        }
        false
    }

    /// The wire's only instruction of this kind, a reset or a measurement.
    fn only(&self, kind: u8, wire: Wire) -> usize {
        let mut instructions = self.circuit.instructions.iter();
        instructions
            .position(|instruction| instruction.kind == kind && instruction.wires == [wire])
            .expect("each wire of a circuit that passed every check has one")
    }
}

/// The instructions that name the wire, in order.
fn instructions_on(circuit: &Circuit, wire: Wire) -> Vec<usize> {
    let named = circuit.instructions.iter().enumerate();
    named
        .filter(|(_, instruction)| instruction.wires.contains(&wire))
        .map(|(index, _)| index)
        .collect()
}

#[cfg(test)]
mod tests {
    use super::*;
    use crate::read;

    /// A of the document: a gate from wire 0 to 1, then one from 1 to 2.
    const A: [u8; 23] = [
        0x01, 3, 0x10, 0, 0x10, 1, 0x10, 2, 0x40, 0, 1, 0x40, 1, 2, 0x11, 0, 0, 0x11, 1, 1, 0x11,
        2, 2,
    ];
    /// B of the document: three wires without gates.
    const B: [u8; 17] = [
        0x01, 3, 0x10, 0, 0x10, 1, 0x10, 2, 0x11, 0, 0, 0x11, 1, 1, 0x11, 2, 2,
    ];
    /// The circuit of P11: gates between wires 0 and 1, and between 2 and 3.
    const OF_P11: [u8; 28] = [
        0x01, 4, 0x10, 0, 0x10, 1, 0x10, 2, 0x10, 3, 0x40, 0, 1, 0x40, 2, 3, 0x11, 0, 0, 0x11, 1,
        1, 0x11, 2, 2, 0x11, 3, 3,
    ];

    fn refused(number: u8) -> Result<(), Refusal> {
        Err(Refusal { number, place: 0 })
    }

    /// The answers to the offers of these pairs, one after the other.
    fn answers(circuit: &[u8], pairs: &[(u8, u8)]) -> Vec<Result<(), Refusal>> {
        let circuit = read(circuit).unwrap();
        let mut accepted = Accepted::none(&circuit);
        let offers = pairs.iter().map(|&(lender, taker)| {
            let pair = Pair::of(lender, taker);
            let judged = accepted.judge(pair);
            let answer = accepted.offer(pair);
            assert_eq!(judged, answer, "{pair:?}");
            answer
        });
        offers.collect()
    }

    #[test]
    fn arrows_lie_between_neighbours_on_each_wire() {
        let circuit = read(&A).unwrap();
        // 0, 1, 2 are the resets, 3 and 4 the gates, 5, 6, 7 the measurements.
        let expected: [&[usize]; 8] = [&[], &[], &[], &[0, 1], &[2, 3], &[3], &[4], &[4]];
        let expected = expected.map(|before| before.iter().copied().collect::<BTreeSet<_>>());
        assert_eq!(Accepted::none(&circuit).before(), expected);
    }

    #[test]
    fn the_arrow_of_a_pair_comes_from_the_measurement_and_ends_at_the_reset() {
        let circuit = read(&A).unwrap();
        let mut accepted = Accepted::none(&circuit);
        accepted.offer(Pair::of(0, 2)).unwrap();
        assert_eq!(accepted.before()[2], BTreeSet::from([5]));
        assert_eq!(accepted.pairs(), [Pair::of(0, 2)]);
        assert_eq!(accepted.circuit(), &circuit);
    }

    #[test]
    fn of_a_only_0_to_2_is_accepted() {
        for lender in 0..3 {
            for taker in 0..3 {
                let expected = match (lender, taker) {
                    (0, 2) => Ok(()),
                    _ => refused(23),
                };
                assert_eq!(answers(&A, &[(lender, taker)]), [expected]);
            }
        }
    }

    #[test]
    fn a_loop_through_several_pairs_is_refused() {
        assert_eq!(
            answers(&B, &[(0, 1), (1, 2), (2, 0)]),
            [Ok(()), Ok(()), refused(23)]
        );
        assert_eq!(answers(&OF_P11, &[(0, 2), (3, 1)]), [Ok(()), refused(23)]);
        assert_eq!(answers(&OF_P11, &[(3, 1)]), [Ok(())]);
    }

    #[test]
    fn a_pair_is_judged_in_the_order_of_the_document() {
        let lent_and_taken = (0, 1);
        let cases = [
            ((3, 0), 20),
            ((0, 3), 20),
            ((255, 255), 20),
            ((0, 2), 21),
            ((0, 1), 21),
            ((0, 0), 21),
            ((2, 1), 22),
            ((1, 1), 22),
            ((1, 0), 23),
            ((2, 2), 23),
        ];
        for (pair, number) in cases {
            let answer = answers(&B, &[lent_and_taken, pair]);
            assert_eq!(answer, [Ok(()), refused(number)], "{pair:?}");
        }
    }

    #[test]
    fn a_refused_offer_changes_nothing() {
        assert_eq!(
            answers(&B, &[(0, 1), (1, 0), (1, 1), (0, 2), (1, 2)]),
            [Ok(()), refused(23), refused(22), refused(21), Ok(())]
        );
    }
}
