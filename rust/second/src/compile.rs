//! The compiler: a pair list is read and judged, wires get qubits, the dynamic circuit is written.

use crate::{read, Accepted, Instruction, Pair, Refusal, Wire};
use std::collections::BTreeSet;
use std::iter::successors;

const DYNAMIC_WIDTH: u8 = 0x02;
const REUSE_PAIR: u8 = 0x60;
/// How many bytes the record of a pair has: its kind, the lender, the taker.
const PAIR_LENGTH: usize = 3;

/// A line of the dynamic circuit.
#[derive(Clone, Copy, Debug, PartialEq, Eq)]
struct Qubit(u8);

/// The bytes of the dynamic circuit for a static circuit and a pair list, both as records; or the
/// first refusal. How much room there is for the bytes is not asked here.
pub fn compile(circuit: &[u8], pairs: &[u8]) -> Result<Vec<u8>, Refusal> {
    let circuit = read(circuit)?;
    let mut accepted = Accepted::none(&circuit);
    for (index, record) in pairs.chunks(PAIR_LENGTH).enumerate() {
        let at_this_pair = |number| Refusal {
            number,
            place: index,
        };
        let pair = read_pair(record).map_err(at_this_pair)?;
        accepted
            .offer(pair)
            .map_err(|refusal| at_this_pair(refusal.number))?;
    }
    Ok(dynamic_circuit(&accepted))
}

/// Reads the record of a pair, of which the end may be missing, or gives the number of the refusal.
fn read_pair(record: &[u8]) -> Result<Pair, u8> {
    match record {
        [REUSE_PAIR, lender, taker] => Ok(Pair::of(*lender, *taker)),
        [REUSE_PAIR, ..] => Err(25),
        _ => Err(24),
    }
}

/// The records of the dynamic circuit.
fn dynamic_circuit(accepted: &Accepted) -> Vec<u8> {
    let circuit = accepted.circuit();
    let chains = chains(circuit.width, accepted.pairs());
    let bits = circuit.width;
    let mut bytes = vec![DYNAMIC_WIDTH, chains.len() as u8, bits];
    for index in order(accepted.before()) {
        bytes.extend(renamed(&circuit.instructions[index], &chains));
    }
    bytes
}

/// The chains into which the pairs join the wires, each from its first wire on. They stand in the
/// order of their first wires, so that a chain's index is the number of its qubit.
fn chains(width: u8, pairs: &[Pair]) -> Vec<Vec<Wire>> {
    let takers: BTreeSet<Wire> = pairs.iter().map(|pair| pair.taker).collect();
    let first_wires = (0..width).map(Wire).filter(|wire| !takers.contains(wire));
    first_wires
        .map(|first| successors(Some(first), |&wire| taker_from(wire, pairs)).collect())
        .collect()
}

/// The wire that takes from this one, if there is one.
fn taker_from(lender: Wire, pairs: &[Pair]) -> Option<Wire> {
    let lent = pairs.iter().find(|pair| pair.lender == lender);
    lent.map(|pair| pair.taker)
}

/// The qubit of the chain that the wire is in.
fn qubit_of(wire: Wire, chains: &[Vec<Wire>]) -> Qubit {
    let chain = chains.iter().position(|chain| chain.contains(&wire));
    Qubit(chain.expect("every wire is in a chain") as u8)
}

/// The order in which the instructions are written: at each step the earliest in the input of those
/// that wait and have nothing waiting before them. `before` has no cycle.
fn order(before: &[BTreeSet<usize>]) -> Vec<usize> {
    let mut written = vec![false; before.len()];
    let mut waiting: Vec<usize> = (0..before.len()).collect();
    let mut order = Vec::new();
    while !waiting.is_empty() {
        let next = waiting
            .iter()
            .position(|&index| before[index].iter().all(|&earlier| written[earlier]))
            .expect("without a cycle there is always a next one");
        let index = waiting.remove(next);
        written[index] = true;
        order.push(index);
    }
    order
}

/// The record of the instruction in the dynamic circuit: wires become qubits, all else stays.
fn renamed(instruction: &Instruction, chains: &[Vec<Wire>]) -> Vec<u8> {
    let wires = instruction.wires.iter();
    let mut bytes = vec![instruction.kind];
    bytes.extend(wires.map(|&wire| qubit_of(wire, chains).0));
    bytes.extend(instruction.bit.map(|bit| bit.0));
    bytes.extend(&instruction.angle);
    bytes
}

#[cfg(test)]
mod tests {
    use super::*;

    /// The bytes that a line of the document shows.
    fn bytes(shown: &str) -> Vec<u8> {
        let shown = shown.split_whitespace();
        shown
            .map(|byte| u8::from_str_radix(byte, 16).unwrap())
            .collect()
    }

    /// The answer for a circuit as the document shows it, and pairs.
    fn compiled(circuit: &str, pairs: &[(u8, u8)]) -> Result<Vec<u8>, Refusal> {
        let records = pairs
            .iter()
            .flat_map(|&(lender, taker)| [0x60, lender, taker]);
        compile(&bytes(circuit), &records.collect::<Vec<_>>())
    }

    fn refused(number: u8, place: usize) -> Result<Vec<u8>, Refusal> {
        Err(Refusal { number, place })
    }

    const A: &str = "01 03 10 00 10 01 10 02 40 00 01 40 01 02 11 00 00 11 01 01 11 02 02";
    const B: &str = "01 03 10 00 10 01 10 02 11 00 00 11 01 01 11 02 02";
    const OF_P6: &str = "01 01 10 00 11 00 00";
    const OF_P11: &str = "01 04 10 00 10 01 10 02 10 03 40 00 01 40 02 03 \
                          11 00 00 11 01 01 11 02 02 11 03 03";

    #[test]
    fn p1_to_p4_are_as_the_document_has_them() {
        assert_eq!(
            compiled(A, &[(0, 2)]),
            Ok(bytes(
                "02 02 03 10 00 10 01 40 00 01 11 00 00 10 00 40 01 00 11 01 01 11 00 02"
            ))
        );
        assert_eq!(compiled(A, &[(1, 2)]), refused(23, 0));
        assert_eq!(
            compiled(B, &[(0, 1), (1, 2)]),
            Ok(bytes(
                "02 01 03 10 00 11 00 00 10 00 11 00 01 10 00 11 00 02"
            ))
        );
        assert_eq!(compiled(B, &[(0, 1), (1, 2), (2, 0)]), refused(23, 2));
    }

    #[test]
    fn p6_to_p12_are_as_the_document_has_them() {
        assert_eq!(compiled(OF_P6, &[]), Ok(bytes("02 01 01 10 00 11 00 00")));
        assert_eq!(compiled("01 01", &[]), refused(13, 0));
        assert_eq!(compiled("01 01 20 00", &[]), refused(8, 2));
        assert_eq!(compiled("01 01 10 00 11 00 00 20 00", &[]), refused(10, 7));
        assert_eq!(
            compiled("01 02 10 00 10 01 11 00 00 11 01 00", &[]),
            refused(12, 9)
        );
        assert_eq!(compiled(OF_P11, &[(0, 2), (3, 1)]), refused(23, 1));
        assert_eq!(compiled("", &[]), refused(1, 0));
    }

    #[test]
    fn the_circuits_that_are_only_run_give_what_the_document_says() {
        assert_eq!(compiled("01 00", &[]), refused(3, 0));
        assert_eq!(compiled("01 21", &[]), refused(3, 0));
        assert_eq!(compiled("01 01 10", &[]), refused(2, 2));
        assert_eq!(compiled("01 01 7F", &[]), refused(4, 2));
        assert_eq!(compiled("01 01 10 00 10 00", &[]), refused(9, 4));
    }

    #[test]
    fn as_many_instructions_as_there_may_be_are_accepted_and_no_more() {
        let with_gates = |gates: usize| {
            let gates = [0x20, 0].repeat(gates);
            [&[0x01, 1, 0x10, 0][..], &gates, &[0x11, 0, 0]].concat()
        };
        let most = with_gates(2046);
        assert_eq!(compile(&most, &[]).unwrap()[3..], most[2..]);
        // The last instruction, a measurement, is one too many: three bytes before the end.
        let too_many = with_gates(2047);
        assert_eq!(compile(&too_many, &[]), refused(5, too_many.len() - 3));
    }

    #[test]
    fn width_32_without_gates_is_accepted() {
        let resets = (0..32).flat_map(|wire| [0x10, wire]);
        let measurements = (0..32).flat_map(|wire| [0x11, wire, wire]);
        let circuit: Vec<u8> = [0x01, 32]
            .into_iter()
            .chain(resets)
            .chain(measurements)
            .collect();
        let dynamic = compile(&circuit, &[]).unwrap();
        assert_eq!(dynamic[..3], [2, 32, 32]);
        assert_eq!(dynamic[3..], circuit[2..]);
    }

    #[test]
    fn of_p11_3_to_1_alone_is_accepted() {
        // Wire 1 waits for the measurement of wire 3, and with it the gate between 0 and 1, and
        // the measurements of both. The chains begin at wires 0, 2 and 3.
        assert_eq!(
            compiled(OF_P11, &[(3, 1)]),
            Ok(bytes(
                "02 03 04 10 00 10 01 10 02 40 01 02 11 01 02 11 02 03 \
                 10 02 40 00 02 11 00 00 11 02 01"
            ))
        );
    }

    #[test]
    fn a_pair_list_is_judged_from_the_left_each_pair_wholly() {
        let with = |pairs: &[u8]| compile(&bytes(B), pairs);
        assert_eq!(with(&[0x61]), refused(24, 0));
        assert_eq!(with(&[0x60]), refused(25, 0));
        assert_eq!(with(&[0x60, 0]), refused(25, 0));
        assert_eq!(with(&[0x60, 0, 1, 0x60, 9]), refused(25, 1));
        assert_eq!(with(&[0x60, 0, 1, 0x10, 9, 9]), refused(24, 1));
        assert_eq!(with(&[0x60, 0, 3, 0x10]), refused(20, 0));
        assert_eq!(with(&[0x60, 0, 1, 0x60, 0, 1]), refused(21, 1));
        assert_eq!(with(&[0x60, 0, 1, 0x60, 2, 1]), refused(22, 1));
        assert_eq!(with(&[0x60, 0, 1, 0x60, 2, 2]), refused(23, 1));
    }

    #[test]
    fn the_circuit_is_judged_before_the_pairs() {
        assert_eq!(compile(&[0x01, 1], &[0x61]), refused(13, 0));
    }

    #[test]
    fn chains_are_numbered_by_their_first_wires() {
        // 3 lends to 0, 0 lends to 4: the first wires are 1, 2, 3.
        let chains = chains(5, &[Pair::of(0, 4), Pair::of(3, 0)]);
        let wires = [vec![1], vec![2], vec![3, 0, 4]];
        assert_eq!(
            chains,
            wires.map(|chain| chain.into_iter().map(Wire).collect::<Vec<_>>())
        );
        assert_eq!(qubit_of(Wire(4), &chains), Qubit(2));
    }

    #[test]
    fn bits_and_angles_stay_and_both_wires_are_renamed() {
        // Wires 1 and 2 with a turned gate between them, wire 0 alone; 0 lends to 1. The bits are
        // not the numbers of the wires.
        let circuit = "01 03 10 00 10 01 10 02 50 02 01 01 02 03 04 05 06 07 08 \
                       11 00 02 11 01 00 11 02 01";
        assert_eq!(
            compiled(circuit, &[(0, 1)]),
            Ok(bytes(
                "02 02 03 10 00 10 01 11 00 02 10 00 50 01 00 01 02 03 04 05 06 07 08 \
                 11 00 00 11 01 01"
            ))
        );
    }
}
