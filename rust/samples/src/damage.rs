//! Inputs that are mostly no circuits: valid ones damaged, records in no order, bytes at random.

use crate::circuits::{joined, random_instructions, Shape, MOST_WIRES};
use crate::records::*;
use crate::Random;

/// A valid circuit, disturbed one to three times. Now and then it is still valid.
pub fn damaged_circuit(random: &mut Random) -> Vec<u8> {
    let shape = Shape::random(random);
    let mut instructions = random_instructions(random, shape);
    let in_its_records = random.once_in(2);
    let in_its_bytes = !in_its_records || random.once_in(2);
    if in_its_records {
        disturb_records(random, &mut instructions);
    }
    let mut circuit = joined(shape.wires, &instructions);
    if in_its_bytes {
        for _ in 0..=random.below(2) {
            disturb_bytes(random, &mut circuit);
        }
    }
    circuit
}

/// Loses, repeats, moves or adds a record.
fn disturb_records(random: &mut Random, instructions: &mut Vec<Vec<u8>>) {
    let at = random.below(instructions.len());
    let to = random.below(instructions.len());
    match random.below(4) {
        0 => drop(instructions.remove(at)),
        1 => instructions.insert(to, instructions[at].clone()),
        2 => instructions.swap(at, to),
        _ => instructions.insert(at, random_record(random, MOST_WIRES)),
    }
}

/// Changes, loses or adds a byte, or cuts the end off.
fn disturb_bytes(random: &mut Random, circuit: &mut Vec<u8>) {
    if circuit.is_empty() {
        return;
    }
    let at = random.below(circuit.len());
    match random.below(5) {
        0 => circuit[at] = random.byte(),
        1 => circuit[at] ^= 1 << random.below(8),
        2 => drop(circuit.remove(at)),
        3 => circuit.insert(at, random.byte()),
        _ => circuit.truncate(at),
    }
}

/// Records in no order, or one time in four bytes at random.
pub fn disordered_input(random: &mut Random) -> Vec<u8> {
    match random.once_in(4) {
        true => random_bytes(random),
        false => random_records(random),
    }
}

/// Any record of the house format, or one of no known kind, with numbers up to `most`.
fn random_record(random: &mut Random, most: u8) -> Vec<u8> {
    let sixteenth = random.below(16) as u8;
    let mut number = || random.below(usize::from(most) + 1) as u8;
    let (first, second) = (number(), number());
    match random.below(16) {
        0..=3 => reset(first),
        4..=7 => measurement(first, second),
        8..=9 => gate(ONE_WIRE + sixteenth, first),
        10 => turned_gate(ONE_WIRE_TURNED + sixteenth, first, random.bytes()),
        11..=13 => pair_gate(TWO_WIRES + sixteenth, first, second),
        14 => turned_pair_gate(TWO_WIRES_TURNED + sixteenth, first, second, random.bytes()),
        _ => vec![random.byte(), first, second],
    }
}

/// A header and some records in no order, their numbers mostly small enough; half of the time after
/// the resets, so that more than the first record counts.
fn random_records(random: &mut Random) -> Vec<u8> {
    let wires = 1 + random.below(4) as u8;
    let most = if random.once_in(4) { wires } else { wires - 1 };
    let resets = if random.once_in(2) { wires } else { 0 };
    let mut records: Vec<_> = (0..resets).map(reset).collect();
    records.extend((0..random.below(12)).map(|_| random_record(random, most)));
    joined(wires, &records)
}

/// Bytes at random, half of them with a good header.
fn random_bytes(random: &mut Random) -> Vec<u8> {
    let mut bytes: Vec<u8> = (0..random.below(40)).map(|_| random.byte()).collect();
    if random.once_in(2) {
        let header = static_width(1 + random.below(usize::from(MOST_WIRES)) as u8);
        bytes.splice(..0, header);
    }
    bytes
}
