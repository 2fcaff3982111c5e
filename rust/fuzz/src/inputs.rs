//! What the calls are given: mostly damaged, and each in a block of its own.

use samples::circuits::{any_circuit, random_circuit, Shape, EARLY, LATE, MOST_INSTRUCTIONS};
use samples::circuits::{MOST_WIRES, WEIGHT_OF_A_GATE};
use samples::damage::{damaged_circuit, disordered_input};
use samples::pairs::any_pair;
use samples::records::reuse_pair;
use samples::tables::any_table;
use samples::Random;
use thaksipho::{greedy, start, Pair};

/// One in so many circuits has as many instructions as there may be, or a few more.
const OF_FULL_LENGTH: usize = 200;

/// A circuit, a pair list, a table and a pair: any of them may be wrong.
pub struct Inputs {
    pub circuit: Box<[u8]>,
    pub pairs: Box<[u8]>,
    pub table: Box<[u8]>,
    pub lender: u8,
    pub taker: u8,
}

impl Inputs {
    /// Any inputs.
    pub fn any(random: &mut Random) -> Inputs {
        let circuit = a_circuit(random);
        let pairs = a_list(random, &circuit);
        let table = a_table(random, &circuit);
        let (lender, taker) = any_pair(random, table.first().copied().unwrap_or(0));
        Inputs {
            circuit: circuit.into_boxed_slice(),
            pairs: pairs.into_boxed_slice(),
            table: table.into_boxed_slice(),
            lender,
            taker,
        }
    }

    /// The width that the table says, or none that is right.
    pub fn width(&self) -> u8 {
        self.table
            .first()
            .map_or(0, |width| width % (MOST_WIRES + 1))
    }
}

/// A circuit: half of the time valid, or damaged, or records in no order.
fn a_circuit(random: &mut Random) -> Vec<u8> {
    if random.once_in(OF_FULL_LENGTH) {
        return a_full_circuit(random);
    }
    match random.below(4) {
        0 => damaged_circuit(random),
        1 => disordered_input(random),
        _ => any_circuit(random),
    }
}

/// A circuit with the most instructions, and half of the time a few records too many.
fn a_full_circuit(random: &mut Random) -> Vec<u8> {
    let wires = 1 + random.below(usize::from(MOST_WIRES)) as u8;
    let shape = Shape {
        wires,
        gates: MOST_INSTRUCTIONS - 2 * usize::from(wires),
        resets: random.one_of(&[EARLY, WEIGHT_OF_A_GATE]),
        measurements: LATE,
    };
    let mut circuit = random_circuit(random, shape);
    if random.once_in(2) {
        circuit.extend((0..random.below(9)).map(|_| random.byte()));
    }
    circuit
}

/// Part of greedy's list, or none, with wrong pairs and damage behind it.
fn a_list(random: &mut Random, circuit: &[u8]) -> Vec<u8> {
    let width = circuit.get(1).copied().unwrap_or(1);
    let chosen = start(circuit).and_then(|table| greedy(&table));
    let mut list: Vec<u8> = match chosen {
        Ok(chosen) => chosen.pairs.iter().flat_map(Pair::record).collect(),
        Err(_) => Vec::new(),
    };
    if random.once_in(2) {
        list.truncate(3 * random.below(list.len() / 3 + 1));
    }
    for _ in 0..random.below(3) {
        let (lender, taker) = any_pair(random, width);
        list.extend(reuse_pair(lender, taker));
    }
    if random.once_in(3) && !list.is_empty() {
        let at = random.below(list.len());
        match random.once_in(2) {
            true => list.truncate(at),
            false => list[at] = random.byte(),
        }
    }
    list
}

/// A table made by hand, or the circuit's, whole or cut.
fn a_table(random: &mut Random, circuit: &[u8]) -> Vec<u8> {
    match start(circuit) {
        Ok(table) if random.once_in(2) => {
            let mut bytes = table.as_bytes().to_vec();
            if random.once_in(4) {
                bytes.truncate(random.below(bytes.len()));
            }
            bytes
        }
        _ => any_table(random),
    }
}
