//! Valid static circuits, made so that they are valid: a wire is reset, has its gates, is measured.

use crate::records::*;
use crate::Random;

/// The most wires that a circuit may have.
pub const MOST_WIRES: u8 = 32;
/// The most instructions that a circuit may have.
pub const MOST_INSTRUCTIONS: usize = 2048;

/// How soon something comes that must come at some time, against a gate's `WEIGHT_OF_A_GATE`.
pub type Weight = usize;
/// The weight of a gate while gates are left.
pub const WEIGHT_OF_A_GATE: Weight = 100;
/// The weight of what comes before any gate, nearly always.
pub const EARLY: Weight = 100_000;
/// The weight of what comes after all gates, nearly always.
pub const LATE: Weight = 1;

/// What a random circuit looks like.
#[derive(Clone, Copy, Debug)]
pub struct Shape {
    /// How many wires it has, 1 to 32.
    pub wires: u8,
    /// How many gates it has. With a reset and a measurement a wire: 2,048 instructions at most.
    pub gates: usize,
    /// How soon a wire is reset.
    pub resets: Weight,
    /// How soon a wire in use is measured.
    pub measurements: Weight,
}

impl Shape {
    /// A shape for many small circuits: seldom more than a dozen wires or two dozen gates.
    pub fn random(random: &mut Random) -> Shape {
        let most_wires = random.one_of(&[1, 2, 3, 4, 6, 8, 12, MOST_WIRES]);
        let wires = 1 + random.below(usize::from(most_wires)) as u8;
        Shape::of_width(random, wires)
    }

    /// A shape with this many wires. One in two hundred has as many instructions as there may be,
    /// or one or two less.
    pub fn of_width(random: &mut Random, wires: u8) -> Shape {
        let most_gates = random.one_of(&[1, 4, 8, 24, 60]);
        let gates = match random.once_in(200) {
            true => MOST_INSTRUCTIONS - 2 * usize::from(wires) - random.below(3),
            false => random.below(most_gates + 1),
        };
        Shape {
            wires,
            gates,
            resets: random.one_of(&[EARLY, WEIGHT_OF_A_GATE, LATE]),
            measurements: random.one_of(&[WEIGHT_OF_A_GATE, WEIGHT_OF_A_GATE / 5, LATE]),
        }
    }
}

/// The instructions of a circuit of this shape, each as its record, in order.
pub fn random_instructions(random: &mut Random, shape: Shape) -> Vec<Vec<u8>> {
    let wires = usize::from(shape.wires);
    assert!((1..=usize::from(MOST_WIRES)).contains(&wires));
    assert!(shape.gates + 2 * wires <= MOST_INSTRUCTIONS);

    // Wires are taken in a random order, and bits are given out in another.
    let mut fresh: Vec<u8> = (0..shape.wires).collect();
    let mut bits: Vec<u8> = (0..shape.wires).collect();
    random.shuffle(&mut fresh);
    random.shuffle(&mut bits);

    let mut in_use: Vec<u8> = Vec::new();
    let mut gates_left = shape.gates;
    let mut instructions = Vec::new();
    while !(fresh.is_empty() && in_use.is_empty()) {
        // The last wire is kept while gates are left.
        let keep = gates_left > 0 && fresh.is_empty() && in_use.len() == 1;
        let may_reset = !fresh.is_empty();
        let may_gate = gates_left > 0 && !in_use.is_empty();
        let may_measure = !in_use.is_empty() && !keep;

        let of_reset = if may_reset { shape.resets } else { 0 };
        let of_gate = if may_gate { WEIGHT_OF_A_GATE } else { 0 };
        let of_measurement = if may_measure { shape.measurements } else { 0 };
        let lot = random.below(of_reset + of_gate + of_measurement);
        if lot < of_reset {
            let wire = fresh.pop().expect("a wire is fresh");
            instructions.push(reset(wire));
            in_use.push(wire);
        } else if lot < of_reset + of_gate {
            instructions.push(random_gate(random, &in_use));
            gates_left -= 1;
        } else {
            let wire = in_use.swap_remove(random.below(in_use.len()));
            let bit = bits.pop().expect("there are as many bits as wires");
            instructions.push(measurement(wire, bit));
        }
    }
    instructions
}

/// A gate of any kind on wires that are in use, of which there is at least one.
fn random_gate(random: &mut Random, in_use: &[u8]) -> Vec<u8> {
    let kind = random.below(16) as u8;
    let first = random.below(in_use.len());
    let on_two_wires = in_use.len() > 1 && random.once_in(2);
    let turned = random.once_in(3);
    if !on_two_wires {
        let wire = in_use[first];
        return match turned {
            false => gate(ONE_WIRE + kind, wire),
            true => turned_gate(ONE_WIRE_TURNED + kind, wire, random.bytes()),
        };
    }
    let other = (first + 1 + random.below(in_use.len() - 1)) % in_use.len();
    let (first, second) = (in_use[first], in_use[other]);
    match turned {
        false => pair_gate(TWO_WIRES + kind, first, second),
        true => turned_pair_gate(TWO_WIRES_TURNED + kind, first, second, random.bytes()),
    }
}

/// A circuit of this shape.
pub fn random_circuit(random: &mut Random, shape: Shape) -> Vec<u8> {
    joined(shape.wires, &random_instructions(random, shape))
}

/// A circuit of any shape, mostly small.
pub fn any_circuit(random: &mut Random) -> Vec<u8> {
    let shape = Shape::random(random);
    random_circuit(random, shape)
}

/// The circuit with this width and these instructions.
pub fn joined(wires: u8, instructions: &[Vec<u8>]) -> Vec<u8> {
    [static_width(wires), instructions.concat()].concat()
}

/// A circuit without gates: its wires are reset, then measured, each to the bit of its number.
pub fn bare(wires: u8) -> Vec<u8> {
    let resets = (0..wires).map(reset);
    let measurements = (0..wires).map(|wire| measurement(wire, wire));
    joined(wires, &resets.chain(measurements).collect::<Vec<_>>())
}

#[cfg(test)]
mod tests {
    use super::*;

    fn kinds(instructions: &[Vec<u8>], kind: u8) -> usize {
        instructions
            .iter()
            .filter(|record| record[0] == kind)
            .count()
    }

    #[test]
    fn a_random_circuit_has_the_shape_that_was_asked_for() {
        let mut random = Random::new(1);
        for _ in 0..2000 {
            let shape = Shape::random(&mut random);
            let instructions = random_instructions(&mut random, shape);
            let wires = usize::from(shape.wires);
            assert_eq!(kinds(&instructions, 0x10), wires, "{shape:?}");
            assert_eq!(kinds(&instructions, 0x11), wires, "{shape:?}");
            assert_eq!(instructions.len(), shape.gates + 2 * wires, "{shape:?}");
        }
    }

    #[test]
    fn resets_can_come_early_and_measurements_late() {
        let shape = Shape {
            wires: 5,
            gates: 9,
            resets: EARLY,
            measurements: LATE,
        };
        let instructions = random_instructions(&mut Random::new(2), shape);
        assert_eq!(kinds(&instructions[..5], 0x10), 5);
        assert_eq!(kinds(&instructions[14..], 0x11), 5);
    }

    #[test]
    fn resets_can_come_after_measurements() {
        let shape = Shape {
            wires: 5,
            gates: 9,
            resets: LATE,
            measurements: WEIGHT_OF_A_GATE,
        };
        let instructions = random_instructions(&mut Random::new(3), shape);
        let measured = instructions.iter().position(|record| record[0] == 0x11);
        assert!(kinds(&instructions[measured.unwrap()..], 0x10) > 0);
    }
}
