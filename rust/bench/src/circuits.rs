//! The circuits that are measured, by their family, width and number of instructions.

use samples::circuits::{joined, random_circuit, Shape, EARLY, LATE};
use samples::records::*;
use samples::Random;

/// The seed of every circuit that is measured.
const SEED: u64 = 9;

/// What a circuit looks like. In both, all wires are reset first and measured last.
#[derive(Clone, Copy, Debug, PartialEq, Eq)]
pub enum Family {
    /// Gates between neighbouring wires, from the first wire to the last: nearly every wire can
    /// take, and the output stands in another order than the input.
    Ladder,
    /// Gates on any wires: few pairs or none.
    Random,
}

impl Family {
    /// Every family.
    pub const ALL: [Family; 2] = [Family::Ladder, Family::Random];

    /// Its name in the tables and on the command line.
    pub fn name(self) -> &'static str {
        match self {
            Family::Ladder => "ladder",
            Family::Random => "random",
        }
    }

    /// The circuit of this family with so many wires and instructions.
    pub fn circuit(self, wires: u8, instructions: usize) -> Vec<u8> {
        let mut random = Random::new(SEED);
        let gates = instructions - 2 * usize::from(wires);
        match self {
            Family::Ladder => ladder(&mut random, wires, gates),
            Family::Random => random_circuit(
                &mut random,
                Shape {
                    wires,
                    gates,
                    resets: EARLY,
                    measurements: LATE,
                },
            ),
        }
    }
}

/// Gates of every form on wires 0 and 1, then on 1 and 2, and so on.
fn ladder(random: &mut Random, wires: u8, gates: usize) -> Vec<u8> {
    let steps = usize::from(wires) - 1;
    let mut instructions: Vec<_> = (0..wires).map(reset).collect();
    for index in 0..gates {
        let wire = (index * steps / gates) as u8;
        instructions.push(ladder_gate(random, wire));
    }
    instructions.extend((0..wires).map(|wire| measurement(wire, wire)));
    joined(wires, &instructions)
}

/// A gate of any form on a wire and, where it is on two, the next one.
fn ladder_gate(random: &mut Random, wire: u8) -> Vec<u8> {
    let kind = random.below(16) as u8;
    match random.below(4) {
        0 => gate(ONE_WIRE + kind, wire),
        1 => turned_gate(ONE_WIRE_TURNED + kind, wire, random.bytes()),
        2 => pair_gate(TWO_WIRES + kind, wire, wire + 1),
        _ => turned_pair_gate(TWO_WIRES_TURNED + kind, wire, wire + 1, random.bytes()),
    }
}
