//! A static circuit: read from its records, and written again.

use crate::instruction::{Bit, Instruction, Wire, MEASUREMENT, RESET};
use crate::Refusal;
use std::collections::BTreeSet;

const STATIC_WIDTH: u8 = 0x01;
const MOST_WIRES: u8 = 32;
const MOST_INSTRUCTIONS: usize = 2048;

/// A static circuit that passed every check.
#[derive(Clone, Debug, PartialEq, Eq)]
pub struct Circuit {
    /// How many wires it has.
    pub width: u8,
    /// Its instructions, in the order of the input.
    pub instructions: Vec<Instruction>,
}

impl Circuit {
    /// The circuit's records.
    pub fn bytes(&self) -> Vec<u8> {
        let mut bytes = vec![STATIC_WIDTH, self.width];
        for instruction in &self.instructions {
            bytes.extend(instruction.bytes());
        }
        bytes
    }
}

/// Reads a static circuit. The first fault from the left decides.
pub fn read(input: &[u8]) -> Result<Circuit, Refusal> {
    let (width, mut rest) = take_width(input)?;
    let mut so_far = SoFar::new(width);
    let mut instructions = Vec::new();
    while !rest.is_empty() {
        let place = input.len() - rest.len();
        let refusal = |number| Refusal { number, place };
        if instructions.len() == MOST_INSTRUCTIONS {
            return Err(refusal(5));
        }
        let (instruction, after) = Instruction::take(rest).map_err(refusal)?;
        so_far.check(&instruction).map_err(refusal)?;
        so_far.record(&instruction);
        instructions.push(instruction);
        rest = after;
    }
    match so_far.lowest_wire_not_measured() {
        Some(wire) => Err(Refusal {
            number: 13,
            place: usize::from(wire.0),
        }),
        None => Ok(Circuit {
            width,
            instructions,
        }),
    }
}

/// Reads a static circuit and writes its records again to the start of `out`: the number of bytes
/// written, or a refusal that leaves `out` alone.
pub fn rewrite(input: &[u8], out: &mut [u8]) -> Result<usize, Refusal> {
    let bytes = read(input)?.bytes();
    let needed = bytes.len();
    let room = out.get_mut(..needed).ok_or(Refusal {
        number: 31,
        place: needed,
    })?;
    room.copy_from_slice(&bytes);
    Ok(needed)
}

/// Takes the first record: the width, and the bytes after it.
fn take_width(input: &[u8]) -> Result<(u8, &[u8]), Refusal> {
    let refusal = |number| Refusal { number, place: 0 };
    match input {
        [STATIC_WIDTH] => Err(refusal(2)),
        [STATIC_WIDTH, width @ 1..=MOST_WIRES, rest @ ..] => Ok((*width, rest)),
        [STATIC_WIDTH, _, ..] => Err(refusal(3)),
        _ => Err(refusal(1)),
    }
}

/// What the instructions so far have done to each wire and each bit.
struct SoFar {
    width: u8,
    /// For each wire the kinds of the instructions that named it, in order.
    lives: Vec<Vec<u8>>,
    bits_used: BTreeSet<Bit>,
}

impl SoFar {
    fn new(width: u8) -> SoFar {
        SoFar {
            width,
            lives: vec![Vec::new(); usize::from(width)],
            bits_used: BTreeSet::new(),
        }
    }

    fn is_reset(&self, wire: Wire) -> bool {
        self.lives[usize::from(wire.0)].first() == Some(&RESET)
    }

    fn is_measured(&self, wire: Wire) -> bool {
        self.lives[usize::from(wire.0)].last() == Some(&MEASUREMENT)
    }

    /// Whether the instruction may come next, or the number of its first fault: 6, 7, then for each
    /// wire in turn 10 before 8 or 9, then 11, 12.
    fn check(&self, instruction: &Instruction) -> Result<(), u8> {
        let wires = &instruction.wires;
        if wires.iter().any(|wire| wire.0 >= self.width) {
            return Err(6);
        }
        if wires.len() == 2 && wires[0] == wires[1] {
            return Err(7);
        }
        for &wire in wires {
            if self.is_measured(wire) {
                return Err(10);
            }
            match (instruction.kind == RESET, self.is_reset(wire)) {
                (false, false) => return Err(8),
                (true, true) => return Err(9),
                _ => {}
            }
        }
        match instruction.bit {
            Some(bit) if bit.0 >= self.width => Err(11),
            Some(bit) if self.bits_used.contains(&bit) => Err(12),
            _ => Ok(()),
        }
    }

    fn record(&mut self, instruction: &Instruction) {
        for wire in &instruction.wires {
            self.lives[usize::from(wire.0)].push(instruction.kind);
        }
        self.bits_used.extend(instruction.bit);
    }

    fn lowest_wire_not_measured(&self) -> Option<Wire> {
        (0..self.width)
            .map(Wire)
            .find(|&wire| !self.is_measured(wire))
    }
}

#[cfg(test)]
mod tests {
    use super::*;

    #[test]
    fn one_wire_reset_and_measured_is_a_circuit() {
        let circuit = read(&[0x01, 1, 0x10, 0, 0x11, 0, 0]).unwrap();
        assert_eq!((circuit.width, circuit.instructions.len()), (1, 2));
    }

    #[test]
    fn the_first_wire_is_judged_wholly_before_the_second() {
        let with = |first, second| read(&[0x01, 2, 0x10, 0, 0x11, 0, 0, 0x40, first, second]);
        assert_eq!(
            with(1, 0),
            Err(Refusal {
                number: 8,
                place: 7
            })
        );
        assert_eq!(
            with(0, 1),
            Err(Refusal {
                number: 10,
                place: 7
            })
        );
    }

    #[test]
    fn a_refused_rewriting_leaves_the_room_alone() {
        let mut out = [7; 6];
        let refused = rewrite(&[0x01, 1, 0x10, 0, 0x11, 0, 0], &mut out);
        assert_eq!(
            refused,
            Err(Refusal {
                number: 31,
                place: 7
            })
        );
        assert_eq!(out, [7; 6]);
    }
}
