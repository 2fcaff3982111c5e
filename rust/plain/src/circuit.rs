//! One pass over a static circuit, which hands each checked instruction to a visitor.

use crate::Refusal;

/// The most wires that a circuit may have.
pub(crate) const MOST_WIRES: usize = 32;
/// The most instructions that a circuit may have.
pub(crate) const MOST_INSTRUCTIONS: usize = 2048;
/// The first record of a static circuit: its kind, its width.
pub(crate) const HEADER_LENGTH: usize = 2;

const STATIC_WIDTH: u8 = 0x01;
const RESET: u8 = 0x10;
const MEASUREMENT: u8 = 0x11;

/// What a valid static circuit is made of.
#[derive(Clone, Copy, Debug, PartialEq, Eq)]
pub struct Circuit {
    /// How many wires it has.
    pub wires: u8,
    /// How many instructions it has.
    pub instructions: usize,
}

/// What a pass is told: each instruction, once it is checked, with the place at which it stands.
pub(crate) trait Visitor {
    fn reset(&mut self, place: usize, wire: u8);
    fn measurement(&mut self, place: usize, wire: u8);
    fn gate(&mut self, place: usize, wire: u8);
    fn gate_on_two(&mut self, place: usize, first: u8, second: u8);
}

/// A pass that only checks.
struct Nobody;

impl Visitor for Nobody {
    fn reset(&mut self, _: usize, _: u8) {}
    fn measurement(&mut self, _: usize, _: u8) {}
    fn gate(&mut self, _: usize, _: u8) {}
    fn gate_on_two(&mut self, _: usize, _: u8, _: u8) {}
}

/// Reads a static circuit. The first fault from the left decides.
#[inline(never)]
pub fn read(input: &[u8]) -> Result<Circuit, Refusal> {
    pass(input, &mut Nobody)
}

/// The wires below a width.
pub(crate) fn below(width: u8) -> u32 {
    u32::MAX >> (MOST_WIRES as u32 - u32::from(width))
}

/// How many bytes a record of this kind has, as an instruction; none where it is no instruction.
pub(crate) fn length_of(kind: u8) -> Option<usize> {
    match kind {
        RESET | 0x20..=0x2F => Some(2),
        MEASUREMENT | 0x40..=0x4F => Some(3),
        0x30..=0x3F => Some(10),
        0x50..=0x5F => Some(11),
        _ => None,
    }
}

/// What the wires and the bits have been through, a bit of a number for each.
struct States {
    width: u8,
    /// Reset, and not yet measured.
    live: u32,
    done: u32,
    bits_used: u32,
}

impl States {
    #[inline]
    fn check_reset(&mut self, wire: u8) -> Result<(), u8> {
        if wire >= self.width {
            return Err(6);
        }
        let mark = 1 << wire;
        if self.done & mark != 0 {
            return Err(10);
        }
        if self.live & mark != 0 {
            return Err(9);
        }
        self.live |= mark;
        Ok(())
    }

    #[inline]
    fn check_live(&self, wire: u8) -> Result<(), u8> {
        let mark = 1 << wire;
        if self.live & mark != 0 {
            return Ok(());
        }
        Err(if self.done & mark != 0 { 10 } else { 8 })
    }

    #[inline]
    fn check_gate(&self, wire: u8) -> Result<(), u8> {
        if wire >= self.width {
            return Err(6);
        }
        self.check_live(wire)
    }

    #[inline]
    fn check_gate_on_two(&self, first: u8, second: u8) -> Result<(), u8> {
        if first >= self.width || second >= self.width {
            return Err(6);
        }
        if first == second {
            return Err(7);
        }
        self.check_live(first)?;
        self.check_live(second)
    }

    #[inline]
    fn check_measurement(&mut self, wire: u8, bit: u8) -> Result<(), u8> {
        self.check_gate(wire)?;
        if bit >= self.width {
            return Err(11);
        }
        if self.bits_used & 1 << bit != 0 {
            return Err(12);
        }
        self.live &= !(1 << wire);
        self.done |= 1 << wire;
        self.bits_used |= 1 << bit;
        Ok(())
    }
}

/// Takes the first record: the width.
#[inline]
fn take_width(input: &[u8]) -> Result<u8, Refusal> {
    let refusal = |number| Refusal { number, place: 0 };
    match *input {
        [STATIC_WIDTH] => Err(refusal(2)),
        [STATIC_WIDTH, width, ..] if (1..=MOST_WIRES).contains(&usize::from(width)) => Ok(width),
        [STATIC_WIDTH, ..] => Err(refusal(3)),
        _ => Err(refusal(1)),
    }
}

/// Reads a static circuit and tells the visitor of each instruction.
#[inline(always)]
pub(crate) fn pass(input: &[u8], visitor: &mut impl Visitor) -> Result<Circuit, Refusal> {
    let width = take_width(input)?;
    let mut states = States {
        width,
        live: 0,
        done: 0,
        bits_used: 0,
    };
    let mut place = HEADER_LENGTH;
    let mut instructions = 0;
    while place < input.len() {
        let refusal = |number| Refusal { number, place };
        if instructions == MOST_INSTRUCTIONS {
            return Err(refusal(5));
        }
        let length = one_step(&input[place..], place, &mut states, visitor).map_err(refusal)?;
        instructions += 1;
        place += length;
    }
    let unfinished = below(width) & !states.done;
    if unfinished != 0 {
        return Err(Refusal {
            number: 13,
            place: unfinished.trailing_zeros() as usize,
        });
    }
    Ok(Circuit {
        wires: width,
        instructions,
    })
}

/// Checks the instruction at the front and tells the visitor of it: its length, or a fault.
#[inline(always)]
fn one_step(
    rest: &[u8],
    place: usize,
    states: &mut States,
    visitor: &mut impl Visitor,
) -> Result<usize, u8> {
    let length = length_of(rest[0]).ok_or(4)?;
    match *rest {
        [RESET, wire, ..] => {
            states.check_reset(wire)?;
            visitor.reset(place, wire);
        }
        [MEASUREMENT, wire, bit, ..] => {
            states.check_measurement(wire, bit)?;
            visitor.measurement(place, wire);
        }
        [0x20..=0x2F, wire, ..] => {
            states.check_gate(wire)?;
            visitor.gate(place, wire);
        }
        [0x30..=0x3F, wire, ..] if length <= rest.len() => {
            states.check_gate(wire)?;
            visitor.gate(place, wire);
        }
        [0x40..=0x4F, first, second, ..] => {
            states.check_gate_on_two(first, second)?;
            visitor.gate_on_two(place, first, second);
        }
        [0x50..=0x5F, first, second, ..] if length <= rest.len() => {
            states.check_gate_on_two(first, second)?;
            visitor.gate_on_two(place, first, second);
        }
        _ => return Err(2),
    }
    Ok(length)
}
