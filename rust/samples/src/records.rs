//! The records of the house format, each as its bytes. Any number is taken, also a wrong one.

/// The eight bytes of an angle.
pub type Angle = [u8; 8];

/// The first of the sixteen kinds of gate on one wire.
pub const ONE_WIRE: u8 = 0x20;
/// The first of the sixteen kinds of gate on one wire with an angle.
pub const ONE_WIRE_TURNED: u8 = 0x30;
/// The first of the sixteen kinds of gate on two wires.
pub const TWO_WIRES: u8 = 0x40;
/// The first of the sixteen kinds of gate on two wires with an angle.
pub const TWO_WIRES_TURNED: u8 = 0x50;

/// How many bytes the longest instruction has: a kind, two wires, an angle.
pub const LONGEST_INSTRUCTION: usize = 1 + 2 + 8;

/// The first record of a static circuit.
pub fn static_width(wires: u8) -> Vec<u8> {
    vec![0x01, wires]
}

/// A reset.
pub fn reset(wire: u8) -> Vec<u8> {
    vec![0x10, wire]
}

/// A measurement.
pub fn measurement(wire: u8, bit: u8) -> Vec<u8> {
    vec![0x11, wire, bit]
}

/// A gate on one wire; `kind` is 20 to 2F.
pub fn gate(kind: u8, wire: u8) -> Vec<u8> {
    vec![kind, wire]
}

/// A gate on one wire with an angle; `kind` is 30 to 3F.
pub fn turned_gate(kind: u8, wire: u8, angle: Angle) -> Vec<u8> {
    [&[kind, wire][..], &angle].concat()
}

/// A gate on two wires; `kind` is 40 to 4F.
pub fn pair_gate(kind: u8, first: u8, second: u8) -> Vec<u8> {
    vec![kind, first, second]
}

/// A gate on two wires with an angle; `kind` is 50 to 5F.
pub fn turned_pair_gate(kind: u8, first: u8, second: u8, angle: Angle) -> Vec<u8> {
    [&[kind, first, second][..], &angle].concat()
}

/// A reuse pair, of pair lists only.
pub fn reuse_pair(lender: u8, taker: u8) -> Vec<u8> {
    vec![0x60, lender, taker]
}
