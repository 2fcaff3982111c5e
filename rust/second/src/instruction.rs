//! One instruction of a static circuit, and the document's table of kinds.

use std::ops::RangeInclusive;

/// A line of the static circuit.
#[derive(Clone, Copy, Debug, PartialEq, Eq, PartialOrd, Ord)]
pub struct Wire(pub u8);

/// What receives one measurement.
#[derive(Clone, Copy, Debug, PartialEq, Eq, PartialOrd, Ord)]
pub struct Bit(pub u8);

/// The kind of a reset.
pub(crate) const RESET: u8 = 0x10;
/// The kind of a measurement.
pub(crate) const MEASUREMENT: u8 = 0x11;

/// One row of the document's table: what the bodies of some kinds hold, in this order.
struct Row {
    kinds: RangeInclusive<u8>,
    wires: usize,
    bits: usize,
    angle_bytes: usize,
}

/// The rows of the table that a static circuit may have after its first record.
#[rustfmt::skip]
const TABLE: [Row; 6] = [
    Row { kinds: RESET..=RESET,             wires: 1, bits: 0, angle_bytes: 0 },
    Row { kinds: MEASUREMENT..=MEASUREMENT, wires: 1, bits: 1, angle_bytes: 0 },
    Row { kinds: 0x20..=0x2F,               wires: 1, bits: 0, angle_bytes: 0 },
    Row { kinds: 0x30..=0x3F,               wires: 1, bits: 0, angle_bytes: 8 },
    Row { kinds: 0x40..=0x4F,               wires: 2, bits: 0, angle_bytes: 0 },
    Row { kinds: 0x50..=0x5F,               wires: 2, bits: 0, angle_bytes: 8 },
];

/// One instruction of a static circuit.
#[derive(Clone, Debug, PartialEq, Eq)]
pub struct Instruction {
    /// Its kind byte.
    pub kind: u8,
    /// The wires that it names, in the order of its body.
    pub wires: Vec<Wire>,
    /// The bit that receives the result, of a measurement only.
    pub bit: Option<Bit>,
    /// The bytes of the angle, none where the kind has no angle.
    pub angle: Vec<u8>,
}

impl Instruction {
    /// Takes the instruction at the start of `bytes`, which has at least a kind, and gives it with
    /// the bytes after it; or the number of the refusal.
    pub(crate) fn take(bytes: &[u8]) -> Result<(Instruction, &[u8]), u8> {
        let (kind, rest) = (bytes[0], &bytes[1..]);
        let row = TABLE
            .iter()
            .find(|row| row.kinds.contains(&kind))
            .ok_or(4)?;
        let length = row.wires + row.bits + row.angle_bytes;
        if rest.len() < length {
            return Err(2);
        }
        let (body, after) = rest.split_at(length);
        let (wires, body) = body.split_at(row.wires);
        let (bits, angle) = body.split_at(row.bits);
        let instruction = Instruction {
            kind,
            wires: wires.iter().copied().map(Wire).collect(),
            bit: bits.first().copied().map(Bit),
            angle: angle.to_vec(),
        };
        Ok((instruction, after))
    }

    /// The instruction's record.
    pub fn bytes(&self) -> Vec<u8> {
        let mut bytes = vec![self.kind];
        bytes.extend(self.wires.iter().map(|wire| wire.0));
        bytes.extend(self.bit.map(|bit| bit.0));
        bytes.extend(&self.angle);
        bytes
    }
}

#[cfg(test)]
mod tests {
    use super::*;

    #[test]
    fn every_kind_of_the_table_is_taken_and_written_back() {
        let body = [3, 1, 4, 1, 5, 9, 2, 6, 5, 3];
        let mut taken = 0;
        for kind in 0..=u8::MAX {
            let mut record = vec![kind];
            record.extend(body);
            match Instruction::take(&record) {
                Ok((instruction, after)) => {
                    taken += 1;
                    assert_eq!([&instruction.bytes()[..], after].concat(), record);
                }
                Err(number) => assert_eq!(number, 4, "kind {kind:02x}"),
            }
        }
        assert_eq!(taken, 2 + 4 * 16);
    }

    #[test]
    fn a_cut_body_is_refused() {
        assert_eq!(Instruction::take(&[0x11, 0]), Err(2));
        assert_eq!(
            Instruction::take(&[0x50, 0, 1, 0, 0, 0, 0, 0, 0, 0]),
            Err(2)
        );
    }
}
