//! Circuits of Table I in the source paper (source document 000, "Dynamic Quantum Circuit
//! Compilation") that need no classical control, each for a size, and the smallest width that the
//! table states for it.
//!
//! The paper itself says how many wires a circuit has and leaves the gates to a supplement. Its
//! longer preprint (source document 001) describes the gates in appendix C and gives for each
//! circuit a matrix of the pairs that are possible at the start; each doc comment names the place,
//! and says what that leaves open. Which one-wire gates stand in a circuit changes no pair.
//!
//! Every wire is reset before all gates and measured after them, to the bit of its number.

use crate::circuits::joined;
use crate::records::*;

/// A Hadamard gate.
const H: u8 = ONE_WIRE;
/// A Pauli X gate.
const X: u8 = ONE_WIRE + 1;
/// A T gate.
const T: u8 = ONE_WIRE + 2;
/// The inverse of a T gate.
const T_BACK: u8 = ONE_WIRE + 3;
/// A rotation of one wire about the y axis.
const ROTATION: u8 = ONE_WIRE_TURNED;
/// A controlled X gate: the first wire controls, the second is the target.
const CX: u8 = TWO_WIRES;
/// A controlled Z gate.
const CZ: u8 = TWO_WIRES + 1;
/// A Givens rotation of two wires.
const GIVENS: u8 = TWO_WIRES_TURNED;

/// The angle of every gate that has one: one half, as an IEEE 754 number, lowest byte first.
const ANGLE: Angle = [0, 0, 0, 0, 0, 0, 0xE0, 0x3F];

type Records = Vec<Vec<u8>>;

/// The circuit with these gates between the resets and the measurements of all wires.
fn with_gates(wires: u8, gates: Records) -> Vec<u8> {
    let resets = (0..wires).map(reset);
    let measurements = (0..wires).map(|wire| measurement(wire, wire));
    let instructions: Records = resets.chain(gates).chain(measurements).collect();
    joined(wires, &instructions)
}

/// The Bernstein-Vazirani algorithm; 001, C.1.1 and C.1.2, Figs. 11 and 13.
pub mod bernstein_vazirani {
    use super::*;

    /// The circuit for this secret: a wire for each place of it, and one more, which is the target
    /// of a CX from each place that is one. The last wire begins as one, all have an H before the
    /// CX gates, all but the last one after them.
    ///
    /// Chosen: the CX gates stand in the order of the places.
    pub fn circuit(secret: &[bool]) -> Vec<u8> {
        let last = secret.len() as u8;
        let ones = (0..last).filter(|&wire| secret[usize::from(wire)]);
        let mut gates = vec![gate(X, last)];
        gates.extend((0..=last).map(|wire| gate(H, wire)));
        gates.extend(ones.map(|wire| pair_gate(CX, wire, last)));
        gates.extend((0..last).map(|wire| gate(H, wire)));
        with_gates(last + 1, gates)
    }

    /// Table I: 2, and 1 for a secret without ones.
    pub fn paper_minimum(secret: &[bool]) -> u8 {
        match secret.contains(&true) {
            true => 2,
            false => 1,
        }
    }
}

/// The rotation layer of the circuits made of layers; 001, C.2.1: a rotation gate on every wire.
fn rotations(wires: u8) -> impl Iterator<Item = Vec<u8>> {
    (0..wires).map(|wire| turned_gate(ROTATION, wire, ANGLE))
}

/// Gates from each of these wires to the one after it.
fn to_next(wires: impl Iterator<Item = u8>) -> impl Iterator<Item = Vec<u8>> {
    wires.map(|wire| pair_gate(CX, wire, wire + 1))
}

/// Linearly entangled circuits; 001, C.2.1, Fig. 21a.
pub mod linear {
    use super::*;

    /// The circuit with so many layers, at least one: in each a rotation of every wire, then a gate
    /// from each wire to the next, the lowest first.
    ///
    /// Left open by the paper, and chosen: the two-wire gate is CX, the rotation is about the y
    /// axis, no rotations stand after the last layer.
    pub fn circuit(wires: u8, layers: u8) -> Vec<u8> {
        let layer = || rotations(wires).chain(to_next(0..wires - 1));
        with_gates(wires, (0..layers).flat_map(|_| layer()).collect())
    }

    /// Table I: one more than the layers; by 001, Proposition 18, never more than the wires.
    pub fn paper_minimum(wires: u8, layers: u8) -> u8 {
        (layers + 1).min(wires)
    }
}

/// Circularly entangled circuits; 001, C.2.1, Fig. 21b.
pub mod circular {
    use super::*;

    /// The circuit with so many layers, at least one: each is a linear layer, then a gate from the
    /// last wire to wire 0.
    ///
    /// That this gate stands last in its layer is read off matrix (29) of 001. Left open, and
    /// chosen: as for the linear circuits.
    pub fn circuit(wires: u8, layers: u8) -> Vec<u8> {
        let closing = || pair_gate(CX, wires - 1, 0);
        let layer = || {
            let linear = rotations(wires).chain(to_next(0..wires - 1));
            linear.chain([closing()])
        };
        with_gates(wires, (0..layers).flat_map(|_| layer()).collect())
    }

    /// Table I: 3, for any number of layers. By 001, Proposition 19, that holds only for one layer
    /// and at least four wires, and no other such circuit can be made narrower; this is what is
    /// given here.
    pub fn paper_minimum(wires: u8, layers: u8) -> u8 {
        match (layers, wires) {
            (1, 4..) => 3,
            _ => wires,
        }
    }
}

/// Pairwise entangled circuits; 001, C.2.1, Fig. 21c.
pub mod pairwise {
    use super::*;

    /// The circuit with so many layers, at least one: in each a rotation of every wire, then a gate
    /// from each even wire to the next, then a gate from each odd wire to the next.
    ///
    /// Left open, and chosen: as for the linear circuits.
    pub fn circuit(wires: u8, layers: u8) -> Vec<u8> {
        let layer = || {
            let even = to_next((0..wires - 1).step_by(2));
            let odd = to_next((1..wires - 1).step_by(2));
            rotations(wires).chain(even).chain(odd)
        };
        with_gates(wires, (0..layers).flat_map(|_| layer()).collect())
    }

    /// Table I: twice the layers and one; by 001, Proposition 20, never more than the wires. That
    /// proposition shows it to be the least only for more than (wires - 2) / 4 layers.
    pub fn paper_minimum(wires: u8, layers: u8) -> u8 {
        (2 * layers + 1).min(wires)
    }
}

/// Diamond-structured circuits; 001, C.2.2, Fig. 22.
pub mod diamond {
    use super::*;

    /// The circuit on 2n wires, n being `half`: n squared two-wire rotations in 2n - 1 layers, the
    /// first with one gate between the two middle wires, each further one with one gate more until
    /// there are n, then with one less.
    ///
    /// 001 shows the circuit only in a figure, which its text lacks. This shape is that of the
    /// experiment it cites (basis rotations at half filling) and gives matrices (38) and (39) of
    /// 001. Chosen: the lower half of the wires begins as one.
    pub fn circuit(half: u8) -> Vec<u8> {
        let mut gates: Records = (0..half).map(|wire| gate(X, wire)).collect();
        let growing = 1..=half;
        let shrinking = (1..half).rev();
        for in_layer in growing.chain(shrinking) {
            let lowest = half - in_layer;
            let lower_wires = (0..in_layer).map(|at| lowest + 2 * at);
            gates.extend(lower_wires.map(|wire| turned_pair_gate(GIVENS, wire, wire + 1, ANGLE)));
        }
        with_gates(2 * half, gates)
    }

    /// Table I: one more than half of the wires.
    pub fn paper_minimum(half: u8) -> u8 {
        half + 1
    }
}

/// Quantum ripple carry adders; 001, C.1.9, Fig. 20.
pub mod adder {
    use super::*;

    /// The circuit that adds two numbers of so many places, on three wires a place and one more.
    /// Wire 0 is the carry into the lowest place. Place m has its two summands on wires 3m + 1 and
    /// 3m + 2 and its carry on wire 3m + 3; the second summand's wire ends up with the sum.
    ///
    /// 001 gives the number of wires, the use of CX and Toffoli gates and matrix (22), and cites
    /// the rest; a Cuccaro adder has fewer wires and is not meant. The circuit here is a chain of
    /// full adders that leaves the carries standing, and gives that matrix. Chosen: both summands
    /// are all ones, and a Toffoli gate, which the house format lacks, is the usual six CX gates
    /// with T gates.
    pub fn circuit(places: u8) -> Vec<u8> {
        let summands = (0..places).flat_map(|place| [3 * place + 1, 3 * place + 2]);
        let mut gates: Records = summands.map(|wire| gate(X, wire)).collect();
        for place in 0..places {
            let carry_in = 3 * place;
            let (first, second, carry) = (carry_in + 1, carry_in + 2, carry_in + 3);
            gates.extend(toffoli(first, second, carry));
            gates.push(pair_gate(CX, first, second));
            gates.extend(toffoli(carry_in, second, carry));
            gates.push(pair_gate(CX, carry_in, second));
        }
        with_gates(3 * places + 1, gates)
    }

    /// A Toffoli gate, with gates on one and two wires.
    fn toffoli(control: u8, other: u8, target: u8) -> Records {
        vec![
            gate(H, target),
            pair_gate(CX, other, target),
            gate(T_BACK, target),
            pair_gate(CX, control, target),
            gate(T, target),
            pair_gate(CX, other, target),
            gate(T_BACK, target),
            pair_gate(CX, control, target),
            gate(T, other),
            gate(T, target),
            gate(H, target),
            pair_gate(CX, control, other),
            gate(T, control),
            gate(T_BACK, other),
            pair_gate(CX, control, other),
        ]
    }

    /// Table I: 4, and 3 for one place, which is four wires.
    pub fn paper_minimum(places: u8) -> u8 {
        match places {
            1 => 3,
            _ => 4,
        }
    }
}

/// Measurement-based circuits on cluster states; 001, C.3, Fig. 23.
pub mod cluster {
    use super::*;

    /// The circuit of a cluster state: wires stand in a grid and are numbered column by column. An
    /// H on every wire, then the CZ gates of the first column, those between the first and the
    /// second column, those of the second column, and so on.
    ///
    /// That the gates of a column go from the top down is read off matrix (43) of 001. Left open,
    /// and chosen: so do those between two columns. Left out: measurements in other bases, and
    /// choosing a basis by earlier results, which is classical control.
    pub fn circuit(rows: u8, columns: u8) -> Vec<u8> {
        with_gates(rows * columns, grid(rows, columns))
    }

    /// The same, but the first column begins in an entangled state, as 001 allows. Left open by the
    /// paper, and chosen: before anything else there is a CX between each two wires of that column,
    /// the "fully entangled layer" of 001, C.2.1, in place of whatever makes the state.
    pub fn circuit_with_entangled_input(rows: u8, columns: u8) -> Vec<u8> {
        let first_wires = 0..rows;
        let twos = first_wires.flat_map(|wire| (wire + 1..rows).map(move |other| (wire, other)));
        let mut gates: Records = twos
            .map(|(wire, other)| pair_gate(CX, wire, other))
            .collect();
        gates.extend(grid(rows, columns));
        with_gates(rows * columns, gates)
    }

    fn grid(rows: u8, columns: u8) -> Records {
        let wires = rows * columns;
        let mut gates: Records = (0..wires).map(|wire| gate(H, wire)).collect();
        for column in 0..columns {
            let top = rows * column;
            if column > 0 {
                let in_column = top..top + rows;
                gates.extend(in_column.map(|wire| pair_gate(CZ, wire - rows, wire)));
            }
            let but_lowest = top..top + rows - 1;
            gates.extend(but_lowest.map(|wire| pair_gate(CZ, wire, wire + 1)));
        }
        gates
    }

    /// Table I: one more than the rows, for two or more columns. The proof in 001, Proposition 23,
    /// that no fewer do rests on a first column that begins in any entangled state.
    pub fn paper_minimum(rows: u8) -> u8 {
        rows + 1
    }
}

#[cfg(test)]
mod tests {
    use super::*;

    #[test]
    fn a_linear_circuit_is_as_its_text_says() {
        let expected = [
            &[0x01, 2, 0x10, 0, 0x10, 1][..],
            &[0x30, 0, 0, 0, 0, 0, 0, 0, 0xE0, 0x3F],
            &[0x30, 1, 0, 0, 0, 0, 0, 0, 0xE0, 0x3F],
            &[0x40, 0, 1, 0x11, 0, 0, 0x11, 1, 1],
        ];
        assert_eq!(linear::circuit(2, 1), expected.concat());
    }

    #[test]
    fn the_angle_is_one_half() {
        assert_eq!(f64::from_le_bytes(ANGLE), 0.5);
    }

    #[test]
    fn a_bernstein_vazirani_circuit_is_as_its_text_says() {
        let expected = [
            &[0x01, 3, 0x10, 0, 0x10, 1, 0x10, 2][..],
            &[0x21, 2, 0x20, 0, 0x20, 1, 0x20, 2],
            &[0x40, 1, 2, 0x20, 0, 0x20, 1],
            &[0x11, 0, 0, 0x11, 1, 1, 0x11, 2, 2],
        ];
        let circuit = bernstein_vazirani::circuit(&[false, true]);
        assert_eq!(circuit, expected.concat());
    }

    /// The wires of the two-wire gates of this kind, in order. No wire or bit of a small circuit
    /// and no byte of the angle is such a kind.
    fn wires_of(circuit: &[u8], kind: u8) -> Vec<(u8, u8)> {
        let places = (0..circuit.len()).filter(|&place| circuit[place] == kind);
        places
            .map(|place| (circuit[place + 1], circuit[place + 2]))
            .collect()
    }

    #[test]
    fn layers_have_their_gates_in_order() {
        assert_eq!(
            wires_of(&circular::circuit(4, 1), CX),
            [(0, 1), (1, 2), (2, 3), (3, 0)]
        );
        assert_eq!(
            wires_of(&pairwise::circuit(5, 1), CX),
            [(0, 1), (2, 3), (1, 2), (3, 4)]
        );
        assert_eq!(
            wires_of(&linear::circuit(3, 2), CX),
            [(0, 1), (1, 2), (0, 1), (1, 2)]
        );
    }

    #[test]
    fn a_diamond_grows_and_shrinks() {
        let rows = [vec![2], vec![1, 3], vec![0, 2, 4], vec![1, 3], vec![2]];
        let lower_wires = rows.concat().into_iter();
        let expected: Vec<(u8, u8)> = lower_wires.map(|wire| (wire, wire + 1)).collect();
        assert_eq!(wires_of(&diamond::circuit(3), GIVENS), expected);
    }

    #[test]
    fn a_cluster_goes_column_by_column() {
        assert_eq!(
            wires_of(&cluster::circuit(2, 3), CZ),
            [(0, 1), (0, 2), (1, 3), (2, 3), (2, 4), (3, 5), (4, 5)]
        );
        assert_eq!(
            wires_of(&cluster::circuit_with_entangled_input(3, 2), CX),
            [(0, 1), (0, 2), (1, 2)]
        );
    }

    #[test]
    fn an_adder_has_three_wires_a_place_and_one_more() {
        assert_eq!(adder::circuit(1)[..2], [0x01, 4]);
        assert_eq!(adder::circuit(10)[..2], [0x01, 31]);
        let cx = wires_of(&adder::circuit(1), CX);
        // Two Toffoli gates of six, and two more.
        assert_eq!(cx.len(), 14);
        assert_eq!((cx[6], cx[13]), ((1, 2), (0, 2)));
    }
}
