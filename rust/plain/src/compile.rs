//! The dynamic circuit: a node for each instruction with the next ones on its wires, and a set of
//! ready instructions from which the earliest is taken.

use crate::circuit::{length_of, pass, Visitor, MOST_INSTRUCTIONS, MOST_WIRES};
use crate::greedy::PAIR_LENGTH;
use crate::table::{Sets, Table};
use crate::{room, Refusal};

const PAIR: u8 = 0x60;
const DYNAMIC_WIDTH: u8 = 0x02;
/// No instruction, and no wire.
const NONE: u16 = u16::MAX;
const NOBODY: u8 = u8::MAX;

/// Writes the dynamic circuit of a static circuit and a pair list, and gives the number of bytes
/// written.
#[inline(never)]
pub fn compile(circuit: &[u8], pairs: &[u8], out: &mut [u8]) -> Result<usize, Refusal> {
    let mut graph = Graph::new(circuit.len());
    let width = pass(circuit, &mut graph)?.wires;
    let takers = read_pairs(graph.sets.table(width), pairs)?;
    let needed = circuit.len() + 1;
    let out = room(out, needed)?;
    let (qubits, qubit_of) = number_chains(width, &takers);
    out[..3].copy_from_slice(&[DYNAMIC_WIDTH, qubits, width]);
    write_in_order(circuit, graph, &takers, &qubit_of, out);
    Ok(needed)
}

/// Who takes from each wire, and which wires take.
struct Takers {
    taker_of: [u8; MOST_WIRES],
    taking: u32,
}

/// Judges the pairs of a list, left to right.
fn read_pairs(mut table: Table, list: &[u8]) -> Result<Takers, Refusal> {
    let mut takers = Takers {
        taker_of: [NOBODY; MOST_WIRES],
        taking: 0,
    };
    for (place, record) in list.chunks(PAIR_LENGTH).enumerate() {
        let refusal = |number| Refusal { number, place };
        if record[0] != PAIR {
            return Err(refusal(24));
        }
        let &[_, lender, taker] = record else {
            return Err(refusal(25));
        };
        table.offer(lender, taker).map_err(refusal)?;
        takers.taker_of[usize::from(lender)] = taker;
        takers.taking |= 1 << taker;
    }
    Ok(takers)
}

/// How many chains there are, and for each wire the number of its chain: its qubit.
fn number_chains(width: u8, takers: &Takers) -> (u8, [u8; MOST_WIRES]) {
    let mut qubit_of = [0; MOST_WIRES];
    let mut qubits = 0;
    for first in (0..width).filter(|wire| takers.taking >> wire & 1 == 0) {
        let mut wire = first;
        while wire != NOBODY {
            qubit_of[usize::from(wire)] = qubits;
            wire = takers.taker_of[usize::from(wire)];
        }
        qubits += 1;
    }
    (qubits, qubit_of)
}

/// An instruction: where it stands, how many earlier neighbours are not yet written, and the next
/// instruction on each of its wires.
struct Node {
    place: u16,
    awaits: u16,
    next: [u16; 2],
}

/// The nodes of a circuit, and the sets of resets for its table.
struct Graph {
    nodes: Vec<Node>,
    /// For each wire its last instruction so far, and which of that instruction's wires it is.
    last: [(u16, u8); MOST_WIRES],
    reset_of: [u16; MOST_WIRES],
    sets: Sets,
}

impl Graph {
    /// No nodes, and room for those of a circuit of so many bytes.
    fn new(bytes: usize) -> Graph {
        Graph {
            nodes: Vec::with_capacity((bytes / 2).min(MOST_INSTRUCTIONS)),
            last: [(NONE, 0); MOST_WIRES],
            reset_of: [NONE; MOST_WIRES],
            sets: Sets::none(),
        }
    }

    #[inline]
    fn add(&mut self, place: usize, awaits: u16) -> u16 {
        let index = self.nodes.len() as u16;
        self.nodes.push(Node {
            place: place as u16,
            awaits,
            next: [NONE; 2],
        });
        index
    }

    /// Points from a wire's last instruction to this one, of which it is the wire of this number.
    #[inline]
    fn link(&mut self, wire: u8, index: u16, operand: u8) {
        let last = &mut self.last[usize::from(wire)];
        self.nodes[usize::from(last.0)].next[usize::from(last.1 & 1)] = index;
        *last = (index, operand);
    }
}

impl Visitor for Graph {
    #[inline]
    fn reset(&mut self, place: usize, wire: u8) {
        let index = self.add(place, 0);
        self.last[usize::from(wire)] = (index, 0);
        self.reset_of[usize::from(wire)] = index;
        self.sets.reset(wire);
    }

    #[inline]
    fn measurement(&mut self, place: usize, wire: u8) {
        self.gate(place, wire);
    }

    #[inline]
    fn gate(&mut self, place: usize, wire: u8) {
        let index = self.add(place, 1);
        self.link(wire, index, 0);
    }

    #[inline]
    fn gate_on_two(&mut self, place: usize, first: u8, second: u8) {
        let index = self.add(place, 2);
        self.link(first, index, 0);
        self.link(second, index, 1);
        self.sets.join(first, second);
    }
}

/// Instructions by their indexes: a bit for each, and a bit for each 64 that are not all absent.
struct Ready {
    present: [u64; MOST_INSTRUCTIONS / 64],
    groups: u32,
}

impl Ready {
    #[inline]
    fn insert(&mut self, index: u16) {
        let group = usize::from(index / 64);
        self.present[group] |= 1 << (index % 64);
        self.groups |= 1 << group;
    }

    /// Takes the earliest.
    #[inline]
    fn take(&mut self) -> Option<u16> {
        if self.groups == 0 {
            return None;
        }
        let group = self.groups.trailing_zeros();
        let present = &mut self.present[group as usize];
        let index = group * 64 + present.trailing_zeros();
        *present &= *present - 1;
        if *present == 0 {
            self.groups &= self.groups - 1;
        }
        Some(index as u16)
    }
}

/// Writes the instructions after the first record, in their order, renamed.
fn write_in_order(
    circuit: &[u8],
    mut graph: Graph,
    takers: &Takers,
    qubit_of: &[u8; MOST_WIRES],
    out: &mut [u8],
) {
    let mut ready = Ready {
        present: [0; MOST_INSTRUCTIONS / 64],
        groups: 0,
    };
    let width = circuit[1];
    for wire in (0..width).filter(|wire| takers.taking >> wire & 1 == 0) {
        ready.insert(graph.reset_of[usize::from(wire)]);
    }
    let mut to = 3;
    while let Some(index) = ready.take() {
        let Node { place, next, .. } = graph.nodes[usize::from(index)];
        let record = &circuit[usize::from(place)..];
        to += write_renamed(record, qubit_of, &mut out[to..]);
        for next in next {
            if next != NONE {
                let node = &mut graph.nodes[usize::from(next)];
                node.awaits -= 1;
                if node.awaits == 0 {
                    ready.insert(next);
                }
            }
        }
        if next == [NONE; 2] {
            // A measurement: its wire's taker may begin.
            let taker = takers.taker_of[usize::from(record[1])];
            if taker != NOBODY {
                ready.insert(graph.reset_of[usize::from(taker)]);
            }
        }
    }
}

/// Writes the instruction at the front with qubits for its wires, and gives its length.
#[inline]
fn write_renamed(record: &[u8], qubit_of: &[u8; MOST_WIRES], out: &mut [u8]) -> usize {
    let kind = record[0];
    let length = length_of(kind).expect("the circuit was read");
    let qubit = |wire: u8| qubit_of[usize::from(wire)];
    match length {
        2 => out[..2].copy_from_slice(&[kind, qubit(record[1])]),
        3 if kind < 0x20 => out[..3].copy_from_slice(&[kind, qubit(record[1]), record[2]]),
        3 => out[..3].copy_from_slice(&[kind, qubit(record[1]), qubit(record[2])]),
        10 => {
            out[..10].copy_from_slice(&record[..10]);
            out[1] = qubit(record[1]);
        }
        _ => {
            out[..11].copy_from_slice(&record[..11]);
            out[1] = qubit(record[1]);
            out[2] = qubit(record[2]);
        }
    }
    length
}
