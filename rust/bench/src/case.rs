//! One case: a circuit with its table and greedy's list, and the calls on it by either program.

use crate::circuits::Family;
use std::hint::black_box;
use thaksipho::{bytes, Table};

/// How many bytes the record of a pair has.
const PAIR_LENGTH: usize = 3;

/// A call that is measured.
#[derive(Clone, Copy, Debug, PartialEq, Eq)]
pub enum Call {
    Read,
    Start,
    Greedy,
    Compile,
}

impl Call {
    /// Every call that is measured.
    pub const ALL: [Call; 4] = [Call::Read, Call::Start, Call::Greedy, Call::Compile];

    /// Its name in the tables and on the command line.
    pub fn name(self) -> &'static str {
        match self {
            Call::Read => "read",
            Call::Start => "start",
            Call::Greedy => "greedy",
            Call::Compile => "compile",
        }
    }
}

/// Who does the job.
#[derive(Clone, Copy, Debug, PartialEq, Eq)]
pub enum Program {
    Library,
    Plain,
}

/// What the calls are given, and room for what they write.
pub struct Case {
    pub circuit: Vec<u8>,
    pub table: Vec<u8>,
    pub pairs: Vec<u8>,
    pub trials: u32,
    out: Vec<u8>,
}

impl Case {
    /// The case of a circuit of a family. Its table and its list are made by `maker`: where calls
    /// of one program are counted, the other one makes them.
    pub fn new(maker: Program, family: Family, wires: u8, instructions: usize) -> Case {
        let circuit = family.circuit(wires, instructions);
        let mut table = vec![0; Table::LENGTH];
        let mut pairs = vec![0; PAIR_LENGTH * Table::MOST_WIRES];
        let trials = match maker {
            Program::Library => {
                bytes::start(&circuit, &mut table).expect("the circuit is valid");
                let chosen = bytes::greedy(&table, &mut pairs).expect("there is room");
                pairs.truncate(PAIR_LENGTH * chosen.pairs);
                chosen.trials
            }
            Program::Plain => {
                plain::start(&circuit, &mut table).expect("the circuit is valid");
                let chosen = plain::greedy(&table, &mut pairs).expect("there is room");
                pairs.truncate(PAIR_LENGTH * chosen.pairs);
                chosen.trials
            }
        };
        let out = vec![0; circuit.len() + 1 + Table::LENGTH];
        Case {
            circuit,
            table,
            pairs,
            trials,
            out,
        }
    }

    /// How many pairs its list has.
    pub fn pair_count(&self) -> usize {
        self.pairs.len() / PAIR_LENGTH
    }

    /// Makes a call once. All succeed.
    pub fn run(&mut self, program: Program, call: Call) {
        let circuit = black_box(&self.circuit[..]);
        let table = black_box(&self.table[..]);
        let pairs = black_box(&self.pairs[..]);
        let out = black_box(&mut self.out[..]);
        let done = match (program, call) {
            (Program::Library, Call::Read) => thaksipho::read(circuit).is_ok(),
            (Program::Library, Call::Start) => bytes::start(circuit, out).is_ok(),
            (Program::Library, Call::Greedy) => bytes::greedy(table, out).is_ok(),
            (Program::Library, Call::Compile) => thaksipho::compile(circuit, pairs, out).is_ok(),
            (Program::Plain, Call::Read) => plain::read(circuit).is_ok(),
            (Program::Plain, Call::Start) => plain::start(circuit, out).is_ok(),
            (Program::Plain, Call::Greedy) => plain::greedy(table, out).is_ok(),
            (Program::Plain, Call::Compile) => plain::compile(circuit, pairs, out).is_ok(),
        };
        assert!(done, "a case is accepted");
    }
}
