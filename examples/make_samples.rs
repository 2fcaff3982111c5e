//! Makes the samples of this folder: circuits of document 01 and of the source paper, each with a
//! pair list and what becomes of it. What is expected comes from the second program, `rust/second`,
//! and not from the library; the tests hold the library and the programs against these files.
//!
//!     cd rust && cargo run --release --offline --example make_samples

use samples::document::{A, B, OF_P11, OF_P6};
use samples::paper::{adder, bernstein_vazirani, circular, cluster, diamond, linear, pairwise};
use samples::records::reuse_pair;
use second::{Accepted, Pair, Refusal, Table};
use std::collections::BTreeSet;
use std::fs;
use std::path::Path;

/// A circuit, a pair list, and what becomes of them.
pub struct Sample {
    /// The name of its files.
    pub name: &'static str,
    /// What it is, in words.
    pub about: &'static str,
    /// The static circuit.
    pub circuit: Vec<u8>,
    /// The pair list.
    pub pairs: Vec<u8>,
    /// The dynamic circuit, or why there is none.
    pub outcome: Result<Vec<u8>, Refusal>,
}

impl Sample {
    /// The sample of a circuit with a list that is given.
    fn with(name: &'static str, about: &'static str, circuit: &[u8], list: &[(u8, u8)]) -> Sample {
        let record = |&(lender, taker): &(u8, u8)| reuse_pair(lender, taker);
        let pairs: Vec<u8> = list.iter().flat_map(record).collect();
        Sample {
            name,
            about,
            circuit: circuit.to_vec(),
            outcome: second::compile(circuit, &pairs),
            pairs,
        }
    }

    /// The sample of a circuit with the list that is chosen greedily.
    fn greedy(name: &'static str, about: &'static str, circuit: Vec<u8>) -> Sample {
        Sample::with(name, about, &circuit, &greedy_list(&circuit))
    }

    /// The files, each by its name and what it holds.
    pub fn files(&self) -> Vec<(String, Vec<u8>)> {
        let file = |ending, bytes: &[u8]| (format!("{}.{ending}", self.name), bytes.to_vec());
        let mut files = vec![file("circuit", &self.circuit), file("pairs", &self.pairs)];
        files.push(match &self.outcome {
            Ok(bytes) => file("compiled", bytes),
            Err(refusal) => file("refused", refusal_line(refusal).as_bytes()),
        });
        files
    }

    /// Its line in the table of README.md.
    fn line(&self) -> String {
        let outcome = match &self.outcome {
            Ok(bytes) => format!(
                "{} on {}",
                counted(self.circuit[1], "wire"),
                counted(bytes[1], "qubit")
            ),
            Err(refusal) => refusal_line(refusal).trim_end().to_string(),
        };
        format!("| `{}` | {} | {outcome} |", self.name, self.about)
    }
}

/// So many of something, in words.
fn counted(number: u8, what: &str) -> String {
    let ending = if number == 1 { "" } else { "s" };
    format!("{number} {what}{ending}")
}

/// What the programs print of a refusal.
fn refusal_line(refusal: &Refusal) -> String {
    format!("refused {} at {}\n", refusal.number, refusal.place)
}

/// The pairs that the second program chooses greedily for a valid circuit. Its table has a yes where
/// its search of the graph takes the pair.
fn greedy_list(circuit: &[u8]) -> Vec<(u8, u8)> {
    let circuit = second::read(circuit).expect("the circuit is valid");
    let accepted = Accepted::none(&circuit);
    let wires = || 0..circuit.width;
    let pairs = wires().flat_map(|lender| wires().map(move |taker| Pair::of(lender, taker)));
    let table = Table {
        width: circuit.width,
        marks: pairs.filter(|&pair| accepted.judge(pair).is_ok()).collect(),
        lending: BTreeSet::new(),
        taking: BTreeSet::new(),
    };
    let chosen = second::greedy(&table).expect("the width is right");
    let numbers = |pair: &Pair| (pair.lender.0, pair.taker.0);
    chosen.pairs.iter().map(numbers).collect()
}

/// The circuits of document 01, each under the mark that it has there.
fn of_the_document() -> Vec<Sample> {
    let of_p8 = [0x01, 1, 0x20, 0];
    let of_p9 = [&OF_P6[..], &[0x20, 0]].concat();
    let of_p10 = [0x01, 2, 0x10, 0, 0x10, 1, 0x11, 0, 0, 0x11, 1, 0];
    vec![
        Sample::with("p1", "A: gates on 0 and 1, then on 1 and 2", &A, &[(0, 2)]),
        Sample::with("p2", "A with a pair that a gate forbids", &A, &[(1, 2)]),
        Sample::with(
            "p3",
            "B: no gates; what is chosen greedily (P5)",
            &B,
            &[(0, 1), (1, 2)],
        ),
        Sample::with(
            "p4",
            "B with pairs that close a loop",
            &B,
            &[(0, 1), (1, 2), (2, 0)],
        ),
        Sample::with("p6", "one wire", &OF_P6, &[]),
        Sample::with("p7", "nothing after the width", &[0x01, 1], &[]),
        Sample::with("p8", "a gate before the reset", &of_p8, &[]),
        Sample::with("p9", "a gate after the measurement", &of_p9, &[]),
        Sample::with("p10", "two measurements to one bit", &of_p10, &[]),
        Sample::with(
            "p11",
            "two pairs that exclude each other",
            &OF_P11,
            &[(0, 2), (3, 1)],
        ),
        Sample::with("p12", "the empty input", &[], &[]),
    ]
}

/// Circuits of the source paper, with what is chosen greedily.
fn of_the_paper() -> Vec<Sample> {
    let secret = [true, false, true, true, false, true, false, true];
    vec![
        Sample::greedy(
            "bernstein_vazirani",
            "Bernstein-Vazirani for the secret 10110101",
            bernstein_vazirani::circuit(&secret),
        ),
        Sample::greedy(
            "adder",
            "ripple-carry adder of four places",
            adder::circuit(4),
        ),
        Sample::greedy(
            "linear",
            "linearly entangled, two layers",
            linear::circuit(12, 2),
        ),
        Sample::greedy(
            "circular",
            "circularly entangled, one layer",
            circular::circuit(12, 1),
        ),
        Sample::greedy(
            "pairwise",
            "pairwise entangled, two layers",
            pairwise::circuit(12, 2),
        ),
        Sample::greedy("diamond", "diamond of 25 gates", diamond::circuit(5)),
        Sample::greedy(
            "cluster",
            "cluster state of 4 rows and 8 columns",
            cluster::circuit(4, 8),
        ),
    ]
}

/// Every sample.
pub fn all() -> Vec<Sample> {
    let mut samples = of_the_document();
    samples.extend(of_the_paper());
    samples
}

/// What README.md of this folder says.
pub fn readme() -> String {
    let lines: Vec<String> = all().iter().map(Sample::line).collect();
    format!("{INTRODUCTION}{}\n", lines.join("\n"))
}

const INTRODUCTION: &str = "\
# Examples

`compile_a.c` is a program in C that links the library.

All else is samples. `NAME.circuit` is a static circuit and `NAME.pairs` a pair list; `NAME.compiled` is
the dynamic circuit, or `NAME.refused` what a program prints where there is none. All but the last are
binary, in the format of the README above; the program `show` prints them.

`make_samples.rs` makes the samples and this page (its first lines say how). What is expected comes from
the second program, not from the library, and the tests hold the library against it. The circuits of
document 01 have their marks as names. Those of the source paper have the list that is chosen greedily;
`rust/samples/src/paper.rs` says where each stands in the paper and what was left open there.

| Name | What it is | Outcome |
|---|---|---|
";

fn main() {
    let folder = Path::new(env!("CARGO_MANIFEST_DIR")).join("../examples");
    let write = |name: &str, bytes: &[u8]| fs::write(folder.join(name), bytes).expect(name);
    for sample in all() {
        for (name, bytes) in sample.files() {
            write(&name, &bytes);
        }
    }
    write("README.md", readme().as_bytes());
}
