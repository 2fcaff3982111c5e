//! The circuits of the source paper in several sizes, and the table of the widths that the second
//! program's greedy choice reaches on them.

use crate::{pair_records, start_table};
use samples::paper::{adder, bernstein_vazirani, circular, cluster, diamond, linear, pairwise};
use second::{compile, greedy, read};

/// A circuit with its name, its size in words and the paper's smallest width.
pub struct Case {
    /// The circuit's name in the paper.
    pub family: &'static str,
    /// Its size.
    pub size: String,
    /// Its bytes.
    pub circuit: Vec<u8>,
    /// The smallest width that the paper states.
    pub paper_minimum: u8,
}

/// A family's circuit for a size of two numbers.
type Build = fn(u8, u8) -> Vec<u8>;
/// The family's smallest width for such a size.
type Minimum = fn(u8, u8) -> u8;

/// Every circuit of the table.
pub fn cases() -> Vec<Case> {
    let of_layers = layered_cases();
    let cases = bernstein_vazirani_cases().chain(of_layers);
    let cases = cases.chain(diamond_cases()).chain(adder_cases());
    cases.chain(cluster_cases()).collect()
}

/// The table: a line for each circuit.
pub fn table() -> String {
    let mut table = String::from(
        "| Circuit | Size | Wires | Instructions | Width by greedy | Paper's minimum |\n|---|---|---|---|---|---|\n",
    );
    for case in cases() {
        table.push_str(&line(&case));
        table.push('\n');
    }
    table
}

/// The case's line of the table, measured.
fn line(case: &Case) -> String {
    let circuit = read(&case.circuit).expect("a valid circuit");
    let chosen = greedy(&start_table(&circuit)).expect("a good width");
    let dynamic = compile(&case.circuit, &pair_records(&chosen.pairs)).expect("a good list");
    format!(
        "| {} | {} | {} | {} | {} | {} |",
        case.family,
        case.size,
        circuit.width,
        circuit.instructions.len(),
        dynamic[1],
        case.paper_minimum
    )
}

fn bernstein_vazirani_cases() -> impl Iterator<Item = Case> {
    let case = |secret: Vec<bool>, words| Case {
        family: "Bernstein-Vazirani",
        size: format!("n = {}, {words} in the secret", secret.len()),
        circuit: bernstein_vazirani::circuit(&secret),
        paper_minimum: bernstein_vazirani::paper_minimum(&secret),
    };
    let all_ones = [2, 4, 8, 16, 31].map(|places| case(vec![true; places], "all ones"));
    let others = [
        case(
            (0..31).map(|place| place % 2 == 0).collect(),
            "every other place one",
        ),
        case(vec![false; 31], "no ones"),
    ];
    all_ones.into_iter().chain(others)
}

/// The wires and the layers of the linearly entangled circuits.
const LINEAR_SIZES: [(u8, u8); 8] = [
    (4, 1),
    (8, 1),
    (8, 3),
    (16, 3),
    (32, 1),
    (32, 5),
    (32, 15),
    (32, 31),
];

/// Those of the circularly entangled circuits.
const CIRCULAR_SIZES: [(u8, u8); 5] = [(4, 1), (8, 1), (16, 1), (32, 1), (8, 2)];

/// Those of the pairwise entangled circuits.
const PAIRWISE_SIZES: [(u8, u8); 16] = [
    (4, 1),
    (8, 1),
    (8, 2),
    (8, 3),
    (16, 1),
    (16, 2),
    (16, 3),
    (16, 4),
    (16, 7),
    (32, 1),
    (32, 2),
    (32, 4),
    (32, 7),
    (32, 8),
    (32, 12),
    (32, 16),
];

fn layered_cases() -> Vec<Case> {
    let cases = |family, sizes: &[(u8, u8)], circuit: Build, paper_minimum: Minimum| {
        let case = |&(wires, layers): &(u8, u8)| Case {
            family,
            size: format!("n = {wires}, l = {layers}"),
            circuit: circuit(wires, layers),
            paper_minimum: paper_minimum(wires, layers),
        };
        sizes.iter().map(case).collect::<Vec<_>>()
    };
    let (circuit, minimum) = (linear::circuit, linear::paper_minimum);
    let linear = cases("Linearly entangled", &LINEAR_SIZES, circuit, minimum);
    let (circuit, minimum) = (circular::circuit, circular::paper_minimum);
    let circular = cases("Circularly entangled", &CIRCULAR_SIZES, circuit, minimum);
    let (circuit, minimum) = (pairwise::circuit, pairwise::paper_minimum);
    let pairwise = cases("Pairwise entangled", &PAIRWISE_SIZES, circuit, minimum);
    [linear, circular, pairwise].into_iter().flatten().collect()
}

fn diamond_cases() -> impl Iterator<Item = Case> {
    let halves = [2, 3, 4, 6, 8, 12, 16].into_iter();
    halves.map(|half| Case {
        family: "Diamond",
        size: format!("n = {half}"),
        circuit: diamond::circuit(half),
        paper_minimum: diamond::paper_minimum(half),
    })
}

fn adder_cases() -> impl Iterator<Item = Case> {
    (1..=10).map(|places| Case {
        family: "Ripple carry adder",
        size: format!("k = {places}"),
        circuit: adder::circuit(places),
        paper_minimum: adder::paper_minimum(places),
    })
}

fn cluster_cases() -> Vec<Case> {
    let sizes = [
        (1, 8),
        (2, 2),
        (2, 4),
        (2, 16),
        (3, 2),
        (3, 3),
        (3, 10),
        (4, 2),
        (4, 4),
        (4, 8),
        (5, 2),
        (5, 6),
        (6, 3),
        (8, 2),
        (8, 4),
        (10, 3),
        (16, 2),
    ];
    let mut cases = Vec::new();
    let mut add = |family, circuit: Build| {
        cases.extend(sizes.iter().map(|&(rows, columns)| Case {
            family,
            size: format!("w = {rows}, d = {columns}"),
            circuit: circuit(rows, columns),
            paper_minimum: cluster::paper_minimum(rows),
        }));
    };
    add("Cluster state", cluster::circuit);
    add(
        "Cluster state, first column entangled",
        cluster::circuit_with_entangled_input,
    );
    cases
}
