//! The parts of the second program agree with each other and with the document's definitions, on
//! random circuits and on random tables.

use samples::circuits::{any_circuit, random_circuit, Shape};
use samples::pairs::any_pair;
use samples::tables::any_table;
use samples::Random;
use second::{compile, greedy, read, Accepted, Circuit, Greedy, Instruction, Pair, Refusal, Table};
use second::{Bit, Wire};
use std::collections::BTreeSet;
use widths::{pair_records, start_table};

const MEASUREMENT: u8 = 0x11;
const RESET: u8 = 0x10;

fn small_circuit(random: &mut Random) -> Vec<u8> {
    let wires = 1 + random.below(8) as u8;
    let shape = Shape {
        gates: random.below(12),
        ..Shape::of_width(random, wires)
    };
    random_circuit(random, shape)
}

#[test]
fn a_table_grown_from_a_circuit_answers_as_the_graph_does() {
    let mut random = Random::new(11);
    let mut accepted_pairs = 0;
    for _ in 0..5_000 {
        let circuit = read(&small_circuit(&mut random)).unwrap();
        let mut accepted = Accepted::none(&circuit);
        let mut table = start_table(&circuit);
        for _ in 0..30 {
            let (lender, taker) = any_pair(&mut random, circuit.width);
            let pair = Pair::of(lender, taker);
            let by_table = table.offer(pair);
            let by_graph = accepted.offer(pair);
            assert_eq!(by_table.clone().map(drop), by_graph, "{circuit:?} {pair:?}");
            accepted_pairs += usize::from(by_table.is_ok());
            table = by_table.unwrap_or(table);
        }
    }
    assert!(accepted_pairs > 5_000, "{accepted_pairs}");
}

/// The preferred definition: whether there is an order of all instructions that keeps every wire's
/// order and has each lender's measurement before its taker's reset. Wires are walked step by step
/// as far as they go; what may go next never does harm.
fn an_order_exists(circuit: &Circuit, pairs: &[Pair]) -> bool {
    let mut left: Vec<&Instruction> = circuit.instructions.iter().collect();
    let mut measured: BTreeSet<Wire> = BTreeSet::new();
    while !left.is_empty() {
        let may_go = |at: usize| {
            let next: &Instruction = left[at];
            let mut earlier = left[..at].iter();
            let waits_on_wire =
                earlier.any(|other| other.wires.iter().any(|w| next.wires.contains(w)));
            let mut lenders = pairs.iter().filter(|pair| next.wires == [pair.taker]);
            let waits_for_lender =
                next.kind == RESET && lenders.any(|pair| !measured.contains(&pair.lender));
            !waits_on_wire && !waits_for_lender
        };
        let Some(at) = (0..left.len()).rev().find(|&at| may_go(at)) else {
            return false;
        };
        let gone = left.remove(at);
        if gone.kind == MEASUREMENT {
            measured.insert(gone.wires[0]);
        }
    }
    true
}

#[test]
fn a_pair_list_is_accepted_exactly_when_an_order_exists() {
    let mut random = Random::new(12);
    let (mut accepted, mut looped) = (0, 0);
    for _ in 0..20_000 {
        let bytes = small_circuit(&mut random);
        let circuit = read(&bytes).unwrap();
        let mut lenders: Vec<u8> = (0..circuit.width).collect();
        let mut takers = lenders.clone();
        random.shuffle(&mut lenders);
        random.shuffle(&mut takers);
        let pairs: Vec<Pair> = lenders
            .iter()
            .zip(takers)
            .map(|(&l, t)| Pair::of(l, t))
            .collect();
        let pairs = &pairs[..random.below(pairs.len() + 1)];
        let first_loop = (1..=pairs.len()).find(|&end| !an_order_exists(&circuit, &pairs[..end]));
        let answer = compile(&bytes, &pair_records(pairs)).map(drop);
        let expected = match first_loop {
            Some(end) => Err(Refusal {
                number: 23,
                place: end - 1,
            }),
            None => Ok(()),
        };
        assert_eq!(answer, expected, "{circuit:?} {pairs:?}");
        accepted += usize::from(answer.is_ok() && !pairs.is_empty());
        looped += usize::from(answer.is_err());
    }
    assert!(accepted > 1_000 && looped > 1_000, "{accepted} {looped}");
}

/// An instruction of a dynamic circuit as bytes, with the qubits that it names.
struct Written {
    record: Vec<u8>,
    qubits: Vec<u8>,
}

/// The instructions of a dynamic circuit, cut at the lengths of the document's table of kinds.
fn written(dynamic: &[u8]) -> Vec<Written> {
    let mut rest = &dynamic[3..];
    let mut all = Vec::new();
    while let Some(&kind) = rest.first() {
        let (length, qubits) = match kind {
            0x10 => (2, 1),
            0x11 => (3, 1),
            0x20..=0x2F => (2, 1),
            0x30..=0x3F => (10, 1),
            0x40..=0x4F => (3, 2),
            _ => (11, 2),
        };
        let (record, after) = rest.split_at(length);
        all.push(Written {
            record: record.to_vec(),
            qubits: record[1..1 + qubits].to_vec(),
        });
        rest = after;
    }
    all
}

/// The record with wires again in place of qubits: the next measurement on a qubit tells its wire.
fn with_wires(all: &[Written], at: usize, circuit: &Circuit) -> Vec<u8> {
    let wire_of = |qubit: u8| {
        let mut later = all[at..].iter();
        let measurement = later.find(|one| one.record[0] == MEASUREMENT && one.qubits == [qubit]);
        let bit = Some(Bit(measurement.unwrap().record[2]));
        let mut instructions = circuit.instructions.iter();
        instructions.find(|one| one.bit == bit).unwrap().wires[0].0
    };
    let mut record = all[at].record.clone();
    for (place, &qubit) in all[at].qubits.iter().enumerate() {
        record[1 + place] = wire_of(qubit);
    }
    record
}

/// The records that name the wire, in order.
fn on_wire(records: &[Vec<u8>], wire: u8) -> Vec<&Vec<u8>> {
    let names = |record: &&Vec<u8>| match record[0] {
        0x40..=0x5F => record[1..3].contains(&wire),
        _ => record[1] == wire,
    };
    records.iter().filter(names).collect()
}

#[test]
fn a_dynamic_circuit_does_to_each_wire_what_the_static_one_does() {
    let mut random = Random::new(13);
    for _ in 0..3_000 {
        let bytes = small_circuit(&mut random);
        let circuit = read(&bytes).unwrap();
        let chosen = greedy(&start_table(&circuit)).unwrap();
        let dynamic = compile(&bytes, &pair_records(&chosen.pairs)).unwrap();
        assert_eq!(dynamic.len(), bytes.len() + 1);
        let qubits = circuit.width - chosen.pairs.len() as u8;
        assert_eq!(dynamic[..3], [2, qubits, circuit.width]);

        let all = written(&dynamic);
        assert!(all
            .iter()
            .all(|one| one.qubits.iter().all(|&qubit| qubit < qubits)));
        assert!(all
            .iter()
            .all(|one| one.qubits.len() < 2 || one.qubits[0] != one.qubits[1]));
        let renamed: Vec<Vec<u8>> = (0..all.len())
            .map(|at| with_wires(&all, at, &circuit))
            .collect();
        let given: Vec<Vec<u8>> = circuit
            .instructions
            .iter()
            .map(Instruction::bytes)
            .collect();
        for wire in 0..circuit.width {
            assert_eq!(
                on_wire(&renamed, wire),
                on_wire(&given, wire),
                "{circuit:?}"
            );
        }
    }
}

#[test]
fn without_pairs_the_instructions_stand_in_input_order() {
    let mut random = Random::new(14);
    for _ in 0..2_000 {
        let bytes = any_circuit(&mut random);
        let dynamic = compile(&bytes, &[]).unwrap();
        assert_eq!(dynamic[..3], [2, bytes[1], bytes[1]]);
        assert_eq!(dynamic[3..], bytes[2..]);
    }
}

/// The greedy choice by its words alone, with the public calls of the table.
fn greedy_by_words(table: &Table) -> Result<Greedy, Refusal> {
    let (mut pairs, mut trials, mut table) = (Vec::new(), 0, table.clone());
    while table.count()? > 0 {
        let mut best: Option<(usize, Pair)> = None;
        for pair in table.counting() {
            let score = table.score(pair)?;
            trials += 1;
            if best.is_none_or(|(highest, _)| score > highest) {
                best = Some((score, pair));
            }
        }
        let (_, pair) = best.unwrap();
        table = table.offer(pair)?;
        pairs.push(pair);
    }
    Ok(Greedy {
        pairs,
        table,
        trials,
    })
}

#[test]
fn greedy_does_what_its_words_say_on_any_table() {
    let mut random = Random::new(15);
    for _ in 0..3_000 {
        let mut bytes = any_table(&mut random);
        // Wide tables are slow by words alone.
        if bytes.first().is_some_and(|width| (10..=32).contains(width)) {
            bytes[0] = 10;
        }
        let table = Table::from_bytes(&bytes);
        assert_eq!(greedy(&table), greedy_by_words(&table), "{table:?}");
    }
}

#[test]
fn no_pair_can_be_added_to_a_greedy_list() {
    let mut random = Random::new(16);
    for _ in 0..3_000 {
        let circuit = read(&small_circuit(&mut random)).unwrap();
        let start = start_table(&circuit);
        let chosen = greedy(&start).unwrap();
        let mut accepted = Accepted::none(&circuit);
        for &pair in &chosen.pairs {
            accepted.offer(pair).unwrap();
        }
        for lender in 0..circuit.width {
            for taker in 0..circuit.width {
                assert!(accepted.judge(Pair::of(lender, taker)).is_err());
            }
        }
        let n = usize::from(circuit.width);
        assert!(chosen.trials <= n * (n - 1) * (n - 1));
    }
}

#[test]
fn bytes_of_a_table_come_back() {
    let mut random = Random::new(17);
    for _ in 0..3_000 {
        let bytes = any_table(&mut random);
        let mut whole = bytes.clone();
        whole.resize(137, 0);
        assert_eq!(Table::from_bytes(&bytes).bytes(), whole);
    }
}
