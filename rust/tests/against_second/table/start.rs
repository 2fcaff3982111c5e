//! The table of a circuit with no pairs: every mark against the search for a cycle, the refusals
//! against the reader's, and the room.

use super::{compare_every_mark, table_by_search, SPARE_ROOM};
use crate::comparison::{compare_writing, of_second, Seen};
use crate::settings::count_and_source;
use samples::circuits::{any_circuit, bare, joined, MOST_WIRES};
use samples::damage::{damaged_circuit, disordered_input};
use samples::records::*;
use samples::Random;
use second::Accepted;
use thaksipho::{bytes, count, read, start, Refusal, Table};

const COUNT: u64 = 12_000;
const SEED: u64 = 137;

/// Holds a start with this much room against the second program, and notes the answer.
fn compare_start(input: &[u8], room: usize, seen: &mut Seen) {
    let by_search = second::read(input)
        .map(|circuit| table_by_search(&Accepted::none(&circuit)))
        .map_err(of_second);
    let expected = by_search.clone().map(|table| table.bytes());
    let context = || format!("start of {input:02x?}");
    let call = |out: &mut [u8]| bytes::start(input, out);
    let answer = compare_writing(room, &expected, call, context);
    if let Ok(written) = answer {
        assert_eq!(written, Table::LENGTH, "{}", context());
    }
    let by_value = start(input).map(|table| table.as_bytes().to_vec());
    assert_eq!(by_value, expected, "{}", context());
    assert_eq!(by_value.err(), read(input).err(), "{}", context());
    if let Ok(table) = &by_search {
        compare_every_mark(&table.bytes(), &table.marks, table.width);
    }
    seen.note(&answer);
}

/// More room than a table needs or just as much, and one time in four less.
fn any_room(random: &mut Random) -> usize {
    match random.below(4) {
        0 => random.below(Table::LENGTH),
        1 => Table::LENGTH,
        2 => Table::LENGTH + SPARE_ROOM,
        _ => 2 * Table::LENGTH,
    }
}

#[test]
fn random_circuits_and_inputs_that_are_none() {
    let (count, mut random) = count_and_source(COUNT, SEED);
    let mut seen = Seen::default();
    for turn in 0..count {
        let input = match turn % 3 {
            0 => any_circuit(&mut random),
            1 => damaged_circuit(&mut random),
            _ => disordered_input(&mut random),
        };
        compare_start(&input, any_room(&mut random), &mut seen);
    }
    assert!(seen.accepted > count / 6);
    for number in [1, 2, 4, 6, 7, 8, 9, 10, 11, 12, 13, 31] {
        assert!(
            seen.refused.contains_key(&number),
            "{number} was never given"
        );
    }
}

#[test]
fn room_for_a_table() {
    for circuit in [bare(1), bare(3), bare(MOST_WIRES)] {
        for room in [0, 1, 136] {
            let mut out = vec![7; room];
            let expected = Err(Refusal {
                number: 31,
                place: 137,
            });
            assert_eq!(bytes::start(&circuit, &mut out), expected);
            assert_eq!(out, vec![7; room]);
        }
        for room in [137, 138, 300] {
            let mut out = vec![7; room];
            assert_eq!(bytes::start(&circuit, &mut out), Ok(137));
            assert_eq!(out[..137], start(&circuit).unwrap().as_bytes()[..]);
            assert!(out[137..].iter().all(|&byte| byte == 7));
        }
    }
}

#[test]
fn the_circuit_is_judged_before_the_room() {
    let mut seen = Seen::default();
    for room in [0, 136, 137] {
        compare_start(&[], room, &mut seen);
        compare_start(&[0x01, 0x02], room, &mut seen);
        compare_start(&[0x01, 0x01, 0x10, 0x00, 0x10, 0x00], room, &mut seen);
    }
    assert_eq!(seen.accepted, 0);
    assert_eq!(seen.numbers(), [1, 9, 13]);
}

#[test]
fn a_gate_of_any_kind_joins_its_two_wires_both_ways() {
    let mut seen = Seen::default();
    for sixteenth in 0..16 {
        for gate in [
            gate(ONE_WIRE + sixteenth, 1),
            turned_gate(ONE_WIRE_TURNED + sixteenth, 2, [0x40; 8]),
            pair_gate(TWO_WIRES + sixteenth, 2, 0),
            turned_pair_gate(TWO_WIRES_TURNED + sixteenth, 0, 1, [0x40; 8]),
        ] {
            let resets = (0..3).map(reset);
            let measurements = (0..3).map(|wire| measurement(wire, 2 - wire));
            let joins = gate[0] >= TWO_WIRES;
            let records: Vec<_> = resets.chain([gate]).chain(measurements).collect();
            let circuit = joined(3, &records);
            compare_start(&circuit, Table::LENGTH, &mut seen);
            let expected = if joins { 4 } else { 6 };
            assert_eq!(count(&start(&circuit).unwrap()), Ok(expected));
        }
    }
    assert_eq!(seen.accepted, 64);
}

#[test]
fn without_gates_each_wire_may_lend_to_each_other() {
    let mut seen = Seen::default();
    for wires in 1..=MOST_WIRES {
        compare_start(&bare(wires), Table::LENGTH, &mut seen);
        let pairs = u32::from(wires) * u32::from(wires - 1);
        assert_eq!(count(&start(&bare(wires)).unwrap()), Ok(pairs));
    }
}
