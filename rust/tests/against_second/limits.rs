//! The limits: how many wires and instructions, how much room, how many bytes decide.

use crate::comparison::{compare_rewriting, second_read, Seen, UNTOUCHED};
use samples::circuits::*;
use samples::records::*;
use samples::Random;
use thaksipho::{read, rewrite, Circuit, Refusal};

/// However long the input, its first bytes decide: the header, as many instructions as there may
/// be, each of the longest kind, and the byte that begins one too many.
const BYTES_THAT_DECIDE: usize = 2 + MOST_INSTRUCTIONS * LONGEST_INSTRUCTION + 1;

/// A circuit of two wires with this many instructions.
fn circuit_of(instructions: usize) -> Vec<u8> {
    let mut records = vec![reset(0), reset(1)];
    records.resize(instructions - 2, turned_pair_gate(0x5A, 1, 0, [0xEE; 8]));
    records.extend([measurement(1, 0), measurement(0, 1)]);
    joined(2, &records)
}

#[test]
fn as_many_instructions_as_there_may_be() {
    let fullest = circuit_of(MOST_INSTRUCTIONS);
    let expected = Ok(Circuit {
        wires: 2,
        instructions: 2048,
    });
    assert_eq!(read(&fullest), expected);
    Seen::default().compare(&fullest);
}

#[test]
fn one_instruction_too_many_is_5_where_it_begins() {
    let too_many = circuit_of(MOST_INSTRUCTIONS + 1);
    let place = (too_many.len() - measurement(0, 1).len()) as u32;
    assert_eq!(read(&too_many), Err(Refusal { number: 5, place }));

    // 5 comes before every other fault of the record that begins there, and before 13.
    let mut seen = Seen::default();
    let fullest = circuit_of(MOST_INSTRUCTIONS);
    for kind in 0..=u8::MAX {
        for body in [&[][..], &[0], &[9, 9], &[0; 10]] {
            seen.compare(&[&fullest, &[kind][..], body].concat());
        }
    }
    assert_eq!(seen.accepted, 0);
    assert_eq!(seen.numbers(), [5]);
}

#[test]
fn the_last_instruction_allowed_is_judged_as_any_other() {
    let mut seen = Seen::default();
    let all_but_one = &circuit_of(MOST_INSTRUCTIONS)[..];
    let all_but_one = &all_but_one[..all_but_one.len() - measurement(0, 1).len()];
    for last in [
        vec![],
        vec![0x11],
        vec![0x60],
        measurement(0, 1),
        measurement(2, 1),
        measurement(1, 1),
        measurement(0, 2),
        measurement(0, 0),
        reset(0),
        gate(0x20, 0),
        pair_gate(0x40, 0, 0),
    ] {
        seen.compare(&[all_but_one, &last].concat());
    }
    assert_eq!(seen.accepted, 1);
    assert_eq!(seen.numbers(), [2, 4, 6, 7, 9, 10, 11, 12, 13]);
}

#[test]
fn as_many_wires_as_there_may_be() {
    let mut seen = Seen::default();
    for wires in 0..=u8::MAX {
        seen.compare(&bare(wires));
    }
    assert_eq!(seen.accepted, u64::from(MOST_WIRES));
    assert_eq!(seen.numbers(), [3]);
    let expected = Ok(Circuit {
        wires: 32,
        instructions: 64,
    });
    assert_eq!(read(&bare(32)), expected);
    let refusal = Refusal {
        number: 3,
        place: 0,
    };
    assert_eq!(read(&bare(33)), Err(refusal));
}

#[test]
fn each_wire_and_each_bit_is_told_from_every_other() {
    // In the widest circuit one wire stays unmeasured, or one bit is used twice.
    let mut seen = Seen::default();
    for one in 0..MOST_WIRES {
        let resets: Vec<_> = (0..MOST_WIRES).map(reset).collect();
        let others = (0..MOST_WIRES).filter(|&wire| wire != one);
        let measured: Vec<_> = others.map(|wire| measurement(wire, wire)).collect();
        let unmeasured = joined(MOST_WIRES, &[&resets[..], &measured].concat());
        let expected = Refusal {
            number: 13,
            place: u32::from(one),
        };
        assert_eq!(read(&unmeasured), Err(expected));
        for bit in 0..=MOST_WIRES {
            seen.compare(&[&unmeasured[..], &measurement(one, bit)].concat());
        }
    }
    assert_eq!(seen.accepted, u64::from(MOST_WIRES));
    assert_eq!(seen.numbers(), [11, 12]);
}

#[test]
fn room_for_the_records_written_again() {
    let mut random = Random::new(31);
    let mut circuits = vec![bare(1), bare(MOST_WIRES), circuit_of(MOST_INSTRUCTIONS)];
    circuits.extend((0..200).map(|_| any_circuit(&mut random)));
    for circuit in &circuits {
        let needed = circuit.len();
        for room in [0, 1, needed / 2, needed - 1] {
            let mut out = vec![UNTOUCHED; room];
            let expected = Refusal {
                number: 31,
                place: needed as u32,
            };
            assert_eq!(rewrite(circuit, &mut out), Err(expected));
            assert!(out.iter().all(|&byte| byte == UNTOUCHED));
            compare_rewriting(circuit, room);
        }
        for room in [needed, needed + 1, 2 * needed] {
            let mut out = vec![UNTOUCHED; room];
            assert_eq!(rewrite(circuit, &mut out), Ok(needed));
            assert_eq!(out[..needed], circuit[..]);
            assert!(out[needed..].iter().all(|&byte| byte == UNTOUCHED));
            compare_rewriting(circuit, room);
        }
    }
}

#[test]
fn the_circuit_is_judged_before_the_room() {
    for room in [0, 1, 2, 100] {
        for (input, number, place) in [
            (&[][..], 1, 0),
            (&[0x01, 0x02], 13, 0),
            (&[0x01, 0x01, 0x10, 0x00, 0x10, 0x00], 9, 4),
        ] {
            let mut out = vec![UNTOUCHED; room];
            let expected = Err(Refusal { number, place });
            assert_eq!(rewrite(input, &mut out), expected);
            assert!(out.iter().all(|&byte| byte == UNTOUCHED));
        }
    }
}

#[test]
fn the_first_22531_bytes_decide() {
    assert_eq!(BYTES_THAT_DECIDE, 22_531);
    let mut random = Random::new(22_531);
    let gate_for_ever = turned_pair_gate(0x50, 0, 1, [0; 8]).repeat(3000);
    let starts = [
        vec![],
        vec![0x01, 0x02],
        circuit_of(MOST_INSTRUCTIONS),
        [joined(2, &[reset(0), reset(1)]), gate_for_ever].concat(),
        [joined(1, &[reset(0)]), gate(0x20, 0).repeat(2046)].concat(),
    ];
    let mut numbers = Vec::new();
    for start in &starts {
        for tail_length in [0, 1, BYTES_THAT_DECIDE, 100_000] {
            let tail = (0..tail_length).map(|_| random.byte());
            let input: Vec<u8> = start.iter().copied().chain(tail).collect();
            let first_bytes = &input[..input.len().min(BYTES_THAT_DECIDE)];
            let answer = read(&input);
            assert_eq!(answer, second_read(&input));
            assert_eq!(answer, read(first_bytes));
            assert_eq!(answer, second_read(first_bytes));
            numbers.extend(answer.err().map(|refusal| refusal.number));
        }
    }
    assert!(numbers.contains(&5));
}
