//! Every small input: short byte strings, short sequences of records, every kind in every state.

use crate::comparison::Seen;
use samples::circuits::joined;
use samples::records::*;

/// Kinds of each form and kinds of none, numbers at and beside every limit of a small circuit;
/// 20 and 21 are also the greatest width and the least that is too great.
const ALPHABET: [u8; 12] = [
    0x00, 0x01, 0x02, 0x10, 0x11, 0x12, 0x20, 0x21, 0x3F, 0x40, 0x5F, 0x60,
];

#[test]
fn every_input_of_up_to_6_bytes() {
    let mut seen = Seen::default();
    compare_every_end(&[], 6, &mut seen);
    // A circuit has 7 bytes at least, and so has what 10, 11 and 12 refuse.
    assert_eq!(seen.accepted, 0);
    assert_eq!(seen.numbers(), [1, 2, 3, 4, 6, 7, 8, 9, 13]);
}

#[test]
fn every_end_of_up_to_5_bytes_after_a_good_start() {
    let mut seen = Seen::default();
    compare_every_end(&joined(1, &[reset(0)]), 5, &mut seen);
    compare_every_end(&joined(2, &[reset(0)]), 5, &mut seen);
    let half_done = [reset(0), measurement(0, 0), reset(1)];
    compare_every_end(&joined(2, &half_done), 5, &mut seen);
    assert!(seen.accepted > 0);
    assert_eq!(seen.numbers(), [2, 4, 6, 7, 8, 9, 10, 11, 12, 13]);
}

/// Compares the start with every string of up to `most` bytes of the alphabet after it.
fn compare_every_end(start: &[u8], most: usize, seen: &mut Seen) {
    seen.compare(start);
    if most > 0 {
        for byte in ALPHABET {
            compare_every_end(&[start, &[byte]].concat(), most - 1, seen);
        }
    }
}

/// Good and bad records over two wires.
fn records_over_two_wires() -> Vec<Vec<u8>> {
    let angle = [0, 1, 2, 0x10, 0x11, 0x20, 0x40, 0xFF];
    vec![
        reset(0),
        reset(1),
        reset(2),
        gate(0x20, 0),
        turned_gate(0x3F, 1, angle),
        pair_gate(0x40, 0, 1),
        pair_gate(0x4F, 0, 0),
        turned_pair_gate(0x50, 1, 0, angle),
        measurement(0, 0),
        measurement(0, 1),
        measurement(1, 0),
        measurement(1, 1),
        measurement(1, 2),
        vec![0x60, 0, 1],
    ]
}

#[test]
fn every_sequence_of_up_to_5_records_over_2_wires() {
    let mut seen = Seen::default();
    for cut_or_bad_header in [&[][..], &[0x01], &[0x01, 0], &[0x01, 33], &[0x02, 1]] {
        seen.compare(cut_or_bad_header);
    }
    let mut input = static_width(2);
    extend_by_records(&mut input, 5, &records_over_two_wires(), &mut seen);
    assert!(seen.accepted > 0);
    // All but 5, which takes 2,049 instructions.
    assert_eq!(seen.numbers(), [1, 2, 3, 4, 6, 7, 8, 9, 10, 11, 12, 13]);
}

#[test]
fn every_sequence_of_up_to_4_records_on_other_widths() {
    for (width, refusals) in [
        (1, vec![2, 4, 6, 7, 8, 9, 10, 11, 13]),
        (3, vec![2, 4, 7, 8, 9, 10, 12, 13]),
    ] {
        let mut seen = Seen::default();
        let mut input = static_width(width);
        extend_by_records(&mut input, 4, &records_over_two_wires(), &mut seen);
        assert_eq!(seen.accepted > 0, width == 1);
        assert_eq!(seen.numbers(), refusals, "width {width}");
    }
}

/// Compares the input, then the input with each record after it, whole and cut anywhere inside,
/// and so on until `left` records were added.
fn extend_by_records(input: &mut Vec<u8>, left: usize, records: &[Vec<u8>], seen: &mut Seen) {
    seen.compare(input);
    if left == 0 {
        return;
    }
    let length = input.len();
    for record in records {
        for cut in 1..record.len() {
            input.extend(&record[..cut]);
            seen.compare(input);
            input.truncate(length);
        }
        input.extend(record);
        extend_by_records(input, left - 1, records, seen);
        input.truncate(length);
    }
}

#[test]
fn every_kind_in_every_state_of_its_wires() {
    let mut seen = Seen::default();
    for zero in lives(0) {
        for one in lives(1) {
            // Bit 2 is used, by wire 2.
            let before = joined(3, &[reset(2), measurement(2, 2), zero.clone(), one]);
            for kind in 0..=u8::MAX {
                for wires in 0..16 {
                    let mut record = vec![kind, wires / 4, wires % 4];
                    record.resize(LONGEST_INSTRUCTION, 0xEE);
                    for length in 0..=LONGEST_INSTRUCTION {
                        seen.compare(&[&before, &record[..length]].concat());
                    }
                }
            }
        }
    }
    assert_eq!(seen.numbers(), [2, 4, 6, 7, 8, 9, 10, 11, 12, 13]);
}

/// What can have happened to a wire: nothing, its reset, its reset and its measurement.
fn lives(wire: u8) -> [Vec<u8>; 3] {
    let measured = [reset(wire), measurement(wire, wire)].concat();
    [vec![], reset(wire), measured]
}
