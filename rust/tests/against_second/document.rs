//! Each case of the scope document that concerns reading, and each reading that we fixed where the
//! document could be read twice. What is expected is written out by hand, and both programs must
//! give it.

use crate::comparison::{compare_rewriting, second_read};
use samples::circuits::bare;
use samples::document;
use thaksipho::{read, rewrite, Circuit, Refusal};

/// Both programs give this answer, and write the input again alike.
fn answered(mark: &str, input: &[u8], expected: Result<Circuit, Refusal>) {
    assert_eq!(read(input), expected, "{mark}");
    assert_eq!(
        second_read(input),
        expected,
        "{mark}, by the second program"
    );
    compare_rewriting(input, input.len());
}

fn accepted(mark: &str, input: &[u8], wires: u8, instructions: u32) {
    let circuit = Circuit {
        wires,
        instructions,
    };
    answered(mark, input, Ok(circuit));
}

fn refused(mark: &str, input: &[u8], number: u8, place: u32) {
    answered(mark, input, Err(Refusal { number, place }));
}

#[test]
#[rustfmt::skip]
fn the_circuits_everyone_must_agree_on() {
    accepted("A, of P1 and P2", &document::A, 3, 8);
    accepted("B, of P3 to P5", &document::B, 3, 6);
    accepted("P6", &document::OF_P6, 1, 2);
    refused("P7", &[0x01, 0x01], 13, 0);
    refused("P8", &[0x01, 0x01, 0x20, 0x00], 8, 2);
    refused("P9", &[0x01, 0x01, 0x10, 0x00, 0x11, 0x00, 0x00, 0x20, 0x00], 10, 7);
    refused("P10", &[0x01, 0x02, 0x10, 0x00, 0x10, 0x01, 0x11, 0x00, 0x00, 0x11, 0x01, 0x00], 12, 9);
    accepted("the circuit of P11", &document::OF_P11, 4, 10);
    refused("P12", &[], 1, 0);
}

#[test]
fn the_cases_to_run() {
    refused("no wires", &[0x01, 0x00], 3, 0);
    refused("too many wires", &[0x01, 0x21], 3, 0);
    accepted("32 wires", &bare(0x20), 32, 64);
    refused("a cut body", &[0x01, 0x01, 0x10], 2, 2);
    refused("an unknown kind", &[0x01, 0x01, 0x7F], 4, 2);
    refused("two resets", &[0x01, 0x01, 0x10, 0x00, 0x10, 0x00], 9, 4);
}

#[test]
fn room_one_byte_short_is_31() {
    let circuit = bare(1);
    let mut out = vec![0; circuit.len() - 1];
    let needed = circuit.len() as u32;
    let expected = Err(Refusal {
        number: 31,
        place: needed,
    });
    assert_eq!(rewrite(&circuit, &mut out), expected);
    assert!(out.iter().all(|&byte| byte == 0));
}

#[test]
#[rustfmt::skip]
fn readings_that_we_fixed() {
    // Of a two-wire gate the first wire's faults come wholly before the second's.
    refused("fresh before measured", &[0x01, 0x02, 0x10, 0x00, 0x11, 0x00, 0x00, 0x40, 0x01, 0x00], 8, 7);
    refused("measured before fresh", &[0x01, 0x02, 0x10, 0x00, 0x11, 0x00, 0x00, 0x40, 0x00, 0x01], 10, 7);
    // The header's own body can be cut.
    refused("a header alone", &[0x01], 2, 0);
    // A pair is a record of pair lists only, and its kind is judged before its body.
    refused("a pair in a circuit", &[0x01, 0x01, 0x60], 4, 2);
    refused("a whole pair in a circuit", &[0x01, 0x01, 0x60, 0x00, 0x00], 4, 2);
}

#[test]
#[rustfmt::skip]
fn the_order_of_the_checks() {
    // Header: 1, 2, 3.
    refused("another kind first", &[0x02], 1, 0);
    refused("a dynamic circuit", &[0x02, 0x01, 0x01], 1, 0);
    // A second header is no instruction: 4 before 2.
    refused("a second header", &[0x01, 0x01, 0x01], 4, 2);
    // 2 before 6, 6 (of either wire) before 7, 7 before the wires' states.
    refused("cut, and a wrong wire", &[0x01, 0x01, 0x40, 0x05], 2, 2);
    refused("a wrong second wire", &[0x01, 0x01, 0x40, 0x00, 0x01], 6, 2);
    refused("one wrong wire, twice", &[0x01, 0x01, 0x40, 0x01, 0x01], 6, 2);
    refused("one fresh wire, twice", &[0x01, 0x01, 0x40, 0x00, 0x00], 7, 2);
    refused("one measured wire, twice", &[0x01, 0x01, 0x10, 0x00, 0x11, 0x00, 0x00, 0x40, 0x00, 0x00], 7, 7);
    // The wire before the bit: 6, 10 and 8 before 11; 10 before 12 and before 9.
    refused("a wrong wire and a wrong bit", &[0x01, 0x01, 0x11, 0x01, 0x01], 6, 2);
    refused("a fresh wire and a wrong bit", &[0x01, 0x01, 0x11, 0x00, 0x01], 8, 2);
    refused("a measured wire and a wrong bit", &[0x01, 0x01, 0x10, 0x00, 0x11, 0x00, 0x00, 0x11, 0x00, 0x01], 10, 7);
    refused("a measured wire and a used bit", &[0x01, 0x01, 0x10, 0x00, 0x11, 0x00, 0x00, 0x11, 0x00, 0x00], 10, 7);
    refused("a measured wire reset", &[0x01, 0x01, 0x10, 0x00, 0x11, 0x00, 0x00, 0x10, 0x00], 10, 7);
    refused("a wrong bit", &[0x01, 0x01, 0x10, 0x00, 0x11, 0x00, 0x01], 11, 4);
    // 13 at the end: the lowest wire, reset or not.
    refused("the lowest not measured", &[0x01, 0x03, 0x10, 0x00, 0x11, 0x00, 0x02, 0x10, 0x02], 13, 1);
}
