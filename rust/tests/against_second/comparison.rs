//! What the tests rest on: one input, read and rewritten by the proved library and by the second
//! program, what a call leaves in a lent buffer, and what was seen so far.

use std::collections::BTreeMap;
use thaksipho::{Circuit, Refusal};

/// What a byte of a lent buffer holds before a call.
pub const UNTOUCHED: u8 = 0xA5;

/// How much longer than the input the lent buffer is, so that bytes past the output are seen.
const SPARE_ROOM: usize = 3;

/// How many bytes beyond the lent buffer are looked at too.
const BEYOND: usize = 8;

/// The second program's answer to an input, in the words of the proved library.
pub fn second_read(input: &[u8]) -> Result<Circuit, Refusal> {
    match second::read(input) {
        Ok(circuit) => Ok(Circuit {
            wires: circuit.width,
            instructions: circuit.instructions.len() as u32,
        }),
        Err(refusal) => Err(of_second(refusal)),
    }
}

/// The second program's refusal, in the words of the proved library.
pub fn of_second(refusal: second::Refusal) -> Refusal {
    Refusal {
        number: refusal.number,
        place: u32::try_from(refusal.place).expect("a place fits into 32 bits"),
    }
}

/// Calls with a lent buffer of `room` bytes, and looks at the refusal and at the whole buffer: the
/// expected bytes at its start, or where the room is too short 31 with the length needed; after a
/// refusal nothing. Gives the call's answer. The context is told where they differ.
pub fn compare_writing<T>(
    room: usize,
    expected: &Result<Vec<u8>, Refusal>,
    call: impl FnOnce(&mut [u8]) -> Result<T, Refusal>,
    context: impl Fn() -> String,
) -> Result<T, Refusal> {
    let mut out = vec![UNTOUCHED; room + BEYOND];
    let mut expected_out = out.clone();
    let answer = call(&mut out[..room]);
    let refusal = match expected {
        Ok(bytes) if bytes.len() > room => Some(Refusal {
            number: 31,
            place: bytes.len() as u32,
        }),
        Ok(bytes) => {
            expected_out[..bytes.len()].copy_from_slice(bytes);
            None
        }
        Err(refusal) => Some(*refusal),
    };
    let context = || format!("{}, with room for {room} bytes", context());
    assert_eq!(answer.as_ref().err(), refusal.as_ref(), "{}", context());
    assert_eq!(out, expected_out, "{}", context());
    answer
}

/// What was seen so far, so that a test can say that it saw enough.
#[derive(Default)]
pub struct Seen {
    /// How many inputs, or offers, were accepted.
    pub accepted: u64,
    /// How many each refusal was given to.
    pub refused: BTreeMap<u8, u64>,
}

impl Seen {
    /// Holds the proved library against the second program on one input, as read and as rewritten.
    pub fn compare(&mut self, input: &[u8]) {
        let expected = second_read(input);
        assert_eq!(thaksipho::read(input), expected, "read of {input:02x?}");
        compare_rewriting(input, input.len() + SPARE_ROOM);
        self.note(&expected);
    }

    /// Notes one answer.
    pub fn note<T>(&mut self, answer: &Result<T, Refusal>) {
        match answer {
            Ok(_) => self.accepted += 1,
            Err(refusal) => *self.refused.entry(refusal.number).or_default() += 1,
        }
    }

    /// The numbers of the refusals seen.
    pub fn numbers(&self) -> Vec<u8> {
        self.refused.keys().copied().collect()
    }
}

/// Rewrites an input by both programs into a buffer of `room` bytes, and holds the answers and the
/// whole buffers against each other. What is accepted must be the input's own bytes.
pub fn compare_rewriting(input: &[u8], room: usize) {
    let mut out = vec![UNTOUCHED; room + BEYOND];
    let mut expected_out = out.clone();
    let answer = thaksipho::rewrite(input, &mut out[..room]);
    let expected = second::rewrite(input, &mut expected_out[..room]).map_err(of_second);
    assert_eq!(answer, expected, "rewriting {input:02x?} in {room} bytes");
    assert_eq!(out, expected_out, "rewriting {input:02x?} in {room} bytes");
    let written = answer.unwrap_or(0);
    assert!(written == 0 || out[..written] == *input);
    assert!(out[written..].iter().all(|&byte| byte == UNTOUCHED));
}
