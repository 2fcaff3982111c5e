//! Measures the library against the same job in plain Rust.
//!
//!     bench time [REPEATS]                        times of every case, as CSV
//!     bench one CALL PROGRAM FAMILY WIRES COUNT   one call, to be counted by callgrind
//!     bench stack                                 the stack that each call uses, as CSV
//!
//! CALL is read, start, greedy or compile; PROGRAM is library or plain.

#![deny(missing_docs)]
#![deny(unsafe_code)]

mod agree;
mod case;
mod circuits;
mod stack;
mod timing;

use case::{Call, Case, Program};
use circuits::Family;
use samples::Random;
use std::env;
use std::hint::black_box;
use std::process::exit;

const WIDTHS: [u8; 3] = [4, 16, 32];
const COUNTS: [usize; 6] = [64, 128, 256, 512, 1024, 2048];
/// How many batches a median is of.
const REPEATS: usize = 101;
/// How many inputs the programs must agree on before anything is timed.
const AGREED: u64 = 20_000;
const SEED: u64 = 9;

fn main() {
    let words: Vec<String> = env::args().skip(1).collect();
    let words: Vec<&str> = words.iter().map(String::as_str).collect();
    if run(&words).is_none() {
        eprintln!("usage: bench time [REPEATS] | one CALL PROGRAM FAMILY WIRES COUNT | stack");
        exit(2);
    }
}

/// Does what the words say; nothing where they say nothing known.
fn run(words: &[&str]) -> Option<()> {
    match *words {
        ["time"] => time_all(REPEATS),
        ["time", repeats] => time_all(repeats.parse().ok()?),
        ["one", call, program, family, wires, count] => one(call, program, family, wires, count)?,
        ["stack"] => stack_of_all(),
        _ => return None,
    }
    Some(())
}

/// Times every call on every case.
fn time_all(repeats: usize) {
    agree::hold_against_each_other(AGREED, SEED);
    println!("family,wires,instructions,bytes,pairs,trials,call,library_ns,plain_ns,ratio");
    for (family, wires, count) in every_size() {
        time_case(family, wires, count, repeats);
    }
}

fn time_case(family: Family, wires: u8, count: usize, repeats: usize) {
    let mut case = Case::new(Program::Plain, family, wires, count);
    agree::circuit_calls(&mut Random::new(SEED), &case.circuit);
    for call in Call::ALL {
        let times = timing::time(&mut case, call, repeats);
        println!(
            "{},{wires},{count},{},{},{},{},{:.0},{:.0},{:.2}",
            family.name(),
            case.circuit.len(),
            case.pair_count(),
            case.trials,
            call.name(),
            times.library,
            times.plain,
            times.library / times.plain
        );
    }
}

/// Makes one call by one program.
fn one(call: &str, program: &str, family: &str, wires: &str, count: &str) -> Option<()> {
    let call = Call::ALL.into_iter().find(|c| c.name() == call)?;
    let family = Family::ALL.into_iter().find(|f| f.name() == family)?;
    let (program, other) = match program {
        "library" => (Program::Library, Program::Plain),
        "plain" => (Program::Plain, Program::Library),
        _ => return None,
    };
    let (wires, count) = (wires.parse().ok()?, count.parse().ok()?);
    let mut case = Case::new(other, family, wires, count);
    // The allocator tidies up at the next large block after many small ones: not within the call.
    drop(black_box(vec![0_u8; 1 << 16]));
    case.run(program, call);
    Some(())
}

/// The most stack that each call used, over all cases and other inputs.
fn stack_of_all() {
    let cases: Vec<Case> = every_size()
        .map(|(family, wires, count)| Case::new(Program::Plain, family, wires, count))
        .collect();
    println!("call,bytes");
    for (name, bytes) in stack::measure(&cases).0 {
        println!("{name},{bytes}");
    }
}

/// Every family, width and number of instructions that is measured.
fn every_size() -> impl Iterator<Item = (Family, u8, usize)> {
    let widths = |family| WIDTHS.map(|wires| (family, wires));
    let counts = |(family, wires)| COUNTS.map(|count| (family, wires, count));
    let shapes = Family::ALL.into_iter().flat_map(widths);
    shapes.flat_map(counts)
}

#[cfg(test)]
mod tests {
    use super::*;

    #[test]
    fn both_programs_give_the_same_answers_and_bytes() {
        agree::hold_against_each_other(AGREED, SEED);
    }

    #[test]
    fn every_case_is_accepted_by_both() {
        for (family, wires, count) in every_size() {
            let mut case = Case::new(Program::Plain, family, wires, count);
            agree::circuit_calls(&mut Random::new(SEED), &case.circuit);
            for call in Call::ALL {
                case.run(Program::Library, call);
                case.run(Program::Plain, call);
            }
        }
    }
}
