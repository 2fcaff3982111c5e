//! Makes every call of the library on circuits, pair lists, tables and rooms that are mostly damaged,
//! short or empty. Run under valgrind it shows that no call reads or writes outside what it was lent.
//!
//!     fuzz COUNT SEED
//!
//! Each buffer is a block of the heap of exactly its length, so that one byte too far is seen. Every
//! byte that comes back is looked at, so that one that was never set is seen too.

#![deny(missing_docs)]
#![forbid(unsafe_code)]

mod inputs;
mod seen;

use inputs::Inputs;
use samples::Random;
use seen::Seen;
use std::env;
use std::process::exit;
use thaksipho::{bytes, Refusal, Table, Wire};

/// What a byte of a lent buffer holds before a call.
const UNTOUCHED: u8 = 0xA5;

fn main() {
    let words: Vec<u64> = env::args().skip(1).filter_map(|w| w.parse().ok()).collect();
    let [count, seed] = words[..] else {
        eprintln!("usage: fuzz COUNT SEED");
        exit(2);
    };
    let mut random = Random::new(seed);
    let mut seen = Seen::default();
    for _ in 0..count {
        let inputs = Inputs::any(&mut random);
        circuit_calls(&mut random, &inputs, &mut seen);
        table_calls(&mut random, &inputs, &mut seen);
    }
    println!("{count} inputs from seed {seed}: {seen}");
    let missing = seen.missing();
    if !missing.is_empty() {
        eprintln!("too few inputs: nothing was {missing}");
        exit(1);
    }
}

/// The calls on a circuit.
fn circuit_calls(random: &mut Random, inputs: &Inputs, seen: &mut Seen) {
    let circuit = &inputs.circuit;
    seen.note("read", &thaksipho::read(circuit));
    let room = a_room(random, circuit.len());
    seen.note(
        "rewrite",
        &lending(room, |out| thaksipho::rewrite(circuit, out)),
    );
    let room = a_room(random, circuit.len() + 1);
    let compile = |out: &mut [u8]| thaksipho::compile(circuit, &inputs.pairs, out);
    seen.note("compile", &lending(room, compile));
    let room = a_room(random, Table::LENGTH);
    seen.note("start", &lending(room, |out| bytes::start(circuit, out)));
}

/// The calls on a table.
fn table_calls(random: &mut Random, inputs: &Inputs, seen: &mut Seen) {
    let table = &inputs.table;
    let (lender, taker) = (Wire(inputs.lender), Wire(inputs.taker));
    seen.note("may", &bytes::may(table, lender, taker));
    seen.note("count", &bytes::count(table));
    seen.note("score", &bytes::score(table, lender, taker));
    let room = a_room(random, Table::LENGTH);
    let offer = |out: &mut [u8]| bytes::offer(table, lender, taker, out);
    seen.note("offer", &lending(room, offer));
    let room = a_room(random, 3 * usize::from(inputs.width()));
    seen.note("greedy", &lending(room, |out| bytes::greedy(table, out)));
}

/// Lends a block of exactly so many bytes to a call, and looks at all of them afterwards: a refusal
/// leaves them as they were.
fn lending<T>(
    room: usize,
    call: impl FnOnce(&mut [u8]) -> Result<T, Refusal>,
) -> Result<T, Refusal> {
    let mut out = vec![UNTOUCHED; room].into_boxed_slice();
    let answer = call(&mut out);
    let changed = out.iter().filter(|&&byte| byte != UNTOUCHED).count();
    assert!(answer.is_ok() || changed == 0, "a refusal wrote");
    answer
}

/// Just enough room, one byte less, none, or some.
fn a_room(random: &mut Random, needed: usize) -> usize {
    match random.below(6) {
        0 => needed.saturating_sub(1),
        1 => random.below(needed + 2),
        2 => random.one_of(&[0, 1, 2]),
        _ => needed,
    }
}
