//! How long a call takes by each program: medians of batches, the programs in turn.

use crate::case::{Call, Case, Program};
use std::time::{Duration, Instant};

/// How long a batch takes at the least, so that the clock's own time does not count.
const BATCH: Duration = Duration::from_micros(200);

/// The median time of one call by each program, in nanoseconds.
pub struct Times {
    pub library: f64,
    pub plain: f64,
}

/// Times a call by both programs, in turn, so that what else the machine does meets both.
pub fn time(case: &mut Case, call: Call, repeats: usize) -> Times {
    let library_batch = batch_size(case, Program::Library, call);
    let plain_batch = batch_size(case, Program::Plain, call);
    let mut library = Vec::with_capacity(repeats);
    let mut plain = Vec::with_capacity(repeats);
    for _ in 0..repeats {
        library.push(one_batch(case, Program::Library, call, library_batch));
        plain.push(one_batch(case, Program::Plain, call, plain_batch));
    }
    Times {
        library: median(library),
        plain: median(plain),
    }
}

/// The time of one call, from a batch of calls.
fn one_batch(case: &mut Case, program: Program, call: Call, calls: u32) -> f64 {
    let begun = Instant::now();
    for _ in 0..calls {
        case.run(program, call);
    }
    begun.elapsed().as_nanos() as f64 / f64::from(calls)
}

/// How many calls fill a batch.
fn batch_size(case: &mut Case, program: Program, call: Call) -> u32 {
    let mut calls = 1;
    loop {
        let begun = Instant::now();
        for _ in 0..calls {
            case.run(program, call);
        }
        if begun.elapsed() >= BATCH {
            return calls;
        }
        calls *= 2;
    }
}

fn median(mut times: Vec<f64>) -> f64 {
    times.sort_by(f64::total_cmp);
    times[times.len() / 2]
}
