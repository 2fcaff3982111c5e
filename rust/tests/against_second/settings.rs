//! How many random inputs there are, and which: `THAKSIPHO_RANDOM_COUNT` raises how many a test
//! draws, and `THAKSIPHO_RANDOM_SEED` gives others.

use samples::Random;
use std::env;

/// How many inputs a test draws that needs so many at the least, and their source. A lower count
/// could miss a refusal, and the tests ask for each.
pub fn count_and_source(least: u64, seed: u64) -> (u64, Random) {
    let count = setting("THAKSIPHO_RANDOM_COUNT", least).max(least);
    let seed = setting("THAKSIPHO_RANDOM_SEED", seed);
    println!("{count} inputs from seed {seed}");
    (count, Random::new(seed))
}

/// The number in an environment variable, or another where it is not set.
fn setting(name: &str, otherwise: u64) -> u64 {
    match env::var(name) {
        Ok(text) => text
            .parse()
            .unwrap_or_else(|_| panic!("{name} is a number, not {text:?}")),
        Err(_) => otherwise,
    }
}
