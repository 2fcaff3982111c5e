//! Many random inputs: a third valid, a third damaged, a third of records or bytes in no order.

use crate::comparison::Seen;
use crate::settings::count_and_source;
use samples::circuits::any_circuit;
use samples::damage::{damaged_circuit, disordered_input};

const COUNT: u64 = 200_000;
const SEED: u64 = 2024;

#[test]
fn random_inputs() {
    let (count, mut random) = count_and_source(COUNT, SEED);
    let mut valid = Seen::default();
    let mut damaged = Seen::default();
    let mut disordered = Seen::default();
    for turn in 0..count {
        match turn % 3 {
            0 => valid.compare(&any_circuit(&mut random)),
            1 => damaged.compare(&damaged_circuit(&mut random)),
            _ => disordered.compare(&disordered_input(&mut random)),
        }
    }
    assert_eq!(valid.accepted, count.div_ceil(3));
    assert!(damaged.accepted > count / 100);
    assert!(disordered.accepted > 0);
    // 5 takes 2,049 instructions, which a random input seldom has; the limits have it.
    for number in (1..=13).filter(|&number| number != 5) {
        let of_damaged = damaged.refused.contains_key(&number);
        let of_disordered = disordered.refused.contains_key(&number);
        assert!(of_damaged || of_disordered, "{number} was never given");
    }
}
