//! Pairs to offer, as the numbers of a lender and a taker. Any numbers are taken, also wrong ones.

use crate::circuits::MOST_WIRES;
use crate::Random;

/// Two numbers for a table of this width: mostly wires of it, each now and then at or above it.
pub fn any_pair(random: &mut Random, width: u8) -> (u8, u8) {
    (any_number(random, width), any_number(random, width))
}

fn any_number(random: &mut Random, width: u8) -> u8 {
    if width > 0 && !random.once_in(16) {
        return random.below(usize::from(width)) as u8;
    }
    let above = width.saturating_add(1);
    random.one_of(&[width, above, MOST_WIRES, MOST_WIRES + 1, u8::MAX])
}

/// Every pair of numbers up to the width, which itself is one too high.
pub fn every_pair(width: u8) -> impl Iterator<Item = (u8, u8)> {
    (0..=width).flat_map(move |lender| (0..=width).map(move |taker| (lender, taker)))
}
