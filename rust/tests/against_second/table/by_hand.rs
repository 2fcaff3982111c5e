//! Tables that no circuit has, made of any bytes, held against the rule done on sets.

use super::{compare_every_mark, compare_offer, SPARE_ROOM};
use crate::comparison::{of_second, Seen};
use crate::settings::count_and_source;
use samples::pairs::{any_pair, every_pair};
use samples::tables::{any_table, every_table, table, table_of_width};
use samples::Random;
use second::Pair;
use thaksipho::{bytes, count, Table, Wire};

const COUNT: u64 = 20_000;
const SEED: u64 = 27;

/// How many of the yes pairs are offered to a random table, and how many of any.
const OFFERS_OF_EACH: usize = 12;

/// Holds every mark and the count against the rule on sets.
fn compare_marks(table: &[u8]) {
    let sets = second::Table::from_bytes(table);
    match sets.count() {
        Ok(_) => compare_every_mark(table, &sets.counting(), sets.width),
        Err(refusal) => {
            let expected = of_second(refusal);
            assert_eq!(bytes::count(table), Err(expected), "{table:02x?}");
            for (lender, taker) in [(0, 0), (0, 1), (sets.width, 0), (1, u8::MAX)] {
                let answer = bytes::may(table, Wire(lender), Wire(taker));
                assert_eq!(answer, Err(expected), "{table:02x?}");
            }
        }
    }
    assert_eq!(count(&Table::from_bytes(table)), bytes::count(table));
}

/// Offers pairs to a table: each time to the one given.
fn compare_offers(
    table: &[u8],
    pairs: impl IntoIterator<Item = Pair>,
    room: usize,
    seen: &mut Seen,
) {
    let sets = second::Table::from_bytes(table);
    for pair in pairs {
        seen.note(&compare_offer(table, pair, room, &sets.offer(pair)));
    }
}

/// Some pairs that are yes and some others, with wrong numbers among them.
fn some_pairs(random: &mut Random, table: &[u8]) -> Vec<Pair> {
    let sets = second::Table::from_bytes(table);
    let mut pairs: Vec<Pair> = sets.counting().into_iter().collect();
    random.shuffle(&mut pairs);
    pairs.truncate(OFFERS_OF_EACH);
    for _ in 0..OFFERS_OF_EACH {
        let (lender, taker) = any_pair(random, sets.width);
        pairs.push(Pair::of(lender, taker));
    }
    pairs
}

#[test]
fn random_tables() {
    let (count, mut random) = count_and_source(COUNT, SEED);
    let mut seen = Seen::default();
    for _ in 0..count {
        let table = any_table(&mut random);
        compare_marks(&table);
        let room = match random.once_in(8) {
            true => random.below(Table::LENGTH),
            false => Table::LENGTH + random.below(SPARE_ROOM),
        };
        let pairs = some_pairs(&mut random, &table);
        compare_offers(&table, pairs, room, &mut seen);
    }
    println!("{} taken, {:?} refused", seen.accepted, seen.refused);
    assert!(seen.accepted > count);
    assert_eq!(seen.numbers(), [20, 21, 22, 23, 27, 31]);
    assert!(seen.refused.values().all(|&times| times > count / 10));
}

#[test]
fn random_tables_after_many_offers() {
    // An accepted offer's table is offered to again, until no pair is yes.
    let (count, mut random) = count_and_source(COUNT / 20, SEED);
    let mut longest = 0;
    for turn in 0..count {
        let width = 1 + (turn % 32) as u8;
        let mut table = table_of_width(&mut random, width);
        for offers in 0.. {
            longest = longest.max(offers);
            compare_marks(&table);
            let sets = second::Table::from_bytes(&table);
            let mut yes: Vec<Pair> = sets.counting().into_iter().collect();
            random.shuffle(&mut yes);
            let Some(&pair) = yes.first() else {
                break;
            };
            let after = sets.offer(pair);
            let answer = compare_offer(&table, pair, Table::LENGTH, &after);
            assert_eq!(answer, Ok(Table::LENGTH));
            table = after.expect("it is what the library gave").bytes();
        }
    }
    assert!(longest > 25);
}

#[test]
fn every_table_of_up_to_3_wires() {
    let mut seen = Seen::default();
    for width in 1..=3 {
        for table in every_table(width) {
            compare_marks(&table);
            let pairs = every_pair(width).map(|(lender, taker)| Pair::of(lender, taker));
            compare_offers(&table, pairs, Table::LENGTH, &mut seen);
        }
    }
    assert!(seen.accepted > 0);
    assert_eq!(seen.numbers(), [20, 21, 22, 23]);
}

#[test]
fn every_length_and_every_width() {
    // Bytes that are missing count as 0, and further ones are not read.
    let mut random = Random::new(SEED);
    let mut seen = Seen::default();
    for width in 0..=u8::MAX {
        let mut full = table(width, &[!0; 32], 0, 0);
        full.extend([0xFF; 13]);
        for length in 0..=full.len() {
            let table = &full[..length];
            let narrow = width < 4 || width == 32 || width > 250;
            if narrow || length % 8 == 1 {
                compare_marks(table);
                let (lender, taker) = any_pair(&mut random, width);
                let pair = Pair::of(lender, taker);
                compare_offers(table, [pair], Table::LENGTH, &mut seen);
            }
        }
    }
    assert!(seen.accepted > 0);
    assert_eq!(seen.numbers(), [20, 23, 27]);
}

#[test]
fn every_number_of_a_lender_and_of_a_taker() {
    let mut seen = Seen::default();
    for width in [1, 2, 31, 32] {
        let full = table(width, &[!0; 32], 0, 0);
        for number in 0..=u8::MAX {
            for other in 0..=u8::MAX {
                let yes = number != other && number < width && other < width;
                assert_eq!(bytes::may(&full, Wire(number), Wire(other)), Ok(yes));
            }
            let pairs = [Pair::of(number, 0), Pair::of(0, number)];
            compare_offers(&full, pairs, Table::LENGTH, &mut seen);
        }
    }
    assert!(seen.accepted > 0);
    assert_eq!(seen.numbers(), [20, 23]);
}

#[test]
fn every_refusal_of_an_offer_comes_before_31() {
    let made_by_hand = table(3, &[0b110, 0b101, 0b000], 0b010, 0b100);
    let wrong_width = table(33, &[0b110, 0b101, 0b000], 0b010, 0b100);
    let mut seen = Seen::default();
    for room in [0, 1, Table::LENGTH - 1] {
        let pairs = || every_pair(3).map(|(lender, taker)| Pair::of(lender, taker));
        compare_offers(&made_by_hand, pairs(), room, &mut seen);
        compare_offers(&wrong_width, pairs(), room, &mut seen);
    }
    assert_eq!(seen.accepted, 0);
    assert_eq!(seen.numbers(), [20, 21, 22, 23, 27, 31]);
}
