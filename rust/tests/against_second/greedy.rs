//! The greedy choice, held against the second program's: the pairs, the trials, the table after
//! them, and the room.

use crate::comparison::{compare_writing, of_second, Seen};
use crate::settings::count_and_source;
use samples::circuits::*;
use samples::document::{A, B, OF_P11};
use samples::records::reuse_pair;
use samples::tables::{any_table, every_table, table, table_of_width};
use samples::Random;
use thaksipho::bytes::{self, Chosen};
use thaksipho::{count, greedy, offer, start, Greedy, Pair, Refusal, Table, Wire};

const COUNT: u64 = 6_000;
const SEED: u64 = 60;

/// How wide most of the tables are at the most: the second program takes its time over wider ones.
const MOSTLY_UP_TO: u8 = 8;
/// One in so many has any width.
const OF_ANY_WIDTH: usize = 60;

/// How much longer than the list the lent buffer is, so that bytes past the list are seen.
const SPARE_ROOM: usize = 3;

/// Holds the choice on one table against the second program's, with more room than needed, just as
/// much and one byte too little, and notes the answers. Gives the pairs and the trials.
fn compare_greedy(table: &[u8], seen: &mut Seen) -> Result<Greedy, Refusal> {
    let expected = second::greedy(&second::Table::from_bytes(table)).map_err(of_second);
    let records = expected.clone().map(|chosen| records(&chosen.pairs));
    let counts = expected.clone().map(|chosen| Chosen {
        pairs: chosen.pairs.len(),
        trials: chosen.trials as u32,
    });
    let needed = records.as_ref().map_or(0, Vec::len);
    let context = || format!("{table:02x?}");
    for room in [needed + SPARE_ROOM, needed] {
        let answer = compare_writing(room, &records, |out| bytes::greedy(table, out), context);
        assert_eq!(answer, counts, "{table:02x?}");
        seen.note(&answer);
    }
    if needed > 0 {
        let too_little = needed - 1;
        let answer = compare_writing(
            too_little,
            &records,
            |out| bytes::greedy(table, out),
            context,
        );
        seen.note(&answer);
    }

    let by_value = greedy(&Table::from_bytes(table));
    let expected_by_value = expected.clone().map(|chosen| in_our_words(&chosen));
    assert_eq!(by_value, expected_by_value, "{table:02x?}");
    if let (Ok(chosen), Ok(expected)) = (&by_value, &expected) {
        let after = after(Table::from_bytes(table), &chosen.pairs);
        assert_eq!(after.as_bytes()[..], expected.table.bytes(), "{table:02x?}");
        assert_eq!(count(&after), Ok(0), "{table:02x?}");
    }
    by_value
}

/// The records of a list of pairs.
fn records(pairs: &[second::Pair]) -> Vec<u8> {
    let record = |pair: &second::Pair| reuse_pair(pair.lender.0, pair.taker.0);
    pairs.iter().flat_map(record).collect()
}

/// The second program's choice, in the words of the proved library.
fn in_our_words(chosen: &second::Greedy) -> Greedy {
    let pair = |pair: &second::Pair| Pair {
        lender: Wire(pair.lender.0),
        taker: Wire(pair.taker.0),
    };
    Greedy {
        pairs: chosen.pairs.iter().map(pair).collect(),
        trials: chosen.trials as u32,
    }
}

/// The table after offers of all pairs in turn, each of which is taken.
fn after(table: Table, pairs: &[Pair]) -> Table {
    pairs.iter().fold(table, |table, pair| {
        offer(&table, pair.lender, pair.taker).expect("a chosen pair is taken")
    })
}

/// Holds the choice for a circuit against the second program's, and looks at what is promised for
/// circuits alone: how many pairs and trials there are at the most.
fn compare_for_circuit(circuit: &[u8], seen: &mut Seen) -> Greedy {
    let table = start(circuit).expect("the circuit is valid");
    let chosen = compare_greedy(table.as_bytes(), seen).expect("the table has a right width");
    let others = u32::from(table.width()) - 1;
    assert!(chosen.pairs.len() as u32 <= others);
    assert!(chosen.trials <= (others + 1) * others * others);
    chosen
}

fn pairs(chosen: &Greedy) -> Vec<(u8, u8)> {
    let numbers = |pair: &Pair| (pair.lender.0, pair.taker.0);
    chosen.pairs.iter().map(numbers).collect()
}

#[test]
fn the_choices_everyone_must_agree_on() {
    let mut seen = Seen::default();
    let of_a = compare_for_circuit(&A, &mut seen);
    assert_eq!((pairs(&of_a), of_a.trials), (vec![(0, 2)], 1));
    // P5.
    let of_b = compare_for_circuit(&B, &mut seen);
    assert_eq!((pairs(&of_b), of_b.trials), (vec![(0, 1), (1, 2)], 8));
    // P11's circuit: each of the eight pairs leaves one, so the lowest wins.
    let of_p11 = compare_for_circuit(&OF_P11, &mut seen);
    assert_eq!((pairs(&of_p11), of_p11.trials), (vec![(0, 2), (1, 3)], 9));
    assert_eq!(seen.accepted, 3 * 2);
    assert_eq!(seen.numbers(), [31]);
}

#[test]
fn room_one_byte_short_is_31() {
    let table = start(&B).unwrap();
    let mut out = [7; 5];
    let refusal = Refusal {
        number: 31,
        place: 6,
    };
    assert_eq!(bytes::greedy(table.as_bytes(), &mut out), Err(refusal));
    assert_eq!(out, [7; 5]);
    let mut out = [7; 8];
    let chosen = Chosen {
        pairs: 2,
        trials: 8,
    };
    assert_eq!(bytes::greedy(table.as_bytes(), &mut out), Ok(chosen));
    assert_eq!(out, [0x60, 0, 1, 0x60, 1, 2, 7, 7]);
}

#[test]
fn without_a_yes_no_room_is_needed() {
    let table = start(&bare(1)).unwrap();
    let nothing = Chosen {
        pairs: 0,
        trials: 0,
    };
    assert_eq!(bytes::greedy(table.as_bytes(), &mut []), Ok(nothing));
}

#[test]
fn a_wrong_width_is_27_before_31() {
    for width in (0..=u8::MAX).filter(|width| !(1..=32).contains(width)) {
        let wrong = table(width, &[!0; 32], 0, 0);
        let refusal = Refusal {
            number: 27,
            place: 0,
        };
        for mut out in [vec![], vec![7; 96]] {
            let room = out.len();
            assert_eq!(bytes::greedy(&wrong, &mut out), Err(refusal));
            assert_eq!(out, vec![7; room]);
        }
    }
}

#[test]
fn the_widest_circuits() {
    let mut seen = Seen::default();
    let chosen = compare_for_circuit(&bare(MOST_WIRES), &mut seen);
    // Without gates all scores are the same in every round, so the lowest always wins.
    let chain: Vec<_> = (0..MOST_WIRES - 1).map(|wire| (wire, wire + 1)).collect();
    assert_eq!(pairs(&chosen), chain);
}

/// A width that the second program is quick with, and now and then any.
fn any_width(random: &mut Random) -> u8 {
    let most = match random.once_in(OF_ANY_WIDTH) {
        true => MOST_WIRES,
        false => MOSTLY_UP_TO,
    };
    1 + random.below(usize::from(most)) as u8
}

#[test]
fn random_circuits() {
    let (count, mut random) = count_and_source(COUNT, SEED);
    let mut seen = Seen::default();
    let mut lists = [0; MOST_WIRES as usize];
    for _ in 0..count {
        let wires = any_width(&mut random);
        let shape = Shape::of_width(&mut random, wires);
        let circuit = random_circuit(&mut random, shape);
        let chosen = compare_for_circuit(&circuit, &mut seen);
        lists[chosen.pairs.len()] += 1;
    }
    println!("{lists:?} lists by their lengths");
    let (short, long) = lists.split_at(usize::from(MOSTLY_UP_TO));
    assert!(short.iter().all(|&times| times > 0));
    assert!(long.iter().any(|&times| times > 0));
    assert_eq!(seen.numbers(), [31]);
}

#[test]
fn random_tables_made_by_hand() {
    let (count, mut random) = count_and_source(COUNT, SEED);
    let mut seen = Seen::default();
    let mut pairs = 0;
    for turn in 0..count {
        let width = any_width(&mut random);
        let table = match turn % 16 {
            0 => any_table(&mut random),
            _ => table_of_width(&mut random, width),
        };
        pairs += compare_greedy(&table, &mut seen).map_or(0, |chosen| chosen.pairs.len());
    }
    println!("{pairs} pairs chosen");
    assert!(pairs as u64 > count);
    assert_eq!(seen.numbers(), [27, 31]);
}

#[test]
fn every_table_of_up_to_3_wires() {
    let mut seen = Seen::default();
    for width in 1..=3 {
        for table in every_table(width) {
            compare_greedy(&table, &mut seen).expect("the width is right");
        }
    }
    assert_eq!(seen.numbers(), [31]);
}
