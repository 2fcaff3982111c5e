//! The compiler, held against the second program's: the bytes, the refusals and the room.

use crate::comparison::{compare_writing, of_second, Seen};
use crate::settings::count_and_source;
use samples::circuits::*;
use samples::damage::damaged_circuit;
use samples::document::{A, B, OF_P11, OF_P6};
use samples::pairs::{any_pair, every_pair};
use samples::records::reuse_pair;
use samples::Random;
use second::{Accepted, Pair};
use thaksipho::{compile, Refusal};

const COUNT: u64 = 60_000;
const SEED: u64 = 96;

/// How much longer than the output the lent buffer is, so that bytes past the output are seen.
const SPARE_ROOM: usize = 3;

/// How many takers are tried for a lender of a good list.
const TAKERS_TRIED: usize = 4;

/// Holds the compiler against the second program on one circuit and list, with more room than
/// needed, just as much and one byte too little, and notes the answers.
fn compare_compiling(circuit: &[u8], list: &[u8], seen: &mut Seen) -> Result<Vec<u8>, Refusal> {
    let expected = second::compile(circuit, list).map_err(of_second);
    let needed = expected.as_ref().map_or(circuit.len() + 1, Vec::len);
    let context = || format!("{circuit:02x?} with {list:02x?}");
    for room in [needed + SPARE_ROOM, needed, needed - 1] {
        let call = |out: &mut [u8]| compile(circuit, list, out);
        let answer = compare_writing(room, &expected, call, context);
        if let (Ok(written), Ok(bytes)) = (&answer, &expected) {
            assert_eq!(*written, bytes.len(), "{}", context());
        }
        seen.note(&answer);
    }
    expected
}

/// The records of a list of pairs.
fn list_of(pairs: &[(u8, u8)]) -> Vec<u8> {
    let record = |&(lender, taker): &(u8, u8)| reuse_pair(lender, taker);
    pairs.iter().flat_map(record).collect()
}

fn refused(number: u8, place: u32) -> Result<Vec<u8>, Refusal> {
    Err(Refusal { number, place })
}

#[test]
fn the_circuits_everyone_must_agree_on() {
    let mut seen = Seen::default();
    let mut compiled =
        |circuit: &[u8], pairs: &[(u8, u8)]| compare_compiling(circuit, &list_of(pairs), &mut seen);
    let p1 = [
        0x02, 0x02, 0x03, 0x10, 0x00, 0x10, 0x01, 0x40, 0x00, 0x01, 0x11, 0x00, 0x00, 0x10, 0x00,
        0x40, 0x01, 0x00, 0x11, 0x01, 0x01, 0x11, 0x00, 0x02,
    ];
    assert_eq!(compiled(&A, &[(0, 2)]), Ok(p1.to_vec()));
    assert_eq!(compiled(&A, &[(1, 2)]), refused(23, 0));
    let p3 = [
        0x02, 0x01, 0x03, 0x10, 0x00, 0x11, 0x00, 0x00, 0x10, 0x00, 0x11, 0x00, 0x01, 0x10, 0x00,
        0x11, 0x00, 0x02,
    ];
    assert_eq!(compiled(&B, &[(0, 1), (1, 2)]), Ok(p3.to_vec()));
    assert_eq!(compiled(&B, &[(0, 1), (1, 2), (2, 0)]), refused(23, 2));
    let p6 = [0x02, 0x01, 0x01, 0x10, 0x00, 0x11, 0x00, 0x00];
    assert_eq!(compiled(&OF_P6, &[]), Ok(p6.to_vec()));
    assert_eq!(compiled(&OF_P11, &[(0, 2), (3, 1)]), refused(23, 1));
    assert!(compiled(&OF_P11, &[(3, 1)]).is_ok());
    assert_eq!(compiled(&[], &[(0, 1)]), refused(1, 0));
}

#[test]
fn a_list_is_judged_left_to_right_and_before_the_room() {
    let mut seen = Seen::default();
    let mut numbers = |list: &[u8]| compare_compiling(&B, list, &mut seen);
    assert_eq!(numbers(&[0x61]), refused(24, 0));
    assert_eq!(numbers(&[0x10, 0, 0]), refused(24, 0));
    assert_eq!(numbers(&[0x60]), refused(25, 0));
    assert_eq!(numbers(&[0x60, 0, 1, 0x60, 9]), refused(25, 1));
    assert_eq!(numbers(&list_of(&[(0, 3)])), refused(20, 0));
    assert_eq!(numbers(&list_of(&[(0, 1), (0, 1)])), refused(21, 1));
    assert_eq!(numbers(&list_of(&[(0, 1), (2, 1)])), refused(22, 1));
    assert_eq!(numbers(&list_of(&[(0, 1), (1, 0)])), refused(23, 1));
    assert_eq!(numbers(&[0x60, 0, 3, 0x61]), refused(20, 0));
}

#[test]
fn every_list_of_up_to_two_pairs_over_small_circuits() {
    let mut seen = Seen::default();
    for circuit in [&A[..], &B, &OF_P6, &OF_P11] {
        let width = circuit[1];
        for first in every_pair(width) {
            compare_compiling(circuit, &list_of(&[first]), &mut seen).ok();
            for second in every_pair(width) {
                compare_compiling(circuit, &list_of(&[first, second]), &mut seen).ok();
            }
        }
    }
    assert!(seen.accepted > 0);
    assert_eq!(seen.numbers(), [20, 21, 22, 23, 31]);
}

/// Pairs that the second program takes one after another: some of the wires lend, in any order, each to
/// the first of a few others that may take.
fn good_pairs(random: &mut Random, circuit: &[u8]) -> Vec<(u8, u8)> {
    let Ok(circuit) = second::read(circuit) else {
        return Vec::new();
    };
    let mut accepted = Accepted::none(&circuit);
    let mut lenders: Vec<u8> = (0..circuit.width).collect();
    random.shuffle(&mut lenders);
    lenders.truncate(random.below(lenders.len() + 1));
    for lender in lenders {
        let mut takers = (0..TAKERS_TRIED).map(|_| random.below(circuit.width.into()) as u8);
        takers.any(|taker| accepted.offer(Pair::of(lender, taker)).is_ok());
    }
    let numbers = |pair: &Pair| (pair.lender.0, pair.taker.0);
    accepted.pairs().iter().map(numbers).collect()
}

/// Good pairs, half of the time with any pairs behind them, and now and then cut or damaged.
fn any_list(random: &mut Random, circuit: &[u8]) -> Vec<u8> {
    let width = circuit.get(1).copied().unwrap_or(1);
    let mut list = list_of(&good_pairs(random, circuit));
    if random.once_in(2) {
        for _ in 0..=random.below(2) {
            let (lender, taker) = any_pair(random, width);
            list.extend(reuse_pair(lender, taker));
        }
    }
    if random.once_in(8) {
        list.truncate(random.below(list.len() + 1));
    }
    if random.once_in(8) && !list.is_empty() {
        let at = random.below(list.len());
        list[at] = random.byte();
    }
    list
}

/// One circuit in eight is damaged.
fn any_or_damaged(random: &mut Random, turn: u64) -> Vec<u8> {
    match turn % 8 {
        0 => damaged_circuit(random),
        _ => any_circuit(random),
    }
}

#[test]
fn random_circuits_and_lists() {
    let (count, mut random) = count_and_source(COUNT, SEED);
    let mut seen = Seen::default();
    let mut lists = [0; MOST_WIRES as usize];
    for turn in 0..count {
        let circuit = any_or_damaged(&mut random, turn);
        let list = any_list(&mut random, &circuit);
        if compare_compiling(&circuit, &list, &mut seen).is_ok() {
            lists[list.len() / reuse_pair(0, 0).len()] += 1;
        }
    }
    println!("{} accepted, {:?} refused", seen.accepted, seen.refused);
    println!("{lists:?} accepted lists by their lengths");
    assert!(seen.accepted > count / 2);
    let (short, long) = lists.split_at(usize::from(MOST_WIRES / 2));
    assert!(short.iter().all(|&times| times > 0));
    assert!(long.iter().any(|&times| times > 0));
    for number in [20, 21, 22, 23, 24, 25, 31] {
        assert!(seen.refused.contains_key(&number), "no refusal {number}");
    }
}

#[test]
fn every_room() {
    let (count, mut random) = count_and_source(COUNT / 100, SEED);
    let mut seen = Seen::default();
    for turn in 0..count {
        let circuit = any_or_damaged(&mut random, turn);
        let list = any_list(&mut random, &circuit);
        let expected = second::compile(&circuit, &list).map_err(of_second);
        let context = || format!("{circuit:02x?} with {list:02x?}");
        for room in 0..=circuit.len() + 1 + SPARE_ROOM {
            let call = |out: &mut [u8]| compile(&circuit, &list, out);
            seen.note(&compare_writing(room, &expected, call, context));
        }
    }
    assert!(seen.accepted > 0);
    assert!(seen.refused.contains_key(&31));
}

#[test]
fn the_widest_chain() {
    let mut seen = Seen::default();
    let chain: Vec<_> = (1..MOST_WIRES).map(|wire| (wire, wire - 1)).collect();
    let output = compare_compiling(&bare(MOST_WIRES), &list_of(&chain), &mut seen).unwrap();
    assert_eq!(output[..3], [0x02, 1, MOST_WIRES]);
    let all = list_of(&[&chain[..], &[(0, MOST_WIRES - 1)]].concat());
    let closed = compare_compiling(&bare(MOST_WIRES), &all, &mut seen);
    assert_eq!(closed, refused(23, u32::from(MOST_WIRES) - 1));
}
