//! That both programs do the same job: the same answers and the same bytes, for circuits, lists,
//! tables and rooms that are right, damaged or too short.

use samples::circuits::any_circuit;
use samples::damage::{damaged_circuit, disordered_input};
use samples::pairs::any_pair;
use samples::records::reuse_pair;
use samples::tables::any_table;
use samples::Random;
use thaksipho::{bytes, Refusal, Table};

/// What a byte of a lent buffer holds before a call.
const UNTOUCHED: u8 = 0xA5;

/// Holds the programs against each other on inputs drawn at random. Stops where they differ.
pub fn hold_against_each_other(inputs: u64, seed: u64) {
    let mut random = Random::new(seed);
    for turn in 0..inputs {
        let circuit = match turn % 4 {
            0 => damaged_circuit(&mut random),
            1 => disordered_input(&mut random),
            _ => any_circuit(&mut random),
        };
        let table = any_table(&mut random);
        circuit_calls(&mut random, &circuit);
        greedy(&mut random, &table);
    }
}

/// Every call on one circuit.
pub fn circuit_calls(random: &mut Random, circuit: &[u8]) {
    let by_library = thaksipho::read(circuit).map(|c| (c.wires, c.instructions as usize));
    let by_plain = plain::read(circuit).map(|c| (c.wires, c.instructions));
    assert_eq!(by_library, by_plain.map_err(ours), "read {circuit:02x?}");

    let room = a_room(random, Table::LENGTH);
    writing(
        room,
        |out| bytes::start(circuit, out),
        |out| plain::start(circuit, out),
    );

    let pairs = a_list(random, circuit);
    let room = a_room(random, circuit.len() + 1);
    writing(
        room,
        |out| thaksipho::compile(circuit, &pairs, out),
        |out| plain::compile(circuit, &pairs, out),
    );
    if let Ok(table) = thaksipho::start(circuit) {
        greedy(random, table.as_bytes());
    }
}

fn greedy(random: &mut Random, table: &[u8]) {
    let room = a_room(
        random,
        3 * usize::from(table.first().map_or(1, |width| width % 33)),
    );
    writing(
        room,
        |out| bytes::greedy(table, out).map(|chosen| (chosen.pairs, chosen.trials)),
        |out| plain::greedy(table, out).map(|chosen| (chosen.pairs, chosen.trials)),
    );
}

/// The answers and the whole buffers of two calls that write.
fn writing<T: PartialEq + std::fmt::Debug>(
    room: usize,
    library: impl FnOnce(&mut [u8]) -> Result<T, Refusal>,
    plain: impl FnOnce(&mut [u8]) -> Result<T, plain::Refusal>,
) {
    let mut by_library = vec![UNTOUCHED; room];
    let mut by_plain = by_library.clone();
    let answer = library(&mut by_library);
    assert_eq!(answer, plain(&mut by_plain).map_err(ours));
    assert_eq!(by_library, by_plain);
}

fn ours(refusal: plain::Refusal) -> Refusal {
    Refusal {
        number: refusal.number,
        place: refusal.place as u32,
    }
}

/// Room for so many bytes, more, or fewer.
fn a_room(random: &mut Random, needed: usize) -> usize {
    match random.below(4) {
        0 => random.below(needed + 1),
        _ => needed + random.below(3),
    }
}

/// Greedy's list or part of it, and now and then any pairs or a damaged end.
fn a_list(random: &mut Random, circuit: &[u8]) -> Vec<u8> {
    let width = circuit.get(1).copied().unwrap_or(1);
    let mut list = vec![0; 3 * Table::MOST_WIRES];
    let chosen = match thaksipho::start(circuit) {
        Ok(table) => bytes::greedy(table.as_bytes(), &mut list).map_or(0, |chosen| chosen.pairs),
        Err(_) => 0,
    };
    list.truncate(3 * random.below(chosen + 1));
    if random.once_in(2) {
        let (lender, taker) = any_pair(random, width);
        list.extend(reuse_pair(lender, taker));
    }
    if random.once_in(8) && !list.is_empty() {
        let at = random.below(list.len());
        match random.once_in(2) {
            true => list.truncate(at),
            false => list[at] = random.byte(),
        }
    }
    list
}
