//! The samples of `examples/`: the library chooses the same pairs and compiles to the same bytes as
//! the second program, which made them, and the files are those that it makes today.

#[allow(dead_code)]
#[path = "../../examples/make_samples.rs"]
mod make_samples;

use make_samples::{all, readme};
use std::collections::BTreeSet;
use std::fs;
use std::path::{Path, PathBuf};
use thaksipho::{compile, greedy, start, Pair};

/// How the names of a sample's files end.
const ENDINGS: [&str; 4] = [".circuit", ".pairs", ".compiled", ".refused"];

fn folder() -> PathBuf {
    Path::new(env!("CARGO_MANIFEST_DIR")).join("../examples")
}

/// What a file of a sample holds.
fn stored(name: &str, ending: &str) -> Vec<u8> {
    let file = folder().join(format!("{name}.{ending}"));
    fs::read(&file).unwrap_or_else(|error| panic!("{}: {error}", file.display()))
}

#[test]
fn the_library_compiles_each_to_the_same_bytes() {
    for sample in all() {
        let name = sample.name;
        let (circuit, pairs) = (stored(name, "circuit"), stored(name, "pairs"));
        let mut out = vec![0; circuit.len() + 1];
        match compile(&circuit, &pairs, &mut out) {
            Ok(written) => assert_eq!(out[..written], stored(name, "compiled"), "{name}"),
            Err(refusal) => {
                let line = format!("refused {} at {}\n", refusal.number, refusal.place);
                assert_eq!(line.as_bytes(), stored(name, "refused"), "{name}");
            }
        }
    }
}

/// But for those of document 01 that have another list on purpose, or are no circuits.
#[test]
fn the_library_chooses_the_same_pairs() {
    let mut chosen = 0;
    for sample in all().iter().filter(|sample| sample.outcome.is_ok()) {
        let table = start(&stored(sample.name, "circuit")).expect("the circuit is valid");
        let pairs = greedy(&table).expect("the width is right").pairs;
        let list: Vec<u8> = pairs.iter().flat_map(Pair::record).collect();
        assert_eq!(list, stored(sample.name, "pairs"), "{}", sample.name);
        chosen += pairs.len();
    }
    assert!(chosen > 0);
}

#[test]
fn the_files_are_those_that_the_second_program_makes() {
    let mut names = BTreeSet::new();
    for (name, bytes) in all().iter().flat_map(|sample| sample.files()) {
        assert_eq!(fs::read(folder().join(&name)).ok(), Some(bytes), "{name}");
        names.insert(name);
    }
    let page = fs::read_to_string(folder().join("README.md")).unwrap();
    assert_eq!(page, readme());
    let found = fs::read_dir(folder()).unwrap();
    let found = found.map(|entry| entry.unwrap().file_name().into_string().unwrap());
    let is_sample = |name: &String| ENDINGS.iter().any(|ending| name.ends_with(ending));
    assert_eq!(found.filter(is_sample).collect::<BTreeSet<_>>(), names);
}
