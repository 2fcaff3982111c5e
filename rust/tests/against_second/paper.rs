//! The circuits of the source paper's Table I: greedy's list and the compiled circuit are the second
//! program's, and the table in docs/ is what comes out.

use samples::records::reuse_pair;
use thaksipho::{compile, greedy, start, Pair};
use widths::{pair_records, paper, start_table};

/// The records of a list that the library chose.
fn records_of(pairs: &[Pair]) -> Vec<u8> {
    let record = |pair: &Pair| reuse_pair(pair.lender.0, pair.taker.0);
    pairs.iter().flat_map(record).collect()
}

#[test]
fn the_papers_circuits_compile_as_by_the_second_program() {
    for case in paper::cases() {
        let name = format!("{} {}", case.family, case.size);
        let circuit = second::read(&case.circuit).expect(&name);
        let expected = second::greedy(&start_table(&circuit)).expect(&name);
        let expected_list = pair_records(&expected.pairs);
        let expected_bytes = second::compile(&case.circuit, &expected_list).expect(&name);

        let chosen = greedy(&start(&case.circuit).expect(&name)).expect(&name);
        let list = records_of(&chosen.pairs);
        assert_eq!(list, expected_list, "{name}");
        assert_eq!(chosen.trials as usize, expected.trials, "{name}");
        let mut out = vec![0; expected_bytes.len()];
        let written = compile(&case.circuit, &list, &mut out);
        assert_eq!(written, Ok(expected_bytes.len()), "{name}");
        assert_eq!(out, expected_bytes, "{name}");
    }
}

#[test]
fn the_table_in_docs_is_what_comes_out() {
    let page = include_str!("../../../docs/WIDTHS.md");
    assert!(page.contains(&paper::table()));
}
