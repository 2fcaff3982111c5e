//! The calls on a table, held against the second program: a circuit's table against the search for
//! a cycle, a table made by hand against the rule done on sets.

mod by_hand;
mod document;
mod offers;
mod start;

use crate::comparison::{compare_writing, of_second};
use samples::pairs::every_pair;
use second::{Accepted, Pair};
use std::collections::BTreeSet;
use thaksipho::{bytes, may, offer, score, Refusal, Table, Wire};

/// How much longer than a table the lent buffer is, so that bytes past the table are seen.
const SPARE_ROOM: usize = 3;

/// The table that the search for a cycle gives: a mark for each pair that could be accepted next.
fn table_by_search(accepted: &Accepted) -> second::Table {
    let width = accepted.circuit().width;
    let pairs = accepted.pairs();
    second::Table {
        width,
        marks: every_pair(width)
            .map(|(lender, taker)| Pair::of(lender, taker))
            .filter(|&pair| accepted.judge(pair).is_ok())
            .collect(),
        lending: pairs.iter().map(|pair| pair.lender).collect(),
        taking: pairs.iter().map(|pair| pair.taker).collect(),
    }
}

/// The wires of a pair of the second program, in the words of the proved library: the lender and the
/// taker.
fn wires(pair: Pair) -> (Wire, Wire) {
    (Wire(pair.lender.0), Wire(pair.taker.0))
}

/// Offers a pair to the proved library, with this much room, and looks at all that comes back: the
/// expected table, or the expected refusal. It is taken exactly when the pair is yes, and its score
/// is the count of the table after it, or the same refusal. Gives the answer.
fn compare_offer(
    table: &[u8],
    pair: Pair,
    room: usize,
    expected: &Result<second::Table, second::Refusal>,
) -> Result<usize, Refusal> {
    let (lender, taker) = wires(pair);
    let context = || format!("{pair:?} to {table:02x?}");
    let refused = |refusal: &second::Refusal| of_second(*refusal);
    let after = expected.as_ref().map(second::Table::bytes).map_err(refused);
    let count = |after: &second::Table| after.counting().len() as u32;
    let left = expected.as_ref().map(count).map_err(refused);
    // Only a wrong width is a refusal for `may` too.
    let yes = match left {
        Ok(_) => Ok(true),
        Err(refusal) if refusal.number == 27 => Err(refusal),
        Err(_) => Ok(false),
    };

    let call = |out: &mut [u8]| bytes::offer(table, lender, taker, out);
    let answer = compare_writing(room, &after, call, context);
    if let Ok(written) = answer {
        assert_eq!(written, Table::LENGTH, "{}", context());
    }
    assert_eq!(bytes::score(table, lender, taker), left, "{}", context());
    assert_eq!(bytes::may(table, lender, taker), yes, "{}", context());

    let table = Table::from_bytes(table);
    let by_value = offer(&table, lender, taker).map(|after| after.as_bytes().to_vec());
    assert_eq!(by_value, after, "{}", context());
    assert_eq!(score(&table, lender, taker), left, "{}", context());
    assert_eq!(may(&table, lender, taker), yes, "{}", context());
    answer
}

/// Looks at the mark of every pair of numbers up to the width, and at the count.
fn compare_every_mark(table: &[u8], yes: &BTreeSet<Pair>, width: u8) {
    for (lender, taker) in every_pair(width) {
        let answer = bytes::may(table, Wire(lender), Wire(taker));
        let expected = yes.contains(&Pair::of(lender, taker));
        assert_eq!(answer, Ok(expected), "{lender} to {taker} of {table:02x?}");
    }
    assert_eq!(bytes::count(table), Ok(yes.len() as u32), "{table:02x?}");
}
