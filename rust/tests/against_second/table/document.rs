//! The cases of the scope document that concern pairs, their outcome written out by hand.

use samples::document::{A, B, OF_P11};
use samples::tables::table;
use thaksipho::{count, may, offer, score, start, Refusal, Table, Wire};

/// The pairs that are yes, by their numbers.
fn yes_pairs(table: &Table) -> Vec<(u8, u8)> {
    let pairs = samples::pairs::every_pair(table.width());
    pairs
        .filter(|&(lender, taker)| may(table, Wire(lender), Wire(taker)) == Ok(true))
        .collect()
}

/// The table after offers that are all taken.
fn after(table: Table, offers: &[(u8, u8)]) -> Table {
    offers.iter().fold(table, |table, &(lender, taker)| {
        offer(&table, Wire(lender), Wire(taker)).expect("the offer is taken")
    })
}

fn refused(table: &Table, lender: u8, taker: u8, number: u8) {
    let refusal = Refusal { number, place: 0 };
    let (lender, taker) = (Wire(lender), Wire(taker));
    assert_eq!(may(table, lender, taker), Ok(false));
    assert_eq!(offer(table, lender, taker), Err(refusal));
    assert_eq!(score(table, lender, taker), Err(refusal));
}

#[test]
fn a_has_one_pair() {
    // P1: 0 to 2 is accepted. P2: 1 to 2 is not.
    let start = start(&A).unwrap();
    assert_eq!(yes_pairs(&start), [(0, 2)]);
    assert_eq!(score(&start, Wire(0), Wire(2)), Ok(0));
    refused(&start, 1, 2, 23);
    refused(&start, 2, 0, 23);
    assert_eq!(count(&after(start, &[(0, 2)])), Ok(0));
}

#[test]
fn b_lends_along_a_chain_and_not_around() {
    // P3: 0 to 1, 1 to 2. P4: 2 to 0 closes the loop.
    let start = start(&B).unwrap();
    assert_eq!(start.as_bytes()[..], table(3, &[0b110, 0b101, 0b011], 0, 0));
    assert_eq!(count(&start), Ok(6));
    assert_eq!(score(&start, Wire(0), Wire(1)), Ok(2));
    let one = after(start, &[(0, 1)]);
    assert_eq!(yes_pairs(&one), [(1, 2), (2, 0)]);
    let two = after(one, &[(1, 2)]);
    assert_eq!(two.as_bytes()[..], table(3, &[], 0b011, 0b110));
    refused(&two, 2, 0, 23);
    refused(&two, 0, 2, 21);
    refused(&two, 2, 1, 22);
    refused(&two, 2, 2, 22);
    refused(&two, 2, 3, 20);
}

#[test]
fn a_table_that_is_never_updated_fails_p11() {
    let start = start(&OF_P11).unwrap();
    assert_eq!(may(&start, Wire(3), Wire(1)), Ok(true));
    refused(&after(start, &[(0, 2)]), 3, 1, 23);
    // 3 to 1 alone is accepted, and then 0 to 2 is not.
    refused(&after(start, &[(3, 1)]), 0, 2, 23);
}

#[test]
fn one_wire_has_nobody_to_lend_to() {
    let start = start(&[0x01, 0x01, 0x10, 0x00, 0x11, 0x00, 0x00]).unwrap();
    assert_eq!(start.as_bytes()[..], table(1, &[], 0, 0));
    refused(&start, 0, 0, 23);
    refused(&start, 0, 1, 20);
    refused(&start, 1, 0, 20);
}

#[test]
fn a_mark_on_the_diagonal_counts_nowhere() {
    // Were (1, 1) a yes for the rule, 1 to 0 would stay and close the loop.
    let made_by_hand = Table::from_bytes(&table(2, &[0x02, 0x03], 0, 0));
    assert_eq!(yes_pairs(&made_by_hand), [(0, 1), (1, 0)]);
    let after = after(made_by_hand, &[(0, 1)]);
    assert_eq!(after.as_bytes()[..], table(2, &[], 0b01, 0b10));
}

#[test]
fn a_wire_that_has_taken_may_still_lend() {
    let made_by_hand = Table::from_bytes(&table(2, &[0x02, 0x01], 0b10, 0b01));
    assert_eq!(yes_pairs(&made_by_hand), [(0, 1)]);
    refused(&made_by_hand, 1, 0, 21);
    refused(&made_by_hand, 0, 0, 22);
}

#[test]
fn what_does_not_count_is_gone_after_an_offer() {
    // Every bit is set, but no wire below the width is used.
    let above = !0b111;
    let made_by_hand = Table::from_bytes(&table(3, &[!0; 32], above, above));
    assert_eq!(count(&made_by_hand), Ok(6));
    let after = after(made_by_hand, &[(0, 1)]);
    assert_eq!(
        after.as_bytes()[..],
        table(3, &[0, 0b100, 0b001], 0b001, 0b010)
    );
}

#[test]
fn a_wrong_width_is_27_before_all_else() {
    for width in (0..=u8::MAX).filter(|width| !(1..=32).contains(width)) {
        let wrong = Table::from_bytes(&table(width, &[!0; 32], 0, 0));
        for (lender, taker) in [(0, 1), (1, 1), (width, 0), (u8::MAX, u8::MAX)] {
            let (lender, taker) = (Wire(lender), Wire(taker));
            let refusal = Refusal {
                number: 27,
                place: 0,
            };
            assert_eq!(may(&wrong, lender, taker), Err(refusal));
            assert_eq!(offer(&wrong, lender, taker), Err(refusal));
            assert_eq!(score(&wrong, lender, taker), Err(refusal));
            assert_eq!(count(&wrong), Err(refusal));
        }
    }
}
