//! The circuits of the source paper have the start tables that its preprint (source document 001)
//! states as "candidate matrices": row is the lender, column the taker.

use samples::paper::{adder, bernstein_vazirani, circular, cluster, diamond, linear, pairwise};
use second::{read, Pair};
use widths::start_table;

/// Asserts that the start table has a yes exactly where the matrix has a one.
fn assert_matrix(name: &str, circuit: &[u8], one: impl Fn(i32, i32) -> bool) {
    let circuit = read(circuit).expect(name);
    let table = start_table(&circuit);
    for lender in 0..circuit.width {
        for taker in 0..circuit.width {
            let yes = table.may(Pair::of(lender, taker)).unwrap();
            let stated = one(lender.into(), taker.into());
            assert_eq!(yes, stated, "{name}: {lender} to {taker}");
        }
    }
}

#[test]
fn bernstein_vazirani_has_matrix_12() {
    for n in 2..=31 {
        let circuit = bernstein_vazirani::circuit(&vec![true; n as usize]);
        assert_matrix("Bernstein-Vazirani", &circuit, |lender, taker| {
            lender <= n - 2 && lender < taker && taker < n
        });
    }
}

#[test]
fn adders_have_matrix_22() {
    for k in 1..=10 {
        assert_matrix("adder", &adder::circuit(k as u8), |lender, taker| {
            let place = lender / 3;
            let first_sum = lender % 3 == 1 && taker < lender;
            let second_sum = place <= k - 2 && taker >= 3 * place + 4;
            first_sum || second_sum
        });
    }
}

#[test]
fn linear_circuits_have_matrix_27() {
    for n in 2..=32 {
        for l in 1..n {
            let circuit = linear::circuit(n as u8, l as u8);
            assert_matrix("linear", &circuit, |lender, taker| taker > lender + l);
        }
    }
}

#[test]
fn circular_circuits_have_matrix_30_with_one_layer_and_no_pair_with_two() {
    for n in 2..=32 {
        let circuit = circular::circuit(n as u8, 1);
        assert_matrix("circular", &circuit, |lender, taker| {
            lender >= 1 && taker >= lender + 2
        });
        assert_matrix("circular", &circular::circuit(n as u8, 2), |_, _| false);
    }
}

#[test]
fn pairwise_circuits_have_matrices_34_and_35() {
    for n in 2..=32 {
        for l in 1..=n / 2 {
            let circuit = pairwise::circuit(n as u8, l as u8);
            assert_matrix("pairwise", &circuit, |lender, taker| {
                let left = lender - taker > 2 * l || lender - taker == 2 * l && taker % 2 == 1;
                let right = taker - lender > 2 * l || taker - lender == 2 * l && lender % 2 == 0;
                left || right
            });
        }
    }
}

#[test]
fn diamonds_have_matrices_38_and_39() {
    for n in 1..=16 {
        assert_matrix("diamond", &diamond::circuit(n as u8), |lender, taker| {
            lender - taker > n || taker - lender > n
        });
    }
}

#[test]
fn clusters_have_matrix_43() {
    for w in 1..=16 {
        for d in 2..=32 / w {
            let circuit = cluster::circuit(w as u8, d as u8);
            assert_matrix("cluster", &circuit, |lender, taker| {
                let (from_column, from_row) = (lender / w, lender % w);
                let (to_column, to_row) = (taker / w, taker % w);
                match to_column - from_column {
                    2.. => true,
                    1 => to_row != from_row,
                    back => to_row >= from_row - back + 2,
                }
            });
        }
    }
}
