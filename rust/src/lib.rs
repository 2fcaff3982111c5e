//! Qubit reuse for quantum circuits, proved: the safe Rust side of the static library.
//!
//! The library itself is written in Rattle, and every function of it is proved to meet its
//! contract. This crate declares its functions, hands them slices and takes their answers apart.
//! An answer is a value or a [`Refusal`]; a refusal leaves every lent buffer as it was.
//!
//! Reading a circuit, choosing pairs for it and compiling it:
//!
//! ```
//! use thaksipho::{compile, greedy, start, Pair, Refusal};
//!
//! // B, of document 01: three wires, reset and measured.
//! let b = [
//!     0x01, 3, 0x10, 0, 0x10, 1, 0x10, 2, 0x11, 0, 0, 0x11, 1, 1, 0x11, 2, 2,
//! ];
//! let chosen = greedy(&start(&b)?)?;
//! let list: Vec<u8> = chosen.pairs.iter().flat_map(Pair::record).collect();
//! let mut out = vec![0; b.len() + 1];
//! assert_eq!(compile(&b, &list, &mut out), Ok(out.len()));
//!
//! // All three on one qubit.
//! let on_one_qubit = [
//!     0x02, 1, 3, 0x10, 0, 0x11, 0, 0, 0x10, 0, 0x11, 0, 1, 0x10, 0, 0x11, 0, 2,
//! ];
//! assert_eq!(out, on_one_qubit);
//! # Ok::<(), Refusal>(())
//! ```

#![deny(missing_docs)]
#![deny(unsafe_code)]

mod boundary;
pub mod bytes;
mod greedy;
mod refusal;
mod table;

pub use greedy::{greedy, Greedy, Pair};
pub use refusal::Refusal;
pub use table::{count, may, offer, score, start, Table, Wire};

/// What a valid static circuit is made of.
#[derive(Clone, Copy, Debug, PartialEq, Eq)]
pub struct Circuit {
    /// How many wires it has.
    pub wires: u8,
    /// How many instructions it has.
    pub instructions: u32,
}

/// Reads a static circuit.
///
/// ```
/// use thaksipho::{read, Circuit, Refusal};
///
/// // A, of document 01: a gate on wires 0 and 1, then one on 1 and 2.
/// let a = [
///     0x01, 3, 0x10, 0, 0x10, 1, 0x10, 2, 0x40, 0, 1, 0x40, 1, 2, 0x11, 0, 0, 0x11, 1, 1, 0x11, 2, 2,
/// ];
/// assert_eq!(read(&a), Ok(Circuit { wires: 3, instructions: 8 }));
/// // Without its last record wire 2 is not measured.
/// assert_eq!(read(&a[..20]), Err(Refusal { number: 13, place: 2 }));
/// ```
pub fn read(circuit: &[u8]) -> Result<Circuit, Refusal> {
    let value = outcome(boundary::read(circuit))?;
    Ok(Circuit {
        wires: (value % 256) as u8,
        instructions: value / 256,
    })
}

/// Writes the records of a valid static circuit again to the start of `out`, and gives the number
/// of bytes written. They are the same bytes, and the rest of `out` stays as it was. Where `out` is
/// too short the refusal is 31, and its place is the length needed.
///
/// ```
/// use thaksipho::{rewrite, Refusal};
///
/// let one_wire = [0x01, 1, 0x10, 0, 0x11, 0, 0];
/// let mut out = [7; 8];
/// assert_eq!(rewrite(&one_wire, &mut out), Ok(7));
/// assert_eq!(out[..7], one_wire);
/// assert_eq!(out[7], 7);
/// assert_eq!(rewrite(&one_wire, &mut out[..6]), Err(Refusal { number: 31, place: 7 }));
/// ```
pub fn rewrite(circuit: &[u8], out: &mut [u8]) -> Result<usize, Refusal> {
    let written = outcome(boundary::rewrite(circuit, out))?;
    Ok(written as usize)
}

/// Writes the dynamic circuit of a static circuit and a pair list to the start of `out`, and gives
/// the number of bytes written: one more than the circuit has. The list is records of kind 60: the
/// kind, the lender, the taker. The circuit is refused as [`read`] refuses it, then the first pair
/// that is not as it must be, at its index; where `out` is too short the refusal is 31, and its
/// place is the length needed.
///
/// ```
/// use thaksipho::{compile, Refusal};
///
/// // A, of document 01, on two qubits: wire 0 lends to wire 2.
/// let a = [
///     0x01, 3, 0x10, 0, 0x10, 1, 0x10, 2, 0x40, 0, 1, 0x40, 1, 2, 0x11, 0, 0, 0x11, 1, 1, 0x11, 2, 2,
/// ];
/// let mut out = [0; 24];
/// assert_eq!(compile(&a, &[0x60, 0, 2], &mut out), Ok(24));
/// assert_eq!(
///     out,
///     [
///         0x02, 2, 3, 0x10, 0, 0x10, 1, 0x40, 0, 1, 0x11, 0, 0, 0x10, 0, 0x40, 1, 0, 0x11, 1, 1,
///         0x11, 0, 2,
///     ]
/// );
/// // Wire 1 cannot lend to wire 2: a gate is on both.
/// let refused = Refusal { number: 23, place: 0 };
/// assert_eq!(compile(&a, &[0x60, 1, 2], &mut out), Err(refused));
/// ```
pub fn compile(circuit: &[u8], pairs: &[u8], out: &mut [u8]) -> Result<usize, Refusal> {
    let written = outcome(boundary::compile(circuit, pairs, out))?;
    Ok(written as usize)
}

/// Takes an answer of the library apart: a refusal's number times 2^32 plus its place, or a value
/// below 2^32.
fn outcome(answer: u64) -> Result<u32, Refusal> {
    let number = u8::try_from(answer >> 32).expect("a refusal's number is below 256");
    let rest = answer as u32;
    match number {
        0 => Ok(rest),
        _ => Err(Refusal {
            number,
            place: rest,
        }),
    }
}

#[cfg(test)]
mod tests {
    use super::*;

    #[test]
    fn an_answer_is_a_value_or_a_refusal_with_its_place() {
        assert_eq!(outcome(0x0000_0000_0008_0020), Ok(0x0008_0020));
        assert_eq!(outcome(0xFFFF_FFFF), Ok(u32::MAX));
        let refusal = Refusal {
            number: 13,
            place: 2,
        };
        assert_eq!(outcome(0x0000_000D_0000_0002), Err(refusal));
    }
}
