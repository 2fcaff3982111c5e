//! The functions of the static library, and all that is unsafe in this crate.
//!
//! Nothing checks these declarations against `crates/thaksipho`: the tests compare what comes back
//! with the second program. A slice goes over as its pointer and its length.

#![allow(unsafe_code)]

mod library {
    extern "C" {
        pub fn thaksipho_read(circuit: *const u8, circuit_length: usize) -> u64;
        pub fn thaksipho_rewrite(
            circuit: *const u8,
            circuit_length: usize,
            out: *mut u8,
            out_length: usize,
        ) -> u64;
        pub fn thaksipho_compile(
            circuit: *const u8,
            circuit_length: usize,
            pairs: *const u8,
            pairs_length: usize,
            out: *mut u8,
            out_length: usize,
        ) -> u64;
        pub fn thaksipho_start(
            circuit: *const u8,
            circuit_length: usize,
            out: *mut u8,
            out_length: usize,
        ) -> u64;
        pub fn thaksipho_may(table: *const u8, table_length: usize, lender: u8, taker: u8) -> u64;
        pub fn thaksipho_offer(
            table: *const u8,
            table_length: usize,
            lender: u8,
            taker: u8,
            out: *mut u8,
            out_length: usize,
        ) -> u64;
        pub fn thaksipho_count(table: *const u8, table_length: usize) -> u64;
        pub fn thaksipho_score(table: *const u8, table_length: usize, lender: u8, taker: u8)
            -> u64;
        pub fn thaksipho_greedy(
            table: *const u8,
            table_length: usize,
            out: *mut u8,
            out_length: usize,
        ) -> u64;
    }
}

pub(crate) fn read(circuit: &[u8]) -> u64 {
    // SAFETY: the pointer and the length are those of a slice that outlives the call; the function
    // has no `requires`, and reads inside the slice only.
    unsafe { library::thaksipho_read(circuit.as_ptr(), circuit.len()) }
}

pub(crate) fn rewrite(circuit: &[u8], out: &mut [u8]) -> u64 {
    // SAFETY: as above; `out` is lent for writing, so it overlaps no other slice.
    unsafe {
        library::thaksipho_rewrite(circuit.as_ptr(), circuit.len(), out.as_mut_ptr(), out.len())
    }
}

pub(crate) fn compile(circuit: &[u8], pairs: &[u8], out: &mut [u8]) -> u64 {
    let (pairs, pairs_length) = (pairs.as_ptr(), pairs.len());
    let (out, out_length) = (out.as_mut_ptr(), out.len());
    // SAFETY: as for `rewrite`.
    unsafe {
        library::thaksipho_compile(
            circuit.as_ptr(),
            circuit.len(),
            pairs,
            pairs_length,
            out,
            out_length,
        )
    }
}

pub(crate) fn start(circuit: &[u8], out: &mut [u8]) -> u64 {
    // SAFETY: as for `rewrite`.
    unsafe {
        library::thaksipho_start(circuit.as_ptr(), circuit.len(), out.as_mut_ptr(), out.len())
    }
}

pub(crate) fn may(table: &[u8], lender: u8, taker: u8) -> u64 {
    // SAFETY: as for `read`; any numbers are answered.
    unsafe { library::thaksipho_may(table.as_ptr(), table.len(), lender, taker) }
}

pub(crate) fn offer(table: &[u8], lender: u8, taker: u8, out: &mut [u8]) -> u64 {
    let (out, out_length) = (out.as_mut_ptr(), out.len());
    // SAFETY: as for `rewrite`; any numbers are answered.
    unsafe { library::thaksipho_offer(table.as_ptr(), table.len(), lender, taker, out, out_length) }
}

pub(crate) fn count(table: &[u8]) -> u64 {
    // SAFETY: as for `read`.
    unsafe { library::thaksipho_count(table.as_ptr(), table.len()) }
}

pub(crate) fn score(table: &[u8], lender: u8, taker: u8) -> u64 {
    // SAFETY: as for `may`.
    unsafe { library::thaksipho_score(table.as_ptr(), table.len(), lender, taker) }
}

pub(crate) fn greedy(table: &[u8], out: &mut [u8]) -> u64 {
    // SAFETY: as for `rewrite`.
    unsafe { library::thaksipho_greedy(table.as_ptr(), table.len(), out.as_mut_ptr(), out.len()) }
}
