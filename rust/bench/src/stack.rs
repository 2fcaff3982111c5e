//! How much stack each call of the static library uses: the call runs on a stack of its own, filled
//! with a pattern before, and the lowest byte that is no longer the pattern tells how deep it went.
//! What a call reserves at its deepest point and never touches is not seen.

#![allow(unsafe_code)]

use crate::case::Case;
use samples::circuits::{any_circuit, bare, MOST_WIRES};
use samples::damage::damaged_circuit;
use samples::tables::any_table;
use samples::Random;
use std::arch::asm;

/// How much stack a call is lent: far more than any needs.
const LENT: usize = 1 << 16;
/// A call is entered with its stack at a multiple of this.
const ALIGNMENT: usize = 16;
/// A byte may happen to be the pattern, but not both.
const PATTERNS: [u8; 2] = [0xA5, 0x5A];
/// How many random inputs each call is tried on.
const INPUTS: usize = 300;

extern "C" {
    fn thaksipho_read();
    fn thaksipho_rewrite();
    fn thaksipho_compile();
    fn thaksipho_start();
    fn thaksipho_may();
    fn thaksipho_offer();
    fn thaksipho_count();
    fn thaksipho_score();
    fn thaksipho_greedy();
}

/// A function of the library, whatever its arguments.
type Function = unsafe extern "C" fn();

/// The deepest use of the stack by each call so far, in the order in which they were first made.
#[derive(Default)]
pub struct Depths(pub Vec<(&'static str, usize)>);

/// Measures every call on the cases, on random circuits and tables, and on damaged ones.
pub fn measure(cases: &[Case]) -> Depths {
    let mut depths = Depths::default();
    let mut random = Random::new(9);
    for case in cases {
        depths.try_calls(&case.circuit, &case.pairs, &case.table);
    }
    depths.try_calls(&bare(MOST_WIRES), &[], &[]);
    for turn in 0..INPUTS {
        let circuit = match turn % 2 {
            0 => any_circuit(&mut random),
            _ => damaged_circuit(&mut random),
        };
        let pairs = [0x60, 0, 1, 0x60, 1, 2];
        depths.try_calls(&circuit, &pairs, &any_table(&mut random));
    }
    depths
}

impl Depths {
    /// Makes every call on one circuit, list and table.
    fn try_calls(&mut self, circuit: &[u8], pairs: &[u8], table: &[u8]) {
        let mut out = vec![0; circuit.len() + 200];
        let slice = |bytes: &[u8]| [bytes.as_ptr() as usize, bytes.len()];
        let [c, c_length] = slice(circuit);
        let [p, p_length] = slice(pairs);
        let [t, t_length] = slice(table);
        let [o, o_length] = [out.as_mut_ptr() as usize, out.len()];
        let (lender, taker) = (0, 1);
        let mut note = |name, function: Function, arguments| {
            // SAFETY: the arguments are those of the function, and every slice outlives the call.
            let depth = unsafe { depth_of(function, arguments) };
            self.note(name, depth);
        };
        note("read", thaksipho_read, [c, c_length, 0, 0, 0, 0]);
        note(
            "rewrite",
            thaksipho_rewrite,
            [c, c_length, o, o_length, 0, 0],
        );
        note(
            "compile",
            thaksipho_compile,
            [c, c_length, p, p_length, o, o_length],
        );
        note("start", thaksipho_start, [c, c_length, o, o_length, 0, 0]);
        note("may", thaksipho_may, [t, t_length, lender, taker, 0, 0]);
        note(
            "offer",
            thaksipho_offer,
            [t, t_length, lender, taker, o, o_length],
        );
        note("count", thaksipho_count, [t, t_length, 0, 0, 0, 0]);
        note("score", thaksipho_score, [t, t_length, lender, taker, 0, 0]);
        note("greedy", thaksipho_greedy, [t, t_length, o, o_length, 0, 0]);
    }

    fn note(&mut self, name: &'static str, depth: usize) {
        match self.0.iter_mut().find(|(other, _)| *other == name) {
            Some((_, deepest)) => *deepest = depth.max(*deepest),
            None => self.0.push((name, depth)),
        }
    }
}

/// How many bytes of stack one call uses, its return address included.
///
/// # Safety
/// The function takes these arguments, as numbers or as pointers that may be used so.
unsafe fn depth_of(function: Function, arguments: [usize; 6]) -> usize {
    let depth_with = |pattern: u8| {
        let mut stack = vec![pattern; LENT + ALIGNMENT];
        let end = stack.as_mut_ptr() as usize + LENT;
        let top = end - end % ALIGNMENT;
        // SAFETY: the caller's, and there is far more stack below `top` than any call uses.
        unsafe { call_on_stack(top, function, arguments) };
        let unused = stack.iter().take_while(|&&byte| byte == pattern).count();
        assert!(unused > LENT / 2, "the lent stack is too small");
        top - (stack.as_ptr() as usize + unused)
    };
    PATTERNS.map(depth_with).into_iter().max().unwrap_or(0)
}

/// Calls a function with its stack at `top`.
///
/// # Safety
/// As for `depth_of`; below `top` there is room for all that the call puts on the stack.
#[inline(never)]
unsafe fn call_on_stack(top: usize, function: Function, arguments: [usize; 6]) -> u64 {
    let answer: u64;
    let [first, second, third, fourth, fifth, sixth] = arguments;
    // SAFETY: r12 keeps our stack, since a C function leaves it as it was.
    unsafe {
        asm!(
            "mov r12, rsp",
            "mov rsp, {top}",
            "call {function}",
            "mov rsp, r12",
            top = in(reg) top,
            function = in(reg) function,
            in("rdi") first,
            in("rsi") second,
            in("rdx") third,
            in("rcx") fourth,
            in("r8") fifth,
            in("r9") sixth,
            out("r12") _,
            lateout("rax") answer,
            clobber_abi("C"),
        );
    }
    answer
}

#[cfg(test)]
mod tests {
    use super::*;

    /// Touches an array of 1,000 bytes and more.
    extern "C" fn touch_a_thousand() {
        std::hint::black_box([7_u8; 1000]);
    }

    extern "C" fn touch_nothing() {}

    #[test]
    fn what_a_call_touches_is_seen() {
        // SAFETY: neither takes an argument.
        let (much, little) = unsafe {
            (
                depth_of(touch_a_thousand, [0; 6]),
                depth_of(touch_nothing, [0; 6]),
            )
        };
        assert!((1000..3000).contains(&much), "{much}");
        assert!((8..100).contains(&little), "{little}");
    }

    #[test]
    fn every_call_uses_some_stack_and_not_much() {
        let depths = measure(&[]);
        assert_eq!(depths.0.len(), 9);
        for (name, depth) in depths.0 {
            assert!((8..LENT / 2).contains(&depth), "{name}: {depth}");
        }
    }
}
