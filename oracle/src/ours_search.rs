//! Our sessions, in the static library that `tools/staticlib capi` makes, called as any foreign program would.

use crate::ours_load;
use horn_oracle::call;
use horn_oracle::evaluated::TreeRow;
use horn_oracle::loaded::{self, Limits as TextLimits, Pair, RuleRow, SymbolRow};
use horn_oracle::search_compared::{Posed, Searching};
use horn_oracle::searched::{Allowance, Ask, Buffers, Counts, Given, Lent, NameRow, StackRow};
use horn_oracle::tokens::Row;

unsafe extern "C" {
    fn horn_open(
        variable_limit: u32,
        word_limit: u32,
        names: *mut NameRow,
        names_rows: usize,
        words: *mut u32,
        words_length: usize,
        bindings: *mut Pair,
        bindings_rows: usize,
        links: *mut Pair,
        links_rows: usize,
        marks: *mut Pair,
        marks_rows: usize,
        stack: *mut StackRow,
        stack_rows: usize,
    ) -> u64;
}

/// Declares the foreign function, which is called as `horn_prove` is, and a function `prove` that calls it.
macro_rules! prove_by {
    ($function:ident) => {
        unsafe extern "C" {
            fn $function(
                text: *const u8,
                text_length: usize,
                step_limit: u32,
                variable_limit: u32,
                word_limit: u32,
                sorts: *const Pair,
                sorts_rows: usize,
                symbols: *const SymbolRow,
                symbols_rows: usize,
                rules: *const RuleRow,
                rules_rows: usize,
                pattern: *const u32,
                pattern_length: usize,
                counts: *const u32,
                counts_length: usize,
                rows: *const Row,
                rows_rows: usize,
                at: usize,
                steps: u32,
                depth: u32,
                names: *mut NameRow,
                names_rows: usize,
                words: *mut u32,
                words_length: usize,
                bindings: *mut Pair,
                bindings_rows: usize,
                session: *const u32,
                session_length: usize,
                links: *mut Pair,
                links_rows: usize,
                marks: *mut Pair,
                marks_rows: usize,
                stack: *mut StackRow,
                stack_rows: usize,
                proof: *mut TreeRow,
                proof_rows: usize,
                results: *mut u32,
                results_length: usize,
            ) -> u64;
        }

        /// Searches a goal with counts and results of any number.
        pub fn prove(
            posed: &Posed,
            counts: &[u32],
            session: &[u32],
            lent: &Lent,
            buffers: &mut Buffers,
            results: &mut [u32],
        ) -> u64 {
            let Posed { text, stored, at, ask: Ask { steps, depth, limits } } = *posed;
            let loaded::Buffers { sorts, symbols, rules, words: pattern, rows, .. } = stored;
            let Buffers { names, words, bindings, proof, links, marks, stack } = buffers;
            let (names, words, bindings) = (&mut names[..lent.names], &mut words[..lent.words], &mut bindings[..lent.bindings]);
            let (links, marks, stack) = (&mut links[..lent.links], &mut marks[..lent.marks], &mut stack[..lent.stack]);
            let proof = &mut proof[..lent.proof];
            // All slices are lent whole for the length of the call, which is all that the contract asks.
            unsafe {
                call!($function: lent text, plain limits.steps, plain limits.variables, plain limits.words, lent sorts, lent symbols,
                      lent rules, lent pattern, lent counts, lent rows, plain at, plain steps, plain depth, written names,
                      written words, written bindings, lent session, written links, written marks, written stack, written proof,
                      written results)
            }
        }
    };
}
pub(crate) use prove_by;

prove_by!(horn_prove);

/// How many counts of a signature and of a session are lent, and how many results.
pub const COUNTS: usize = 4;
pub const RESULTS: usize = 6;

/// What a result holds before the call; no answer can leave it there.
pub const JUNK: u32 = 0xDEAD_BEEF;

/// The search of our library.
pub struct Ours;

impl Searching for Ours {
    fn load(&mut self, text: &[u8], limits: TextLimits, lent: &loaded::Lent, buffers: &mut loaded::Buffers) -> u64 {
        ours_load::load(text, limits, lent, buffers)
    }

    fn open(&mut self, limits: &Allowance, lent: &Lent, buffers: &mut Buffers) -> u32 {
        let Buffers { names, words, bindings, links, marks, stack, .. } = buffers;
        let (names, words) = (&mut names[..lent.names], &mut words[..lent.words]);
        let (bindings, links) = (&mut bindings[..lent.bindings], &mut links[..lent.links]);
        let (marks, stack) = (&mut marks[..lent.marks], &mut stack[..lent.stack]);
        // All slices are lent whole for the length of the call, which is all that the contract asks.
        let answer = unsafe {
            call!(horn_open: plain limits.variables, plain limits.words, written names, written words, written bindings,
                  written links, written marks, written stack)
        };
        assert_eq!(answer as u32, 0, "a refusal to open has no line");
        (answer >> 32) as u32
    }

    fn prove(&mut self, posed: &Posed, counts: Counts, lent: &Lent, buffers: &mut Buffers) -> Given {
        let stored = &posed.stored.counts[..COUNTS];
        told(counts, |session, results| prove(posed, stored, session, lent, buffers, results))
    }
}

/// What an answer and its results tell; the call is given the session's counts.
pub fn told(counts: Counts, call: impl FnOnce(&[u32], &mut [u32]) -> u64) -> Given {
    let mut results = [JUNK; RESULTS + 1];
    let answer = call(&[counts.names, counts.variables, counts.bound, counts.words], &mut results);
    let [steps, nodes, names, variables, bound, words, behind] = results;
    let counts = Counts { names, variables, bound, words };
    let left = if answer >> 32 == 1 { JUNK } else { 0 };
    assert_eq!(behind, left, "what lies behind the results");
    match (answer >> 32, answer as u32) {
        (0, 1) => Given::Proved { steps, nodes, counts },
        (0, 2) if nodes == 0 => Given::Nothing { steps, counts },
        (0, 3) if nodes == 0 => Given::Undecided { steps, counts },
        (number @ 1.., 0) => {
            assert_eq!(results, [left; RESULTS + 1], "the results of a refused goal");
            Given::Refused(number as u32)
        }
        _ => panic!("the answer {answer:#x} with the results {results:?}"),
    }
}
