//! Our evaluator, in the static library that `tools/staticlib capi` makes, called as any foreign program would.

use horn_oracle::call;
use horn_oracle::evaluated::{Buffers, Lent, Stored, TreeRow};
use horn_oracle::loaded::{Pair, RuleRow, SymbolRow};
use horn_oracle::tokens::Row;

unsafe extern "C" {
    fn horn_evaluate(
        text: *const u8,
        text_length: usize,
        limit: u32,
        sorts: *const Pair,
        sorts_rows: usize,
        symbols: *const SymbolRow,
        symbols_rows: usize,
        rules: *const RuleRow,
        rules_rows: usize,
        pattern: *const u32,
        pattern_length: usize,
        counts: *const u32,
        counts_length: usize,
        rows: *const Row,
        rows_rows: usize,
        at: usize,
        words: *mut u32,
        words_length: usize,
        links: *mut u32,
        links_length: usize,
        trees: *mut TreeRow,
        trees_rows: usize,
        results: *mut u32,
        results_length: usize,
    ) -> u64;

    fn horn_is_forward_call(
        text: *const u8,
        text_length: usize,
        sorts: *const Pair,
        sorts_rows: usize,
        symbols: *const SymbolRow,
        symbols_rows: usize,
        rules: *const RuleRow,
        rules_rows: usize,
        pattern: *const u32,
        pattern_length: usize,
        counts: *const u32,
        counts_length: usize,
        rows: *const Row,
        rows_rows: usize,
        at: usize,
    ) -> u64;
}

/// Evaluates the term whose first row is at a place, into the lent part of the buffers.
pub fn evaluate(stored: &Stored, limit: u32, at: usize, lent: &Lent, buffers: &mut Buffers) -> u64 {
    let Stored { text, sorts, symbols, rules, pattern, counts, rows } = *stored;
    let Buffers { words, links, trees, results } = buffers;
    let (words, links) = (&mut words[..lent.words], &mut links[..lent.links]);
    let (trees, results) = (&mut trees[..lent.trees], &mut results[..lent.results]);
    // All slices are lent whole for the length of the call, which is all that the contract asks.
    unsafe {
        call!(horn_evaluate: lent text, plain limit, lent sorts, lent symbols, lent rules, lent pattern, lent counts,
              lent rows, plain at, written words, written links, written trees, written results)
    }
}

/// Whether the term whose first row is at a place is evaluated where it is an `#eval`.
#[allow(dead_code)]
pub fn is_forward_call(stored: &Stored, at: usize) -> u64 {
    let Stored { text, sorts, symbols, rules, pattern, counts, rows } = *stored;
    // All slices are lent whole for the length of the call, which only reads them.
    unsafe {
        call!(horn_is_forward_call: lent text, lent sorts, lent symbols, lent rules, lent pattern, lent counts,
              lent rows, plain at)
    }
}
