//! Our loader and the test of what it leaves, in the static library that `tools/staticlib capi` makes, called as any foreign program would.

use horn_oracle::call;
use horn_oracle::loaded::{Buffers, Lent, Limits, Pair, RuleRow, SymbolRow};
use horn_oracle::tokens::Row;

unsafe extern "C" {
    fn horn_load(
        text: *const u8,
        text_length: usize,
        text_limit: u32,
        nodes_limit: u32,
        tokens: *mut Row,
        tokens_rows: usize,
        rows: *mut Row,
        rows_rows: usize,
        calls: *mut Row,
        calls_rows: usize,
        sorts: *mut Pair,
        sorts_rows: usize,
        symbols: *mut SymbolRow,
        symbols_rows: usize,
        rules: *mut RuleRow,
        rules_rows: usize,
        words: *mut u32,
        words_length: usize,
        evals: *mut Pair,
        evals_rows: usize,
        counts: *mut u32,
        counts_length: usize,
    ) -> u64;

    fn horn_check_signature(
        text: *const u8,
        text_length: usize,
        sorts: *const Pair,
        sorts_rows: usize,
        symbols: *const SymbolRow,
        symbols_rows: usize,
        rules: *const RuleRow,
        rules_rows: usize,
        words: *const u32,
        words_length: usize,
        counts: *const u32,
        counts_length: usize,
    ) -> u64;
}

/// Loads a text into the lent part of the buffers.
pub fn load(text: &[u8], limits: Limits, lent: &Lent, buffers: &mut Buffers) -> u64 {
    let Buffers { tokens, rows, calls, sorts, symbols, rules, words, evals, counts } = buffers;
    let (tokens, rows, calls) = (&mut tokens[..lent.tokens], &mut rows[..lent.rows], &mut calls[..lent.calls]);
    let (sorts, symbols) = (&mut sorts[..lent.sorts], &mut symbols[..lent.symbols]);
    let (rules, words) = (&mut rules[..lent.rules], &mut words[..lent.words]);
    let (evals, counts) = (&mut evals[..lent.evals], &mut counts[..lent.counts]);
    // All slices are lent whole for the length of the call, which is all that the contract asks.
    unsafe {
        call!(horn_load: lent text, plain limits.text, plain limits.nodes, written tokens, written rows, written calls,
              written sorts, written symbols, written rules, written words, written evals, written counts)
    }
}

/// Tests the signature in the lent part of the buffers.
#[allow(dead_code)]
pub fn check(text: &[u8], lent: &Lent, buffers: &Buffers) -> u64 {
    let Buffers { sorts, symbols, rules, words, counts, .. } = buffers;
    let (sorts, symbols) = (&sorts[..lent.sorts], &symbols[..lent.symbols]);
    let (rules, words, counts) = (&rules[..lent.rules], &words[..lent.words], &counts[..lent.counts]);
    // All slices are lent whole for the length of the call, which only reads them.
    unsafe { call!(horn_check_signature: lent text, lent sorts, lent symbols, lent rules, lent words, lent counts) }
}
