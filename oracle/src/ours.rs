//! Our side: the static libraries that `tools/staticlib capi` and `tools/staticlib unifier_capi` make, called as any foreign program would.

#![allow(dead_code)] // each program calls some of it

use horn_oracle::call;
use horn_oracle::tokens::Row;
use horn_oracle::unify::{Problem, ROOM};

unsafe extern "C" {
    fn horn_lex(text: *const u8, text_length: usize, limit: u32, tokens: *mut Row, rows: usize) -> u64;
    fn horn_parse(
        text: *const u8,
        text_length: usize,
        limit: u32,
        tokens: *mut Row,
        token_rows: usize,
        rows: *mut Row,
        rows_count: usize,
    ) -> u64;
    fn horn_unify(
        words: *const u32,
        words_length: usize,
        bindings: *mut [u32; 2],
        bindings_rows: usize,
        links: *mut [u32; 2],
        links_rows: usize,
        marks: *mut [u32; 2],
        marks_rows: usize,
        stack: *mut [u32; 3],
        stack_rows: usize,
        variables: u32,
        used: u32,
        bound: u32,
        left: u32,
        right: u32,
    ) -> u64;
    fn horn_unify_unchecked(
        words: *const u32,
        words_length: usize,
        bindings: *mut [u32; 2],
        bindings_rows: usize,
        links: *mut [u32; 2],
        links_rows: usize,
        marks: *mut [u32; 2],
        marks_rows: usize,
        stack: *mut [u32; 3],
        stack_rows: usize,
        variables: u32,
        used: u32,
        bound: u32,
        left: u32,
        right: u32,
    ) -> u64;
}

pub fn lex(text: &[u8], limit: u32, rows: &mut [Row]) -> u64 {
    // Both slices are lent whole for the length of the call, which is all that the contract asks.
    unsafe { call!(horn_lex: lent text, plain limit, written rows) }
}

pub fn parse(text: &[u8], limit: u32, tokens: &mut [Row], rows: &mut [Row]) -> u64 {
    // All three slices are lent whole for the length of the call, which is all that the contract asks.
    unsafe { call!(horn_parse: lent text, plain limit, written tokens, written rows) }
}

/// The storage of one unification: bindings with their trail, and scratch that is zero before and after.
#[derive(Clone, PartialEq)]
pub struct Storage {
    pub bindings: Vec<[u32; 2]>,
    pub links: Vec<[u32; 2]>,
    pub marks: Vec<[u32; 2]>,
    pub stack: Vec<[u32; 3]>,
}

impl Storage {
    /// The bindings of a problem, entered in order; scratch as the contract asks.
    pub fn new(problem: &Problem) -> Storage {
        let references = ROOM as usize + problem.words.len();
        let mut bindings = vec![[0; 2]; problem.variables as usize + 1];
        for (position, &(variable, reference)) in problem.bindings.iter().enumerate() {
            bindings[variable as usize][0] = reference + 1;
            bindings[position][1] = variable;
        }
        Storage {
            bindings,
            links: vec![[0; 2]; references],
            marks: vec![[0; 2]; references],
            stack: vec![[0; 3]; problem.words.len() + 1],
        }
    }
}

/// The counts and references of a call.
#[derive(Clone)]
pub struct Counts {
    pub variables: u32,
    pub used: u32,
    pub bound: u32,
    pub left: u32,
    pub right: u32,
}

impl Counts {
    pub fn new(problem: &Problem) -> Counts {
        let (used, bound) = (problem.words.len() as u32, problem.bindings.len() as u32);
        Counts { variables: problem.variables, used, bound, left: problem.left, right: problem.right }
    }
}

/// The answer of `horn_unify` where the storage is not in form: refusal 1, line 0.
pub const REFUSED: u64 = 1 << 32;

/// A unification by one of the functions.
macro_rules! unify {
    ($function:ident, $words:expr, $storage:expr, $counts:expr) => {{
        let (words, counts): (&[u32], &Counts) = ($words, $counts);
        let Storage { bindings, links, marks, stack } = $storage;
        let Counts { variables, used, bound, left, right } = *counts;
        call!($function: lent words, written bindings, written links, written marks, written stack, plain variables,
              plain used, plain bound, plain left, plain right)
    }};
}

/// The number that `horn_unify` answers, on storage of any contents.
pub fn unify(words: &[u32], storage: &mut Storage, counts: &Counts) -> u64 {
    // All slices are lent whole for the length of the call, which is all that the contract asks.
    unsafe { unify!(horn_unify, words, storage, counts) }
}

/// The same without the test of the storage.
pub fn unify_unchecked(problem: &Problem, storage: &mut Storage) -> Option<usize> {
    // The problem's words are in form, its bindings came from unifications, and the scratch is zero and as long as the words ask.
    bound(unsafe { unify!(horn_unify_unchecked, &problem.words, storage, &Counts::new(problem)) })
}

/// How many variables are bound then, if the terms unify.
pub fn bound(answer: u64) -> Option<usize> {
    (answer >> 31 == 1).then_some((answer - (1 << 31)) as usize)
}
