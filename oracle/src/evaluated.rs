//! The answer of the evaluator: a value with its calls, or a refusal; what a caller lends; and terms as numbers, so that
//! both sides can be compared.

use crate::loaded::{Pair, RuleRow, SymbolRow};
use crate::tokens::Row;
use std::collections::HashMap;
use std::collections::hash_map::Entry;

/// Document 01's limits.
pub const WORDS: u32 = 262_144;
pub const CALLS: usize = 10_000;
pub const DEPTH: usize = 128;

/// Words to lend past the limit, where a term is made before its words are tested: two for each of a rule's 1,024
/// nodes, and one.
pub const WORDS_BESIDE: usize = 2_049;

/// Reference of the value, calls, words used.
pub const RESULTS: usize = 3;

/// Sorts, symbols, rules and words of the signature: the counts that are read.
pub const COUNTS_READ: usize = 4;

/// How many numbers refuse, 0 counted for none.
pub const NUMBERS: usize = 38;

/// The numbers that an evaluation is refused by, but for 1 and 37.
pub const REFUSALS: [u32; 11] = [20, 21, 26, 29, 30, 31, 32, 33, 34, 35, 36];
pub const NO_WORDS: u32 = 37;

/// Height, 0, rule, reference of the goal, and zeros.
pub type TreeRow = [u32; 8];

/// Terms by number, each once, however it is shared where it comes from. So two terms are the same if their numbers are, and
/// a term of 2^100 nodes costs what its stored ones do.
#[derive(Default)]
pub struct Terms {
    nodes: Vec<Node>,
    numbers: HashMap<(u32, Vec<usize>), usize>,
}

const FIRST_VARIABLE: u32 = 1 << 31;

struct Node {
    symbol: u32,
    arguments: Vec<usize>,
    /// Nodes written out, at most `u64::MAX`.
    size: u64,
}

impl Terms {
    pub fn node(&mut self, symbol: u32, arguments: Vec<usize>) -> usize {
        let (next, size) = (self.nodes.len(), arguments.iter().map(|argument| self.size(*argument)));
        let size = size.fold(1_u64, u64::saturating_add);
        match self.numbers.entry((symbol, arguments)) {
            Entry::Occupied(known) => *known.get(),
            Entry::Vacant(new) => {
                self.nodes.push(Node { symbol, arguments: new.key().1.clone(), size });
                *new.insert(next)
            }
        }
    }

    /// A variable, which no value has: a node of a symbol that there cannot be.
    pub fn variable(&mut self, number: usize) -> usize {
        self.node(FIRST_VARIABLE + number as u32, Vec::new())
    }

    /// Its number, if the term is a variable.
    pub fn as_variable(&self, term: usize) -> Option<usize> {
        self.nodes[term].symbol.checked_sub(FIRST_VARIABLE).map(|number| number as usize)
    }

    pub fn symbol(&self, term: usize) -> u32 {
        self.nodes[term].symbol
    }

    pub fn arguments(&self, term: usize) -> &[usize] {
        &self.nodes[term].arguments
    }

    pub fn size(&self, term: usize) -> u64 {
        self.nodes[term].size
    }

    /// A term for people, who know the symbols by number; a large one is cut short.
    pub fn shown(&self, term: usize) -> String {
        let Node { symbol, arguments, size } = &self.nodes[term];
        if *symbol >= FIRST_VARIABLE {
            return format!("?v{}", symbol - FIRST_VARIABLE);
        }
        if *size > 200 {
            return format!("#{symbol} of {size} nodes");
        }
        let arguments: String = arguments.iter().map(|argument| format!(" {}", self.shown(*argument))).collect();
        if arguments.is_empty() { format!("#{symbol}") } else { format!("(#{symbol}{arguments})") }
    }
}

/// A call of the trees, in preorder: its height from 1 on, the number of the rule taken and its goal.
#[derive(Clone, Debug, PartialEq)]
pub struct Call {
    pub height: u32,
    pub rule: u32,
    pub goal: usize,
}

#[derive(Clone, Debug, PartialEq)]
pub struct Value {
    pub term: usize,
    pub calls: Vec<Call>,
    pub words: u64,
}

#[derive(Clone, Debug, PartialEq)]
pub enum Answer {
    Value(Value),
    Refused(u32),
}

impl Answer {
    /// Document 01's number, 0 for a value.
    pub fn number(&self) -> u32 {
        match self {
            Answer::Value(_) => 0,
            Answer::Refused(number) => *number,
        }
    }

    /// For people, with the first calls.
    pub fn shown(&self, terms: &Terms) -> String {
        let Value { term, calls, words } = match self {
            Answer::Refused(number) => return format!("refused {number}"),
            Answer::Value(value) => value,
        };
        let call = |Call { height, rule, goal }: &Call| format!("; {height} rule {rule} {}", terms.shown(*goal));
        let first: String = calls.iter().take(20).map(call).collect();
        format!("value {}, {} calls, {words} words{first}", terms.shown(*term), calls.len())
    }
}

/// What a caller lends to be read: a stored signature, and the rows of terms.
#[derive(Clone, Copy)]
pub struct Stored<'a> {
    pub text: &'a [u8],
    pub sorts: &'a [Pair],
    pub symbols: &'a [SymbolRow],
    pub rules: &'a [RuleRow],
    pub pattern: &'a [u32],
    pub counts: &'a [u32],
    pub rows: &'a [Row],
}

/// How many words, rows or numbers a caller lends to be written.
#[derive(Clone, Copy, Debug, PartialEq, Eq, Hash)]
pub struct Lent {
    pub words: usize,
    pub links: usize,
    pub trees: usize,
    pub results: usize,
}

impl Lent {
    /// What a limit on words asks for.
    pub fn least(limit: u32) -> Lent {
        let words = limit.min(WORDS) as usize;
        // At most 128 calls are open, and each other one has taken two words at least.
        let trees = CALLS.min(words / 2 + DEPTH);
        Lent { words: words + WORDS_BESIDE, links: words, trees, results: RESULTS }
    }

    pub fn suffices(&self, limit: u32) -> bool {
        let least = Lent::least(limit);
        let written = self.words >= least.words && self.links >= least.links;
        written && self.trees >= least.trees && self.results >= least.results
    }
}

/// All that a caller lends to be written.
#[derive(Default)]
pub struct Buffers {
    pub words: Vec<u32>,
    pub links: Vec<u32>,
    pub trees: Vec<TreeRow>,
    pub results: Vec<u32>,
}

impl Buffers {
    /// Makes each buffer `guard` longer than what is lent of it, and every number the same.
    pub fn reset(&mut self, lent: &Lent, guard: usize, number: u32) {
        reset(&mut self.words, lent.words + guard, number);
        reset(&mut self.links, lent.links + guard, number);
        reset(&mut self.trees, lent.trees + guard, [number; 8]);
        reset(&mut self.results, lent.results + guard, number);
    }

    /// The first number that is not this one, among those lent or among those behind them.
    pub fn first_other(&self, lent: &Lent, behind: bool, number: u32) -> Option<String> {
        let other = |name: &str, numbers: &[u32], lent: usize| {
            let (first, numbers) = if behind { (lent, &numbers[lent..]) } else { (0, &numbers[..lent]) };
            let at = first_not(numbers, number)?;
            Some(format!("{name} {} holds {} and not {number}", first + at, numbers[at]))
        };
        other("word", &self.words, lent.words)
            .or_else(|| other("link", &self.links, lent.links))
            .or_else(|| other("number of tree rows", self.trees.as_flattened(), 8 * lent.trees))
            .or_else(|| other("result", &self.results, lent.results))
    }
}

/// Where the first other number stands. Most numbers are the same, so they are looked at by the thousand.
pub fn first_not(numbers: &[u32], number: u32) -> Option<usize> {
    let differs = |chunk: &[u32]| chunk.iter().fold(0, |bits, found| bits | (found ^ number)) != 0;
    let start = numbers.chunks(1_024).position(differs)? * 1_024;
    numbers[start..].iter().position(|found| *found != number).map(|at| start + at)
}

fn reset<T: Clone>(buffer: &mut Vec<T>, length: usize, item: T) {
    buffer.clear();
    buffer.resize(length, item);
}

/// How many evaluations had a value and how many were refused by each number, and how many terms were goals.
pub fn counted(counts: &[u64; NUMBERS], goals: u64) -> String {
    let refusals = [1].into_iter().chain(REFUSALS).chain([NO_WORDS]);
    let refusals: Vec<String> = refusals.map(|number| format!("{number}: {}", counts[number as usize])).collect();
    let total: u64 = counts.iter().sum();
    format!("{total} evaluations, {goals} of goals: {} values, refused by {}", counts[0], refusals.join(", "))
}
