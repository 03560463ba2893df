//! The answer of the loader: its storage or a refusal, what a caller lends, and the storage as it is recorded.

use crate::tokens::{Row, TEXT_BYTES};

/// Document 01's limits, over which refusal 28 is given.
pub const SORTS: usize = 256;
pub const SYMBOLS: usize = 1_024;
pub const INPUTS: usize = 16;
pub const RULES: usize = 1_024;
pub const VARIABLES: usize = 64;
pub const PREMISES: usize = 16;
pub const RULE_NODES: usize = 1_024;
pub const NODES: u32 = 32_768;

/// How many numbers refuse, 0 counted for none.
pub const NUMBERS: usize = 29;

/// Of a sort the place of its name; of an `#eval` its line and the row of its term.
pub type Pair = [u32; 2];

/// Start, length, output, function mark, first clause, clauses, number of inputs, 0; from `FIRST_INPUT` on the inputs.
pub type SymbolRow = [u32; 24];
pub const FIRST_INPUT: usize = 8;

/// Name's start and length, clause number + 1, variables, premises, reference of the conclusion, first word, words of
/// the premises and of the conclusion, variables met in the conclusion; then references, sorts and places.
pub type RuleRow = [u32; 154];
pub const FIRST_PREMISE: usize = 10;
pub const FIRST_SORT: usize = 26;
pub const FIRST_PLACE: usize = 90;

/// References to nodes start here, those below are variables; headers start at the other.
pub const FIRST_NODE: u32 = 64;
pub const FIRST_HEADER: u32 = 1 << 20;

/// A header holds its symbol above its arity.
pub const ARITIES: u32 = 32;

/// Rows of flattened calls beside those that the text limit gives.
pub const CALLS_BESIDE: usize = 32;

/// Sorts, symbols, rules, words, evals.
pub const COUNTS: usize = 5;

/// The limits that a caller sets.
#[derive(Clone, Copy, Debug, PartialEq, Eq, Hash)]
pub struct Limits {
    pub text: u32,
    pub nodes: u32,
}

impl Limits {
    /// A higher limit counts as document 01's.
    pub fn capped(self) -> Limits {
        Limits { text: self.text.min(TEXT_BYTES), nodes: self.nodes.min(NODES) }
    }
}

/// How many rows, or words or numbers, a caller lends of each kind.
#[derive(Clone, Copy, Debug, PartialEq, Eq, Hash)]
pub struct Lent {
    pub tokens: usize,
    pub rows: usize,
    pub calls: usize,
    pub sorts: usize,
    pub symbols: usize,
    pub rules: usize,
    pub words: usize,
    pub evals: usize,
    pub counts: usize,
}

impl Lent {
    /// What the limits ask for.
    pub fn least(limits: Limits) -> Lent {
        let Limits { text, nodes } = limits.capped();
        Lent {
            tokens: text as usize,
            rows: text as usize,
            calls: text as usize + CALLS_BESIDE,
            sorts: SORTS,
            symbols: SYMBOLS,
            rules: RULES,
            words: 2 * nodes as usize,
            evals: text as usize / 2,
            counts: COUNTS,
        }
    }

    pub fn parts(&self) -> [usize; 9] {
        let Lent { tokens, rows, calls, sorts, symbols, rules, words, evals, counts } = *self;
        [tokens, rows, calls, sorts, symbols, rules, words, evals, counts]
    }

    pub fn parts_mut(&mut self) -> [&mut usize; 9] {
        let Lent { tokens, rows, calls, sorts, symbols, rules, words, evals, counts } = self;
        [tokens, rows, calls, sorts, symbols, rules, words, evals, counts]
    }

    pub fn suffices(&self, limits: Limits) -> bool {
        let least = Lent::least(limits).parts();
        self.parts().into_iter().zip(least).all(|(lent, least)| lent >= least)
    }
}

/// What the loader leaves: the declarations' rows, and the signature. Only what is used is held; zero follows.
#[derive(Clone, Debug, Default, PartialEq)]
pub struct Storage {
    pub rows: Vec<Row>,
    pub sorts: Vec<Pair>,
    pub symbols: Vec<SymbolRow>,
    pub rules: Vec<RuleRow>,
    pub words: Vec<u32>,
    pub evals: Vec<Pair>,
}

#[derive(Clone, Debug, PartialEq)]
pub enum Answer {
    /// Number of declarations, and what is stored of them.
    Loaded(usize, Storage),
    Refused {
        number: u32,
        line: u32,
    },
}

impl Answer {
    /// The answer as `horn_load` returns it: the number above 32 bits of count or line.
    pub fn code(&self) -> u64 {
        match self {
            Answer::Loaded(count, _) => *count as u64,
            Answer::Refused { number, line } => u64::from(*number) << 32 | u64::from(*line),
        }
    }

    /// Document 01's number, 0 for an accepted text.
    pub fn number(&self) -> usize {
        (self.code() >> 32) as usize
    }

    /// Leaves in the lent part of the buffers what the contract says of it: 1 writes nothing, any other refusal zeroes
    /// all; tokens and calls are zero in the end.
    pub fn leave_in(&self, lent: &Lent, buffers: &mut Buffers) {
        let nothing = Storage::default();
        let storage = match self {
            Answer::Refused { number: 1, .. } => return,
            Answer::Refused { .. } => &nothing,
            Answer::Loaded(_, storage) => storage,
        };
        let counts = storage.counts();
        let used = if self.number() == 0 { &counts[..] } else { &[] };
        fill(&mut buffers.tokens[..lent.tokens], &[]);
        fill(&mut buffers.rows[..lent.rows], &storage.rows);
        fill(&mut buffers.calls[..lent.calls], &[]);
        fill(&mut buffers.sorts[..lent.sorts], &storage.sorts);
        fill(&mut buffers.symbols[..lent.symbols], &storage.symbols);
        fill(&mut buffers.rules[..lent.rules], &storage.rules);
        fill_words(&mut buffers.words[..lent.words], &storage.words);
        fill(&mut buffers.evals[..lent.evals], &storage.evals);
        fill_words(&mut buffers.counts[..lent.counts], used);
    }

    /// As recorded: the signature's rows in order, or the one line of the refusal.
    pub fn recorded(&self, text: &[u8]) -> String {
        match self {
            Answer::Refused { number, line } => format!("refused {number} line {line}\n"),
            Answer::Loaded(_, storage) => storage.recorded(text),
        }
    }
}

fn fill<const N: usize>(lent: &mut [[u32; N]], used: &[[u32; N]]) {
    lent.fill([0; N]);
    lent[..used.len()].copy_from_slice(used);
}

fn fill_words(lent: &mut [u32], used: &[u32]) {
    lent.fill(0);
    lent[..used.len()].copy_from_slice(used);
}

/// All that a caller lends.
#[derive(Default, PartialEq)]
pub struct Buffers {
    pub tokens: Vec<Row>,
    pub rows: Vec<Row>,
    pub calls: Vec<Row>,
    pub sorts: Vec<Pair>,
    pub symbols: Vec<SymbolRow>,
    pub rules: Vec<RuleRow>,
    pub words: Vec<u32>,
    pub evals: Vec<Pair>,
    pub counts: Vec<u32>,
}

impl Buffers {
    /// Makes each buffer `guard` longer than what is lent of it, and every number the same.
    pub fn reset(&mut self, lent: &Lent, guard: usize, number: u32) {
        reset(&mut self.tokens, lent.tokens + guard, [number; 4]);
        reset(&mut self.rows, lent.rows + guard, [number; 4]);
        reset(&mut self.calls, lent.calls + guard, [number; 4]);
        reset(&mut self.sorts, lent.sorts + guard, [number; 2]);
        reset(&mut self.symbols, lent.symbols + guard, [number; 24]);
        reset(&mut self.rules, lent.rules + guard, [number; 154]);
        reset(&mut self.words, lent.words + guard, number);
        reset(&mut self.evals, lent.evals + guard, [number; 2]);
        reset(&mut self.counts, lent.counts + guard, number);
    }
}

fn reset<T: Clone>(buffer: &mut Vec<T>, length: usize, item: T) {
    buffer.clear();
    buffer.resize(length, item);
}

impl Storage {
    pub fn counts(&self) -> [u32; COUNTS] {
        let lengths = [self.sorts.len(), self.symbols.len(), self.rules.len(), self.words.len(), self.evals.len()];
        lengths.map(|length| length as u32)
    }

    /// Nodes of all rules: each is a judgment or an argument.
    pub fn nodes(&self) -> usize {
        let judgments: usize = self.rules.iter().map(|rule| rule[4] as usize + 1).sum();
        judgments + self.words.iter().filter(|word| **word < FIRST_HEADER).count()
    }

    /// A line for each sort and symbol, for each rule its heading, its nodes in order and its references, and a line
    /// for each `#eval`.
    pub fn recorded(&self, text: &[u8]) -> String {
        let names = Names { text, storage: self };
        let sorts = self.sorts.iter().map(|sort| format!("sort {}\n", names.at(sort[0], sort[1])));
        let symbols = self.symbols.iter().map(|symbol| names.recorded_symbol(symbol));
        let rules = self.rules.iter().map(|rule| names.recorded_rule(rule));
        let evals = self.evals.iter().map(|[line, row]| format!("eval {line} {row}\n"));
        sorts.chain(symbols).chain(rules).chain(evals).collect()
    }
}

/// Finds names in the text.
struct Names<'a> {
    text: &'a [u8],
    storage: &'a Storage,
}

impl Names<'_> {
    fn at(&self, start: u32, length: u32) -> String {
        String::from_utf8_lossy(&self.text[start as usize..(start + length) as usize]).into_owned()
    }

    /// The name of a sort, `Prop` for none.
    fn sort(&self, number: u32) -> String {
        match number {
            0 => "Prop".to_owned(),
            _ => {
                let [start, length] = self.storage.sorts[number as usize - 1];
                self.at(start, length)
            }
        }
    }

    /// The names of sorts, a blank before each.
    fn sorts(&self, numbers: &[u32]) -> String {
        numbers.iter().map(|number| format!(" {}", self.sort(*number))).collect()
    }

    /// The name of a rule, for a clause that of its function with its number.
    fn rule(&self, rule: &RuleRow) -> String {
        let name = self.at(rule[0], rule[1]);
        if rule[2] == 0 { name } else { format!("{name}.{}", rule[2] - 1) }
    }

    fn recorded_symbol(&self, symbol: &SymbolRow) -> String {
        let inputs = self.sorts(&symbol[FIRST_INPUT..][..symbol[6] as usize]);
        let function = if symbol[3] == 1 { format!(" function {} {}", symbol[4], symbol[5]) } else { String::new() };
        format!("symbol {} :{inputs} -> {}{function}\n", self.at(symbol[0], symbol[1]), self.sort(symbol[2]))
    }

    fn recorded_rule(&self, rule: &RuleRow) -> String {
        let [_, _, _, variables, premises, conclusion, first, before, after, met, ..] =
            rule.map(|number| number as usize);
        let sorts = self.sorts(&rule[FIRST_SORT..][..variables]);
        let mut lines = format!("rule {} vars{sorts}\n", self.rule(rule));
        let mut address = first;
        while address < first + before + after {
            let header = self.storage.words[address] - FIRST_HEADER;
            let (symbol, arity) = (&self.storage.symbols[(header / ARITIES) as usize], (header % ARITIES) as usize);
            let arguments = references(&self.storage.words[address + 1..][..arity], first);
            lines += &format!("  #{} {}{arguments}\n", address - first, self.at(symbol[0], symbol[1]));
            address += 1 + arity;
        }
        let premises = references(&rule[FIRST_PREMISE..][..premises], first);
        let conclusion = references(&[conclusion as u32], first);
        let places: String = rule[FIRST_PLACE..][..variables].iter().map(|place| format!(" {place}")).collect();
        lines + &format!("  premises{premises} conclusion{conclusion} met {met} places{places}\n")
    }
}

/// References, a blank before each; the addresses are counted from a rule's first word.
fn references(references: &[u32], first: usize) -> String {
    let reference = |reference: &u32| match reference {
        0..FIRST_NODE => format!(" ?v{reference}"),
        _ => format!(" #{}", (reference - FIRST_NODE) as usize - first),
    };
    references.iter().map(reference).collect()
}

/// How many texts were accepted and how many refused by each number.
pub fn counted(counts: &[u64; NUMBERS]) -> String {
    let refusals: Vec<String> = (1..NUMBERS).map(|number| format!("{number}: {}", counts[number])).collect();
    let total: u64 = counts.iter().sum();
    format!("{total} texts, no difference: {} accepted, refused by {}", counts[0], refusals.join(", "))
}
