//! What stored rows denote, by the definitions: the rows of a term (crates/term_check/specs/TermRows) and a signature in the
//! listed form.

use crate::declared::{APPLICATION, LARGEST_VALUE};
use crate::loaded::{ARITIES, FIRST_HEADER, FIRST_INPUT, FIRST_NODE, FIRST_PREMISE, RuleRow, SymbolRow};
use crate::pattern_definitions::{Pattern, Symbol, Written};
use crate::tokens::{METAVARIABLE, NAME, NUMERAL, Row, WORD_BYTES};

// TermRows.antt

/// A term is at most so deep.
const TERM_DEPTH: usize = 131;

/// `TermAt`: the term whose rows start at a place, and where they end, if they are exactly those that the parser leaves.
pub fn term_at(text: &[u8], rows: &[Row], at: usize) -> Option<(Written, usize)> {
    term_within(text, rows, at, TERM_DEPTH)
}

fn term_within(text: &[u8], rows: &[Row], at: usize, depth: usize) -> Option<(Written, usize)> {
    let [kind, start, length, last] = *rows.get(at).filter(|_| depth > 0)?;
    let word = name_place(text, start, length)?;
    match kind {
        NAME if last == 0 => Some((Written::Called(word), at + 1)),
        METAVARIABLE if last == 0 => Some((Written::Meta(word), at + 1)),
        NUMERAL => {
            let value = numeral_value(&word)?;
            (value.min(LARGEST_VALUE) == u64::from(last)).then_some((Written::Number(value), at + 1))
        }
        APPLICATION if last > 0 => {
            let (mut arguments, mut next) = (Vec::new(), at + 1);
            for _ in 0..last {
                let (argument, end) = term_within(text, rows, next, depth - 1)?;
                arguments.push(argument);
                next = end;
            }
            Some((Written::Applied(word, arguments), next))
        }
        _ => None,
    }
}

/// `NamePlace`: the bytes at a place inside the text, of 1 to 64 bytes.
pub fn name_place(text: &[u8], start: u32, length: u32) -> Option<Vec<u8>> {
    let (start, length) = (start as usize, length as usize);
    let word = text.get(start..start.checked_add(length)?)?;
    (1..=WORD_BYTES).contains(&length).then(|| word.to_vec())
}

/// `numeral_of`: digits alone, with a value of 64 bits.
fn numeral_value(word: &[u8]) -> Option<u64> {
    let all_digits = word.iter().all(u8::is_ascii_digit);
    std::str::from_utf8(word).ok().filter(|_| all_digits)?.parse().ok()
}

// Rules.antt

pub struct Rule {
    pub premises: Vec<Pattern>,
    pub conclusion: Pattern,
}

/// Symbols and rules of a stored signature that is in the listed form.
pub struct Signature {
    pub symbols: Vec<Symbol>,
    pub rules: Vec<Rule>,
}

impl Signature {
    /// Of the rows those that are counted.
    pub fn stored(text: &[u8], symbols: &[SymbolRow], rules: &[RuleRow], words: &[u32]) -> Signature {
        Signature {
            symbols: symbols.iter().map(|row| symbol_of(text, row)).collect(),
            rules: rules.iter().map(|row| rule_of(row, words)).collect(),
        }
    }
}

fn symbol_of(text: &[u8], row: &SymbolRow) -> Symbol {
    Symbol {
        name: text[row[0] as usize..][..row[1] as usize].to_vec(),
        inputs: row[FIRST_INPUT..][..row[6] as usize].to_vec(),
        output: row[2],
        function: row[3] == 1,
        first: row[4] as usize,
        clauses: row[5] as usize,
    }
}

fn rule_of(row: &RuleRow, words: &[u32]) -> Rule {
    let premises = row[FIRST_PREMISE..][..row[4] as usize].iter().map(|premise| denote(words, *premise)).collect();
    Rule { premises, conclusion: denote(words, row[5]) }
}

/// The pattern of a reference. In the listed form a rule's terms have no more nodes than are stored of them.
fn denote(words: &[u32], reference: u32) -> Pattern {
    let Some(address) = reference.checked_sub(FIRST_NODE) else { return Pattern::Var(reference as usize) };
    let header = words[address as usize] - FIRST_HEADER;
    let arguments = &words[address as usize + 1..][..(header % ARITIES) as usize];
    Pattern::App((header / ARITIES) as usize, arguments.iter().map(|argument| denote(words, *argument)).collect())
}
