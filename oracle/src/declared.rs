//! The answer of `parse`: rows or a refusal, what it leaves in the lent rows, and declarations as they are listed.

use crate::tokens::Row;
use std::fmt::{Display, Formatter, Result};

/// The keywords' numbers, which are the kinds of their tokens and of the rows that they start.
pub const SORT: u32 = 1;
pub const CTOR: u32 = 2;
pub const PRED: u32 = 3;
pub const RULE: u32 = 4;
pub const DEF: u32 = 5;
pub const THEOREM: u32 = 6;
pub const BY: u32 = 7;
pub const AUTO: u32 = 8;
pub const INDUCTION: u32 = 9;
pub const EVAL: u32 = 10;
pub const CHECK: u32 = 11;

/// The kinds of rows beside those of tokens.
pub const APPLICATION: u32 = 24;
pub const CLAUSE: u32 = 25;
pub const BINDERS: u32 = 26;

/// Document 01: 64 parentheses may be open together.
pub const PARENTHESES: usize = 64;

/// A numeral's row holds at most this value.
pub const LARGEST_VALUE: u64 = u32::MAX as u64;

/// How many numbers refuse, 0 counted for none.
pub const NUMBERS: usize = 17;

#[derive(Clone, Debug, PartialEq)]
pub enum Answer {
    Declared { count: usize, tokens: Vec<Row>, rows: Vec<Row> },
    Refused { number: u32, line: u32 },
}

impl Answer {
    /// The answer as `horn_parse` returns it: the number above 32 bits of count or line.
    pub fn code(&self) -> u64 {
        match self {
            Answer::Declared { count, .. } => *count as u64,
            Answer::Refused { number, line } => u64::from(*number) << 32 | u64::from(*line),
        }
    }

    /// Document 01's number, 0 for an accepted text.
    pub fn number(&self) -> usize {
        (self.code() >> 32) as usize
    }

    /// Leaves in both buffers what the contract says of them: 1 writes nothing, any other refusal zeroes all.
    pub fn leave_in(&self, tokens_lent: &mut [Row], rows_lent: &mut [Row]) {
        match self {
            Answer::Refused { number: 1, .. } => {}
            Answer::Refused { .. } => {
                fill(tokens_lent, &[]);
                fill(rows_lent, &[]);
            }
            Answer::Declared { tokens, rows, .. } => {
                fill(tokens_lent, tokens);
                fill(rows_lent, rows);
            }
        }
    }

    /// As recorded: the number of declarations and a line of four numbers for each row, or the one line of the refusal.
    pub fn recorded(&self) -> String {
        match self {
            Answer::Refused { number, line } => format!("refused {number} line {line}\n"),
            Answer::Declared { count, rows, .. } => {
                let numbers = |[kind, start, length, last]: &Row| format!("{kind} {start} {length} {last}\n");
                format!("declarations {count}\n") + &rows.iter().map(numbers).collect::<String>()
            }
        }
    }
}

/// How many texts were accepted and how many refused by each number.
pub fn counted(counts: &[u64; NUMBERS]) -> String {
    let refusals: Vec<String> = (1..NUMBERS).map(|number| format!("{number}: {}", counts[number])).collect();
    let total: u64 = counts.iter().sum();
    format!("{total} texts, no difference: {} accepted, refused by {}", counts[0], refusals.join(", "))
}

fn fill(lent: &mut [Row], used: &[Row]) {
    lent.fill([0; 4]);
    lent[..used.len()].copy_from_slice(used);
}

/// A declaration and the line that it starts on. Names and terms are spelled as they are listed.
#[derive(Clone, Debug, PartialEq)]
pub struct Listed {
    pub line: u32,
    pub declaration: Declaration,
}

/// Of sorts the last is the result, of judgments the conclusion; a predicate's `Prop` is left out.
#[derive(Clone, Debug, PartialEq)]
pub enum Declaration {
    Sort(String),
    Ctor(String, Vec<String>),
    Pred(String, Vec<String>),
    Rule(String, Vec<String>),
    Def(String, Vec<String>, Vec<Clause>),
    /// Name, binders, judgments, and what the induction is on.
    Theorem(String, Vec<Binder>, Vec<String>, Option<String>),
    Eval(String),
    Check(String),
}

/// A clause: its patterns, and its right side.
pub type Clause = (Vec<String>, String);

/// A bound name, and its sort.
pub type Binder = (String, String);

/// A term applied to terms, in parentheses.
pub fn application(name: &str, arguments: &[String]) -> String {
    format!("({name} {})", arguments.join(" "))
}

/// A numeral as its row holds it.
pub fn numeral(value: u64) -> String {
    value.min(LARGEST_VALUE).to_string()
}

/// A line for each declaration.
pub fn listing(declarations: &[Listed]) -> String {
    declarations.iter().map(|listed| format!("{listed}\n")).collect()
}

impl Display for Listed {
    fn fmt(&self, out: &mut Formatter) -> Result {
        write!(out, "{} {}", self.line, self.declaration)
    }
}

impl Display for Declaration {
    fn fmt(&self, out: &mut Formatter) -> Result {
        match self {
            Declaration::Sort(name) => write!(out, "sort {name}"),
            Declaration::Ctor(name, sorts) => write!(out, "ctor {name} : {}", arrows(sorts)),
            Declaration::Pred(name, sorts) => {
                let with_prop = [&sorts[..], &["Prop".to_owned()]].concat();
                write!(out, "pred {name} : {}", arrows(&with_prop))
            }
            Declaration::Rule(name, judgments) => write!(out, "rule {name} : {}", arrows(judgments)),
            Declaration::Def(name, sorts, clauses) => {
                write!(out, "def {name} : {}", arrows(sorts))?;
                clauses.iter().try_for_each(|clause| write_clause(out, clause))
            }
            Declaration::Theorem(name, binders, judgments, induction) => {
                write!(out, "theorem {name}")?;
                binders.iter().try_for_each(|(variable, sort)| write!(out, " ({variable} : {sort})"))?;
                write!(out, " : {} := by ", arrows(judgments))?;
                match induction {
                    None => write!(out, "auto"),
                    Some(variable) => write!(out, "induction {variable}"),
                }
            }
            Declaration::Eval(term) => write!(out, "#eval {term}"),
            Declaration::Check(term) => write!(out, "#check {term}"),
        }
    }
}

fn arrows(parts: &[String]) -> String {
    parts.join(" → ")
}

fn write_clause(out: &mut Formatter, (patterns, body): &Clause) -> Result {
    let space = if patterns.is_empty() { "" } else { " " };
    write!(out, " | {}{space}=> {body}", patterns.join(", "))
}
