//! Reads the rows of declarations back, as `declared_rows` in crates/parser/specs/Rows.antt writes them, and trusts
//! nothing in them.
//!
//! Rows come in the order of the text, so each word outside comments must be met once and in order: as the place in a
//! row, as the keyword of a declaration, or as a word that has no row (`Prop` at the end of a predicate, `by`, `auto`,
//! `induction`).

use crate::declared::*;
use crate::tokens::{METAVARIABLE, NAME, NUMERAL, Row, WORD_BYTES};
use crate::words::keywords;

type Read<T> = Result<T, String>;

/// Each parenthesis lets an application stand inside another one, and so does each `=`; both also work outside all
/// parentheses.
const TERM_DEPTH: usize = 2 * (PARENTHESES + 1);

/// The `count` declarations whose rows these are, followed by zero rows only; else what is wrong with them.
pub fn decoded(text: &[u8], count: usize, rows: &[Row]) -> Read<Vec<Listed>> {
    let mut reader = Reader { words: words_of(text), met: 0, rows, read: 0 };
    let mut declarations = Vec::new();
    for _ in 0..count {
        declarations.push(reader.declaration().map_err(|cause| format!("row {}: {cause}", reader.read.max(1) - 1))?);
    }
    if let Some(word) = reader.words.get(reader.met) {
        return Err(format!("{} at {} has no row", word.spelling, word.start));
    }
    match rows[reader.read..].iter().position(|row| *row != [0; 4]) {
        Some(after) => Err(format!("row {} is past the last declaration and not zero", reader.read + after)),
        None => Ok(declarations),
    }
}

/// A word of the text outside comments.
pub(crate) struct Word<'a> {
    pub start: usize,
    pub line: u32,
    pub spelling: &'a str,
}

/// The longest runs of word characters before each line's first `--`.
pub(crate) fn words_of(text: &[u8]) -> Vec<Word<'_>> {
    let text = std::str::from_utf8(text).expect("only a UTF-8 text has declarations");
    let mut words = Vec::new();
    for (index, line) in text.split('\n').enumerate() {
        let code = line.split_once("--").map_or(line, |(code, _)| code);
        let runs = code.split(|c: char| !(c.is_ascii_alphanumeric() || "_.'#?".contains(c)));
        words.extend(runs.filter(|run| !run.is_empty()).map(|spelling| {
            let start = spelling.as_ptr() as usize - text.as_ptr() as usize;
            Word { start, line: index as u32 + 1, spelling }
        }));
    }
    words
}

struct Reader<'a> {
    words: Vec<Word<'a>>,
    met: usize,
    rows: &'a [Row],
    read: usize,
}

impl<'a> Reader<'a> {
    fn row(&mut self) -> Read<Row> {
        let row = *self.rows.get(self.read).ok_or("the rows end before the declarations do")?;
        self.read += 1;
        Ok(row)
    }

    fn word(&mut self) -> Read<&Word<'a>> {
        let word = self.words.get(self.met).ok_or("the words end before the rows do")?;
        self.met += 1;
        Ok(word)
    }

    fn next_is(&self, spelling: &str) -> bool {
        self.words.get(self.met).is_some_and(|word| word.spelling == spelling)
    }

    /// The next word, which must have this spelling.
    fn expect(&mut self, spelling: &str) -> Read<u32> {
        let word = self.word()?;
        if word.spelling != spelling {
            return Err(format!("{spelling} expected at {}, where {} stands", word.start, word.spelling));
        }
        Ok(word.line)
    }

    /// The next word, which must be of this kind and at this place.
    fn at(&mut self, kind: u32, start: u32, length: u32) -> Read<String> {
        let word = self.word()?;
        if (word.start, word.spelling.len()) != (start as usize, length as usize) {
            return Err(format!("place {start}, {length} where {} stands at {}", word.spelling, word.start));
        }
        if kind_of(word.spelling) != kind || word.spelling.len() > WORD_BYTES {
            return Err(format!("{} is not of kind {kind}", word.spelling));
        }
        Ok(word.spelling.to_owned())
    }

    /// A row of a name alone.
    fn name(&mut self) -> Read<String> {
        match self.row()? {
            [NAME, start, length, 0] => self.at(NAME, start, length),
            row => Err(format!("{row:?} where a name must be")),
        }
    }

    fn names(&mut self, count: u32) -> Read<Vec<String>> {
        (0..count).map(|_| self.name()).collect()
    }

    fn term(&mut self, depth: usize) -> Read<String> {
        match self.row()? {
            [NAME, start, length, 0] => self.at(NAME, start, length),
            [METAVARIABLE, start, length, 0] => self.at(METAVARIABLE, start, length),
            [NUMERAL, start, length, value] => {
                let spelled: u64 = self.at(NUMERAL, start, length)?.parse().map_err(|_| "a numeral over 64 bits")?;
                if u64::from(value) != spelled.min(LARGEST_VALUE) {
                    return Err(format!("the numeral {spelled} has the value {value}"));
                }
                Ok(numeral(spelled))
            }
            [APPLICATION, start, length, count] if count > 0 && depth < TERM_DEPTH => {
                let name = self.at(NAME, start, length)?;
                Ok(application(&name, &self.terms(count, depth + 1)?))
            }
            row => Err(format!("{row:?} where a term must be, {depth} deep")),
        }
    }

    fn terms(&mut self, count: u32, depth: usize) -> Read<Vec<String>> {
        (0..count).map(|_| self.term(depth)).collect()
    }

    fn clause(&mut self) -> Read<Clause> {
        match self.row()? {
            [CLAUSE, 0, 0, patterns] => Ok((self.terms(patterns, 0)?, self.term(0)?)),
            row => Err(format!("{row:?} where a clause must be")),
        }
    }

    /// The names that share a sort; in the text the sort stands behind them.
    fn binders(&mut self) -> Read<Vec<Binder>> {
        match self.row()? {
            [BINDERS, start, length, count] if count > 0 => {
                let names = self.names(count)?;
                let sort = self.at(NAME, start, length)?;
                Ok(names.into_iter().map(|name| (name, sort.clone())).collect())
            }
            row => Err(format!("{row:?} where binders must be")),
        }
    }

    /// The row of a theorem's name, and how many rows its tactic has.
    fn theorem_name(&mut self) -> Read<(String, u32)> {
        match self.row()? {
            [NAME, start, length, rows @ 0..=1] => Ok((self.at(NAME, start, length)?, rows)),
            row => Err(format!("{row:?} where a theorem's name must be")),
        }
    }

    /// What the induction is on; `by auto`, which has no row, may be left out.
    fn tactic(&mut self, rows: u32) -> Read<Option<String>> {
        if rows == 0 && !self.next_is("by") {
            return Ok(None);
        }
        self.expect("by")?;
        self.expect(if rows == 0 { "auto" } else { "induction" })?;
        (rows > 0).then(|| self.name()).transpose()
    }

    fn declaration(&mut self) -> Read<Listed> {
        let [kind, line, first, second] = self.row()?;
        let (SORT..=THEOREM | EVAL | CHECK) = kind else {
            return Err(format!("kind {kind} where a declaration must be"));
        };
        let keyword_line = self.expect(keywords()[kind as usize - 1])?;
        if line != keyword_line {
            return Err(format!("line {line} for a declaration in line {keyword_line}"));
        }
        Ok(Listed { line, declaration: self.parts(kind, first, second)? })
    }

    /// What follows a declaration's own row, whose last two numbers count it.
    fn parts(&mut self, kind: u32, first: u32, second: u32) -> Read<Declaration> {
        Ok(match (kind, first, second) {
            (SORT, 0, 0) => Declaration::Sort(self.name()?),
            (CTOR, 1.., 0) => Declaration::Ctor(self.name()?, self.names(first)?),
            (PRED, _, 0) => {
                let declaration = Declaration::Pred(self.name()?, self.names(first)?);
                self.expect("Prop")?;
                declaration
            }
            (RULE, 1.., 0) => Declaration::Rule(self.name()?, self.terms(first, 0)?),
            (DEF, 1.., _) => {
                let (name, sorts) = (self.name()?, self.names(first)?);
                Declaration::Def(name, sorts, (0..second).map(|_| self.clause()).collect::<Read<_>>()?)
            }
            (THEOREM, _, 1..) => {
                let (name, tactic) = self.theorem_name()?;
                let binders = (0..first).map(|_| self.binders()).collect::<Read<Vec<_>>>()?.concat();
                Declaration::Theorem(name, binders, self.terms(second, 0)?, self.tactic(tactic)?)
            }
            (EVAL, 0, 0) => Declaration::Eval(self.term(0)?),
            (CHECK, 0, 0) => Declaration::Check(self.term(0)?),
            _ => return Err(format!("the counts {first} and {second} in a row of kind {kind}")),
        })
    }
}

/// The kind of the token that a word makes.
fn kind_of(word: &str) -> u32 {
    match keywords().iter().position(|keyword| *keyword == word) {
        Some(index) => index as u32 + 1,
        None if word.starts_with('?') => METAVARIABLE,
        None if word.bytes().all(|byte| byte.is_ascii_digit()) => NUMERAL,
        None => NAME,
    }
}
