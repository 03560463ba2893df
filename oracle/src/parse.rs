//! Document 01's `parse`: the original's own declarations and refusals 8 to 16, with 1 to 6 as `words` gives them and 7
//! put in its place.

use super::super::{Decl, Parser, Tactic, Term, Tok, lex, parse};
use super::words;
use crate::declared::*;
use crate::tokens::{self, CLOSE, COLON, METAVARIABLE, NAME, NUMERAL, OPEN, Row, SIGNS};

/// The original's declarations, and the tokens of their text.
pub struct Declarations {
    pub(super) declared: Vec<(Decl, usize)>,
    pub(super) tokens: Vec<Row>,
}

/// The answer for a text with the limit that the caller set and the numbers of rows that it lent for tokens and for
/// declarations.
pub fn reference(text: &[u8], limit: u32, token_rows: usize, rows: usize) -> Answer {
    match declarations(text, limit, token_rows, rows) {
        Ok(declarations) => declarations.answer(text),
        Err(refusal) => refusal,
    }
}

/// The declarations, or the refusal in the order of document 01's table.
pub fn declarations(text: &[u8], limit: u32, token_rows: usize, rows: usize) -> Result<Declarations, Answer> {
    match words::reference(text, limit, token_rows.min(rows)) {
        tokens::Answer::Refused { number, line } => Err(Answer::Refused { number, line }),
        tokens::Answer::Tokens(tokens) => {
            let text = std::str::from_utf8(text).expect("a text with tokens is UTF-8");
            Ok(Declarations { declared: declared(text)?, tokens })
        }
    }
}

/// The original's `parse` alone, to be timed; tells how many declarations it made.
pub fn original_parse(text: &str) -> Result<usize, String> {
    parse(text).map(|declared| declared.len())
}

fn refused(number: u32, line: usize) -> Answer {
    Answer::Refused { number, line: line as u32 }
}

/// The original has no bound on parentheses. Where one too many stands, it is given only the tokens before that one.
///
/// It cannot accept them, since parentheses are open at their end. If it stops before the end, it has not looked further,
/// and its error is that of the whole text: only 15 steps back, and comes with none open. Else it has come to the end with
/// 64 open and would look at one more. All of them are of one term, in which every parenthesis starts an atom, so there 7
/// is met. Its own error at the end does not matter: 8, 10, 11 and 12 come only where no atom starts. It never opens more
/// than 64, so its recursion needs no large stack.
fn declared(text: &str) -> Result<Vec<(Decl, usize)>, Answer> {
    let mut tokens = lex(text).expect("a text with tokens is read");
    let Some(place) = one_too_many(&tokens) else {
        return parse(text).map_err(|message| mapped(&message));
    };
    let line = tokens[place].1;
    tokens.truncate(place);
    let mut parser = Parser { toks: tokens, pos: 0 };
    let message = loop {
        if let Err(message) = parser.decl() {
            break message;
        }
        assert!(parser.peek().is_some(), "a declaration ends with open parentheses");
    };
    Err(if parser.pos < place { mapped(&message) } else { refused(7, line) })
}

/// The first parenthesis that opens where 64 more were opened than closed. Up to its first error the original closes none
/// that it did not open, and inside those of a binder it accepts no other, so that until then these are the open ones.
fn one_too_many(tokens: &[(Tok, usize)]) -> Option<usize> {
    let mut open = 0;
    tokens.iter().position(|(token, _)| {
        let full = open == PARENTHESES as i64;
        match token {
            Tok::Sym("(") => open += 1,
            Tok::Sym(")") => open -= 1,
            _ => {}
        }
        full && *token == Tok::Sym("(")
    })
}

/// The refusal that an error text of the original's parser stands for.
fn mapped(message: &str) -> Answer {
    let parts = message.strip_prefix("line ").and_then(|rest| rest.split_once(": "));
    let (line, cause) = parts.unwrap_or_else(|| panic!("an error without a line: {message}"));
    let number = match cause {
        "expected a name" => 9,
        "expected a term" => 10,
        "only a name can be applied" => 11,
        "the left of `=` must be a function call" => 12,
        "expected a declaration" => 13,
        "a predicate's type ends in `Prop`" => 14,
        "expected `by auto` or `by induction x`" => 15,
        _ if cause.starts_with("unexpected `") => 16,
        _ if SIGNS.iter().any(|(sign, _)| cause == format!("expected `{sign}`")) => 8,
        _ => panic!("an error that has no number: {message}"),
    };
    refused(number, line.parse().expect("a line is a number"))
}

impl Declarations {
    /// The declarations as they are listed, from the original's values alone.
    pub fn listed(&self) -> Vec<Listed> {
        self.declared.iter().map(|(decl, line)| Listed { line: *line as u32, declaration: listed(decl) }).collect()
    }

    /// The declarations as rows; names get their places from the tokens.
    pub fn answer(&self, text: &[u8]) -> Answer {
        let mut writer = Writer { text, tokens: &self.tokens, rows: Vec::new() };
        self.declared.iter().for_each(|(decl, line)| writer.declaration(decl, *line as u32));
        assert!(writer.tokens.iter().all(|token| token[0] > NUMERAL), "only signs follow the last declaration");
        Answer::Declared { count: self.declared.len(), tokens: self.tokens.clone(), rows: writer.rows }
    }
}

fn listed(decl: &Decl) -> Declaration {
    match decl {
        Decl::Sort(name) => Declaration::Sort(name.clone()),
        Decl::Ctor(name, inputs, result) => Declaration::Ctor(name.clone(), with_last(inputs, result)),
        Decl::Pred(name, inputs) => Declaration::Pred(name.clone(), inputs.clone()),
        Decl::Rule(name, premises, conclusion) => {
            Declaration::Rule(name.clone(), spelled(&with_last(premises, conclusion)))
        }
        Decl::Def(name, inputs, result, clauses) => {
            let clauses = clauses.iter().map(|(patterns, body)| (spelled(patterns), spelling(body))).collect();
            Declaration::Def(name.clone(), with_last(inputs, result), clauses)
        }
        Decl::Theorem(name, binders, premises, conclusion, tactic) => {
            let induction = match tactic {
                Tactic::Auto => None,
                Tactic::Induction(variable) => Some(variable.clone()),
            };
            Declaration::Theorem(name.clone(), binders.clone(), spelled(&with_last(premises, conclusion)), induction)
        }
        Decl::Eval(term) => Declaration::Eval(spelling(term)),
        Decl::Check(term) => Declaration::Check(spelling(term)),
    }
}

pub(super) fn with_last<T: Clone>(list: &[T], last: &T) -> Vec<T> {
    let mut all = list.to_vec();
    all.push(last.clone());
    all
}

fn spelled(terms: &[Term]) -> Vec<String> {
    terms.iter().map(spelling).collect()
}

pub(super) fn spelling(term: &Term) -> String {
    match term {
        Term::Name(name) => name.clone(),
        Term::Meta(name) => format!("?{name}"),
        Term::Num(value) => numeral(*value),
        Term::App(name, arguments) => application(name, &spelled(arguments)),
    }
}

/// Writes the original's declarations as rows. Words come in the order of the tokens, so each takes its place from the
/// next token that is no sign and must be spelled like it.
struct Writer<'a> {
    text: &'a [u8],
    tokens: &'a [Row],
    rows: Vec<Row>,
}

impl Writer<'_> {
    /// The next token that is no sign.
    fn word(&mut self) -> Row {
        let at = self.tokens.iter().position(|token| token[0] <= NUMERAL).expect("a token for each word");
        let word = self.tokens[at];
        self.tokens = &self.tokens[at + 1..];
        word
    }

    /// The place of the next word, of this kind and spelling.
    fn place(&mut self, kind: u32, spelling: &str) -> [u32; 2] {
        let [word_kind, start, length, _] = self.word();
        let spelled = &self.text[start as usize..(start + length) as usize];
        assert_eq!((word_kind, spelled), (kind, spelling.as_bytes()), "the word of a token");
        [start, length]
    }

    fn keyword(&mut self, kind: u32) {
        assert_eq!(self.word()[0], kind, "the keyword of a token");
    }

    fn push(&mut self, kind: u32, [start, length]: [u32; 2], last: u32) {
        self.rows.push([kind, start, length, last]);
    }

    fn name(&mut self, name: &str) {
        let place = self.place(NAME, name);
        self.push(NAME, place, 0);
    }

    fn names(&mut self, names: &[String]) {
        names.iter().for_each(|name| self.name(name));
    }

    fn term(&mut self, term: &Term) {
        match term {
            Term::Name(name) => self.name(name),
            Term::Meta(name) => {
                let place = self.place(METAVARIABLE, &format!("?{name}"));
                self.push(METAVARIABLE, place, 0);
            }
            Term::Num(value) => {
                let [kind, start, length, _] = self.word();
                let digits = std::str::from_utf8(&self.text[start as usize..(start + length) as usize]);
                assert_eq!((kind, digits.map(str::parse)), (NUMERAL, Ok(Ok(*value))), "the numeral of a token");
                self.push(NUMERAL, [start, length], (*value).min(LARGEST_VALUE) as u32);
            }
            Term::App(name, arguments) => {
                let place = self.place(NAME, name);
                self.push(APPLICATION, place, arguments.len() as u32);
                self.terms(arguments);
            }
        }
    }

    fn terms(&mut self, terms: &[Term]) {
        terms.iter().for_each(|term| self.term(term));
    }

    fn clause(&mut self, (patterns, body): &(Vec<Term>, Term)) {
        self.push(CLAUSE, [0, 0], patterns.len() as u32);
        self.terms(patterns);
        self.term(body);
    }

    /// The original keeps no groups of binders, so they are read from the tokens, and must give its pairs of a name and
    /// a sort.
    fn binders(&mut self, mut pairs: &[(String, String)]) -> u32 {
        let mut groups = 0;
        while self.tokens[0][0] == OPEN {
            let names = self.tokens.iter().position(|token| token[0] == COLON).expect("a colon after the names") - 1;
            let (group, rest) = pairs.split_at(names);
            self.group(group);
            assert_eq!(self.tokens[0][0], CLOSE, "a parenthesis closes the group");
            self.tokens = &self.tokens[1..];
            pairs = rest;
            groups += 1;
        }
        assert!(pairs.is_empty(), "each binder is in a group");
        groups
    }

    /// Binders of one sort, whose place is behind their names and goes into the row before them.
    fn group(&mut self, group: &[(String, String)]) {
        let (row, sort) = (self.rows.len(), &group[0].1);
        assert!(group.iter().all(|(_, other)| other == sort), "a group has one sort");
        self.push(BINDERS, [0, 0], group.len() as u32);
        group.iter().for_each(|(name, _)| self.name(name));
        let [start, length] = self.place(NAME, sort);
        self.rows[row][1..3].copy_from_slice(&[start, length]);
    }

    /// The tactic `auto` may be left out; no declaration starts with `by`. It has no row, `induction` has that of its name.
    fn tactic(&mut self, tactic: &Tactic) {
        let written = self.tokens.iter().find(|token| token[0] <= NUMERAL).is_some_and(|token| token[0] == BY);
        match tactic {
            Tactic::Auto => {
                if written {
                    self.keyword(BY);
                    self.keyword(AUTO);
                }
            }
            Tactic::Induction(variable) => {
                self.keyword(BY);
                self.keyword(INDUCTION);
                self.name(variable);
            }
        }
    }

    /// A declaration's own row and its name, if it has one.
    fn head(&mut self, kind: u32, line: u32, counts: [usize; 2], name: Option<&str>) {
        let keyword = self.word();
        assert_eq!((keyword[0], keyword[3]), (kind, line), "the keyword of a declaration");
        self.rows.push([kind, line, counts[0] as u32, counts[1] as u32]);
        name.into_iter().for_each(|name| self.name(name));
    }

    fn declaration(&mut self, decl: &Decl, line: u32) {
        match decl {
            Decl::Sort(name) => self.head(SORT, line, [0, 0], Some(name)),
            Decl::Ctor(name, inputs, result) => {
                self.head(CTOR, line, [inputs.len() + 1, 0], Some(name));
                self.names(&with_last(inputs, result));
            }
            Decl::Pred(name, inputs) => {
                self.head(PRED, line, [inputs.len(), 0], Some(name));
                self.names(inputs);
                self.place(NAME, "Prop");
            }
            Decl::Rule(name, premises, conclusion) => {
                self.head(RULE, line, [premises.len() + 1, 0], Some(name));
                self.terms(&with_last(premises, conclusion));
            }
            Decl::Def(name, inputs, result, clauses) => {
                self.head(DEF, line, [inputs.len() + 1, clauses.len()], Some(name));
                self.names(&with_last(inputs, result));
                clauses.iter().for_each(|clause| self.clause(clause));
            }
            Decl::Theorem(name, binders, premises, conclusion, tactic) => {
                let row = self.rows.len();
                self.head(THEOREM, line, [0, premises.len() + 1], Some(name));
                self.rows[row][2] = self.binders(binders);
                self.terms(&with_last(premises, conclusion));
                self.tactic(tactic);
                self.rows[row + 1][3] = matches!(tactic, Tactic::Induction(_)) as u32;
            }
            Decl::Eval(term) => {
                self.head(EVAL, line, [0, 0], None);
                self.term(term);
            }
            Decl::Check(term) => {
                self.head(CHECK, line, [0, 0], None);
                self.term(term);
            }
        }
    }
}
