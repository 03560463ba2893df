//! Document 01's loader: the original's own `Sig::rule` and `Sig::clause` in the loader's order, with 1 to 16 as
//! `parse` gives them, 17 to 26 mapped from the original's error texts, and 27 and 28, which it lacks, in their places.

use super::super::{Decl, Pat, Rule, Sig, T, Term, Vars, parse as original_declarations};
use super::parse::{self, spelling, with_last};
use super::search::new_prover;
use crate::declared;
use crate::load_definitions::{Full, defined};
use crate::loaded::*;
use crate::pattern_definitions::Point;
use crate::tokens::Row;
use std::collections::{HashMap, HashSet};
use std::rc::Rc;

/// The original's signature, and what it does not keep: places of names, and the terms that wait.
pub struct Loaded {
    pub(super) sig: Sig,
    count: usize,
    rows: Vec<Row>,
    sort_names: Vec<Pair>,
    symbol_names: Vec<Pair>,
    /// The place of each rule's name, and for a clause its number and 1.
    rule_names: Vec<(Pair, u32)>,
    /// Line, row and term.
    pub(super) evals: Vec<(u32, u32, Term)>,
}

/// The answer for a text with the limits that the caller set and what it lent.
pub fn reference(text: &[u8], limits: Limits, lent: &Lent) -> Answer {
    match load(text, limits, lent) {
        Ok(loaded) => loaded.answer(),
        Err(refusal) => refusal,
    }
}

/// What is loaded, or the refusal in the order of document 01's table.
pub fn load(text: &[u8], limits: Limits, lent: &Lent) -> Result<Loaded, Answer> {
    if !lent.suffices(limits) {
        return Err(Answer::Refused { number: 1, line: 0 });
    }
    let parsed = |refusal: declared::Answer| refused(refusal.number() as u32, refusal.code() as u32);
    let declarations = parse::declarations(text, limits.text, lent.tokens, lent.rows).map_err(parsed)?;
    let declared::Answer::Declared { count, rows, .. } = declarations.answer(text) else {
        panic!("declarations have rows");
    };
    let full = defined(text, &declarations.tokens, limits.nodes).err().and_then(|refusal| refusal.full);
    let heads: Vec<usize> = (0..rows.len()).filter(|&row| rows[row][0] <= declared::CHECK).collect();
    let mut loader = Loaded {
        sig: no_declarations(),
        count,
        rows,
        sort_names: Vec::new(),
        symbol_names: Vec::new(),
        rule_names: Vec::new(),
        evals: Vec::new(),
    };
    for (number, (decl, line)) in declarations.declared.iter().enumerate() {
        let full = full.filter(|full| full.declaration == number);
        loader.declaration(decl, *line as u32, heads[number], full).map_err(|number| refused(number, *line as u32))?;
    }
    Ok(loader)
}

/// The original's part alone, to be timed: a text to its signature, without limits. Tells how many symbols and rules
/// there are.
pub fn original_load(text: &str) -> Result<(usize, usize), String> {
    let mut sig = no_declarations();
    for (decl, _) in original_declarations(text)? {
        match &decl {
            Decl::Sort(name) => enter_sort(&mut sig, name)?,
            Decl::Ctor(name, inputs, result) => {
                let inputs = sorts_of(&sig, inputs)?;
                let result = sig.sort(result)?;
                sig.add_sym(name, inputs, Some(result))?;
            }
            Decl::Pred(name, inputs) => {
                let inputs = sorts_of(&sig, inputs)?;
                sig.add_sym(name, inputs, None)?;
            }
            Decl::Def(name, inputs, result, clauses) => {
                let inputs = sorts_of(&sig, &with_last(inputs, result))?;
                sig.add_sym(name, inputs, None)?;
                sig.defs.insert(name.clone());
                for (number, (patterns, body)) in clauses.iter().enumerate() {
                    sig.clause(name, number, patterns, body)?;
                }
            }
            Decl::Rule(name, premises, conclusion) => sig.rule(name.clone(), premises, conclusion)?,
            Decl::Theorem(..) | Decl::Check(_) => return Err("a theorem or a check".to_owned()),
            Decl::Eval(_) => {}
        }
    }
    Ok((sig.names.len(), sig.rules.len()))
}

fn refused(number: u32, line: u32) -> Answer {
    Answer::Refused { number, line }
}

pub(super) fn no_declarations() -> Sig {
    Sig {
        sorts: Vec::new(),
        sort_ix: HashMap::new(),
        names: Vec::new(),
        sym_ix: HashMap::new(),
        inputs: Vec::new(),
        output: Vec::new(),
        defs: HashSet::new(),
        clauses: HashMap::new(),
        rules: Vec::new(),
        rigid: Vec::new(),
    }
}

/// As the original's `run` enters a sort.
fn enter_sort(sig: &mut Sig, name: &str) -> Result<(), String> {
    sig.fresh_name(name)?;
    sig.sort_ix.insert(name.to_owned(), sig.sorts.len() as u32);
    sig.sorts.push(name.to_owned());
    Ok(())
}

fn sorts_of(sig: &Sig, names: &[String]) -> Result<Vec<u32>, String> {
    names.iter().map(|name| sig.sort(name)).collect()
}

/// The number that an error text of the original stands for. Names have no blanks, so words tell the texts apart.
pub(super) fn mapped(message: String) -> u32 {
    let words: Vec<&str> = message.split(' ').collect();
    match words[..] {
        [_, "is", "already", "declared"] => 17,
        ["unknown", "sort", _] => 18,
        ["unknown", "predicate", _] => 19,
        ["unknown", "symbol", _] => 20,
        [_, "takes", _, "arguments"] => 21,
        ["function", _, "is", "called", "inside", "a", "term;", ..] => 22,
        [_, "cannot", "stand", "here"] => 23,
        ["variable", _, "is", "used", "at", "two", "sorts"] => 24,
        ["cannot", "tell", "the", "sort", "of", _, "in", "rule", _] => 25,
        ["numerals", "need", "constructors", "`zero`", "and", "`succ`"] => 26,
        _ => panic!("an error that has no number: {message}"),
    }
}

/// A numeral is never given to the original above this. Where it is expanded past its first node, it is an argument:
/// its symbol was counted before it, and at most 1,023 nodes are left. So one that is larger is refused at a `succ`,
/// for its sort, its arguments or because it is too many, and so is this one, in the same place.
const LARGEST_NUMERAL: u64 = 1_024;

pub(super) fn capped(term: &Term) -> Term {
    match term {
        Term::Num(value) => Term::Num((*value).min(LARGEST_NUMERAL)),
        Term::App(name, arguments) => Term::App(name.clone(), all_capped(arguments)),
        other => other.clone(),
    }
}

fn all_capped(terms: &[Term]) -> Vec<Term> {
    terms.iter().map(capped).collect()
}

impl Loaded {
    /// One declaration, whose own row is `head`. Where the definitions meet a limit in it, the original is asked for
    /// what comes before, and 28 is given if it refuses nothing there.
    fn declaration(&mut self, decl: &Decl, line: u32, head: usize, full: Option<Full>) -> Result<(), u32> {
        let name = [self.rows[head + 1][1], self.rows[head + 1][2]];
        match decl {
            Decl::Sort(sort) => {
                self.sig.fresh_name(sort).map_err(mapped)?;
                tested(full)?;
                enter_sort(&mut self.sig, sort).map_err(mapped)?;
                self.sort_names.push(name);
            }
            Decl::Ctor(symbol, inputs, result) => {
                let inputs = sorts_of(&self.sig, inputs).map_err(mapped)?;
                let result = self.sig.sort(result).map_err(mapped)?;
                self.symbol(symbol, name, inputs, Some(result), full)?;
            }
            Decl::Pred(symbol, inputs) => {
                let inputs = sorts_of(&self.sig, inputs).map_err(mapped)?;
                self.symbol(symbol, name, inputs, None, full)?;
            }
            Decl::Def(function, inputs, result, clauses) => {
                let inputs = sorts_of(&self.sig, &with_last(inputs, result)).map_err(mapped)?;
                self.symbol(function, name, inputs, None, full)?;
                self.sig.defs.insert(function.clone());
                for (number, (patterns, body)) in clauses.iter().enumerate() {
                    let full = full.filter(|full| full.clause == number);
                    self.clause(function, number, &all_capped(patterns), &capped(body), full)?;
                    self.rule_names.push((name, number as u32 + 1));
                }
            }
            Decl::Rule(rule, premises, conclusion) => {
                let (premises, conclusion) = (all_capped(premises), capped(conclusion));
                self.stop(&with_last(&premises, &conclusion), full)?;
                self.sig.rule(rule.clone(), &premises, &conclusion).map_err(mapped)?;
                self.rule_names.push((name, 0));
            }
            Decl::Theorem(..) | Decl::Check(_) => return Err(27),
            Decl::Eval(term) => self.evals.push((line, head as u32 + 1, term.clone())),
        }
        Ok(())
    }

    fn symbol(
        &mut self,
        symbol: &str,
        name: Pair,
        inputs: Vec<u32>,
        output: Option<u32>,
        full: Option<Full>,
    ) -> Result<(), u32> {
        self.sig.fresh_name(symbol).map_err(mapped)?;
        tested(full)?;
        self.sig.add_sym(symbol, inputs, output).map_err(mapped)?;
        self.symbol_names.push(name);
        Ok(())
    }

    fn clause(
        &mut self,
        function: &str,
        number: usize,
        patterns: &[Term],
        body: &Term,
        full: Option<Full>,
    ) -> Result<(), u32> {
        if full.is_some() {
            let (mut judgments, mut fresh) = (Vec::new(), 0);
            let result = self.sig.flatten(body, &mut judgments, &mut fresh).map_err(mapped)?;
            judgments.push(Term::App(function.to_owned(), with_last(patterns, &result)));
            self.stop(&judgments, full)?;
        }
        self.sig.clause(function, number, patterns, body).map_err(mapped)
    }

    /// Where a limit is met in a rule of these judgments: what the original refuses before, or else 28.
    fn stop(&mut self, judgments: &[Term], full: Option<Full>) -> Result<(), u32> {
        let Some(Full { point, .. }) = full else { return Ok(()) };
        match point {
            Point::Tested => panic!("a rule is tested by its nodes"),
            Point::Flattened => {}
            Point::Compiled { judgment, node, inside } => {
                let (last, before) = judgments[..=judgment].split_last().expect("the judgment with the node");
                Judgments { sig: &self.sig, known: &[], before }.up_to(last, node, inside)?;
            }
            Point::Whole => {
                let (conclusion, premises) = judgments.split_last().expect("a conclusion");
                self.sig.rule(String::new(), premises, conclusion).map_err(mapped)?;
            }
        }
        Err(28)
    }
}

/// Judgments that the original compiles, over variables that are known with their sorts.
pub(super) struct Judgments<'a> {
    pub sig: &'a Sig,
    pub known: &'a [(String, u32)],
    pub before: &'a [Term],
}

impl Judgments<'_> {
    /// Has the original compile the judgments, and one more up to a node with that node's own tests. It cannot stop on its
    /// way, so what stands behind the node is left out: each part there becomes a metavariable of its own, which cannot be
    /// refused. Of a numeral, `inside` nodes come before the one that is too many.
    pub fn up_to(&self, last: &Term, node: usize, inside: usize) -> Result<(), u32> {
        let compile = |instead: Option<&Term>| self.compiled(&Cut { node, begun: 0, instead }.term(last)).map(drop);
        let Some(Term::Num(value)) = node_at(last, node) else {
            return compile(None);
        };
        compile(Some(&metavariable(node)))?;
        self.sig.numeral(0).map_err(mapped)?;
        let succ = |term, _| Term::App("succ".to_owned(), vec![term]);
        let whole = Term::Num(*value);
        let part = (0..=inside).fold(metavariable(node), succ);
        compile(Some(if inside as u64 == *value { &whole } else { &part }))
    }

    /// The last judgment, and all variables.
    pub fn compiled(&self, last: &Term) -> Result<(Pat, Vars), u32> {
        let (names, sorts) = self.known.iter().map(|(name, sort)| (name.clone(), Some(*sort))).unzip();
        let (mut vars, none) = (Vars { names, sorts }, HashMap::new());
        let mut pattern = |judgment| self.sig.pattern(judgment, None, &mut vars, &none, true).map_err(mapped);
        self.before.iter().try_for_each(|judgment| pattern(judgment).map(drop))?;
        let last = pattern(last)?;
        Ok((last, vars))
    }
}

/// After a sort's or a symbol's own tests.
fn tested(full: Option<Full>) -> Result<(), u32> {
    match full.map(|full| full.point) {
        Some(Point::Tested) => Err(28),
        _ => Ok(()),
    }
}

/// A name that no text has.
fn metavariable(number: usize) -> Term {
    Term::Meta(format!("\0{number}"))
}

/// The node with a number in preorder.
fn node_at(term: &Term, node: usize) -> Option<&Term> {
    let mut left = vec![term];
    for _ in 0..node {
        if let Term::App(_, arguments) = left.pop()? {
            left.extend(arguments.iter().rev());
        }
    }
    left.pop()
}

/// Cuts a term behind a node: nodes are begun in preorder, those behind it become metavariables, and something else may
/// stand in its place.
struct Cut<'a> {
    node: usize,
    begun: usize,
    instead: Option<&'a Term>,
}

impl Cut<'_> {
    fn term(&mut self, term: &Term) -> Term {
        let number = self.begun;
        self.begun += 1;
        match (term, self.instead) {
            _ if number > self.node => metavariable(number),
            (_, Some(instead)) if number == self.node => instead.clone(),
            (Term::App(name, arguments), _) => {
                Term::App(name.clone(), arguments.iter().map(|argument| self.term(argument)).collect())
            }
            _ => term.clone(),
        }
    }
}

impl Loaded {
    /// The storage that the loader leaves of the original's values.
    pub fn answer(&self) -> Answer {
        let mut words = Vec::new();
        let symbols = (0..self.sig.names.len()).map(|symbol| self.symbol_row(symbol)).collect();
        let rules = (0..self.sig.rules.len()).map(|rule| self.rule_row(rule, &mut words)).collect();
        let evals = self.evals.iter().map(|(line, row, _)| [*line, *row]).collect();
        let (rows, sorts) = (self.rows.clone(), self.sort_names.clone());
        Answer::Loaded(self.count, Storage { rows, sorts, symbols, rules, words, evals })
    }

    fn symbol_row(&self, symbol: usize) -> SymbolRow {
        let mut row = [0; 24];
        row[..2].copy_from_slice(&self.symbol_names[symbol]);
        row[2] = self.sig.output[symbol].map_or(0, |sort| sort + 1);
        row[3] = u32::from(self.sig.defs.contains(&self.sig.names[symbol]));
        let (first, count) = self.clauses(symbol);
        row[4..7].copy_from_slice(&[first as u32, count as u32, self.sig.inputs[symbol].len() as u32]);
        for (at, sort) in self.sig.inputs[symbol].iter().enumerate() {
            row[FIRST_INPUT + at] = sort + 1;
        }
        row
    }

    /// First clause and number of clauses; they come one after the other.
    fn clauses(&self, symbol: usize) -> (usize, usize) {
        let Some(clauses) = self.sig.clauses.get(&(symbol as u32)) else { return (0, 0) };
        assert!(clauses.windows(2).all(|pair| pair[1] == pair[0] + 1), "a function's clauses follow each other");
        (clauses[0], clauses.len())
    }

    fn rule_row(&self, number: usize, words: &mut Vec<u32>) -> RuleRow {
        let (rule, (name, clause)) = (&self.sig.rules[number], self.rule_names[number]);
        let mut row = [0; 154];
        row[..2].copy_from_slice(&name);
        row[2..5].copy_from_slice(&[clause, rule.sorts.len() as u32, rule.premises.len() as u32]);
        row[6] = words.len() as u32;
        for (at, premise) in rule.premises.iter().enumerate() {
            row[FIRST_PREMISE + at] = put(premise, words);
        }
        row[7] = words.len() as u32 - row[6];
        row[5] = put(&rule.conclusion, words);
        row[8] = words.len() as u32 - row[6] - row[7];
        let (met, places) = met(rule);
        row[9] = met;
        for (variable, place) in places.into_iter().enumerate() {
            row[FIRST_SORT + variable] = rule.sorts[variable] + 1;
            row[FIRST_PLACE + variable] = place;
        }
        row
    }

    /// The original's values as people read them.
    pub fn listing(&self) -> String {
        let sorts = self.sig.sorts.iter().map(|sort| format!("sort {sort}\n"));
        let symbols = (0..self.sig.names.len()).map(|symbol| self.listed_symbol(symbol));
        let rules = self.sig.rules.iter().map(|rule| self.listed_rule(rule));
        let evals = self.evals.iter().map(|(line, _, term)| format!("eval {line} {}\n", spelling(term)));
        sorts.chain(symbols).chain(rules).chain(evals).collect()
    }

    fn sort_name(&self, sort: u32) -> &str {
        &self.sig.sorts[sort as usize]
    }

    fn listed_symbol(&self, symbol: usize) -> String {
        let name = &self.sig.names[symbol];
        let inputs: Vec<&str> = self.sig.inputs[symbol].iter().map(|sort| self.sort_name(*sort)).collect();
        match self.sig.output[symbol] {
            Some(output) => {
                format!("ctor {name} : {}\n", [&inputs[..], &[self.sort_name(output)]].concat().join(" → "))
            }
            None if self.sig.defs.contains(name) => {
                let (first, count) = self.clauses(symbol);
                format!("def {name} : {} clauses {first} {count}\n", inputs.join(" → "))
            }
            None => format!("pred {name} : {}\n", [&inputs[..], &["Prop"]].concat().join(" → ")),
        }
    }

    fn listed_rule(&self, rule: &Rule) -> String {
        let sorts: Vec<&str> = rule.sorts.iter().map(|sort| self.sort_name(*sort)).collect();
        let judgments = with_last(&rule.premises, &rule.conclusion);
        let judgments: Vec<String> = judgments.iter().map(|judgment| self.sig.pat_text(judgment)).collect();
        format!("rule {} ({}) : {}\n", rule.name, sorts.join(" "), judgments.join(" → "))
    }
}

/// Writes the words of a pattern, each node's after those of its arguments, and gives its reference.
fn put(pattern: &Pat, words: &mut Vec<u32>) -> u32 {
    match pattern {
        Pat::E(_) => panic!("only a theorem has rigid names"),
        Pat::Var(variable) => *variable as u32,
        Pat::A(symbol, arguments) => {
            let references: Vec<u32> = arguments.iter().map(|argument| put(argument, words)).collect();
            words.push(FIRST_HEADER + symbol * ARITIES + references.len() as u32);
            words.extend_from_slice(&references);
            FIRST_NODE + (words.len() - 1 - references.len()) as u32
        }
    }
}

/// How many variables are met in the conclusion, and the place of each variable: as the original's `inst` numbers them
/// when its `solve` takes the conclusion and then the premises from the last to the first.
fn met(rule: &Rule) -> (u32, Vec<u32>) {
    let mut prover = new_prover(Rc::new(no_declarations()));
    let mut places = vec![None; rule.sorts.len()];
    prover.inst(&rule.conclusion, &mut places, &rule.sorts, &[]);
    let met = prover.binding.len();
    for premise in rule.premises.iter().rev() {
        prover.inst(premise, &mut places, &rule.sorts, &[]);
    }
    let place = |term: Option<T>| match term {
        Some(T::V(place)) => place as u32,
        _ => panic!("each variable is met"),
    };
    (met as u32, places.into_iter().map(place).collect())
}
