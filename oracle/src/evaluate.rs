//! Document 01's evaluator: the original's own `is_forward_call` and `Evaluator::expression` on a loaded signature, with 20,
//! 21, 26 and 29 to 36 mapped from its error texts. It counts no words, so those of a value are counted from the clauses
//! that it took.

use super::super::{Evaluator, Just, Pat, Proof, Rule, Sig, T, Term, is_forward_call, t_pat};
use super::load::{Loaded, no_declarations};
use crate::evaluated::{Answer, Call, Terms, Value};
use crate::loaded::{ARITIES, FIRST_HEADER, FIRST_INPUT, FIRST_NODE, FIRST_PREMISE, RuleRow, SymbolRow};
use crate::pattern_definitions::Written;
use std::collections::HashMap;

/// A numeral is never given to the original above this, since it writes it out. From 129 on the `succ` on `zero` are more
/// than 128 deep at every depth, so that a larger one has the same answer: 26 or 21 at its first node, or else 29.
const LARGEST_NUMERAL: u64 = 2_000;

/// Room for the recursion of the original, which frees and compares terms as deep as they are.
const STACK: usize = 1 << 30;

/// The stack that a program has by default. The original needs a larger one for deep terms, ours must not.
const PROGRAM_STACK: usize = 8 << 20;

fn with_stack<R: Send>(size: usize, run: impl FnOnce() -> R + Send) -> R {
    std::thread::scope(|scope| {
        let thread = std::thread::Builder::new().stack_size(size).spawn_scoped(scope, run);
        thread.expect("a thread").join().unwrap_or_else(|panic| std::panic::resume_unwind(panic))
    })
}

/// Runs on a thread whose stack is large enough for any term that is asked for.
pub fn with_large_stack<R: Send>(run: impl FnOnce() -> R + Send) -> R {
    with_stack(STACK, run)
}

/// Runs on a thread with the stack of a program.
pub fn with_program_stack<R: Send>(run: impl FnOnce() -> R + Send) -> R {
    with_stack(PROGRAM_STACK, run)
}

fn capped(term: &Term) -> Term {
    match term {
        Term::Num(value) => Term::Num((*value).min(LARGEST_NUMERAL)),
        Term::App(name, arguments) => Term::App(name.clone(), arguments.iter().map(capped).collect()),
        other => other.clone(),
    }
}

/// The number that an error text of the original stands for. Names have no blanks, so words tell the texts apart.
fn mapped(message: &str) -> u32 {
    let words: Vec<&str> = message.split(' ').collect();
    match words[..] {
        ["unknown", "symbol", _] => 20,
        [_, "takes", _, "arguments"] => 21,
        ["numerals", "need", "constructors", "`zero`", "and", "`succ`"] => 26,
        ["evaluation", "depth", "limit", "exceeded", ..] => 29,
        ["evaluation", "call", "limit", "exceeded", ..] => 30,
        ["evaluation", "requires", "a", "ground", "expression"] => 31,
        ["predicate", _, "is", "not", "an", "expression"] => 32,
        ["argument", "of", _, "has", "the", "wrong", "sort"] => 33,
        ["no", "matching", "clause", "for", _] => 34,
        ["inconsistent", "result", "while", "evaluating", _] => 35,
        ["function", "result", "depends", "on", "an", "unbound", "variable"] => 36,
        _ => panic!("an error that has no number: {message}"),
    }
}

/// The original's value and trees, with the term that was evaluated.
pub struct Evaluated<'s> {
    sig: &'s Sig,
    term: Term,
    result: Result<(T, Vec<Proof>), u32>,
}

fn evaluated<'s>(sig: &'s Sig, term: &Term) -> Evaluated<'s> {
    let term = capped(term);
    let result = Evaluator::new(sig).expression(&term, 0).map_err(|message| mapped(&message));
    Evaluated { sig, term, result }
}

impl Loaded {
    pub fn is_forward_call(&self, eval: usize) -> bool {
        is_forward_call(&self.sig, &self.evals[eval].2)
    }

    /// The original's `expression` on the term of an `#eval`, which need not be a forward call.
    pub fn evaluated(&self, eval: usize) -> Evaluated<'_> {
        evaluated(&self.sig, &self.evals[eval].2)
    }

    /// The original's `expression` alone, to be timed; tells how many trees it made.
    pub fn original_evaluate(&self, eval: usize) -> Result<usize, String> {
        Evaluator::new(&self.sig).expression(&self.evals[eval].2, 0).map(|(_, trees)| trees.len())
    }
}

/// The original's signature of what is stored in the listed form, which no text need have made.
pub struct Kept {
    pub(super) sig: Sig,
}

impl Kept {
    pub fn stored(text: &[u8], symbols: &[SymbolRow], rules: &[RuleRow], words: &[u32]) -> Kept {
        let mut sig = no_declarations();
        for (number, row) in symbols.iter().enumerate() {
            let name = name(&text[row[0] as usize..][..row[1] as usize]);
            sig.sym_ix.insert(name.clone(), number as u32);
            sig.inputs.push(row[FIRST_INPUT..][..row[6] as usize].iter().map(|sort| sort - 1).collect());
            sig.output.push(row[2].checked_sub(1));
            if row[3] == 1 {
                sig.defs.insert(name.clone());
                sig.clauses.insert(number as u32, (row[4]..row[4] + row[5]).map(|rule| rule as usize).collect());
            }
            sig.names.push(name);
        }
        sig.rules = rules.iter().map(|row| rule(row, words)).collect();
        Kept { sig }
    }

    pub fn is_forward_call(&self, written: &Written) -> bool {
        is_forward_call(&self.sig, &term(written))
    }

    pub fn evaluated(&self, written: &Written) -> Evaluated<'_> {
        evaluated(&self.sig, &term(written))
    }
}

/// Bytes as a name of the original, each as a character, so that other bytes are another name. A blank, which no word has,
/// is another character, so that error texts can be told apart.
fn name(bytes: &[u8]) -> String {
    bytes.iter().map(|byte| if *byte == b' ' { '␠' } else { char::from(*byte) }).collect()
}

pub(super) fn term(written: &Written) -> Term {
    match written {
        Written::Number(value) => Term::Num(*value),
        Written::Meta(word) => Term::Meta(name(&word[1..])),
        Written::Called(word) => Term::Name(name(word)),
        Written::Applied(word, arguments) => Term::App(name(word), arguments.iter().map(term).collect()),
    }
}

fn rule(row: &RuleRow, words: &[u32]) -> Rule {
    let premises = row[FIRST_PREMISE..][..row[4] as usize].iter().map(|premise| pattern(words, *premise)).collect();
    Rule { name: String::new(), sorts: vec![0; row[3] as usize], premises, conclusion: pattern(words, row[5]) }
}

fn pattern(words: &[u32], reference: u32) -> Pat {
    let Some(address) = reference.checked_sub(FIRST_NODE) else { return Pat::Var(reference as usize) };
    let header = words[address as usize] - FIRST_HEADER;
    let arguments = &words[address as usize + 1..][..(header % ARITIES) as usize];
    Pat::A(header / ARITIES, arguments.iter().map(|argument| pattern(words, *argument)).collect())
}

/// Words of the constructors that a term is written with, numerals written out.
fn written_words(sig: &Sig, term: &Term) -> u64 {
    let (name, arguments): (&str, &[Term]) = match term {
        Term::Meta(_) => panic!("a term with a value is ground"),
        Term::Num(value) => return 1 + 2 * value,
        Term::Name(name) => (name, &[]),
        Term::App(name, arguments) => (name, arguments),
    };
    let inside: u64 = arguments.iter().map(|argument| written_words(sig, argument)).sum();
    if sig.defs.contains(name) { inside } else { inside + 1 + arguments.len() as u64 }
}

/// Words of a finished call of a clause, without those of the calls in it: the arguments of its premises, and its
/// conclusion.
fn clause_words(rule: &Rule) -> u64 {
    let arguments = rule.premises.iter().flat_map(|premise| match premise {
        Pat::A(_, patterns) => &patterns[..patterns.len() - 1],
        _ => panic!("a premise of a clause is a call"),
    });
    arguments.chain([&rule.conclusion]).map(pattern_words).sum()
}

pub(super) fn pattern_words(pattern: &Pat) -> u64 {
    match pattern {
        Pat::A(_, patterns) => 1 + patterns.len() as u64 + patterns.iter().map(pattern_words).sum::<u64>(),
        _ => 0,
    }
}

pub(super) fn rule_of(proof: &Proof) -> usize {
    match proof.just {
        Just::Rule(rule) => rule,
        _ => panic!("there are no facts and no hypotheses"),
    }
}

/// The trees in preorder, with heights from 1 on.
pub(super) fn preorder(proofs: &[Proof]) -> Vec<(u32, &Proof)> {
    let mut waiting: Vec<(u32, &Proof)> = proofs.iter().rev().map(|proof| (1, proof)).collect();
    let mut all = Vec::new();
    while let Some((height, proof)) = waiting.pop() {
        waiting.extend(proof.children.iter().rev().map(|child| (height + 1, child)));
        all.push((height, proof));
    }
    all
}

impl Evaluated<'_> {
    /// The answer, with its terms by their numbers.
    pub fn answer(&self, terms: &mut Terms) -> Answer {
        let (value, proofs) = match &self.result {
            Err(number) => return Answer::Refused(*number),
            Ok(result) => result,
        };
        let mut reader = Reader::new(terms);
        let (mut calls, mut words) = (Vec::new(), written_words(self.sig, &self.term));
        for (height, proof) in preorder(proofs) {
            let rule = rule_of(proof);
            words += clause_words(&self.sig.rules[rule]);
            calls.push(Call { height, rule: rule as u32, goal: reader.number(&proof.goal) });
        }
        Answer::Value(Value { term: reader.number(value), calls, words })
    }

    /// As it is recorded, behind the line of the `#eval`: the value and a line for each call, or the refusal.
    pub fn recorded(&self) -> String {
        let (value, proofs) = match &self.result {
            Err(number) => return format!("refused {number}\n"),
            Ok(result) => result,
        };
        let text = |term: &T| self.sig.pat_text(&t_pat(term));
        let call = |(height, proof): (u32, &Proof)| {
            format!("{height} {} {}\n", self.sig.rules[rule_of(proof)].name, text(&proof.goal))
        };
        format!("value {}\n", text(value)) + &preorder(proofs).into_iter().map(call).collect::<String>()
    }
}

/// Gives the original's terms their numbers; what it shares is read once.
pub(super) struct Reader<'t> {
    terms: &'t mut Terms,
    seen: HashMap<(u32, *const T), usize>,
}

impl Reader<'_> {
    pub fn new(terms: &mut Terms) -> Reader<'_> {
        Reader { terms, seen: HashMap::new() }
    }

    pub fn number(&mut self, term: &T) -> usize {
        let (symbol, arguments) = match term {
            T::A(symbol, arguments) => (symbol, arguments),
            T::V(variable) => return self.terms.variable(*variable),
            T::E(_) => panic!("only a theorem has rigid names"),
        };
        let place = (*symbol, arguments.as_ptr());
        if let Some(number) = self.seen.get(&place) {
            return *number;
        }
        let numbers = arguments.iter().map(|argument| self.number(argument)).collect();
        let number = self.terms.node(*symbol, numbers);
        self.seen.insert(place, number);
        number
    }
}
