//! The definitions of crates/evaluation/specs (Matching, Calls, Expressions), word for word and under their names, over a
//! signature as it is stored. They share nothing with the original, so that both can be compared, and they count words. Lists
//! are slices and vectors; a refusal is its number.
//!
//! A value is its number in `Terms`: it has no variables, and `alike` compares numbers.

use crate::evaluated::{Answer, CALLS, Call, DEPTH, Terms, Value, WORDS};
use crate::pattern_definitions::Pattern::{self, App, Var};
use crate::pattern_definitions::{Symbol, Written, symbol_named};
use crate::stored_definitions::Signature;

// Rules.antt

struct Tree {
    rule: usize,
    goal: usize,
    children: Vec<Tree>,
}

// Matching.antt

/// Variables and their values, the newest last.
type Bindings = Vec<(usize, usize)>;

/// `misfit` is none.
type Fitted = Option<Bindings>;

/// What is built and the words then used; `barred` is an error.
type Built<T> = Result<(T, u64), u32>;

fn lookup(bindings: &Bindings, variable: usize) -> Option<usize> {
    bindings.iter().rev().find(|(other, _)| *other == variable).map(|(_, value)| *value)
}

fn front(patterns: &[Pattern]) -> &[Pattern] {
    &patterns[..patterns.len().saturating_sub(1)]
}

fn last(patterns: &[Pattern]) -> &Pattern {
    patterns.last().unwrap_or(&Var(0))
}

fn patterns_of(conclusion: &Pattern) -> &[Pattern] {
    match conclusion {
        Var(_) => &[],
        App(_, patterns) => front(patterns),
    }
}

// Calls.antt

#[derive(Clone, Copy)]
struct Spent {
    calls: usize,
    words: u64,
}

type Called = Result<(usize, Tree, Spent), u32>;
type Walked = Result<(Bindings, Vec<Tree>, Spent), u32>;

// Expressions.antt

/// A value, or several, with the trees of the calls written in it.
type Evaluated<T> = Result<(T, Vec<Tree>, Spent), u32>;

/// An evaluation of a term: the answer, and how many nodes the original compares to give it.
pub struct Evaluation {
    pub answer: Answer,
    pub compared: u64,
}

impl Signature {
    fn symbol_number(&self, name: &[u8]) -> usize {
        symbol_named(&self.symbols, name).unwrap_or(self.symbols.len())
    }

    fn symbol_named(&self, name: &[u8]) -> Option<&Symbol> {
        self.symbols.get(self.symbol_number(name))
    }

    fn is_ctor(&self, name: &[u8]) -> bool {
        self.symbol_named(name).is_some_and(|symbol| symbol.output > 0)
    }

    fn is_called_with(&self, name: &[u8], arguments: usize) -> bool {
        let is_called = |symbol: &Symbol| symbol.function && arguments + 1 == symbol.inputs.len();
        self.symbol_named(name).is_some_and(is_called)
    }

    pub fn is_forward_call(&self, term: &Written) -> bool {
        match term {
            Written::Number(_) | Written::Meta(_) => false,
            Written::Called(name) => self.is_called_with(name, 0),
            Written::Applied(name, arguments) => {
                self.is_called_with(name, arguments.len()) && arguments.iter().all(is_ground)
            }
        }
    }

    /// `evaluate_of` under the limit that a caller sets.
    pub fn evaluate_with(&self, limit: u32, term: &Written, terms: &mut Terms) -> Answer {
        self.evaluate(u64::from(limit.min(WORDS)), term, terms).answer
    }

    /// `evaluate_of` with so many words.
    pub fn evaluate(&self, limit: u64, term: &Written, terms: &mut Terms) -> Evaluation {
        let mut evaluator = Evaluator { signature: self, limit, terms, compared: 0 };
        let evaluated = evaluator.expression_of(term, 0, Spent { calls: 0, words: 0 });
        let answer = match evaluated {
            Err(number) => Answer::Refused(number),
            Ok((term, trees, Spent { calls, words })) => {
                let listed = listed(&trees);
                assert_eq!(listed.len(), calls, "a row for each call");
                Answer::Value(Value { term, calls: listed, words })
            }
        };
        Evaluation { answer, compared: evaluator.compared }
    }
}

fn is_ground(term: &Written) -> bool {
    match term {
        Written::Number(_) | Written::Called(_) => true,
        Written::Meta(_) => false,
        Written::Applied(_, arguments) => arguments.iter().all(is_ground),
    }
}

/// The trees in preorder, with heights from 1 on.
fn listed(trees: &[Tree]) -> Vec<Call> {
    let mut calls = Vec::new();
    trees.iter().for_each(|tree| list(tree, 1, &mut calls));
    calls
}

fn list(tree: &Tree, height: u32, calls: &mut Vec<Call>) {
    calls.push(Call { height, rule: tree.rule as u32, goal: tree.goal });
    tree.children.iter().for_each(|child| list(child, height + 1, calls));
}

/// What a symbol on so many arguments is refused for.
fn misuse(symbol: &Symbol, arguments: usize) -> Result<(), u32> {
    if !symbol.function && symbol.output == 0 {
        return Err(32);
    }
    if arguments == symbol.inputs.len() - usize::from(symbol.function) { Ok(()) } else { Err(21) }
}

/// The parameters of the modules in Calls.antt and Expressions.antt, and the table of values.
struct Evaluator<'s> {
    signature: &'s Signature,
    limit: u64,
    terms: &'s mut Terms,
    compared: u64,
}

impl Evaluator<'_> {
    fn takes(&mut self, variable: usize, value: usize, mut bindings: Bindings) -> Fitted {
        match lookup(&bindings, variable) {
            None => {
                bindings.push((variable, value));
                Some(bindings)
            }
            Some(old) => {
                let compared = self.terms.size(old).min(self.terms.size(value));
                self.compared = self.compared.saturating_add(compared);
                (old == value).then_some(bindings)
            }
        }
    }

    fn bind_of(&mut self, pattern: &Pattern, value: usize, bindings: Bindings) -> Fitted {
        match pattern {
            Var(variable) => self.takes(*variable, value, bindings),
            App(symbol, _) if *symbol != self.terms.symbol(value) as usize => None,
            App(_, patterns) => {
                let values = self.terms.arguments(value).to_vec();
                self.bind_all(patterns, &values, bindings)
            }
        }
    }

    fn bind_all(&mut self, patterns: &[Pattern], values: &[usize], bindings: Bindings) -> Fitted {
        match (patterns, values) {
            ([], []) => Some(bindings),
            ([pattern, patterns @ ..], [value, values @ ..]) => {
                let bindings = self.bind_of(pattern, *value, bindings)?;
                self.bind_all(patterns, values, bindings)
            }
            _ => None,
        }
    }

    fn build_node(&mut self, symbol: usize, arguments: Vec<usize>, used: u64) -> Built<usize> {
        let used = used + 1 + arguments.len() as u64;
        if self.limit < used {
            return Err(37);
        }
        Ok((self.terms.node(symbol as u32, arguments), used))
    }

    fn instantiate_of(&mut self, bindings: &Bindings, pattern: &Pattern, used: u64) -> Built<usize> {
        match pattern {
            Var(variable) => lookup(bindings, *variable).map(|value| (value, used)).ok_or(36),
            App(symbol, patterns) => {
                let (arguments, used) = self.instantiate_all(bindings, patterns, used)?;
                self.build_node(*symbol, arguments, used)
            }
        }
    }

    fn instantiate_all(&mut self, bindings: &Bindings, patterns: &[Pattern], mut used: u64) -> Built<Vec<usize>> {
        let mut built = Vec::new();
        for pattern in patterns {
            let (value, after) = self.instantiate_of(bindings, pattern, used)?;
            built.push(value);
            used = after;
        }
        Ok((built, used))
    }

    /// The call at the next depth is given by the levels then left.
    fn premises_of(&mut self, levels: usize, premises: &[Pattern], bindings: Bindings, spent: Spent) -> Walked {
        let (mut bindings, mut spent, mut trees) = (bindings, spent, Vec::new());
        for premise in premises {
            let App(function, patterns) = premise else { return Err(1) };
            let (values, words) = self.instantiate_all(&bindings, front(patterns), spent.words)?;
            let (value, tree, after) = self.call_of(levels, *function, &values, Spent { words, ..spent })?;
            bindings = self.bind_of(last(patterns), value, bindings).ok_or(35_u32)?;
            spent = after;
            trees.push(tree);
        }
        Ok((bindings, trees, spent))
    }

    fn concluded(&mut self, rule: usize, conclusion: &Pattern, walked: Walked) -> Called {
        let (bindings, children, Spent { calls, words }) = walked?;
        let (goal, words) = self.instantiate_of(&bindings, conclusion, words)?;
        let value = *self.terms.arguments(goal).last().expect("the conclusion is a node of its function");
        Ok((value, Tree { rule, goal, children }, Spent { calls, words }))
    }

    fn clauses_of(&mut self, levels: usize, count: usize, first: usize, values: &[usize], spent: Spent) -> Called {
        let signature = self.signature;
        for number in first..first + count {
            let rule = signature.rules.get(number).ok_or(1_u32)?;
            if let Some(bindings) = self.bind_all(patterns_of(&rule.conclusion), values, Vec::new()) {
                let walked = self.premises_of(levels, &rule.premises, bindings, spent);
                return self.concluded(number, &rule.conclusion, walked);
            }
        }
        Err(34)
    }

    fn call_of(&mut self, levels: usize, function: usize, values: &[usize], spent: Spent) -> Called {
        let levels = levels.checked_sub(1).ok_or(29_u32)?;
        if spent.calls >= CALLS {
            return Err(30);
        }
        let Symbol { first, clauses, .. } = self.signature.symbols[function];
        self.clauses_of(levels, clauses, first, values, Spent { calls: spent.calls + 1, ..spent })
    }

    fn sort_in(&self, value: usize) -> u32 {
        self.signature.symbols[self.terms.symbol(value) as usize].output
    }

    fn tower_of(&mut self, succ: usize, zero: usize, times: u64, used: u64) -> Built<usize> {
        let (mut tower, mut used) = self.build_node(zero, Vec::new(), used)?;
        for _ in 0..times {
            let wanted = self.signature.symbols[succ].inputs.first().copied().unwrap_or(0);
            if self.sort_in(tower) != wanted {
                return Err(33);
            }
            (tower, used) = self.build_node(succ, vec![tower], used)?;
        }
        Ok((tower, used))
    }

    fn numeral_misuse(&self, succ: usize, zero: usize, value: u64, depth: usize) -> Result<(), u32> {
        let inputs = |symbol: usize| self.signature.symbols[symbol].inputs.len();
        if value > 0 && inputs(succ) != 1 {
            return Err(21);
        }
        if value.saturating_add(depth as u64) > DEPTH as u64 {
            return Err(29);
        }
        if inputs(zero) == 0 { Ok(()) } else { Err(21) }
    }

    fn numeral_of(&mut self, value: u64, depth: usize, spent: Spent) -> Evaluated<usize> {
        let signature = self.signature;
        if !(signature.is_ctor(b"zero") && signature.is_ctor(b"succ")) {
            return Err(26);
        }
        let (succ, zero) = (signature.symbol_number(b"succ"), signature.symbol_number(b"zero"));
        self.numeral_misuse(succ, zero, value, depth)?;
        let (tower, words) = self.tower_of(succ, zero, value, spent.words)?;
        Ok((tower, Vec::new(), Spent { words, ..spent }))
    }

    fn apply_of(&mut self, symbol: usize, depth: usize, evaluated: Evaluated<Vec<usize>>) -> Evaluated<usize> {
        let (values, mut trees, spent) = evaluated?;
        if self.signature.symbols[symbol].function {
            let (value, tree, spent) = self.call_of(DEPTH - depth, symbol, &values, spent)?;
            trees.push(tree);
            return Ok((value, trees, spent));
        }
        let (value, words) = self.build_node(symbol, values, spent.words)?;
        Ok((value, trees, Spent { words, ..spent }))
    }

    fn with_symbol(&self, name: &[u8], arguments: usize) -> Result<usize, u32> {
        misuse(self.signature.symbol_named(name).ok_or(20_u32)?, arguments)?;
        Ok(self.signature.symbol_number(name))
    }

    fn expression_of(&mut self, term: &Written, depth: usize, spent: Spent) -> Evaluated<usize> {
        if depth > DEPTH {
            return Err(29);
        }
        match term {
            Written::Number(value) => self.numeral_of(*value, depth, spent),
            Written::Meta(_) => Err(31),
            Written::Called(name) => {
                let symbol = self.with_symbol(name, 0)?;
                self.apply_of(symbol, depth, Ok((Vec::new(), Vec::new(), spent)))
            }
            Written::Applied(name, arguments) => {
                let symbol = self.with_symbol(name, arguments.len())?;
                let evaluated = self.arguments_of(arguments, symbol, depth + 1, spent);
                self.apply_of(symbol, depth, evaluated)
            }
        }
    }

    fn arguments_of(
        &mut self,
        arguments: &[Written],
        symbol: usize,
        depth: usize,
        mut spent: Spent,
    ) -> Evaluated<Vec<usize>> {
        let (mut values, mut trees) = (Vec::new(), Vec::new());
        for (argument, sort) in arguments.iter().zip(&self.signature.symbols[symbol].inputs) {
            let (value, more, after) = self.expression_of(argument, depth, spent)?;
            if self.sort_in(value) != *sort {
                return Err(33);
            }
            values.push(value);
            trees.extend(more);
            spent = after;
        }
        Ok((values, trees, spent))
    }
}
