//! Unification: random problems answered by the original's `unify`, and the same problems as stored words.

use super::super::{Prover, T};
use super::theory::prover;
use crate::random::Random;
use std::rc::Rc;

/// The room for variables in stored words: a reference below it is a variable.
pub const ROOM: u32 = 1 << 16;

/// The least header of a node; all references are below it.
const HEADERS: u32 = 1 << 20;

/// Symbols with their number of arguments.
const SYMBOLS: [(u32, usize); 6] = [(0, 0), (1, 0), (2, 1), (3, 2), (4, 2), (5, 3)];

/// Two references to be unified, in stored words, under bindings in the order in which they were made.
#[derive(Clone)]
pub struct Problem {
    pub variables: u32,
    pub words: Vec<u32>,
    pub bindings: Vec<(u32, u32)>,
    pub left: u32,
    pub right: u32,
    question: Question,
}

/// The same in the original's terms.
#[derive(Clone)]
struct Question {
    bindings: Vec<(usize, T)>,
    left: T,
    right: T,
}

/// Whether the terms unify, and then all bindings in order, each with its raw term.
pub type Unified = Option<Vec<(usize, Raw)>>;

/// A term as it is stored, bindings not put in.
#[derive(Clone, Debug, PartialEq)]
pub enum Raw {
    Variable(usize),
    Node(u32, Vec<Raw>),
}

impl Problem {
    /// A problem under bindings that earlier unifications made.
    pub fn random(random: &mut Random, depth: usize) -> Problem {
        let variables = random.between(1, 9);
        let mut prover = prover(&[], variables, &[]);
        for _ in 0..random.below(5) {
            let (left, right) = pair(random, variables, depth);
            let mark = prover.trail.len();
            if !prover.unify(&left, &right) {
                prover.undo(mark);
            }
        }
        let bindings = prover.trail.iter().map(|&x| (x, prover.binding[x].clone().expect("bound"))).collect();
        let (left, right) = pair(random, variables, depth);
        let share = random.percent(50);
        Problem::stored(Question { bindings, left, right }, variables, share)
    }

    /// A term without variables, and the same with some of its parts replaced by a variable each, so that the two unify.
    pub fn matching(random: &mut Random, depth: usize) -> Problem {
        let left = ground(random, depth);
        let mut variables = 0;
        let right = opened(random, &left, &mut variables);
        Problem::stored(Question { bindings: Vec::new(), left, right }, variables, false)
    }

    /// Two towers of 2^height leaves each, alike and with each level of each tower stored once.
    pub fn towers(height: usize) -> Problem {
        let tower = || (0..height).fold(T::A(0, Rc::new([])), |t, _| T::A(3, Rc::new([t.clone(), t])));
        Problem { question: Question { bindings: Vec::new(), left: tower(), right: tower() }, ..Problem::stored_towers(height) }
    }

    /// The same for our side alone, of any height.
    pub fn stored_towers(height: usize) -> Problem {
        let mut store = Store { words: Vec::new(), seen: None };
        let [left, right] = [(); 2].map(|()| {
            let leaf = store.node(0, &[]);
            (0..height).fold(leaf, |below, _| store.node(3, &[below, below]))
        });
        let question = Question { bindings: Vec::new(), left: T::V(0), right: T::V(0) };
        Problem { variables: 0, words: store.words, bindings: Vec::new(), left, right, question }
    }

    fn stored(question: Question, variables: usize, share: bool) -> Problem {
        let mut store = Store { words: Vec::new(), seen: share.then(Vec::new) };
        let bindings = question.bindings.iter().map(|(x, t)| (*x as u32, store.term(t))).collect();
        let (left, right) = (store.term(&question.left), store.term(&question.right));
        Problem { variables: variables as u32, words: store.words, bindings, left, right, question }
    }

    /// The original's answer.
    pub fn answer(&self) -> Unified {
        let Question { bindings, left, right } = &self.question;
        let mut prover = prover(&[], self.variables as usize, bindings);
        let unified = prover.unify(left, right);
        unified.then(|| prover.trail.iter().map(|&x| (x, raw(prover.binding[x].as_ref().expect("bound")))).collect())
    }

    /// The original's side, to be run again and again.
    pub fn original(&self) -> Original {
        let Question { bindings, left, right } = self.question.clone();
        Original { prover: prover(&[], self.variables as usize, &bindings), left, right }
    }

    /// What a reference stands for.
    pub fn read(&self, reference: u32) -> Raw {
        if reference < ROOM {
            return Raw::Variable(reference as usize);
        }
        let at = (reference - ROOM) as usize;
        let header = self.words[at] - HEADERS;
        let arguments = &self.words[at + 1..at + 1 + (header % 32) as usize];
        Raw::Node(header / 32, arguments.iter().map(|&argument| self.read(argument)).collect())
    }
}

pub struct Original {
    prover: Prover,
    left: T,
    right: T,
}

impl Original {
    /// Unifies, and takes the new bindings back.
    pub fn unify(&mut self) -> bool {
        let mark = self.prover.trail.len();
        let unified = self.prover.unify(&self.left, &self.right);
        self.prover.undo(mark);
        unified
    }
}

fn raw(t: &T) -> Raw {
    match t {
        T::V(x) => Raw::Variable(*x),
        T::A(f, arguments) => Raw::Node(*f, arguments.iter().map(raw).collect()),
        T::E(_) => unreachable!("no rigid names"),
    }
}

/// Stored words; `seen` has the terms stored so far where equal terms are stored once.
struct Store {
    words: Vec<u32>,
    seen: Option<Vec<(T, u32)>>,
}

impl Store {
    /// Arguments come first, so that they lie below their node.
    fn term(&mut self, t: &T) -> u32 {
        let T::A(symbol, arguments) = t else {
            let T::V(x) = t else { unreachable!("no rigid names") };
            return *x as u32;
        };
        if let Some((_, known)) = self.seen.iter().flatten().find(|(other, _)| other == t) {
            return *known;
        }
        let references: Vec<u32> = arguments.iter().map(|argument| self.term(argument)).collect();
        let reference = self.node(*symbol, &references);
        if let Some(seen) = &mut self.seen {
            seen.push((t.clone(), reference));
        }
        reference
    }

    fn node(&mut self, symbol: u32, arguments: &[u32]) -> u32 {
        let reference = ROOM + self.words.len() as u32;
        self.words.push(HEADERS + symbol * 32 + arguments.len() as u32);
        self.words.extend(arguments);
        reference
    }
}

/// Two terms that are often alike in part.
fn pair(random: &mut Random, variables: usize, depth: usize) -> (T, T) {
    let left = term(random, variables, depth);
    let right = if random.percent(70) { changed(random, &left, variables) } else { term(random, variables, depth) };
    (left, right)
}

fn term(random: &mut Random, variables: usize, depth: usize) -> T {
    if random.percent(if depth == 0 { 60 } else { 25 }) {
        return T::V(random.below(variables));
    }
    let (symbol, count) = if depth == 0 { SYMBOLS[random.below(2)] } else { random.pick(&SYMBOLS) };
    T::A(symbol, (0..count).map(|_| term(random, variables, depth - 1)).collect())
}

fn ground(random: &mut Random, depth: usize) -> T {
    let (symbol, count) = if depth == 0 { SYMBOLS[random.below(2)] } else { SYMBOLS[random.between(2, 5)] };
    T::A(symbol, (0..count).map(|_| ground(random, depth - 1)).collect())
}

fn opened(random: &mut Random, t: &T, variables: &mut usize) -> T {
    let T::A(symbol, arguments) = t else { unreachable!("no variables") };
    if random.percent(10) {
        *variables += 1;
        return T::V(*variables - 1);
    }
    T::A(*symbol, arguments.iter().map(|argument| opened(random, argument, variables)).collect())
}

/// The term with some parts replaced.
fn changed(random: &mut Random, t: &T, variables: usize) -> T {
    if random.percent(15) {
        return term(random, variables, 2);
    }
    match t {
        T::A(f, arguments) => T::A(*f, arguments.iter().map(|argument| changed(random, argument, variables)).collect()),
        other => other.clone(),
    }
}
