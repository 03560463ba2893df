//! Document 01's search: the original's own `Prover`, kept across the goals of one session, with no facts and no hypotheses. A
//! goal is compiled by the original's `pattern` as a rule without premises, over the session's names; 19 to 26 are mapped from
//! its error texts, and 28, which it lacks, comes in its place. The original has no limits: 37 and 38 are the definitions'. It
//! counts no words, so those of a proved goal are counted from the rules that it took, and the most words of a branch by a copy
//! of its `solve` beside it.

use super::super::{Just, PList, PNode, Pat, Proof, Prover, Sig, T, Term, WList, Work, cons};
use super::evaluate::{Kept, Reader, pattern_words, preorder, rule_of, term};
use super::load::{Judgments, Loaded, capped};
use crate::evaluated::{Call, Terms};
use crate::pattern_definitions::{Point, Written};
use crate::searched::{Answer, Named, Standing, Verdict};
use std::rc::Rc;

/// The original's prover with nothing in it.
pub(super) fn new_prover(sig: Rc<Sig>) -> Prover {
    Prover {
        sig,
        binding: Vec::new(),
        var_sort: Vec::new(),
        trail: Vec::new(),
        facts: Vec::new(),
        hyps: Vec::new(),
        budget: 0,
        round: 0,
        max_depth: 0,
        cut: false,
    }
}

/// Another prover with the same bindings.
pub(super) fn copied(prover: &Prover) -> Prover {
    Prover {
        binding: prover.binding.clone(),
        var_sort: prover.var_sort.clone(),
        trail: prover.trail.clone(),
        round: prover.round,
        max_depth: prover.max_depth,
        ..new_prover(prover.sig.clone())
    }
}

/// Document 01's count: any node but a variable takes one word and one for each argument.
pub(super) fn words(term: &T) -> u64 {
    match term {
        T::V(_) | T::E(_) => 0,
        T::A(_, arguments) => 1 + arguments.len() as u64 + arguments.iter().map(words).sum::<u64>(),
    }
}

/// What the copy of `solve` counts: the most words of a branch; whether something was cut off at a bound that failed; and
/// whether a goal has over so many nodes, with the bindings put in, in which case it breaks off.
pub(super) struct Count {
    pub most: u64,
    pub cut: bool,
    pub largest: usize,
    pub large: bool,
}

impl Count {
    /// From so many words on, with goals of at most so many nodes.
    pub fn new(used: u64, largest: usize) -> Count {
        Count { most: used, cut: false, largest, large: false }
    }
}

/// The nodes that are left of so many behind a term with the bindings put in.
pub(super) fn within(prover: &Prover, term: &T, left: usize) -> Option<usize> {
    let mut left = left.checked_sub(1)?;
    if let T::A(_, arguments) = prover.walk(term) {
        for argument in arguments.iter() {
            left = within(prover, argument, left)?;
        }
    }
    Some(left)
}

/// The original's `solve` once more, over its own `inst`, `unify` and `undo`, with the words of the current branch. Its answers
/// are compared with those of `solve`.
pub(super) fn counting(
    prover: &mut Prover,
    work: &WList,
    proofs: &PList,
    used: u64,
    count: &mut Count,
) -> Option<(PList, u64)> {
    if prover.budget == 0 {
        return None;
    }
    prover.budget -= 1;
    let Some(node) = work else {
        return Some((proofs.clone(), used));
    };
    match &node.item {
        Work::Build(just, goal, premises) => {
            let (mut children, mut before) = (Vec::new(), proofs.clone());
            for _ in 0..*premises {
                let last = before.expect("enough proofs");
                children.push(last.proof.clone());
                before = last.next.clone();
            }
            children.reverse();
            let proof = Proof { just: just.clone(), goal: goal.clone(), children };
            counting(prover, &node.next, &Some(Rc::new(PNode { proof, next: before })), used, count)
        }
        Work::Goal(_, 0) => {
            prover.cut = true;
            None
        }
        Work::Goal(goal, depth) => {
            count.large |= count.largest < usize::MAX && within(prover, goal, count.largest).is_none();
            for number in 0..prover.sig.rules.len() {
                if count.large {
                    return None;
                }
                let (mark, rule) = (prover.trail.len(), prover.sig.rules[number].clone());
                let mut places = vec![None; rule.sorts.len()];
                let conclusion = prover.inst(&rule.conclusion, &mut places, &rule.sorts, &[]);
                let mut used = used + words(&conclusion);
                count.most = count.most.max(used);
                if prover.unify(goal, &conclusion) {
                    let build = Work::Build(Just::Rule(number), goal.clone(), rule.premises.len());
                    let mut next = cons(build, &node.next);
                    for premise in rule.premises.iter().rev() {
                        let premise = prover.inst(premise, &mut places, &rule.sorts, &[]);
                        used += words(&premise);
                        next = cons(Work::Goal(premise, depth - 1), &next);
                    }
                    count.most = count.most.max(used);
                    if let Some(found) = counting(prover, &next, proofs, used, count) {
                        return Some(found);
                    }
                }
                prover.undo(mark);
            }
            None
        }
    }
}

/// The original's `prove` over that copy: the proof and the words of its branch.
pub(super) fn counted_proof(prover: &mut Prover, goal: &T, used: u64, count: &mut Count) -> Option<(Proof, u64)> {
    let mut depth = 4;
    while depth <= prover.max_depth {
        prover.budget = prover.round;
        prover.cut = false;
        let mark = prover.trail.len();
        let work = cons(Work::Goal(goal.clone(), depth), &None);
        if let Some((Some(node), used)) = counting(prover, &work, &None, used, count) {
            return Some((node.proof.clone(), used));
        }
        prover.undo(mark);
        count.cut |= prover.cut;
        if count.large || prover.budget > 0 && !prover.cut {
            break;
        }
        depth *= 2;
    }
    None
}

/// Whether two proofs are the same.
pub(super) fn same_proof(one: &Proof, other: &Proof) -> bool {
    let (one, other) = (preorder(std::slice::from_ref(one)), preorder(std::slice::from_ref(other)));
    let same = |((height, one), (other_height, other)): (&(u32, &Proof), &(u32, &Proof))| {
        height == other_height && rule_of(one) == rule_of(other) && one.goal == other.goal
    };
    one.len() == other.len() && one.iter().zip(&other).all(same)
}

/// The verdict of a finished `prove`: none exactly where the original breaks off with steps left and nothing cut.
pub(super) fn is_none(prover: &Prover) -> bool {
    prover.max_depth >= 4 && prover.budget > 0 && !prover.cut
}

/// A session in which goals are asked.
pub struct Session {
    prover: Prover,
    names: Vec<(String, u32)>,
    variables: Vec<usize>,
    words: u64,
}

/// How much of a session there is, so that it can be restored.
#[derive(Clone, Copy, Default)]
pub struct Mark {
    names: usize,
    variables: usize,
    bound: usize,
    words: u64,
}

/// The original's answer to a goal.
pub struct Asked {
    result: Result<(Option<Proof>, bool), u32>,
    steps: u32,
    /// How many variables were bound before.
    bound: usize,
    /// The most words of a branch, where they were counted.
    pub most_words: Option<u64>,
}

impl Session {
    fn new(sig: &Sig) -> Session {
        let prover = new_prover(Rc::new(sig.clone()));
        Session { prover, names: Vec::new(), variables: Vec::new(), words: 0 }
    }

    /// Over what the original loaded of a text.
    pub fn loaded(loaded: &Loaded) -> Session {
        Session::new(&loaded.sig)
    }

    /// Over a stored signature, which no text need have made.
    pub fn kept(kept: &Kept) -> Session {
        Session::new(&kept.sig)
    }

    pub fn mark(&self) -> Mark {
        let (variables, bound) = (self.prover.binding.len(), self.prover.trail.len());
        Mark { names: self.names.len(), variables, bound, words: self.words }
    }

    /// The session as it was, from which goals only add.
    pub fn restore(&mut self, Mark { names, variables, bound, words }: Mark) {
        self.prover.undo(bound);
        self.prover.binding.truncate(variables);
        self.prover.var_sort.truncate(variables);
        self.names.truncate(names);
        self.variables.truncate(names);
        self.words = words;
    }

    /// How the session stands, with the bindings from a place on.
    pub fn standing(&self, from: usize, terms: &mut Terms) -> Standing {
        let named = |((name, sort), variable): (&(String, u32), &usize)| Named {
            name: bytes(name),
            sort: sort + 1,
            variable: *variable,
        };
        let names = self.names.iter().zip(&self.variables).map(named).collect();
        let mut reader = Reader::new(terms);
        let bound = |variable: &usize| {
            let term = self.prover.binding[*variable].as_ref().expect("a variable on the trail is bound");
            (*variable, reader.number(term))
        };
        let Prover { binding, trail, .. } = &self.prover;
        let bindings = trail[from..].iter().map(bound).collect();
        Standing { names, variables: binding.len(), bound: trail.len(), bindings, words: self.words }
    }

    /// Asks the term of an `#eval`, with so many steps for each bound and the largest depth. `full` is where the definitions
    /// meet 28. Words are counted on request.
    pub fn ask_eval(
        &mut self,
        loaded: &Loaded,
        eval: usize,
        [steps, depth]: [u32; 2],
        full: Option<Point>,
        count: bool,
    ) -> Asked {
        self.ask(&loaded.evals[eval].2, [steps, depth], full, count)
    }

    /// The same for a term as the definitions read it.
    pub fn ask_written(&mut self, goal: &Written, numbers: [u32; 2], full: Option<Point>, count: bool) -> Asked {
        self.ask(&term(goal), numbers, full, count)
    }

    fn ask(&mut self, goal: &Term, [steps, depth]: [u32; 2], full: Option<Point>, count: bool) -> Asked {
        let bound = self.prover.trail.len();
        let goal = match self.entered(&capped(goal), full) {
            Ok(goal) => goal,
            Err(number) => return Asked { result: Err(number), steps: 0, bound, most_words: None },
        };
        let used = self.words + words(&goal);
        (self.prover.round, self.prover.max_depth) = (u64::from(steps), depth);
        (self.prover.budget, self.prover.cut) = (u64::from(steps), false);
        let mut other = count.then(|| copied(&self.prover));
        let proof = self.prover.prove(&goal);
        let most_words = other.as_mut().map(|other| self.recounted(other, &goal, proof.as_ref(), used));
        self.words = proof.as_ref().map_or(self.words, |proof| used + self.proof_words(proof));
        let steps = steps - self.prover.budget as u32;
        Asked { result: Ok((proof, is_none(&self.prover))), steps, bound, most_words }
    }

    /// The goal as a rule without premises, its new names entered: a name's own variable, or a new one in the order of first
    /// appearance.
    fn entered(&mut self, goal: &Term, full: Option<Point>) -> Result<T, u32> {
        let judgments = Judgments { sig: &self.prover.sig, known: &self.names, before: &[] };
        if let Some(point) = full {
            let Point::Compiled { node, inside, .. } = point else { panic!("a goal is tested by its nodes") };
            judgments.up_to(goal, node, inside)?;
            return Err(28);
        }
        let compiled = judgments.compiled(goal);
        if self.names.is_empty() && self.prover.sig.rules.len() < FEW_RULES {
            self.assert_rule(goal, &compiled.as_ref().map(drop).map_err(|number| *number));
        }
        let (pattern, vars) = compiled?;
        let sorts = vars.sorts.iter().map(|sort| sort.ok_or(25_u32)).collect::<Result<Vec<u32>, u32>>()?;
        let mut places: Vec<Option<T>> = self.variables.iter().map(|variable| Some(T::V(*variable))).collect();
        places.resize(sorts.len(), None);
        let goal = self.prover.inst(&pattern, &mut places, &sorts, &[]);
        for (number, name) in vars.names.into_iter().enumerate().skip(self.names.len()) {
            let Some(T::V(variable)) = places[number] else { panic!("each variable is met") };
            self.names.push((name, sorts[number]));
            self.variables.push(variable);
        }
        Ok(goal)
    }

    /// In a new session the original's own `rule` must say the same of the goal, but for 25.
    fn assert_rule(&self, goal: &Term, compiled: &Result<(), u32>) {
        let message = Sig::clone(&self.prover.sig).rule(String::new(), &[], goal).map_err(super::load::mapped);
        assert!(message == *compiled || message == Err(25), "the original's rule gives {message:?}, not {compiled:?}");
    }

    /// Runs the copy of `solve` beside the original, with which it must agree, and tells the most words of a branch.
    fn recounted(&self, other: &mut Prover, goal: &T, proof: Option<&Proof>, used: u64) -> u64 {
        let mut count = Count::new(used, usize::MAX);
        let found = counted_proof(other, goal, used, &mut count);
        let prover = &self.prover;
        let same = other.binding == prover.binding && other.trail == prover.trail && other.cut == prover.cut;
        assert!(same && (other.budget == prover.budget || prover.max_depth < 4), "the counting run differs");
        match (proof, &found) {
            (None, None) => {}
            (Some(proof), Some((other, words))) => {
                assert!(same_proof(proof, other), "the counting run's proof differs");
                assert_eq!(used + self.proof_words(proof), *words, "the words of a proof differ");
            }
            _ => panic!("the counting run's verdict differs"),
        }
        count.most
    }

    /// Words of the branch that led to a proof: each of its nodes is a rule that was entered.
    fn proof_words(&self, proof: &Proof) -> u64 {
        let rule_words = |(_, node): (u32, &Proof)| {
            let rule = &self.prover.sig.rules[rule_of(node)];
            rule.premises.iter().chain([&rule.conclusion]).map(pattern_words).sum::<u64>()
        };
        preorder(std::slice::from_ref(proof)).into_iter().map(rule_words).sum()
    }
}

/// In sessions over so few rules the original's own `rule` is asked too.
const FEW_RULES: usize = 20;

/// The bytes of a name of the original, each of whose characters is one.
fn bytes(name: &str) -> Vec<u8> {
    name.chars().map(|character| u8::try_from(character).unwrap_or(b' ')).collect()
}

/// A term as a pattern, to be printed.
fn pattern(term: &T) -> Pat {
    match term {
        T::V(variable) => Pat::Var(*variable),
        T::E(_) => panic!("only a theorem has rigid names"),
        T::A(symbol, arguments) => Pat::A(*symbol, arguments.iter().map(pattern).collect()),
    }
}

/// The same with the bindings put in.
fn put_in(prover: &Prover, term: &T) -> Pat {
    match prover.walk(term) {
        T::A(symbol, arguments) => Pat::A(symbol, arguments.iter().map(|argument| put_in(prover, argument)).collect()),
        other => pattern(&other),
    }
}

/// Document 01: a term over so many nodes is not printed.
const PRINTED: usize = 4_096;

impl Asked {
    /// The answer, with its terms by their numbers.
    pub fn answer(&self, terms: &mut Terms) -> Answer {
        let verdict = match &self.result {
            Err(number) => return Answer::refused(*number),
            Ok((Some(proof), _)) => {
                let mut reader = Reader::new(terms);
                let mut node = |(height, proof): (u32, &Proof)| Call {
                    height,
                    rule: rule_of(proof) as u32,
                    goal: reader.number(&proof.goal),
                };
                Verdict::Proved(preorder(std::slice::from_ref(proof)).into_iter().map(&mut node).collect())
            }
            Ok((None, true)) => Verdict::Nothing,
            Ok((None, false)) => Verdict::Undecided,
        };
        Answer { verdict, steps: self.steps }
    }

    /// As it is recorded, behind the line of the `#eval`: verdict, steps and counts, the nodes of a proof and its new bindings,
    /// all terms as they are stored; or the refusal.
    pub fn recorded(&self, session: &Session) -> String {
        self.listed(session, |term| pattern(term))
    }

    /// The same with the bindings put in, and a refusal where a term is too large to be printed.
    pub fn listing(&self, session: &Session) -> String {
        let prover = &session.prover;
        let nodes = self.result.iter().filter_map(|(proof, _)| proof.as_ref());
        let goals = nodes.flat_map(|proof| preorder(std::slice::from_ref(proof))).map(|(_, node)| node.goal.clone());
        let new = prover.trail[self.bound..].iter().filter_map(|variable| prover.binding[*variable].clone());
        if goals.chain(new).any(|term| within(prover, &term, PRINTED).is_none()) {
            return "refused 39\n".to_owned();
        }
        self.listed(session, |term| put_in(prover, term))
    }

    fn listed(&self, session: &Session, pattern: impl Fn(&T) -> Pat) -> String {
        let (prover, verdict) = (
            &session.prover,
            match &self.result {
                Err(number) => return format!("refused {number}\n"),
                Ok((Some(_), _)) => "proved",
                Ok((None, true)) => "none",
                Ok((None, false)) => "undecided",
            },
        );
        let (names, variables, bound) = (session.names.len(), prover.binding.len(), prover.trail.len());
        let counts = format!("names {names} variables {variables} bound {bound} words {}", session.words);
        let text = |term: &T| prover.sig.pat_text(&pattern(term));
        let mut lines = format!("{verdict} steps {} {counts}\n", self.steps);
        if let Ok((Some(proof), _)) = &self.result {
            for (height, node) in preorder(std::slice::from_ref(proof)) {
                lines += &format!("{height} {} {}\n", prover.sig.rules[rule_of(node)].name, text(&node.goal));
            }
        }
        for variable in &prover.trail[self.bound..] {
            let term = prover.binding[*variable].as_ref().expect("a variable on the trail is bound");
            lines += &format!("?v{variable} = {}\n", text(term));
        }
        lines
    }
}
