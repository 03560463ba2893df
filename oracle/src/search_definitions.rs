//! The definitions of crates/resolution/specs (Fresh, Search, Machine, Preorder, Session) and of a goal's compiling, under their
//! names, over a signature as it is stored. They share nothing with the original, so that both can be compared, and they count
//! words. The search is Machine's: branch records, and no recursion. Work, proofs and trees lie in lists that are cut back where
//! a branch is given up.
//!
//! No instance is built. A term is a pattern with the number from which its variables are counted, so `head` and `body` are
//! pairs; what a node takes is counted by the rule. A variable is bound to such a pair, which is the raw term that the
//! definitions bind it to.

use crate::evaluated::{Call, Terms};
use crate::pattern_definitions::{Compiler, Pattern, Point, Stop, Symbol, Tried, Written, met};
use crate::searched::{Allowance, Answer, Ask, DEPTH, GOAL_NODES, Named, STEPS, Standing, VARIABLES, Verdict, WORDS};
use crate::stored_definitions::Signature;
use std::collections::HashSet;

/// A node of a pattern: a variable by its place among those met, or a symbol with its arguments.
enum Node {
    Var(usize),
    App(usize, Vec<usize>),
}

/// A node of a pattern, and the number of its first variable.
#[derive(Clone, Copy, PartialEq, Eq, Hash)]
struct Term {
    node: usize,
    first: usize,
}

/// Where the way from a term leads over bound variables: an unbound variable with its number, or a node.
enum Walked {
    Var(usize, Term),
    App(Term),
}

struct Rule {
    conclusion: usize,
    premises: Vec<usize>,
    /// How many variables `head_vars` and `all_vars` have.
    head_variables: usize,
    all_variables: usize,
    /// `words` of an instance of the conclusion and of the premises.
    head_words: u64,
    body_words: u64,
}

/// `within`: at most so many variables in a session, and so many words.
#[derive(Clone, Copy)]
pub struct Limits {
    pub variables: u64,
    pub words: u64,
}

impl Limits {
    /// `limits_of`.
    pub fn of(allowance: &Allowance) -> Limits {
        Limits {
            variables: u64::from(allowance.variables.min(VARIABLES)),
            words: u64::from(allowance.words.min(WORDS)),
        }
    }
}

/// `too_much`.
fn too_much(Ask { steps, depth, limits }: &Ask) -> bool {
    *steps > limits.steps.min(STEPS) || *depth > DEPTH
}

/// The answer to a goal. Where it is 28, it is told where the limit is met; the most variables and words that were tested
/// against the limits; and how many nodes the original looks at, which writes shared terms out, `u64::MAX` if too many to
/// count.
pub struct Asked {
    pub answer: Answer,
    pub full: Option<Point>,
    pub most: Limits,
    pub cost: u64,
}

/// A session in which goals are asked.
pub struct Session<'s> {
    symbols: &'s [Symbol],
    rules: Vec<Rule>,
    /// Those of the rules, and behind them those of the goals.
    nodes: Vec<Node>,
    names: Vec<Named>,
    /// For each variable that was made, the term that it is bound to.
    bindings: Vec<Option<Term>>,
    /// The bound variables, the newest last.
    trail: Vec<usize>,
    words: u64,
    most: Limits,
    cost: u64,
}

/// How much of a session there is, so that it can be restored.
#[derive(Clone, Copy)]
pub struct Mark {
    nodes: usize,
    names: usize,
    variables: usize,
    bound: usize,
    words: u64,
}

/// One unification or occurs check that looks at more nodes notes which it has seen.
const FEW: u64 = 20_000;

/// A goal with the depth left to it; or a node to be built from the last proofs, for a rule and its goal.
#[derive(Clone, Copy)]
enum Work {
    Goal(Term, u32),
    Build(usize, Term, usize),
}

/// A list by the place of its first item.
type List = Option<usize>;

struct Tree {
    rule: usize,
    goal: Term,
    children: Vec<usize>,
}

/// A branch record: what is tried next if the current branch fails.
struct Branch {
    goal: Term,
    /// The depth that the premises get.
    depth: u32,
    rest: List,
    proofs: List,
    words: u64,
    /// The next rule.
    rule: usize,
    /// How long trail, work, proofs and trees were before the rule.
    lengths: [usize; 4],
}

enum Attempt {
    Exceeded,
    Missed,
    /// From which variable on the instance counts, and the words then used.
    Entered(usize, u64),
}

enum Found {
    Refused,
    Tree(Vec<(u32, usize, Term)>, u32, u64),
    /// Steps left, and whether something was cut off.
    Failed(u32, bool),
}

/// `words` of a pattern's instance.
fn words(pattern: &Pattern) -> u64 {
    match pattern {
        Pattern::Var(_) => 0,
        Pattern::App(_, arguments) => 1 + arguments.len() as u64 + arguments.iter().map(words).sum::<u64>(),
    }
}

/// Lays a pattern's nodes, each variable as it is mapped.
fn lay(nodes: &mut Vec<Node>, pattern: &Pattern, map: &impl Fn(usize) -> usize) -> usize {
    let node = match pattern {
        Pattern::Var(variable) => Node::Var(map(*variable)),
        Pattern::App(symbol, arguments) => {
            Node::App(*symbol, arguments.iter().map(|argument| lay(nodes, argument, map)).collect())
        }
    };
    nodes.push(node);
    nodes.len() - 1
}

/// Lays the nodes of a term that is known by its number.
fn lay_term(nodes: &mut Vec<Node>, term: usize, terms: &Terms) -> usize {
    let node = match terms.as_variable(term) {
        Some(variable) => Node::Var(variable),
        None => {
            let arguments = terms.arguments(term).iter().map(|argument| lay_term(nodes, *argument, terms)).collect();
            Node::App(terms.symbol(term) as usize, arguments)
        }
    };
    nodes.push(node);
    nodes.len() - 1
}

/// `bounds`: 4, 8, 16, .. up to the largest depth.
fn bounds(largest: u32) -> impl Iterator<Item = u32> {
    std::iter::successors(Some(4_u32), |bound| bound.checked_add(*bound)).take_while(move |bound| *bound <= largest)
}

impl Session<'_> {
    /// `new_session`, over a signature.
    pub fn new(signature: &Signature) -> Session<'_> {
        let mut nodes = Vec::new();
        let rules = signature.rules.iter().map(|rule| {
            let mut variables = Vec::new();
            met(&rule.conclusion, &mut variables);
            let head_variables = variables.len();
            rule.premises.iter().rev().for_each(|premise| met(premise, &mut variables));
            let place = |variable| variables.iter().position(|other| *other == variable).expect("each is met");
            Rule {
                conclusion: lay(&mut nodes, &rule.conclusion, &place),
                premises: rule.premises.iter().map(|premise| lay(&mut nodes, premise, &place)).collect(),
                head_variables,
                all_variables: variables.len(),
                head_words: words(&rule.conclusion),
                body_words: rule.premises.iter().map(words).sum(),
            }
        });
        let rules = rules.collect();
        Session {
            symbols: &signature.symbols,
            rules,
            nodes,
            names: Vec::new(),
            bindings: Vec::new(),
            trail: Vec::new(),
            words: 0,
            most: Limits { variables: 0, words: 0 },
            cost: 0,
        }
    }

    /// A session that stands so, whose bindings are all there.
    pub fn standing_so<'s>(signature: &'s Signature, standing: &Standing, terms: &Terms) -> Session<'s> {
        let mut session = Session::new(signature);
        session.names = standing.names.clone();
        session.words = standing.words;
        session.bindings.resize(standing.variables, None);
        for (variable, term) in &standing.bindings {
            let node = lay_term(&mut session.nodes, *term, terms);
            session.bind(*variable, Term { node, first: 0 });
        }
        session
    }

    pub fn mark(&self) -> Mark {
        Mark {
            nodes: self.nodes.len(),
            names: self.names.len(),
            variables: self.bindings.len(),
            bound: self.trail.len(),
            words: self.words,
        }
    }

    /// The session as it was, from which goals only add.
    pub fn restore(&mut self, Mark { nodes, names, variables, bound, words }: Mark) {
        self.undo(bound);
        self.bindings.truncate(variables);
        self.names.truncate(names);
        self.nodes.truncate(nodes);
        self.words = words;
    }

    pub fn bound(&self) -> usize {
        self.trail.len()
    }

    /// How the session stands, with the bindings from a place on.
    pub fn standing(&self, from: usize, terms: &mut Terms) -> Standing {
        let bindings = self.trail[from..].iter().map(|variable| {
            let term = self.bindings[*variable].expect("a variable on the trail is bound");
            (*variable, self.number(term, terms))
        });
        let bindings = bindings.collect();
        let (names, variables, bound) = (self.names.clone(), self.bindings.len(), self.trail.len());
        Standing { names, variables, bound, bindings, words: self.words }
    }

    /// A term by its number.
    fn number(&self, Term { node, first }: Term, terms: &mut Terms) -> usize {
        match &self.nodes[node] {
            Node::Var(place) => terms.variable(first + place),
            Node::App(symbol, arguments) => {
                let arguments = arguments.iter().map(|node| self.number(Term { node: *node, first }, terms)).collect();
                terms.node(*symbol as u32, arguments)
            }
        }
    }

    /// `ask`: 38 is tested first.
    pub fn ask(&mut self, goal: &Written, ask: &Ask, terms: &mut Terms) -> Asked {
        if too_much(ask) {
            return Asked { answer: Answer::refused(38), full: None, most: Limits { variables: 0, words: 0 }, cost: 0 };
        }
        self.answered(goal, ask.steps, ask.depth, Limits::of(&ask.limits), terms)
    }

    /// `answered`: then the goal compiles, then 37 and the search.
    pub fn answered(&mut self, goal: &Written, steps: u32, depth: u32, limits: Limits, terms: &mut Terms) -> Asked {
        let mark = self.mark();
        (self.most, self.cost) = (Limits { variables: 0, words: 0 }, 0);
        let (answer, full) = match self.compiled(goal) {
            Err(Stop::Refused(number)) => (Answer::refused(number), None),
            Err(Stop::Full(point)) => (Answer::refused(28), Some(point)),
            Ok((new, pattern)) => (self.searched(new, &pattern, steps, depth, limits, terms), None),
        };
        if let Verdict::Refused(_) = answer.verdict {
            self.restore(mark);
        }
        let (most, cost) = (self.most, self.cost);
        Asked { answer, full, most, cost }
    }

    /// `goal_compiled`: its new names in the order of their first appearance, and its term, in which a variable is a place among
    /// the session's names with the new ones behind them.
    fn compiled(&self, goal: &Written) -> Tried<(Vec<(Vec<u8>, u32)>, Pattern)> {
        let known = self.names.iter().map(|named| (named.name.clone(), named.sort)).collect();
        let mut compiler = Compiler::new(self.symbols, known, GOAL_NODES);
        let pattern = compiler.judgment(goal)?;
        let (variables, _) = compiler.closed()?;
        Ok((variables[self.names.len()..].to_vec(), pattern))
    }

    /// `verdict_of` and `left`. The session is not restored where it refuses.
    fn searched(
        &mut self,
        new: Vec<(Vec<u8>, u32)>,
        pattern: &Pattern,
        steps: u32,
        depth: u32,
        limits: Limits,
        terms: &mut Terms,
    ) -> Answer {
        let used = self.words + words(pattern);
        if self.over(limits, self.bindings.len() + new.len(), used) {
            return Answer::refused(37);
        }
        for (name, sort) in new {
            self.names.push(Named { name, sort, variable: self.bindings.len() });
            self.bindings.push(None);
        }
        let goal_of = |place: usize| self.names[place].variable;
        let goal = Term { node: lay(&mut self.nodes, pattern, &goal_of), first: 0 };
        self.prove(limits, steps, depth, used, goal, terms)
    }

    /// Are so many variables and words too many?
    fn over(&mut self, limits: Limits, variables: usize, words: u64) -> bool {
        self.most.variables = self.most.variables.max(variables as u64);
        self.most.words = self.most.words.max(words);
        variables as u64 > limits.variables || words > limits.words
    }

    /// `prove` and `deepen`: the bounds in turn, each with all steps.
    fn prove(&mut self, limits: Limits, steps: u32, depth: u32, used: u64, goal: Term, terms: &mut Terms) -> Answer {
        let mut last = 0;
        for bound in bounds(depth) {
            match self.bounded(limits, steps, used, goal, bound) {
                Found::Refused => return Answer::refused(37),
                Found::Tree(tree, left, words) => {
                    self.words = words;
                    let call = |&(height, rule, goal): &(u32, usize, Term)| Call {
                        height,
                        rule: rule as u32,
                        goal: self.number(goal, terms),
                    };
                    let verdict = Verdict::Proved(tree.iter().map(call).collect());
                    return Answer { verdict, steps: steps - left };
                }
                Found::Failed(left, cut) if left > 0 && !cut => {
                    return Answer { verdict: Verdict::Nothing, steps: steps - left };
                }
                Found::Failed(left, _) => last = steps - left,
            }
        }
        Answer { verdict: Verdict::Undecided, steps: last }
    }

    /// `bounded` by Machine: the current branch, and the branch records that are tried where it fails.
    fn bounded(&mut self, limits: Limits, mut steps: u32, used: u64, goal: Term, depth: u32) -> Found {
        let mut machine = Machine { work: Vec::new(), proofs: Vec::new(), trees: Vec::new() };
        let (mut branches, mut cut, mut words): (Vec<Branch>, bool, u64) = (Vec::new(), false, used);
        let (mut work, mut proofs): (List, List) = (push(&mut machine.work, Work::Goal(goal, depth), None), None);
        loop {
            if steps > 0 {
                steps -= 1;
                match work.map(|at| machine.work[at]) {
                    None => return Found::Tree(machine.preorder(proofs), steps, words),
                    Some((Work::Build(rule, goal, premises), next)) => {
                        proofs = machine.built(rule, goal, premises, proofs);
                        work = next;
                        continue;
                    }
                    Some((Work::Goal(_, 0), _)) => cut = true,
                    Some((Work::Goal(goal, left), rest)) => {
                        let lengths = machine.lengths(self.trail.len());
                        branches.push(Branch { goal, depth: left - 1, rest, proofs, words, rule: 0, lengths });
                    }
                }
            }
            // The current branch failed, or a goal is to be tried with its first rule.
            loop {
                let Some(branch) = branches.last_mut() else { return Found::Failed(steps, cut) };
                self.undo(branch.lengths[0]);
                machine.cut_back(branch.lengths);
                let rule = branch.rule;
                if rule == self.rules.len() {
                    branches.pop();
                    continue;
                }
                branch.rule += 1;
                match self.attempt(limits, branch.goal, branch.words, rule) {
                    Attempt::Exceeded => return Found::Refused,
                    Attempt::Missed => {}
                    Attempt::Entered(first, more) => {
                        let premises = &self.rules[rule].premises;
                        work = push(&mut machine.work, Work::Build(rule, branch.goal, premises.len()), branch.rest);
                        for premise in premises.iter().rev() {
                            work =
                                push(&mut machine.work, Work::Goal(Term { node: *premise, first }, branch.depth), work);
                        }
                        (proofs, words) = (branch.proofs, more);
                        break;
                    }
                }
            }
        }
    }

    /// One attempt with a rule. The conclusion is counted before it is unified, the premises after it.
    fn attempt(&mut self, limits: Limits, goal: Term, used: u64, rule: usize) -> Attempt {
        let Rule { conclusion, head_variables, all_variables, head_words, body_words, .. } = self.rules[rule];
        let first = self.bindings.len();
        self.cost = self.cost.saturating_add(1 + head_words);
        if self.over(limits, first + head_variables, used + head_words) {
            return Attempt::Exceeded;
        }
        self.bindings.resize(first + head_variables, None);
        if !self.unify(goal, Term { node: conclusion, first }) {
            return Attempt::Missed;
        }
        if self.over(limits, first + all_variables, used + head_words + body_words) {
            return Attempt::Exceeded;
        }
        self.bindings.resize(first + all_variables, None);
        Attempt::Entered(first, used + head_words + body_words)
    }

    fn undo(&mut self, bound: usize) {
        for variable in self.trail.drain(bound..) {
            self.bindings[variable] = None;
        }
    }

    fn walk(&self, mut term: Term) -> Walked {
        while let Node::Var(place) = self.nodes[term.node] {
            match self.bindings[term.first + place] {
                Some(bound) => term = bound,
                None => return Walked::Var(term.first + place, term),
            }
        }
        Walked::App(term)
    }

    /// `unify`: equations worked off from the left, a variable bound to the raw walked term, with the occurs check. The same
    /// equation a second time binds nothing, so one that was seen may be left out.
    fn unify(&mut self, left: Term, right: Term) -> bool {
        let (mut equations, mut looked, mut seen) = (vec![(left, right)], 0, HashSet::new());
        while let Some((left, right)) = equations.pop() {
            looked += 1;
            self.cost = self.cost.saturating_add(1);
            if looked > FEW {
                self.cost = u64::MAX;
                if !seen.insert((left, right)) {
                    continue;
                }
            }
            match (self.walk(left), self.walk(right)) {
                (Walked::Var(x, _), Walked::Var(y, _)) if x == y => {}
                (Walked::Var(x, _), Walked::Var(_, other)) => self.bind(x, other),
                (Walked::Var(x, _), Walked::App(term)) | (Walked::App(term), Walked::Var(x, _)) => {
                    if self.occurs(x, term) {
                        return false;
                    }
                    self.bind(x, term);
                }
                (Walked::App(one), Walked::App(other)) => {
                    let (Node::App(f, ts), Node::App(g, us)) = (&self.nodes[one.node], &self.nodes[other.node]) else {
                        panic!("a walk to a node ends at one");
                    };
                    if f != g || ts.len() != us.len() {
                        return false;
                    }
                    let argument = |term: Term, node: &usize| Term { node: *node, first: term.first };
                    let pairs = ts.iter().zip(us).rev().map(|(t, u)| (argument(one, t), argument(other, u)));
                    equations.extend(pairs);
                }
            }
        }
        true
    }

    fn bind(&mut self, variable: usize, term: Term) {
        self.bindings[variable] = Some(term);
        self.trail.push(variable);
    }

    /// `occurs`: is x in the term, once the bindings are put in?
    fn occurs(&mut self, x: usize, term: Term) -> bool {
        let (mut terms, mut looked, mut seen, mut found) = (vec![term], 0, HashSet::new(), false);
        while let (Some(term), false) = (terms.pop(), found) {
            looked += 1;
            self.cost = self.cost.saturating_add(1);
            if looked > FEW {
                self.cost = u64::MAX;
                if !seen.insert(term) {
                    continue;
                }
            }
            match self.walk(term) {
                Walked::Var(y, _) => found = x == y,
                Walked::App(Term { node, first }) => {
                    let Node::App(_, arguments) = &self.nodes[node] else { panic!("a walk to a node ends at one") };
                    terms.extend(arguments.iter().rev().map(|node| Term { node: *node, first }));
                }
            }
        }
        found
    }
}

/// Work, proofs and trees, each list item with the place of the next.
struct Machine {
    work: Vec<(Work, List)>,
    proofs: Vec<(usize, List)>,
    trees: Vec<Tree>,
}

fn push<T>(items: &mut Vec<(T, List)>, item: T, next: List) -> List {
    items.push((item, next));
    Some(items.len() - 1)
}

impl Machine {
    fn lengths(&self, bound: usize) -> [usize; 4] {
        [bound, self.work.len(), self.proofs.len(), self.trees.len()]
    }

    fn cut_back(&mut self, [_, work, proofs, trees]: [usize; 4]) {
        self.work.truncate(work);
        self.proofs.truncate(proofs);
        self.trees.truncate(trees);
    }

    /// `built`: a node from the last proofs in the order in which they were made, put on the proofs before them.
    fn built(&mut self, rule: usize, goal: Term, premises: usize, mut proofs: List) -> List {
        let mut children = Vec::new();
        for _ in 0..premises {
            let (tree, next) = self.proofs[proofs.expect("enough proofs")];
            children.push(tree);
            proofs = next;
        }
        children.reverse();
        self.trees.push(Tree { rule, goal, children });
        push(&mut self.proofs, self.trees.len() - 1, proofs)
    }

    /// `preorder` of the one tree that is left: height from 1 on, rule, goal.
    fn preorder(&self, proofs: List) -> Vec<(u32, usize, Term)> {
        let (root, none) = self.proofs[proofs.expect("a proof")];
        assert_eq!(none, None, "one tree is left");
        let (mut waiting, mut entries) = (vec![(1, root)], Vec::new());
        while let Some((height, tree)) = waiting.pop() {
            let Tree { rule, goal, children } = &self.trees[tree];
            entries.push((height, *rule, *goal));
            waiting.extend(children.iter().rev().map(|child| (height + 1, *child)));
        }
        entries
    }
}
