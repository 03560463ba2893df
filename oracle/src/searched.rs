//! The answer of a search and the session that it leaves, what is asked of a goal, and document 01's limits.

use crate::evaluated::{self, Call, Terms, TreeRow};
use crate::loaded::{self, Pair, RULE_NODES};

/// Document 01's limits, and of a session's names and a goal's nodes those of a rule.
pub const STEPS: u32 = 65_535;
pub const DEPTH: u32 = 128;
pub const VARIABLES: u32 = 65_536;
pub const WORDS: u32 = evaluated::WORDS;
pub const NAMES: usize = loaded::VARIABLES;
pub const GOAL_NODES: usize = RULE_NODES;

/// The numbers that a goal is refused by, but for 1.
pub const REFUSALS: [u32; 11] = [19, 20, 21, 22, 23, 24, 25, 26, 28, 37, 38];
pub const NO_ROOM: u32 = 37;

/// How many numbers refuse, 0 counted for none.
pub const NUMBERS: usize = 39;

/// `Allowance`: the limits that a caller sets. A higher one counts as document 01's.
#[derive(Clone, Copy, Debug, PartialEq, Eq, Hash)]
pub struct Allowance {
    pub steps: u32,
    pub variables: u32,
    pub words: u32,
}

/// What is asked beside the goal: steps for each bound, the largest depth, and the limits.
#[derive(Clone, Copy, Debug, PartialEq, Eq, Hash)]
pub struct Ask {
    pub steps: u32,
    pub depth: u32,
    pub limits: Allowance,
}

impl Ask {
    /// Under document 01's limits.
    pub const fn unlimited(steps: u32, depth: u32) -> Ask {
        Ask { steps, depth, limits: Allowance { steps: STEPS, variables: VARIABLES, words: WORDS } }
    }

    /// What the bench program sets.
    pub const BENCH: Ask =
        Ask { steps: 2_000, depth: 32, limits: Allowance { steps: 2_000, variables: 4_096, words: 8_192 } };

    pub fn numbers(&self) -> [u32; 5] {
        let Allowance { steps, variables, words } = self.limits;
        [self.steps, self.depth, steps, variables, words]
    }

    pub fn of_numbers([steps, depth, step_limit, variables, words]: [u32; 5]) -> Ask {
        Ask { steps, depth, limits: Allowance { steps: step_limit, variables, words } }
    }
}

#[derive(Clone, Debug, PartialEq)]
pub enum Verdict {
    Refused(u32),
    /// The proof in preorder, its goals as they are stored.
    Proved(Vec<Call>),
    Nothing,
    Undecided,
}

impl Verdict {
    /// Document 01's number, 0 for none.
    pub fn number(&self) -> u32 {
        match self {
            Verdict::Refused(number) => *number,
            _ => 0,
        }
    }

    pub fn word(&self) -> &'static str {
        match self {
            Verdict::Refused(_) => "refused",
            Verdict::Proved(_) => "proved",
            Verdict::Nothing => "none",
            Verdict::Undecided => "undecided",
        }
    }
}

/// A verdict, and the steps of the last bound that was tried, 0 where there is none.
#[derive(Clone, Debug, PartialEq)]
pub struct Answer {
    pub verdict: Verdict,
    pub steps: u32,
}

impl Answer {
    pub fn refused(number: u32) -> Answer {
        Answer { verdict: Verdict::Refused(number), steps: 0 }
    }

    /// For people, with the first nodes of a proof.
    pub fn shown(&self, terms: &Terms) -> String {
        let node = |Call { height, rule, goal }: &Call| format!("; {height} rule {rule} {}", terms.shown(*goal));
        match &self.verdict {
            Verdict::Refused(number) => format!("refused {number}"),
            Verdict::Proved(nodes) => {
                let first: String = nodes.iter().take(20).map(node).collect();
                format!("proved with {} steps, {} nodes{first}", self.steps, nodes.len())
            }
            verdict => format!("{} with {} steps", verdict.word(), self.steps),
        }
    }
}

/// A name of a session, the sort that it keeps and the variable that it stands for.
#[derive(Clone, Debug, PartialEq)]
pub struct Named {
    pub name: Vec<u8>,
    pub sort: u32,
    pub variable: usize,
}

/// How a session stands: its names in order, how many variables were made and how many of them are bound, the bindings as they
/// are stored, the oldest first, from some place on, and the words that proved goals keep.
#[derive(Clone, Debug, Default, PartialEq)]
pub struct Standing {
    pub names: Vec<Named>,
    pub variables: usize,
    pub bound: usize,
    pub bindings: Vec<(usize, usize)>,
    pub words: u64,
}

impl Standing {
    pub fn shown(&self, terms: &Terms) -> String {
        let name = |Named { name, sort, variable }: &Named| format!(" {}:{sort}=?v{variable}", name.escape_ascii());
        let names: String = self.names.iter().map(name).collect();
        let binding = |(variable, term): &(usize, usize)| format!("; ?v{variable} = {}", terms.shown(*term));
        let bindings: String = self.bindings.iter().take(40).map(binding).collect();
        format!("{} variables, {} bound, {} words, names{names}{bindings}", self.variables, self.bound, self.words)
    }
}

/// References below this are variables, everywhere in a session.
pub const ROOM: u32 = VARIABLES;

/// Kind, start, length, sort, variable.
pub type NameRow = [u32; 5];
pub type StackRow = [u32; 3];

/// How many names, variables, bound variables and words a session has.
#[derive(Clone, Copy, Debug, Default, PartialEq, Eq)]
pub struct Counts {
    pub names: u32,
    pub variables: u32,
    pub bound: u32,
    pub words: u32,
}

/// How many rows, or words, a caller lends of each kind: a session's, the proof's, and scratch.
#[derive(Clone, Copy, Debug, PartialEq, Eq, Hash)]
pub struct Lent {
    pub names: usize,
    pub words: usize,
    pub bindings: usize,
    pub proof: usize,
    pub links: usize,
    pub marks: usize,
    pub stack: usize,
}

/// How many kinds there are.
pub const PARTS: usize = 7;

impl Lent {
    /// What the limits ask for.
    pub fn least(limits: &Allowance) -> Lent {
        let words = limits.words.min(WORDS) as usize;
        let references = ROOM as usize + words;
        Lent {
            names: NAMES,
            words,
            bindings: limits.variables.min(VARIABLES) as usize,
            proof: limits.steps.min(STEPS) as usize,
            links: references,
            marks: references,
            stack: words,
        }
    }

    pub fn parts(&self) -> [usize; PARTS] {
        let Lent { names, words, bindings, proof, links, marks, stack } = *self;
        [names, words, bindings, proof, links, marks, stack]
    }

    pub fn of_parts([names, words, bindings, proof, links, marks, stack]: [usize; PARTS]) -> Lent {
        Lent { names, words, bindings, proof, links, marks, stack }
    }

    /// The larger of each.
    pub fn joined(&self, other: &Lent) -> Lent {
        let (one, other) = (self.parts(), other.parts());
        Lent::of_parts(std::array::from_fn(|part| one[part].max(other[part])))
    }

    /// What a session in use asks for.
    pub fn used(counts: &Counts) -> Lent {
        let Counts { variables, words, .. } = *counts;
        Lent { proof: 0, ..Lent::least(&Allowance { steps: 0, variables, words }) }
    }

    /// Whether as much is lent as a call under these limits asks for in a session with these counts.
    pub fn suffices(&self, limits: &Allowance, counts: &Counts) -> bool {
        let least = Lent::least(limits).joined(&Lent::used(counts));
        self.parts().into_iter().zip(least.parts()).all(|(lent, least)| lent >= least)
    }
}

/// All that a caller lends.
#[derive(Clone, Default, PartialEq)]
pub struct Buffers {
    pub names: Vec<NameRow>,
    pub words: Vec<u32>,
    pub bindings: Vec<Pair>,
    pub proof: Vec<TreeRow>,
    pub links: Vec<Pair>,
    pub marks: Vec<Pair>,
    pub stack: Vec<StackRow>,
}

impl Buffers {
    /// Makes each buffer `guard` longer than what is lent of it, and every number the same.
    pub fn new(lent: &Lent, guard: usize, number: u32) -> Buffers {
        Buffers {
            names: vec![[number; 5]; lent.names + guard],
            words: vec![number; lent.words + guard],
            bindings: vec![[number; 2]; lent.bindings + guard],
            proof: vec![[number; 8]; lent.proof + guard],
            links: vec![[number; 2]; lent.links + guard],
            marks: vec![[number; 2]; lent.marks + guard],
            stack: vec![[number; 3]; lent.stack + guard],
        }
    }

    /// The numbers of each kind, with how many a row has.
    pub fn parts(&self) -> [(&'static str, &[u32], usize); PARTS] {
        [
            ("names", self.names.as_flattened(), 5),
            ("words", &self.words, 1),
            ("bindings", self.bindings.as_flattened(), 2),
            ("proof", self.proof.as_flattened(), 8),
            ("links", self.links.as_flattened(), 2),
            ("marks", self.marks.as_flattened(), 2),
            ("stack", self.stack.as_flattened(), 3),
        ]
    }
}

/// What a call answers: 1 or another refusal, or a verdict with its steps, the nodes of the proof and the counts then.
#[derive(Clone, Copy, Debug, PartialEq)]
pub enum Given {
    Refused(u32),
    Proved { steps: u32, nodes: u32, counts: Counts },
    Nothing { steps: u32, counts: Counts },
    Undecided { steps: u32, counts: Counts },
}

impl Given {
    /// The counts of a session after a call, if they are told: a refused goal leaves them as they were.
    pub fn counts(&self) -> Option<Counts> {
        match self {
            Given::Refused(_) => None,
            Given::Proved { counts, .. } | Given::Nothing { counts, .. } | Given::Undecided { counts, .. } => {
                Some(*counts)
            }
        }
    }

    /// What is expected for an answer, and for how the session then stands.
    pub fn expected(answer: &Answer, standing: &Standing) -> Given {
        let (steps, counts) = (answer.steps, standing.counts());
        match &answer.verdict {
            Verdict::Refused(number) => Given::Refused(*number),
            Verdict::Proved(nodes) => Given::Proved { steps, nodes: nodes.len() as u32, counts },
            Verdict::Nothing => Given::Nothing { steps, counts },
            Verdict::Undecided => Given::Undecided { steps, counts },
        }
    }
}

impl Standing {
    pub fn counts(&self) -> Counts {
        let [names, variables, bound] = [self.names.len(), self.variables, self.bound].map(|count| count as u32);
        Counts { names, variables, bound, words: self.words as u32 }
    }
}

/// How many goals had each verdict, and how many were refused by each number.
#[derive(Clone)]
pub struct Counted {
    pub proved: u64,
    pub none: u64,
    pub undecided: u64,
    pub refused: [u64; NUMBERS],
}

impl Counted {
    pub fn new() -> Counted {
        Counted { proved: 0, none: 0, undecided: 0, refused: [0; NUMBERS] }
    }

    pub fn add(&mut self, verdict: &Verdict) {
        match verdict {
            Verdict::Refused(number) => self.refused[*number as usize] += 1,
            Verdict::Proved(_) => self.proved += 1,
            Verdict::Nothing => self.none += 1,
            Verdict::Undecided => self.undecided += 1,
        }
    }

    pub fn goals(&self) -> u64 {
        self.proved + self.none + self.undecided + self.refused.iter().sum::<u64>()
    }

    pub fn shown(&self) -> String {
        let refusals =
            [1].into_iter().chain(REFUSALS).map(|number| format!("{number}: {}", self.refused[number as usize]));
        let Counted { proved, none, undecided, .. } = self;
        let refusals: Vec<String> = refusals.collect();
        format!(
            "{} goals: {proved} proved, {none} none, {undecided} undecided, refused by {}",
            self.goals(),
            refusals.join(", ")
        )
    }
}
