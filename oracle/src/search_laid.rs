//! A search over lent storage by the definitions, so that the comparison itself can be tried, and with a planted fault, which the
//! comparison has to find.

use crate::evaluated::{Call, Terms};
use crate::load::reference;
use crate::loaded::{self, ARITIES, FIRST_HEADER, Limits as TextLimits};
use crate::search_compared::{Posed, Searching};
use crate::search_definitions::Session;
use crate::search_rows::Stored;
use crate::searched::{Allowance, Buffers, Counts, Given, Lent, Named, ROOM, Standing, Verdict};
use crate::stored_definitions::{Signature, term_at};
use crate::tokens::{METAVARIABLE, NAME};
use std::collections::HashMap;

/// What is wrong with a search.
#[derive(Clone, Copy, Debug, PartialEq)]
pub enum Fault {
    None,
    /// One step more is told than there are.
    Steps,
    /// A goal that is refused leaves its first name.
    NameLeft,
    /// Words or rows of the proof are left without a proof.
    WordsLeft,
    ProofLeft,
    /// New bindings come in another order.
    Order,
    /// A session that is not in form is taken.
    Untested,
    /// A name's sort is not kept.
    Sort,
    /// A word in use is written anew.
    Rewritten,
    /// Too little is lent, and something is written.
    Written,
}

pub const FAULTS: [Fault; 9] = [
    Fault::Steps,
    Fault::NameLeft,
    Fault::WordsLeft,
    Fault::ProofLeft,
    Fault::Order,
    Fault::Untested,
    Fault::Sort,
    Fault::Rewritten,
    Fault::Written,
];

pub struct Laid {
    pub fault: Fault,
}

impl Searching for Laid {
    fn load(&mut self, text: &[u8], limits: TextLimits, lent: &loaded::Lent, buffers: &mut loaded::Buffers) -> u64 {
        let answer = reference(text, limits, lent);
        answer.leave_in(lent, buffers);
        answer.code()
    }

    fn open(&mut self, limits: &Allowance, lent: &Lent, buffers: &mut Buffers) -> u32 {
        if !lent.suffices(limits, &Counts::default()) {
            return 1;
        }
        buffers.names[..lent.names].fill([0; 5]);
        buffers.words[..lent.words].fill(0);
        buffers.bindings[..lent.bindings].fill([0; 2]);
        buffers.links[..lent.links].fill([0; 2]);
        buffers.marks[..lent.marks].fill([0; 2]);
        buffers.stack[..lent.stack].fill([0; 3]);
        0
    }

    fn prove(&mut self, posed: &Posed, counts: Counts, lent: &Lent, buffers: &mut Buffers) -> Given {
        let [sorts, symbols, rules, words, _] = [0, 1, 2, 3, 4].map(|at| posed.stored.counts[at] as usize);
        let (text, symbols) = (posed.text, &posed.stored.symbols[..symbols]);
        let (mut terms, sorts) = (Terms::default(), sorts as u32);
        let read = Stored { text, sorts, symbols, lent, buffers, counts }.read(&mut terms);
        let goal = term_at(text, &posed.stored.rows, posed.at);
        let (session, goal) = match read.ok().zip(goal) {
            Some((session, (goal, _))) if lent.suffices(&posed.ask.limits, &counts) => (session, goal),
            _ if self.fault == Fault::Untested => return Given::Undecided { steps: 0, counts },
            _ => {
                if self.fault == Fault::Written {
                    buffers.stack[0][0] = 1;
                }
                return Given::Refused(1);
            }
        };
        let signature = Signature::stored(text, symbols, &posed.stored.rules[..rules], &posed.stored.words[..words]);
        let mut other = Session::standing_so(&signature, &session.standing, &terms);
        let answer = other.ask(&goal, &posed.ask, &mut terms).answer;
        let standing = other.standing(counts.bound as usize, &mut terms);
        buffers.proof[..lent.proof].fill([0; 8]);
        let mut layer = Layer { posed, fault: self.fault, terms: &terms, buffers, known: session.references() };
        layer.left(&standing, counts, &answer.verdict);
        let mut given = Given::expected(&answer, &standing);
        if let (Fault::Steps, Given::Proved { steps, .. }) = (self.fault, &mut given) {
            *steps += 1;
        }
        given
    }
}

/// Lays what a goal leaves behind what a session has.
struct Layer<'a> {
    posed: &'a Posed<'a>,
    fault: Fault,
    terms: &'a Terms,
    buffers: &'a mut Buffers,
    /// The references of terms that are laid.
    known: HashMap<usize, u32>,
}

impl Layer<'_> {
    fn left(&mut self, standing: &Standing, counts: Counts, verdict: &Verdict) {
        for (at, named) in standing.names.iter().enumerate().skip(counts.names as usize) {
            self.buffers.names[at] = self.name(named);
        }
        match verdict {
            Verdict::Proved(calls) => self.proved(standing, counts, calls),
            Verdict::Refused(number) if *number > 1 && self.fault == Fault::NameLeft => {
                self.buffers.names[counts.names as usize % 64][0] = NAME;
            }
            Verdict::Undecided if self.fault == Fault::WordsLeft => self.buffers.words[counts.words as usize] = 1,
            Verdict::Nothing if self.fault == Fault::ProofLeft && !self.buffers.proof.is_empty() => {
                self.buffers.proof[0][0] = 1;
            }
            _ => {}
        }
    }

    /// A name's row, with its first place in the goal.
    fn name(&self, named: &Named) -> [u32; 5] {
        let is_it = |row: &&[u32; 4]| {
            let [kind, start, length, _] = **row;
            let word = self.posed.text.get(start as usize..(start + length) as usize);
            [NAME, METAVARIABLE].contains(&kind) && word == Some(&named.name)
        };
        let [kind, start, length, _] =
            *self.posed.stored.rows[self.posed.at..].iter().find(is_it).expect("a name's row");
        let sort = if self.fault == Fault::Sort { 1 } else { named.sort };
        [kind, start, length, sort, named.variable as u32]
    }

    /// Bindings and the proof, over words that are filled up with constants.
    fn proved(&mut self, standing: &Standing, counts: Counts, calls: &[Call]) {
        let mut used = counts.words;
        let mut places: Vec<usize> = (0..standing.bindings.len()).collect();
        if self.fault == Fault::Order {
            places.reverse();
        }
        for (at, place) in places.into_iter().enumerate() {
            let (variable, term) = standing.bindings[place];
            let reference = self.lay(term, &mut used);
            self.buffers.bindings[variable][0] = reference + 1;
            self.buffers.bindings[counts.bound as usize + at][1] = variable as u32;
        }
        for (at, Call { height, rule, goal }) in calls.iter().enumerate() {
            let reference = self.lay(*goal, &mut used);
            self.buffers.proof[at] = [*height, 0, *rule, reference, 0, 0, 0, 0];
        }
        let symbols = &self.posed.stored.symbols[..self.posed.stored.counts[1] as usize];
        let constant = symbols.iter().position(|row| row[6] == 0).expect("a constant") as u32;
        let (used, words) = (used as usize, standing.words as usize);
        self.buffers.words[used..words].fill(FIRST_HEADER + ARITIES * constant);
        if self.fault == Fault::Rewritten && counts.words > 0 {
            self.buffers.words[0] = FIRST_HEADER + ARITIES * constant;
        }
    }

    /// The reference of a term, whose nodes are laid behind the words in use.
    fn lay(&mut self, term: usize, used: &mut u32) -> u32 {
        if let Some(variable) = self.terms.as_variable(term) {
            return variable as u32;
        }
        if let Some(reference) = self.known.get(&term) {
            return *reference;
        }
        let arguments: Vec<u32> = self.terms.arguments(term).iter().map(|argument| self.lay(*argument, used)).collect();
        let header = FIRST_HEADER + ARITIES * self.terms.symbol(term) + arguments.len() as u32;
        let address = *used as usize;
        self.buffers.words[address] = header;
        self.buffers.words[address + 1..][..arguments.len()].copy_from_slice(&arguments);
        *used += 1 + arguments.len() as u32;
        self.known.insert(term, ROOM + address as u32);
        ROOM + address as u32
    }
}
