//! Puts a list of goals to another search over lent storage, and compares each answer and all that is left with those on which the
//! original and the definitions agree: what 1 writes nothing to, what a refused goal restores, what is zero, what stays as it was,
//! and the session and the proof read back.

use crate::damage::changed_number;
use crate::evaluate_cases::Program;
use crate::evaluated::{Terms, first_not};
use crate::loaded::{self, Limits as TextLimits, NODES};
use crate::pattern_definitions::Written;
use crate::random::Random;
use crate::search_cases::{Both, Question, fixed_questions, generated, with_lower_limits};
use crate::search_definitions::Session;
use crate::search_rows::Stored;
use crate::searched::{Allowance, Answer, Ask, Buffers, Counted, Counts, Given, Lent, PARTS, Standing, Verdict};
use crate::shrink::shrunk;
use crate::stored_definitions::{Signature, term_at};
use std::cell::RefCell;

/// A signature as it is stored, and the rows of a goal.
pub struct Posed<'a> {
    pub text: &'a [u8],
    pub stored: &'a loaded::Buffers,
    pub at: usize,
    pub ask: Ask,
}

/// A search over lent storage.
pub trait Searching {
    /// As `horn_load`.
    fn load(&mut self, text: &[u8], limits: TextLimits, lent: &loaded::Lent, buffers: &mut loaded::Buffers) -> u64;

    /// Opens a session in the lent part of the buffers: 0, or 1 where too little is lent.
    fn open(&mut self, limits: &Allowance, lent: &Lent, buffers: &mut Buffers) -> u32;

    /// Searches a goal in the session with these counts.
    fn prove(&mut self, posed: &Posed, counts: Counts, lent: &Lent, buffers: &mut Buffers) -> Given;
}

/// What a number of the proof holds before a call; no answer can leave it there.
const JUNK: u32 = 0xDEAD_BEEF;

/// Rows after the lent ones, which nobody may write.
const GUARD: usize = 4;

/// What is compared beside the answers to the goals of a list: a kind of storage of which some call is lent another size, and the
/// seed of damages to the session that is left at the end.
#[derive(Clone, Copy, Debug, Default, PartialEq, Eq, Hash)]
pub struct Beside {
    pub size: Option<(usize, isize)>,
    pub damages: Option<u64>,
}

/// How the lists were answered.
pub struct Tally {
    pub lists: u64,
    pub unloaded: u64,
    pub goals: Counted,
    pub damaged: u64,
    pub damaged_in_form: u64,
    pub elsewhere: u64,
}

impl Tally {
    pub fn new() -> Tally {
        Tally { lists: 0, unloaded: 0, goals: Counted::new(), damaged: 0, damaged_in_form: 0, elsewhere: 0 }
    }

    pub fn shown(&self) -> String {
        let Tally { lists, unloaded, goals, damaged, damaged_in_form, elsewhere } = self;
        let lists = format!("{lists} lists and {unloaded} that are not loaded, no difference: {};", goals.shown());
        let damaged =
            format!("{damaged} sessions were damaged where they are stored, {damaged_in_form} of them are in form");
        format!("{lists}\n{damaged}; {elsewhere} goals at other rows")
    }
}

/// The fixed lists and so many generated ones. Of most the limits are lowered, so that less has to be lent.
pub fn questions(count: u64, seed: u64) -> impl Iterator<Item = (Question, Beside)> {
    let mut random = Random::new(seed);
    let fixed = fixed_questions().into_iter().enumerate().map(|(number, question)| {
        let beside = Beside { size: None, damages: (number % 20 == 3).then_some(number as u64) };
        (question, beside)
    });
    let seeded = (0..count).map(move |_| {
        let question = generated(&mut random);
        let question = if random.percent(97) { with_lower_limits(&question) } else { question };
        let size = random.percent(15).then(|| (random.below(PARTS), random.pick(&[-1, -1, 1, 3])));
        let damages = random.percent(2).then(|| random.below(1 << 40) as u64);
        (question, Beside { size, damages })
    });
    fixed.chain(seeded)
}

/// Puts all lists to the other search; else tells how the sides differ on the smallest list that was found.
pub fn compare(
    questions: impl Iterator<Item = (Question, Beside)>,
    searching: &mut impl Searching,
) -> Result<Tally, String> {
    let (searching, mut tally) = (RefCell::new(searching), Tally::new());
    for (question, beside) in questions {
        if compared(&question, beside, *searching.borrow_mut(), &mut tally).is_ok() {
            continue;
        }
        let tried = |question: &Question| compared(question, beside, *searching.borrow_mut(), &mut Tally::new());
        let smallest = shrunk(question, &|smaller| tried(smaller).is_err());
        let cause = tried(&smallest).expect_err("the difference that was shrunk");
        let text = smallest.text.escape_ascii();
        return Err(format!("the sides differ on a list, {beside:?}:\n  text   \"{text}\"\n  {cause}"));
    }
    Ok(tally)
}

/// How the sides differ on the first goal of a list on which they do.
pub fn compared(
    question: &Question,
    beside: Beside,
    searching: &mut impl Searching,
    tally: &mut Tally,
) -> Result<(), String> {
    let (text, limits) = (&question.text, TextLimits { text: question.text.len() as u32, nodes: NODES });
    let least = loaded::Lent::least(limits);
    let mut stored = loaded::Buffers::default();
    stored.reset(&least, GUARD, JUNK);
    let (code, program) = (searching.load(text, limits, &least, &mut stored), Program::load(text, limits));
    let expected = program.as_ref().map_or_else(|refusal| refusal.code(), |program| program.declarations as u64);
    if code != expected {
        return Err(format!("the loaders differ: Rust {expected:#x}, ours {code:#x}"));
    }
    let Ok(program) = program else {
        tally.unloaded += 1;
        return Ok(());
    };
    tally.lists += 1;
    let both = Both::new(&program, text);
    let asks: Vec<Ask> = (0..program.storage.evals.len()).map(|eval| both.ask_of(eval)).collect();
    let most = asks.iter().fold(Lent::used(&Counts::default()), |lent, ask| lent.joined(&Lent::least(&ask.limits)));
    let mut list = List { program: &program, text, stored: &stored, most, beside, both, counts: Counts::default() };
    let mut buffers = list.opened(searching)?;
    for (eval, ask) in asks.iter().enumerate() {
        let line = program.storage.evals[eval][0];
        let answer = list.goal(searching, eval, ask, &mut buffers).map_err(|cause| format!("line {line}: {cause}"))?;
        tally.goals.add(&answer.verdict);
    }
    list.damaged(searching, &asks, &mut buffers, tally)
}

struct List<'a> {
    program: &'a Program,
    text: &'a [u8],
    stored: &'a loaded::Buffers,
    /// What the goals ask for together.
    most: Lent,
    beside: Beside,
    both: Both<'a>,
    counts: Counts,
}

impl List<'_> {
    /// A new session, in storage that holds junk before, with one kind one short and then all of it.
    fn opened(&self, searching: &mut impl Searching) -> Result<Buffers, String> {
        let Lent { words, bindings, .. } = self.most;
        let limits = Allowance { steps: 0, variables: bindings as u32, words: words as u32 };
        let mut buffers = Buffers::new(&self.most, GUARD, JUNK);
        let part = self.text.len() % PARTS;
        let mut parts = self.most.parts();
        parts[part] = parts[part].saturating_sub(1);
        let short = Lent { proof: self.most.proof, ..Lent::of_parts(parts) };
        if short != self.most && short.parts()[part] < Lent::least(&limits).parts()[part] {
            let before = buffers.clone();
            let number = searching.open(&limits, &short, &mut buffers);
            expect(number == 1 && buffers == before, || format!("opened by {number} with too little of kind {part}"))?;
        }
        let number = searching.open(&limits, &self.most, &mut buffers);
        expect(number == 0, || format!("opened by {number}"))?;
        buffers.proof[..self.most.proof].fill([0; 8]);
        self.all_zero(&buffers, &self.most)?;
        Ok(buffers)
    }

    fn all_zero(&self, buffers: &Buffers, lent: &Lent) -> Result<(), String> {
        for ((name, numbers, columns), rows) in buffers.parts().into_iter().zip(lent.parts()) {
            expect_all(name, &numbers[..rows * columns], 0)?;
        }
        Ok(())
    }

    /// What is lent for a call: as much as its limits and the session ask, but for one kind.
    fn lent(&self, ask: &Ask) -> Lent {
        let least = Lent::least(&ask.limits).joined(&Lent::used(&self.counts)).parts();
        let most = self.most.joined(&Lent::used(&self.counts)).parts();
        Lent::of_parts(std::array::from_fn(|part| match self.beside.size {
            Some((changed, more)) if changed == part => least[part].saturating_add_signed(more).min(most[part]),
            _ => least[part],
        }))
    }

    fn posed(&self, eval: usize, ask: &Ask) -> Posed<'_> {
        let [_, at] = self.program.storage.evals[eval];
        Posed { text: self.text, stored: self.stored, at: at as usize, ask: *ask }
    }

    /// One goal by both sides.
    fn goal(
        &mut self,
        searching: &mut impl Searching,
        eval: usize,
        ask: &Ask,
        buffers: &mut Buffers,
    ) -> Result<Answer, String> {
        let lent = self.lent(ask);
        buffers.proof.fill([JUNK; 8]);
        let before = buffers.clone();
        let given = searching.prove(&self.posed(eval, ask), self.counts, &lent, buffers);
        if !lent.suffices(&ask.limits, &self.counts) {
            expect(given == Given::Refused(1), || format!("{given:?} with too little"))?;
            expect(*buffers == before, || "1 wrote something".to_owned())?;
            return Ok(Answer::refused(1));
        }
        let (answer, _) = self.both.answer(eval)?;
        let standing = self.both.standing(0)?;
        let mut terms = std::mem::take(&mut self.both.terms);
        let left = self.left(&answer, &standing, given, &lent, &before, buffers, &mut terms);
        self.both.terms = terms;
        left?;
        self.counts = standing.counts();
        Ok(answer)
    }

    /// Whether a call that was ready answers and leaves what is expected.
    fn left(
        &self,
        answer: &Answer,
        standing: &Standing,
        given: Given,
        lent: &Lent,
        before: &Buffers,
        buffers: &Buffers,
        terms: &mut Terms,
    ) -> Result<(), String> {
        let expected = Given::expected(answer, standing);
        expect(given == expected, || format!("Rust {expected:?}, ours {given:?}"))?;
        let counts = standing.counts();
        kept(before, buffers, lent, &self.counts)?;
        let past = [counts.names, counts.words].map(|count| count as usize);
        expect_all("names past those in use", buffers.names[past[0]..lent.names].as_flattened(), 0)?;
        expect_all("words past those in use", &buffers.words[past[1]..lent.words], 0)?;
        let read = self.read(lent, buffers, counts);
        let session = read.read(terms)?;
        let differing = || format!("Rust {}, ours {}", standing.shown(terms), session.standing.shown(terms));
        expect(session.standing == *standing, differing)?;
        match &answer.verdict {
            Verdict::Proved(nodes) => {
                let found = read.proof(&session, nodes.len() as u32, self.stored.counts[2], terms)?;
                let shown = Answer { verdict: Verdict::Proved(found.clone()), ..answer.clone() };
                expect(found == *nodes, || format!("Rust {}, ours {}", answer.shown(terms), shown.shown(terms)))
            }
            _ => {
                expect(before.bindings == buffers.bindings, || "bindings changed without a proof".to_owned())?;
                expect_all("proof", buffers.proof[..lent.proof].as_flattened(), 0)
            }
        }
    }

    fn read<'b>(&'b self, lent: &'b Lent, buffers: &'b Buffers, counts: Counts) -> Stored<'b> {
        let [sorts, symbols] = [0, 1].map(|at| self.stored.counts[at]);
        Stored { text: self.text, sorts, symbols: &self.stored.symbols[..symbols as usize], lent, buffers, counts }
    }

    /// The session at the end with one number changed, again and again: it gets 1 exactly where it is not in form by the second
    /// test, and else the definitions' answer. Then, in the session as it is, the goals of other rows: 1 exactly where no term is.
    fn damaged(
        &mut self,
        searching: &mut impl Searching,
        asks: &[Ask],
        buffers: &mut Buffers,
        tally: &mut Tally,
    ) -> Result<(), String> {
        let (Some(seed), Some(ask)) = (self.beside.damages, asks.first()) else { return Ok(()) };
        let (random, lent) = (&mut Random::new(seed), Lent::least(&ask.limits).joined(&Lent::used(&self.counts)));
        let Program { storage, .. } = self.program;
        let signature = Signature::stored(self.text, &storage.symbols, &storage.rules, &storage.words);
        let ends = [
            (2, lent.bindings * 2),
            (2, (lent.bindings * 2).saturating_sub(1)),
            (4, lent.links * 2),
            (5, lent.marks * 2),
            (6, lent.stack * 3),
        ];
        let ends = ends.into_iter().filter_map(|(part, end)| Some((part, end.checked_sub(1)?)));
        let places = (0..16).map(|at| (3 + at % 4, at)).chain(ends);
        let places = places.chain((0..self.counts.names as usize * 5).map(|at| (0, at)));
        let places = places.chain((0..self.counts.words as usize).map(|at| (1, at)));
        let rows = self.counts.variables.min(60) as usize + 2;
        let places = places.chain((0..rows * 2).map(|at| (2, at)));
        buffers.proof.fill([JUNK; 8]);
        let whole = buffers.clone();
        for (part, at) in places.take(DAMAGES) {
            let mut counts = self.counts;
            let mut damaged = whole.clone();
            if !damage(random, part, at, &mut counts, &mut damaged, &lent) {
                continue;
            }
            let before = damaged.clone();
            let given = searching.prove(&self.posed(0, ask), counts, &lent, &mut damaged);
            let mut terms = Terms::default();
            let session = self.read(&lent, &before, counts).read(&mut terms);
            tally.damaged += 1;
            let at = |cause: String| format!("kind {part}, number {at}, {counts:?}: {cause}");
            match session {
                Err(cause) => {
                    expect(given == Given::Refused(1), || at(format!("{given:?}, but {cause}")))?;
                    expect(damaged == before, || at("1 wrote something".to_owned()))?;
                }
                Ok(session) => {
                    tally.damaged_in_form += 1;
                    let goal = self.program.term(self.text, 0);
                    let expected = answered(&signature, &session.standing, &goal, ask, &mut terms);
                    expect(given == expected, || at(format!("expected {expected:?}, ours {given:?}")))?;
                }
            }
        }
        let rows = storage.rows.len();
        let places = (0..PLACES).map(|_| random.below(rows + 2)).chain([usize::MAX, usize::MAX - 1, 1 << 32]);
        for at in places {
            let mut buffers = whole.clone();
            let posed = Posed { at, ..self.posed(0, ask) };
            let given = searching.prove(&posed, self.counts, &lent, &mut buffers);
            let mut terms = Terms::default();
            let session = self.read(&lent, &whole, self.counts).read(&mut terms)?;
            let expected = match term_at(self.text, &self.stored.rows, at) {
                None => Given::Refused(1),
                Some((goal, _)) => answered(&signature, &session.standing, &goal, ask, &mut terms),
            };
            tally.elsewhere += 1;
            expect(given == expected, || format!("row {at}: expected {expected:?}, ours {given:?}"))?;
            expect(given != Given::Refused(1) || buffers == whole, || format!("row {at}: 1 wrote something"))?;
        }
        Ok(())
    }
}

/// The definitions' answer to a goal in a session that stands so.
fn answered(signature: &Signature, standing: &Standing, goal: &Written, ask: &Ask, terms: &mut Terms) -> Given {
    let mut session = Session::standing_so(signature, standing, terms);
    let answer = session.ask(goal, ask, terms).answer;
    Given::expected(&answer, &session.standing(0, terms))
}

/// At how many rows a goal is asked for, be they a term's or not.
const PLACES: usize = 12;

/// How many numbers of a session are damaged at most.
const DAMAGES: usize = 400;

/// Changes one number of a kind of storage, or of the counts; tells whether there was one.
fn damage(
    random: &mut Random,
    part: usize,
    at: usize,
    counts: &mut Counts,
    buffers: &mut Buffers,
    lent: &Lent,
) -> bool {
    let Buffers { names, words, bindings, links, marks, stack, .. } = buffers;
    let numbers: &mut [u32] = match part {
        0 => names[..lent.names].as_flattened_mut(),
        1 => &mut words[..lent.words],
        2 => bindings[..lent.bindings].as_flattened_mut(),
        3 => {
            let Counts { names, variables, bound, words } = counts;
            let count = random.pick(&[0, 1, 2, 3]);
            let number = [names, variables, bound, words].into_iter().nth(count).expect("four counts");
            *number = changed_number(random, *number, 1);
            return true;
        }
        4 => links[..lent.links].as_flattened_mut(),
        5 => marks[..lent.marks].as_flattened_mut(),
        _ => stack[..lent.stack].as_flattened_mut(),
    };
    let Some(old) = numbers.get(at).copied() else { return false };
    let other = numbers[random.below(numbers.len())];
    numbers[at] = changed_number(random, old, other);
    numbers[at] != old
}

/// Names and words in use before, and all that lies behind what is lent, stay as they were; scratch is zero.
fn kept(before: &Buffers, after: &Buffers, lent: &Lent, counts: &Counts) -> Result<(), String> {
    for ((old, new), rows) in before.parts().into_iter().zip(after.parts()).zip(lent.parts()) {
        let ((name, old, columns), (_, new, _)) = (old, new);
        let used = match name {
            "names" => counts.names as usize * 5,
            "words" => counts.words as usize,
            _ => 0,
        };
        let behind = rows * columns;
        expect(old[..used] == new[..used], || format!("{name} in use were written"))?;
        expect(old[behind..] == new[behind..], || format!("{name} were written behind what is lent"))?;
        if ["links", "marks", "stack"].contains(&name) {
            expect_all(name, &new[..behind], 0)?;
        }
    }
    Ok(())
}

fn expect(holds: bool, otherwise: impl FnOnce() -> String) -> Result<(), String> {
    if holds { Ok(()) } else { Err(otherwise()) }
}

fn expect_all(name: &str, numbers: &[u32], number: u32) -> Result<(), String> {
    match first_not(numbers, number) {
        None => Ok(()),
        Some(at) => Err(format!("{name}: number {at} is {} and not {number}", numbers[at])),
    }
}
