//! Holds together what needs no library of ours: the original's answers to lists of goals and the search's definitions, without
//! limits and under them; and the comparison over lent storage with a search by the definitions, without and with a planted fault.

use horn_oracle::command::{count_and_seed, fail};
use horn_oracle::evaluate::{Kept, with_large_stack};
use horn_oracle::evaluate_cases::{Program, change_in_form};
use horn_oracle::loaded::Storage;
use horn_oracle::random::Random;
use horn_oracle::search_cases::{Both, Question, fixed_questions, generated, unexpected_answers};
use horn_oracle::search_compared::{self, compare, questions};
use horn_oracle::search_laid::{FAULTS, Fault, Laid};
use horn_oracle::searched::{Counted, REFUSALS};
use horn_oracle::shrink::shrunk;
use horn_oracle::stored_definitions::Signature;
use std::panic::{AssertUnwindSafe, catch_unwind};

/// From so many goals of generated lists on, each number must occur among them at least once in `RARELY`.
const MANY: u64 = 20_000;
const RARELY: u64 = 200;

/// Of the lists one in so many is put to the comparison over lent storage, and a planted fault is found among so many.
const STORED: u64 = 20;
const FAULTY: u64 = 2_000;

/// Of the short texts one in so many is also answered with a signature that no text makes.
const CHANGED: usize = 4;
const SHORT: usize = 4_000;

/// How the lists were answered.
#[derive(Clone)]
struct Tally {
    lists: u64,
    unloaded: u64,
    /// Goals about which the original was not asked.
    unasked: u64,
    goals: Counted,
    /// Under changed signatures.
    changed: Counted,
}

impl Tally {
    fn new() -> Tally {
        Tally { lists: 0, unloaded: 0, unasked: 0, goals: Counted::new(), changed: Counted::new() }
    }

    fn tell(&self, name: &str) {
        let Tally { lists, unloaded, unasked, goals, changed } = self;
        println!("{name}: {lists} lists and {unloaded} that are not loaded, no difference");
        println!("  {}; {unasked} too large for the Rust", goals.shown());
        println!("  with changed signatures: {}", changed.shown());
    }
}

fn main() {
    let (count, seed) = count_and_seed("search_selfcheck");
    with_large_stack(|| check(count, seed));
}

fn check(count: u64, seed: u64) {
    let unexpected = unexpected_answers();
    if !unexpected.is_empty() {
        fail(&unexpected.join("\n"));
    }
    checked(fixed_questions().into_iter()).tell("fixed");
    let mut random = Random::new(seed);
    let tally = checked((0..count).map(|_| generated(&mut random)));
    tally.tell("generated");
    let goals = tally.goals.goals();
    let is_rare = |number: &&u32| tally.goals.refused[**number as usize] * RARELY < goals;
    if let Some(number) = REFUSALS.iter().find(is_rare).filter(|_| goals >= MANY) {
        fail(&format!("fewer than 1 in {RARELY} are refused by {number}"));
    }
    match compare(questions(count / STORED, seed), &mut Laid { fault: Fault::None }) {
        Ok(tally) => println!("stored: {}", tally.shown()),
        Err(difference) => fail(&difference),
    }
    if let Some(fault) = FAULTS.iter().find(|fault| !is_found(**fault, seed)) {
        fail(&format!("{fault:?} is not found"));
    }
}

/// Whether the comparison finds a planted fault.
fn is_found(fault: Fault, seed: u64) -> bool {
    let (mut laid, mut tally) = (Laid { fault }, search_compared::Tally::new());
    let mut lists = questions(FAULTY, seed);
    lists.any(|(question, beside)| search_compared::compared(&question, beside, &mut laid, &mut tally).is_err())
}

fn checked(questions: impl Iterator<Item = Question>) -> Tally {
    let mut tally = Tally::new();
    for question in questions {
        if fault(&question, &mut tally).is_some() {
            report(&shrunk(question, &|smaller| fault(smaller, &mut Tally::new()).is_some()));
        }
    }
    tally
}

fn report(question: &Question) -> ! {
    let fault = fault(question, &mut Tally::new()).expect("the fault that was shrunk");
    println!("a text of {} bytes: {fault}", question.text.len());
    fail(&format!("  text   \"{}\"", question.text.escape_ascii()));
}

/// What does not hold of a list, where the original's assertions count too.
fn fault(question: &Question, tally: &mut Tally) -> Option<String> {
    let tried = catch_unwind(AssertUnwindSafe(|| compared(question, tally).err()));
    tried.unwrap_or_else(|_| Some("an assertion failed".to_owned()))
}

/// Each goal of a list by the original and by the definitions.
fn compared(question: &Question, tally: &mut Tally) -> Result<(), String> {
    let Some(program) = question.load() else {
        tally.unloaded += 1;
        return Ok(());
    };
    tally.lists += 1;
    tally.unasked += answered(&program, Both::new(&program, &question.text), &mut tally.goals)?;
    if question.text.len() % CHANGED != 0 || question.text.len() > SHORT {
        return Ok(());
    }
    let (mut storage, mut random) = (program.storage.clone(), Random::new(question.text.len() as u64));
    (0..random.between(1, 3)).for_each(|_| change_in_form(&mut random, &mut storage));
    let Storage { symbols, rules, words, .. } = &storage;
    let kept = Kept::stored(&question.text, symbols, rules, words);
    let signature = Signature::stored(&question.text, symbols, rules, words);
    let both = Both::changed(&program, &question.text, &kept, &signature);
    answered(&program, both, &mut tally.changed).map_err(|cause| format!("{cause} with {storage:?}"))?;
    Ok(())
}

/// All goals in order, and all bindings at the end; tells for how many the original was not asked.
fn answered(program: &Program, mut both: Both, goals: &mut Counted) -> Result<u64, String> {
    let mut unasked = 0;
    for (eval, [line, _]) in program.storage.evals.iter().enumerate() {
        let (answer, _) = both.answer(eval).map_err(|cause| format!("line {line}: {cause}"))?;
        goals.add(&answer.verdict);
        unasked += u64::from(!both.is_asked());
    }
    both.standing(0)?;
    Ok(unasked)
}
