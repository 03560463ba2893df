//! Holds together what needs no library of ours: the original's evaluations and the evaluator's definitions, without a
//! limit on words, under several, and with signatures that no text makes.

use horn_oracle::command::{count_and_seed, fail};
use horn_oracle::evaluate::{Kept, with_large_stack};
use horn_oracle::evaluate_cases::{
    Limit, Program, Question, agreed_as_kept, change_in_form, fixed_questions, generated_text, unexpected_example,
};
use horn_oracle::evaluated::{Answer, NO_WORDS, NUMBERS, REFUSALS, Terms, WORDS, counted};
use horn_oracle::loaded::Storage;
use horn_oracle::random::Random;
use horn_oracle::shrink::shrunk;
use horn_oracle::stored_definitions::Signature;
use std::panic::{AssertUnwindSafe, catch_unwind};

/// From so many evaluations of generated texts on, each number must occur among them at least once in `RARELY`.
const MANY: u64 = 20_000;
const RARELY: u64 = 100;

/// How the texts were answered.
#[derive(Clone)]
struct Tally {
    texts: u64,
    unloaded: u64,
    goals: u64,
    unasked: u64,
    /// Without a limit on words.
    counts: [u64; NUMBERS],
    limited: u64,
    no_words: u64,
    /// Under changed signatures.
    changed: [u64; NUMBERS],
}

impl Tally {
    fn new() -> Tally {
        let (counts, changed) = ([0; NUMBERS], [0; NUMBERS]);
        Tally { texts: 0, unloaded: 0, goals: 0, unasked: 0, counts, limited: 0, no_words: 0, changed }
    }

    fn tell(&self, name: &str) {
        let Tally { texts, unloaded, goals, unasked, counts, limited, no_words, changed } = self;
        println!("{name}: {texts} texts and {unloaded} that are not loaded, no difference");
        println!("  {}; {unasked} too large for the Rust", counted(counts, *goals));
        println!("  {no_words} of {limited} under limits on words are refused by {NO_WORDS}");
        println!("  with changed signatures: {}", counted(changed, *goals));
    }
}

fn main() {
    let (count, seed) = count_and_seed("evaluate_selfcheck");
    with_large_stack(|| check(count, seed));
}

fn check(count: u64, seed: u64) {
    if let Some(example) = unexpected_example() {
        fail(&example);
    }
    let mut fixed: Vec<Vec<u8>> = fixed_questions().into_iter().map(|question| question.text).collect();
    fixed.dedup();
    checked(fixed.into_iter(), seed).tell("fixed");
    let mut random = Random::new(seed);
    let tally = checked((0..count).map(|_| generated_text(&mut random)), seed);
    tally.tell("generated");
    let evaluations: u64 = tally.counts.iter().sum();
    let is_rare = |number: &&u32| tally.counts[**number as usize] * RARELY < evaluations;
    if let Some(number) = REFUSALS.iter().find(is_rare).filter(|_| evaluations >= MANY) {
        fail(&format!("fewer than 1 in {RARELY} are refused by {number}"));
    }
}

fn checked(texts: impl Iterator<Item = Vec<u8>>, seed: u64) -> Tally {
    let mut tally = Tally::new();
    for (number, text) in texts.enumerate() {
        let seed = seed.wrapping_add(number as u64);
        if fault(&text, seed, &mut tally).is_some() {
            let fails = |question: &Question| fault(&question.text, seed, &mut Tally::new()).is_some();
            report(&shrunk(Question::plain(&text, Limit::Words(WORDS)), &fails), seed);
        }
    }
    tally
}

fn report(Question { text, .. }: &Question, seed: u64) -> ! {
    let fault = fault(text, seed, &mut Tally::new()).expect("the fault that was shrunk");
    println!("a text of {} bytes: {fault}", text.len());
    fail(&format!("  text   \"{}\"", text.escape_ascii()));
}

/// What does not hold of a text, where the original's assertions count too.
fn fault(text: &[u8], seed: u64, tally: &mut Tally) -> Option<String> {
    let tried = catch_unwind(AssertUnwindSafe(|| compared(text, seed, tally).err()));
    tried.unwrap_or_else(|_| Some("an assertion failed".to_owned()))
}

/// Each `#eval` of a text by the original and by the definitions.
fn compared(text: &[u8], seed: u64, tally: &mut Tally) -> Result<(), String> {
    let Ok(program) = Program::load(text, Question::plain(text, Limit::Words(WORDS)).limits()) else {
        tally.unloaded += 1;
        return Ok(());
    };
    tally.texts += 1;
    let mut random = Random::new(seed);
    for eval in 0..program.storage.evals.len() {
        let mut terms = Terms::default();
        let at = |cause: String| format!("line {}: {cause}", program.storage.evals[eval][0]);
        let (answer, asked) = program.agreed(text, eval, &mut terms).map_err(at)?;
        tally.goals += u64::from(!program.loaded.is_forward_call(eval));
        tally.unasked += u64::from(!asked);
        tally.counts[answer.number() as usize] += 1;
        limited(&program, text, eval, &answer, &mut terms, &mut random, tally).map_err(at)?;
    }
    changed(&program, text, &mut random, tally)
}

/// Under a limit the answer is the same or 37: the same from some limit on, and for a value from the words that it takes.
fn limited(
    program: &Program,
    text: &[u8],
    eval: usize,
    answer: &Answer,
    terms: &mut Terms,
    random: &mut Random,
    tally: &mut Tally,
) -> Result<(), String> {
    let term = program.term(text, eval);
    let mut below = |bound: u64| random.below(bound as usize) as u64;
    let mut limits = match answer {
        Answer::Value(value) => vec![0, below(value.words), value.words - 1, value.words, value.words + 1],
        Answer::Refused(_) => vec![below(3), below(30), below(300), below(20_000), u64::from(WORDS)],
    };
    limits.sort();
    let mut enough = false;
    for limit in limits {
        let under = program.signature.evaluate(limit, &term, terms).answer;
        let (is_same, no_words) = (under == *answer, under == Answer::Refused(NO_WORDS));
        let is_expected = match answer {
            Answer::Value(value) if limit < value.words => no_words,
            Answer::Refused(_) if !enough => is_same || no_words,
            _ => is_same,
        };
        if !is_expected {
            return Err(format!("{} with {limit} words, else {}", under.shown(terms), answer.shown(terms)));
        }
        enough |= is_same;
        tally.limited += 1;
        tally.no_words += u64::from(no_words);
    }
    Ok(())
}

/// The same terms with a signature of which a little is changed where it is stored.
fn changed(program: &Program, text: &[u8], random: &mut Random, tally: &mut Tally) -> Result<(), String> {
    let mut storage = program.storage.clone();
    (0..random.between(1, 3)).for_each(|_| change_in_form(random, &mut storage));
    let Storage { symbols, rules, words, evals, .. } = &storage;
    let kept = Kept::stored(text, symbols, rules, words);
    let signature = Signature::stored(text, symbols, rules, words);
    for (eval, [line, _]) in evals.iter().enumerate() {
        let agreed = agreed_as_kept(&kept, &signature, &program.term(text, eval), &mut Terms::default());
        let at = |cause| format!("line {line} with {symbols:?} and {words:?}: {cause}");
        tally.changed[agreed.map_err(at)?.0.number() as usize] += 1;
    }
    Ok(())
}
