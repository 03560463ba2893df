//! Asks both evaluators the same questions and stops at the first that they answer differently.

#[path = "../ours_evaluate.rs"]
mod ours;
#[path = "../ours_load.rs"]
mod ours_load;

use horn_oracle::command::{count_and_seed, fail};
use horn_oracle::evaluate::{Kept, with_large_stack, with_program_stack};
use horn_oracle::evaluate_cases::{
    Program, Question, agreed_as_kept, damage, fixed_questions, generated, unexpected_example,
};
use horn_oracle::evaluate_rows::read_back;
use horn_oracle::evaluated::{Answer, Buffers, COUNTS_READ, Lent, NUMBERS, Stored, Terms, counted};
use horn_oracle::loaded::{self, RULES, SORTS, SYMBOLS};
use horn_oracle::pattern_definitions::Written;
use horn_oracle::random::Random;
use horn_oracle::shrink::shrunk;
use horn_oracle::stored_definitions::{Signature, term_at};
use std::cell::RefCell;

/// What a number holds before the call; no answer can leave it there.
const JUNK: u32 = 0xDEAD_BEEF;

/// Rows after the lent ones, which nobody may write.
const GUARD: usize = 4;

/// The number of refusal 1, which has no line.
const NOT_LISTED: u64 = 1 << 32;

/// How the questions were answered.
struct Tally {
    unloaded: u64,
    goals: u64,
    damaged: u64,
    damaged_in_form: u64,
    counts: [u64; NUMBERS],
}

/// What is lent to be read and to be written. The buffers are large, so they are used again.
#[derive(Default)]
struct Storage {
    stored: loaded::Buffers,
    lent: Buffers,
}

thread_local! {
    static STORAGE: RefCell<Storage> = RefCell::default();
}

fn main() {
    let (count, seed) = count_and_seed("evaluate_compare");
    with_large_stack(|| compare(count, seed));
}

fn compare(count: u64, seed: u64) {
    if let Some(example) = unexpected_example() {
        fail(&example);
    }
    let mut random = Random::new(seed);
    let seeded = (0..count).map(|_| generated(&mut random));
    let (mut texts, mut tally) = (0_u64, Tally::new());
    for question in fixed_questions().into_iter().chain(seeded) {
        texts += 1;
        if compared(&question, &mut tally).is_err() {
            report(&shrunk(question, &|smaller| compared(smaller, &mut Tally::new()).is_err()));
            std::process::exit(1);
        }
    }
    let Tally { unloaded, goals, damaged, damaged_in_form, counts } = tally;
    println!("{texts} texts, {unloaded} of them not loaded, no difference: {};", counted(&counts, goals));
    println!("{damaged} texts were damaged where they are stored, {damaged_in_form} of them with a signature in form");
}

impl Tally {
    fn new() -> Tally {
        Tally { unloaded: 0, goals: 0, damaged: 0, damaged_in_form: 0, counts: [0; NUMBERS] }
    }
}

fn report(question: &Question) {
    let Question { text, limit, size, damage } = question;
    println!("the sides differ on a text of {} bytes, {limit:?}, size {size:?}, damage {damage:?}:", text.len());
    println!("  text   \"{}\"", text.escape_ascii());
    println!("  hex    {}", text.iter().map(|byte| format!("{byte:02x}")).collect::<String>());
    println!("  {}", compared(question, &mut Tally::new()).expect_err("the difference that was shrunk"));
}

/// How the sides differ on the first term of a text on which they do.
fn compared(question: &Question, tally: &mut Tally) -> Result<(), String> {
    STORAGE.with_borrow_mut(|storage| compared_in(question, storage, tally))
}

fn compared_in(question: &Question, Storage { stored, lent }: &mut Storage, tally: &mut Tally) -> Result<(), String> {
    let (limits, mut text) = (question.limits(), question.text.clone());
    let least = loaded::Lent::least(limits);
    stored.reset(&least, GUARD, JUNK);
    let (code, program) = (ours_load::load(&text, limits, &least, stored), Program::load(&text, limits));
    let expected = program.as_ref().map_or_else(|refusal| refusal.code(), |program| program.declarations as u64);
    if code != expected {
        return Err(format!("the loaders differ: Rust {expected:#x}, ours {code:#x}"));
    }
    let Ok(program) = program else {
        tally.unloaded += 1;
        return Ok(());
    };
    if let Some(seed) = question.damage {
        damage(seed, &mut text, stored);
    }
    let (damaged, in_form) = (question.damage.is_some(), ours_load::check(&text, &least, stored) == 0);
    if !damaged && !in_form {
        return Err("what our loader leaves is not in form".to_owned());
    }
    tally.damaged += u64::from(damaged);
    tally.damaged_in_form += u64::from(damaged && in_form);
    let [_, symbols, rules, words] = [0, 1, 2, 3].map(|at| stored.counts[at] as usize);
    let read = || {
        let (symbols, rules) = (&stored.symbols[..symbols], &stored.rules[..rules]);
        let words = &stored.words[..words];
        (Kept::stored(&text, symbols, rules, words), Signature::stored(&text, symbols, rules, words))
    };
    let (signatures, before) = (in_form.then(read), sum(stored));
    for at in places(question, &program) {
        let place = Place { question, text: &text, program: &program, signatures: signatures.as_ref(), stored, at };
        place.compared(lent, tally).map_err(|cause| format!("row {at}: {cause}"))?;
    }
    if sum(stored) == before { Ok(()) } else { Err("what is lent to be read was written".to_owned()) }
}

/// The sum of all numbers that are lent to be read, each weighed by its place, so that a written one is seen.
fn sum(stored: &loaded::Buffers) -> u64 {
    let loaded::Buffers { sorts, symbols, rules, words, counts, rows, .. } = stored;
    let parts =
        [sorts.as_flattened(), symbols.as_flattened(), rules.as_flattened(), words, counts, rows.as_flattened()];
    let weighed = |(at, number): (usize, &u32)| (at as u64 + 1).wrapping_mul(u64::from(*number));
    let sums = parts.map(|part| part.iter().enumerate().map(weighed).fold(0, u64::wrapping_add));
    sums.iter().enumerate().fold(0, |sum, (part, more)| sum.wrapping_mul(31).wrapping_add(part as u64 ^ more))
}

/// Rows at which a term is asked for: those of each `#eval`, and two others.
fn places(question: &Question, program: &Program) -> Vec<usize> {
    let seed = question.damage.unwrap_or(question.text.len() as u64);
    let (random, rows) = (&mut Random::new(seed), program.storage.rows.len());
    let mut places: Vec<usize> = program.storage.evals.iter().map(|[_, row]| *row as usize).collect();
    places.extend([random.below(rows + 2), random.below(rows + 1)]);
    if random.percent(2) {
        places.push(random.pick(&[usize::MAX, usize::MAX - 1, 1 << 32]));
    }
    places
}

/// A place at which a term is asked for, in what is stored.
struct Place<'a> {
    question: &'a Question,
    text: &'a [u8],
    program: &'a Program,
    /// What is stored by the original and by the definitions, where it is in the listed form.
    signatures: Option<&'a (Kept, Signature)>,
    stored: &'a loaded::Buffers,
    at: usize,
}

impl Place<'_> {
    fn compared(&self, buffers: &mut Buffers, tally: &mut Tally) -> Result<(), String> {
        let (stored, suffices) = self.stored();
        let term = term_at(self.text, stored.rows, self.at).map(|(term, _)| term);
        let asked = self.signatures.filter(|_| suffices).zip(term);
        let is_forward = |(_, signature): &(Kept, Signature), term| u64::from(signature.is_forward_call(term));
        let forward = asked.as_ref().map_or(NOT_LISTED, |(signatures, term)| is_forward(signatures, term));
        let ours = ours::is_forward_call(&stored, self.at);
        if forward != ours {
            return Err(format!("forward call: Rust {forward:#x}, ours {ours:#x}"));
        }
        let terms = &mut Terms::default();
        let whole = match asked.as_ref() {
            None => Answer::Refused(1),
            Some(((kept, signature), term)) => self.agreed(kept, signature, term, terms)?.0,
        };
        let limit = self.question.limit.words(&whole);
        let lent = self.lent(limit);
        let expected = match asked {
            Some(((_, signature), term)) if lent.suffices(limit) => signature.evaluate_with(limit, &term, terms),
            _ => Answer::Refused(1),
        };
        buffers.reset(&lent, GUARD, JUNK);
        let code = with_program_stack(|| ours::evaluate(&stored, limit, self.at, &lent, buffers));
        tally.goals += u64::from(forward != 1 && expected != Answer::Refused(1));
        tally.counts[expected.number() as usize] += 1;
        self.left(&expected, code, &lent, buffers, terms).map_err(|cause| format!("with {limit} words: {cause}"))
    }

    /// What is lent to be read, up to the end of the term, and whether it is enough for a signature.
    fn stored(&self) -> (Stored<'_>, bool) {
        let loaded::Buffers { sorts, symbols, rules, words, counts, rows, .. } = self.stored;
        let lengths = [sorts.len(), symbols.len(), rules.len(), words.len(), counts.len(), rows.len()];
        let term = term_at(self.text, &rows[..rows.len() - GUARD], self.at);
        let end = term.map_or(self.program.storage.rows.len(), |(_, end)| end);
        let least = [SORTS, SYMBOLS, RULES, counts[COUNTS_READ - 1] as usize, COUNTS_READ, end];
        let sizes: [usize; 6] = std::array::from_fn(|part| self.sized(part, least[part]).min(lengths[part]));
        let stored = Stored {
            text: self.text,
            sorts: &sorts[..sizes[0]],
            symbols: &symbols[..sizes[1]],
            rules: &rules[..sizes[2]],
            pattern: &words[..sizes[3]],
            counts: &counts[..sizes[4]],
            rows: &rows[..sizes[5]],
        };
        (stored, (0..5).all(|part| sizes[part] >= least[part]))
    }

    /// What is lent to be written.
    fn lent(&self, limit: u32) -> Lent {
        let Lent { words, links, trees, results } = Lent::least(limit);
        Lent {
            words: self.sized(6, words),
            links: self.sized(7, links),
            trees: self.sized(8, trees),
            results: self.sized(9, results),
        }
    }

    /// A size that the question may change.
    fn sized(&self, part: usize, least: usize) -> usize {
        match self.question.size {
            Some((changed, more)) if changed == part => least.saturating_add_signed(more),
            _ => least,
        }
    }

    /// The answer on which the original and the definitions agree: for an `#eval` of which nothing is damaged the original
    /// as it loads the text, else as it is stored.
    fn agreed(
        &self,
        kept: &Kept,
        signature: &Signature,
        term: &Written,
        terms: &mut Terms,
    ) -> Result<(Answer, bool), String> {
        let eval = self.program.storage.evals.iter().position(|[_, row]| *row as usize == self.at);
        match eval.filter(|_| self.question.damage.is_none()) {
            Some(eval) => self.program.agreed(self.text, eval, terms),
            None => agreed_as_kept(kept, signature, term, terms),
        }
    }

    /// Whether we answer and leave what is expected: 1 writes nothing, any other refusal zeroes all, a value is read back;
    /// and nothing is written behind what is lent.
    fn left(
        &self,
        expected: &Answer,
        code: u64,
        lent: &Lent,
        buffers: &Buffers,
        terms: &mut Terms,
    ) -> Result<(), String> {
        let number = u64::from(expected.number());
        if code != number << 32 {
            return Err(format!("Rust {}, ours {}", expected.shown(terms), described(code)));
        }
        let fault = match expected {
            Answer::Refused(1) => buffers.first_other(lent, false, JUNK),
            Answer::Refused(_) => buffers.first_other(lent, false, 0),
            Answer::Value(value) => {
                let counts = &self.stored.counts;
                let symbols = &self.stored.symbols[..counts[1] as usize];
                let read = read_back(lent, buffers, symbols, counts[2], terms)?;
                let shown = |read| format!("Rust {}, ours {}", expected.shown(terms), Answer::Value(read).shown(terms));
                (read != *value).then(|| shown(read))
            }
        };
        let fault = fault.or_else(|| buffers.first_other(lent, true, JUNK));
        fault.map_or(Ok(()), |fault| Err(format!("{}: {fault}", described(code))))
    }
}

fn described(code: u64) -> String {
    match (code >> 32, code as u32) {
        (0, 0) => "a value".to_owned(),
        (number, 0) => format!("refused {number}"),
        _ => format!("the answer {code:#x}"),
    }
}
