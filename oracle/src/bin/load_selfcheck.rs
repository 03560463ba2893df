//! Holds together what needs no library of ours: the original's signatures, their storage, the storage read back, and
//! the loader's definitions.

use horn_oracle::command::{count_and_seed, fail};
use horn_oracle::damage::changed_number;
use horn_oracle::load::{load, reference};
use horn_oracle::load_cases::{Question, exhaustive, generated, large_questions, small_questions, unexpected_example};
use horn_oracle::load_definitions::defined;
use horn_oracle::load_rows::read_back;
use horn_oracle::loaded::{Answer, NUMBERS, Storage, counted};
use horn_oracle::random::Random;
use horn_oracle::shrink::shrunk;
use horn_oracle::tokens;
use horn_oracle::words;

/// From so many generated texts on, each number of the loader must occur among them.
const MANY: u64 = 10_000;

/// How often the storage of an accepted text is changed.
const CHANGES: usize = 6;

fn main() {
    let (count, seed) = count_and_seed("load_selfcheck");
    if let Some(example) = unexpected_example() {
        fail(&example);
    }
    let mut random = Random::new(seed);
    let fixed = small_questions().into_iter().chain(large_questions()).chain(exhaustive());
    println!("fixed: {}", counted(&checked(fixed, seed)));
    let counts = checked((0..count).map(|_| generated(&mut random)), seed);
    println!("generated: {}", counted(&counts));
    if let Some(number) = (17..NUMBERS).find(|&number| count >= MANY && counts[number] == 0) {
        fail(&format!("no generated text is refused by {number}"));
    }
}

/// Checks each question and tampers with the storage of accepted texts; tells how many were refused by each number.
fn checked(questions: impl Iterator<Item = Question>, seed: u64) -> [u64; NUMBERS] {
    let mut random = Random::new(seed);
    let mut counts = [0; NUMBERS];
    for question in questions {
        if fault(&question).is_some() {
            report(&shrunk(question, &|smaller| fault(smaller).is_some()));
        }
        let answer = answer(&question);
        if let Answer::Loaded(count, storage) = &answer {
            (0..CHANGES).for_each(|_| tamper(&mut random, &question.text, *count, storage));
        }
        counts[answer.number()] += 1;
    }
    counts
}

fn answer(Question { text, limits, lent }: &Question) -> Answer {
    reference(text, *limits, lent)
}

fn report(question: &Question) -> ! {
    println!("a text of {} bytes: {}", question.text.len(), fault(question).expect("the fault that was shrunk"));
    println!("  text   \"{}\"", question.text.escape_ascii());
    fail(&format!("  {:?}, lent {:?}", question.limits, question.lent));
}

/// What does not hold of a question, where the original's assertions count too.
fn fault(question: &Question) -> Option<String> {
    std::panic::catch_unwind(|| difference(question)).unwrap_or_else(|_| Some("an assertion failed".to_owned()))
}

/// Where the definitions, or the storage read back, are not what the original says.
fn difference(Question { text, limits, lent }: &Question) -> Option<String> {
    let original = load(text, *limits, lent);
    let listing = original.as_ref().ok().map(|loaded| loaded.listing());
    let original = original.map_or_else(|refusal| refusal, |loaded| loaded.answer());
    if !lent.suffices(*limits) {
        return (original.code() != 1 << 32)
            .then(|| format!("too little is lent, and the answer is {}", shown(&original)));
    }
    let other = match words::reference(text, limits.text, lent.tokens) {
        tokens::Answer::Refused { number, line } => Answer::Refused { number, line },
        tokens::Answer::Tokens(tokens) => match defined(text, &tokens, limits.nodes) {
            Ok((count, storage)) => Answer::Loaded(count, storage),
            Err(refusal) => Answer::Refused { number: refusal.number, line: refusal.line },
        },
    };
    if original != other {
        return Some(format!("the Rust says {}, the definitions {}", shown(&original), shown(&other)));
    }
    let Answer::Loaded(count, storage) = original else { return None };
    let listing = listing.expect("what is loaded is listed");
    match read_back(text, count, &storage) {
        Ok(read) if read == listing => None,
        Ok(read) => Some(format!("read back as\n{read}not as\n{listing}")),
        Err(cause) => Some(format!("the storage cannot be read back: {cause}")),
    }
}

fn shown(answer: &Answer) -> String {
    match answer {
        Answer::Refused { number, line } => format!("refused {number} line {line}"),
        Answer::Loaded(count, storage) => format!("{count} declarations, {storage:?}"),
    }
}

/// Changes one number, or drops, repeats or adds a row: that must be noticed when the storage is read back, or be seen
/// in the listing.
fn tamper(random: &mut Random, text: &[u8], count: usize, storage: &Storage) {
    if text.len() > 2_000 {
        return;
    }
    let mut changed = storage.clone();
    match random.below(12) {
        0..2 => change(random, &mut changed.sorts),
        2..4 => change(random, &mut changed.symbols),
        4..8 => change(random, &mut changed.rules),
        8..10 => change_words(random, &mut changed.words),
        10 => change(random, &mut changed.evals),
        _ => change(random, &mut changed.rows),
    }
    let seen = |storage: &Storage| read_back(text, count, storage);
    if changed != *storage && seen(&changed).is_ok_and(|read| Ok(read) == seen(storage)) {
        println!("  text   \"{}\"", text.escape_ascii());
        fail(&format!("changed storage is read like that of {count} declarations: {changed:?}"));
    }
}

fn change<const N: usize>(random: &mut Random, rows: &mut Vec<[u32; N]>) {
    if rows.is_empty() {
        return rows.push([1; N]);
    }
    let (at, other) = (random.below(rows.len()), random.below(rows.len()));
    match random.below(12) {
        0 => drop(rows.remove(at)),
        1 => rows.insert(at, rows[other]),
        2 => rows.swap(at, other),
        3 => rows.push(rows[other]),
        4 => rows[at] = rows[other],
        _ => {
            let column = if random.percent(50) { random.below(N.min(12)) } else { random.below(N) };
            let another = rows[other][random.below(N)];
            rows[at][column] = changed_number(random, rows[at][column], another);
        }
    }
}

fn change_words(random: &mut Random, words: &mut Vec<u32>) {
    if words.is_empty() {
        return words.push(1 << 20);
    }
    let (at, other) = (random.below(words.len()), random.below(words.len()));
    match random.below(8) {
        0 => drop(words.remove(at)),
        1 => words.insert(at, words[other]),
        2 => words.swap(at, other),
        3 => words.push(words[other]),
        _ => words[at] = changed_number(random, words[at], words[other]),
    }
}
