//! Holds together what needs no library of ours: the original's answers, their rows, the rows read back, and the
//! parser's definitions.

use horn_oracle::command::{count_and_seed, fail};
use horn_oracle::declared::{Answer, Listed, NUMBERS, counted, listing};
use horn_oracle::definitions::defined;
use horn_oracle::parse::{declarations, reference};
use horn_oracle::parse_cases::{Question, exhaustive, generated, large_questions, small_questions, unexpected_example};
use horn_oracle::random::Random;
use horn_oracle::rows::decoded;
use horn_oracle::shrink::shrunk;
use horn_oracle::tokens::{self, Row};
use horn_oracle::words;

/// From so many generated texts on, each number of the parser must occur among them.
const MANY: u64 = 10_000;

fn main() {
    let (count, seed) = count_and_seed("parse_selfcheck");
    if let Some(example) = unexpected_example() {
        fail(&example);
    }
    let mut random = Random::new(seed);
    let fixed = small_questions().into_iter().chain(large_questions()).chain(exhaustive());
    println!("fixed: {}", counted(&checked(fixed, seed)));
    let counts = checked((0..count).map(|_| generated(&mut random)), seed);
    println!("generated: {}", counted(&counts));
    if let Some(number) = (7..NUMBERS).find(|&number| count >= MANY && counts[number] == 0) {
        fail(&format!("no generated text is refused by {number}"));
    }
}

/// Checks each question and tampers with the rows of accepted texts; tells how many were refused by each number.
fn checked(questions: impl Iterator<Item = Question>, seed: u64) -> [u64; NUMBERS] {
    let mut random = Random::new(seed);
    let mut counts = [0; NUMBERS];
    for question in questions {
        if fault(&question).is_some() {
            report(&shrunk(question, &|smaller| fault(smaller).is_some()));
        }
        let answer = answer(&question);
        if let Answer::Declared { count, rows, .. } = &answer {
            tamper(&mut random, &question.text, *count, rows);
        }
        counts[answer.number()] += 1;
    }
    counts
}

fn answer(question: &Question) -> Answer {
    reference(&question.text, question.limit, question.tokens, question.rows)
}

fn report(question: &Question) -> ! {
    println!("a text of {} bytes: {}", question.text.len(), fault(question).expect("the fault that was shrunk"));
    println!("  text   \"{}\"", question.text.escape_ascii());
    fail(&format!("  limit {}, rows {} and {}", question.limit, question.tokens, question.rows));
}

/// What does not hold of a question, where the original's assertions count too.
fn fault(question: &Question) -> Option<String> {
    std::panic::catch_unwind(|| difference(question)).unwrap_or_else(|_| Some("an assertion failed".to_owned()))
}

/// Where the definitions, or the rows read back, are not what the original says.
fn difference(Question { text, limit, tokens, rows }: &Question) -> Option<String> {
    let lexed = words::reference(text, *limit, (*tokens).min(*rows));
    let original = declarations(text, *limit, *tokens, *rows);
    let tokens = match (lexed, &original) {
        (tokens::Answer::Tokens(tokens), _) => tokens,
        (refused, Err(refusal)) if refused.code() == refusal.code() => return None,
        _ => return Some("a text that the lexer refuses is parsed".to_owned()),
    };
    match (original, defined(text, &tokens)) {
        (Err(refusal), Err((number, line))) if refusal == (Answer::Refused { number, line }) => None,
        (Ok(declarations), Ok((count, taken, rows))) => {
            let expected = Answer::Declared { count, tokens: tokens.clone(), rows: rows.clone() };
            if declarations.answer(text) != expected || taken != tokens.len() || rows.len() > tokens.len() {
                return Some(format!("the Rust's rows are not those of the definitions, {rows:?}"));
            }
            misread(text, count, rows, &declarations.listed())
        }
        (Ok(_), Err(refusal)) => Some(format!("the Rust accepts it, the definitions refuse it by {refusal:?}")),
        (Err(refusal), defined) => {
            let defined = defined.map(|(count, ..)| format!("{count} declarations"));
            Some(format!("the Rust says {}, the definitions {defined:?}", refusal.recorded().trim_end()))
        }
    }
}

/// What is wrong with the rows as read back, zero rows after them.
fn misread(text: &[u8], count: usize, mut rows: Vec<Row>, listed: &[Listed]) -> Option<String> {
    rows.resize(text.len() + 1, [0; 4]);
    match decoded(text, count, &rows) {
        Ok(read) if read == listed => None,
        Ok(read) => Some(format!("read back as\n{}not as\n{}", listing(&read), listing(listed))),
        Err(cause) => Some(format!("the rows cannot be read back: {cause}")),
    }
}

/// Changes one number, or drops, repeats or adds a row: that must be noticed when the rows are read back, or be seen in
/// the listing.
fn tamper(random: &mut Random, text: &[u8], count: usize, rows: &[Row]) {
    let mut changed = rows.to_vec();
    changed.push([0; 4]);
    let (at, column) = (random.below(changed.len()), random.below(4));
    match random.below(10) {
        0 => drop(changed.remove(at)),
        1 => changed.insert(at, changed[random.below(rows.len().max(1))]),
        2 => changed.push([0, 0, 0, 1]),
        3 => changed[at][column] = random.pick(&[0, 1, 12, 13, 14, 24, u32::MAX]),
        4 => changed[at][column] = changed[random.below(rows.len().max(1))][random.below(4)],
        5 => changed[at] = changed[random.below(rows.len().max(1))],
        6 => changed[at][column] = changed[at][column].wrapping_sub(1),
        _ => changed[at][column] = changed[at][column].wrapping_add(1),
    }
    let other_count = if random.percent(10) { count + 1 } else { count };
    let same =
        changed[..rows.len().min(changed.len())] == *rows && changed.iter().skip(rows.len()).all(|row| *row == [0; 4]);
    if (same && other_count == count) || rows.len() > 2_000 {
        return;
    }
    let read = decoded(text, other_count, &changed);
    if read.is_ok_and(|read| Ok(read) == decoded(text, count, rows)) {
        println!("  text   \"{}\"", text.escape_ascii());
        fail(&format!("changed rows are read like those of {count} declarations: {changed:?}"));
    }
}
