//! Asks both parsers the same questions and stops at the first that they answer differently.

#[path = "../ours.rs"]
mod ours;

use horn_oracle::command::{count_and_seed, fail};
use horn_oracle::declared::{NUMBERS, counted, listing};
use horn_oracle::parse::{declarations, reference};
use horn_oracle::parse_cases::{Question, exhaustive, generated, large_questions, small_questions, unexpected_example};
use horn_oracle::random::Random;
use horn_oracle::rows::decoded;
use horn_oracle::shrink::shrunk;
use horn_oracle::tokens::Row;

/// What a row holds before the call; no answer can leave it there.
const JUNK: Row = [0xDEAD_BEEF; 4];

/// Rows after the lent ones, which nobody may write.
const GUARD: usize = 4;

/// What one side did: its result, and the lent rows of both buffers with the guards after them.
#[derive(PartialEq)]
struct Outcome {
    code: u64,
    tokens: Vec<Row>,
    rows: Vec<Row>,
}

fn main() {
    let (count, seed) = count_and_seed("parse_compare");
    if let Some(example) = unexpected_example() {
        fail(&example);
    }
    let mut random = Random::new(seed);
    let seeded = (0..count).map(|_| generated(&mut random));
    let fixed = small_questions().into_iter().chain(large_questions()).chain(exhaustive());
    let mut counts = [0; NUMBERS];
    for question in fixed.chain(seeded) {
        if differs(&question) {
            report(&shrunk(question, &differs));
            std::process::exit(1);
        }
        counts[(expected(&question).code >> 32) as usize] += 1;
    }
    println!("{}", counted(&counts));
}

/// Runs one side on buffers of junk, guards behind the lent rows.
fn outcome(question: &Question, side: impl FnOnce(&mut [Row], &mut [Row]) -> u64) -> Outcome {
    let mut tokens = vec![JUNK; question.tokens + GUARD];
    let mut rows = vec![JUNK; question.rows + GUARD];
    let code = side(&mut tokens[..question.tokens], &mut rows[..question.rows]);
    Outcome { code, tokens, rows }
}

fn expected(question: &Question) -> Outcome {
    outcome(question, |tokens, rows| {
        let answer = reference(&question.text, question.limit, tokens.len(), rows.len());
        answer.leave_in(tokens, rows);
        answer.code()
    })
}

fn actual(question: &Question) -> Outcome {
    outcome(question, |tokens, rows| ours::parse(&question.text, question.limit, tokens, rows))
}

fn differs(question: &Question) -> bool {
    let actual = actual(question);
    actual != expected(question) || misread(question, &actual).is_some()
}

/// Where our rows, read back with nothing but the text, are not what the original lists.
fn misread(Question { text, limit, tokens, rows }: &Question, actual: &Outcome) -> Option<String> {
    let original = declarations(text, *limit, *tokens, *rows).ok()?.listed();
    match decoded(text, actual.code as u32 as usize, &actual.rows[..*rows]) {
        Ok(read) if read == original => None,
        Ok(read) => Some(format!("ours read\n{}the Rust's are\n{}", listing(&read), listing(&original))),
        Err(cause) => Some(format!("ours cannot be read: {cause}")),
    }
}

fn report(question: &Question) {
    let (expected, actual) = (expected(question), actual(question));
    let Question { text, limit, tokens, rows } = question;
    println!("the sides differ on a text of {} bytes, limit {limit}, rows {tokens} and {rows}:", text.len());
    println!("  text   \"{}\"", text.escape_ascii());
    println!("  hex    {}", text.iter().map(|byte| format!("{byte:02x}")).collect::<String>());
    println!("  Rust   {}", described(expected.code));
    println!("  ours   {}", described(actual.code));
    report_rows("token row", *tokens, &expected.tokens, &actual.tokens);
    report_rows("row", *rows, &expected.rows, &actual.rows);
    misread(question, &actual).into_iter().for_each(|difference| println!("  {difference}"));
}

fn report_rows(name: &str, lent: usize, expected: &[Row], actual: &[Row]) {
    let differing = (0..expected.len()).filter(|&at| expected[at] != actual[at]);
    for at in differing.take(5) {
        let after = if at < lent { "" } else { " after the lent ones" };
        println!("  {name}{after} {at}: Rust {:?}, ours {:?}", expected[at], actual[at]);
    }
}

fn described(code: u64) -> String {
    match (code >> 32, code as u32) {
        (0, count) => format!("{count} declarations"),
        (number, line) => format!("refused {number} line {line}"),
    }
}
