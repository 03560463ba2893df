//! Asks both sides the same questions and stops at the first that they answer differently.

#[path = "../ours.rs"]
mod ours;

use horn_oracle::boundary::{boundaries, short_texts};
use horn_oracle::cases::{Case, generated};
use horn_oracle::command::count_and_seed;
use horn_oracle::random::Random;
use horn_oracle::shrink::shrunk;
use horn_oracle::tokens::{Answer, Row};
use horn_oracle::words::reference;

/// What a row holds before the call; no answer can leave it there.
const JUNK: Row = [0xDEAD_BEEF; 4];

/// Rows after the lent ones, which nobody may write.
const GUARD: usize = 4;

/// What one side did: its result, and the lent rows with the guard after them.
struct Outcome {
    code: u64,
    rows: Vec<Row>,
}

fn main() {
    let (count, seed) = count_and_seed("compare");
    let mut random = Random::new(seed);
    let seeded = (0..count).map(|_| generated(&mut random));
    let mut counts = [0_u64; 7];
    for case in boundaries().into_iter().chain(short_texts()).chain(seeded) {
        let answer = answer(&case);
        if differs(&case, &answer) {
            report(&shrunk(case, &still_differs));
            std::process::exit(1);
        }
        counts[answer.number()] += 1;
    }
    println!("{}", summary(&counts));
}

fn summary(counts: &[u64; 7]) -> String {
    let refusals: Vec<String> = (1..7).map(|number| format!("{number}: {}", counts[number])).collect();
    let total: u64 = counts.iter().sum();
    format!("{total} texts, no difference: {} accepted, refused by {}", counts[0], refusals.join(", "))
}

fn answer(case: &Case) -> Answer {
    reference(&case.text, case.limit, case.rows)
}

fn expected(case: &Case, answer: &Answer) -> Outcome {
    let mut rows = vec![JUNK; case.rows + GUARD];
    answer.leave_in(&mut rows[..case.rows]);
    Outcome { code: answer.code(), rows }
}

fn actual(case: &Case) -> Outcome {
    let mut rows = vec![JUNK; case.rows + GUARD];
    let code = ours::lex(&case.text, case.limit, &mut rows[..case.rows]);
    Outcome { code, rows }
}

fn differs(case: &Case, answer: &Answer) -> bool {
    let (expected, actual) = (expected(case, answer), actual(case));
    expected.code != actual.code || expected.rows != actual.rows
}

fn still_differs(case: &Case) -> bool {
    differs(case, &answer(case))
}

fn report(case: &Case) {
    let answer = answer(case);
    let (expected, actual) = (expected(case, &answer), actual(case));
    println!("the sides differ on a text of {} bytes, limit {}, rows {}:", case.text.len(), case.limit, case.rows);
    println!("  text   \"{}\"", case.text.escape_ascii());
    println!("  hex    {}", case.text.iter().map(|byte| format!("{byte:02x}")).collect::<String>());
    println!("  Rust   {}", described(expected.code));
    println!("  ours   {}", described(actual.code));
    let differing = (0..expected.rows.len()).filter(|&at| expected.rows[at] != actual.rows[at]);
    for at in differing.take(5) {
        let place = if at < case.rows { "row" } else { "row after the lent ones" };
        println!("  {place} {at}: Rust {:?}, ours {:?}", expected.rows[at], actual.rows[at]);
    }
}

fn described(code: u64) -> String {
    match (code >> 32, code as u32) {
        (0, count) => format!("{count} tokens"),
        (number, line) => format!("refused {number} line {line}"),
    }
}
