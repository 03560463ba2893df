//! Writes the fixed list of texts and the original's answers, to be replayed where no Rust is at hand.

use horn_oracle::boundary::{commented, small_boundaries};
use horn_oracle::cases::{Case, generated};
use horn_oracle::command::{folder, write_recorded};
use horn_oracle::random::Random;
use horn_oracle::tokens::TEXT_BYTES;
use horn_oracle::words::reference;
use std::collections::HashSet;

/// Any seed serves, but the recorded list is that of this one.
const SEED: u64 = 2;

/// How many generated texts are added, and how long each may be.
const GENERATED: usize = 150;
const GENERATED_BYTES: usize = 160;

fn main() -> std::io::Result<()> {
    let folder = folder("record");
    let (mut questions, mut answers) = (Vec::new(), Vec::new());
    let cases = recorded();
    for (index, case) in cases.iter().enumerate() {
        questions.extend_from_slice(&question(case));
        answers.extend_from_slice(format!("text {}\n", index + 1).as_bytes());
        answers.extend_from_slice(&reference(&case.text, case.limit, case.rows).listing(&case.text));
    }
    write_recorded(&folder, &questions, &answers)?;
    println!("{} texts, {} bytes of texts, {} bytes of answers", cases.len(), questions.len(), answers.len());
    Ok(())
}

/// The line `LENGTH LIMIT ROWS`, the text's bytes, and a line end.
fn question(Case { text, limit, rows }: &Case) -> Vec<u8> {
    [format!("{} {limit} {rows}\n", text.len()).as_bytes(), text, b"\n"].concat()
}

/// Each question once: the fixed ones, generated ones that are short, and three about the greatest length.
fn recorded() -> Vec<Case> {
    let mut random = Random::new(SEED);
    let short = |case: &Case| case.text.len() <= GENERATED_BYTES && case.rows <= TEXT_BYTES as usize;
    let seeded = std::iter::repeat_with(|| generated(&mut random)).filter(short).take(GENERATED);
    let mut seen = HashSet::new();
    let all = small_boundaries().into_iter().chain(seeded).chain(longest());
    all.filter(|case| seen.insert(case.clone())).collect()
}

/// The last line that a text can have, the last places, and one byte too many.
fn longest() -> [Case; 3] {
    let rows = TEXT_BYTES as usize;
    let mut lines = vec![b'\n'; rows - 1];
    lines[rows - 2] = b'-';
    [
        Case::new(&lines, TEXT_BYTES - 1, rows - 1),
        Case::new(&commented(rows), u32::MAX, rows),
        Case::new(&commented(rows + 1), TEXT_BYTES + 1, rows),
    ]
}
