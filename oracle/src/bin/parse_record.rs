//! Writes the fixed list of texts and the original's declarations as rows, to be replayed where no Rust is at hand.

use horn_oracle::command::{folder, write_recorded};
use horn_oracle::parse::reference;
use horn_oracle::parse_cases::{Question, generated, small_questions};
use horn_oracle::random::Random;
use std::collections::HashSet;

/// Any seed serves, but the recorded list is that of this one.
const SEED: u64 = 2;

/// How many generated texts are added, and how long each may be.
const GENERATED: usize = 150;
const GENERATED_BYTES: usize = 160;

fn main() -> std::io::Result<()> {
    let folder = folder("parse_record");
    let (mut list, mut answers) = (Vec::new(), String::new());
    let questions = recorded();
    for (index, question) in questions.iter().enumerate() {
        let Question { text, limit, tokens, rows } = question;
        list.extend_from_slice(&[format!("{} {limit} {rows}\n", text.len()).as_bytes(), text, b"\n"].concat());
        answers += &format!("text {}\n{}", index + 1, reference(text, *limit, *tokens, *rows).recorded());
    }
    write_recorded(&folder, &list, answers.as_bytes())?;
    let most = questions.iter().map(|question| question.rows).max().expect("there are questions");
    let (count, bytes) = (questions.len(), list.len());
    println!("{count} texts, {bytes} bytes of texts, {} bytes of answers, at most {most} rows lent", answers.len());
    Ok(())
}

/// Each question with as many rows for tokens as for declarations, once: the fixed ones and generated ones that are short.
fn recorded() -> Vec<Question> {
    let mut random = Random::new(SEED);
    let short = |question: &Question| question.text.len() <= GENERATED_BYTES && question.rows <= GENERATED_BYTES + 4;
    let seeded = std::iter::repeat_with(|| generated(&mut random)).filter(short).filter(even).take(GENERATED);
    let mut seen = HashSet::new();
    let all = small_questions().into_iter().filter(even).chain(seeded);
    all.filter(|question| seen.insert(question.clone())).collect()
}

fn even(question: &Question) -> bool {
    question.tokens == question.rows
}
