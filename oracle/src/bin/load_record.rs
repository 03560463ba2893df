//! Writes the fixed list of texts and the original's signatures as they are stored, to be replayed where no Rust is at
//! hand.

use horn_oracle::command::{folder, write_recorded};
use horn_oracle::load::reference;
use horn_oracle::load_cases::{Question, asked, generated};
use horn_oracle::load_examples::{Example, examples, large_examples};
use horn_oracle::loaded::{Lent, Limits};
use horn_oracle::random::Random;
use std::collections::HashSet;

/// Any seed serves, but the recorded list is that of this one.
const SEED: u64 = 2;

/// How many generated texts are added, and how long each may be.
const GENERATED: usize = 140;
const GENERATED_BYTES: usize = 280;

/// What the replaying program has to lend is enough for these limits; higher ones are refused by 1.
const LENT: Limits = Limits { text: 16_384, nodes: 4_096 };

/// An answer is long from so many bytes on, and so many of the long ones are recorded.
const LONG_ANSWER: usize = 2_500;
const LONG_ANSWERS: usize = 1;

fn main() -> std::io::Result<()> {
    let folder = folder("load_record");
    let (mut list, mut answers) = (Vec::new(), String::new());
    let recorded = recorded();
    for (index, (Question { text, limits, .. }, answer)) in recorded.iter().enumerate() {
        let heading = format!("{} {} {}\n", text.len(), limits.text, limits.nodes);
        list.extend_from_slice(&[heading.as_bytes(), text, b"\n"].concat());
        answers += &format!("text {}\n{answer}", index + 1);
    }
    write_recorded(&folder, &list, answers.as_bytes())?;
    let (count, bytes) = (recorded.len(), list.len());
    println!("{count} texts, {bytes} bytes of texts, {} bytes of answers", answers.len());
    Ok(())
}

/// Each question once with its answer: the fixed ones, some of those with many declarations, generated ones that are
/// short, and one under limits about those that are lent.
fn recorded() -> Vec<(Question, String)> {
    let mut random = Random::new(SEED);
    let short = |question: &Question| question.text.len() <= GENERATED_BYTES;
    let seeded = std::iter::repeat_with(|| generated(&mut random)).filter(short).take(GENERATED);
    let fixed = examples().into_iter().chain(full_examples()).map(|example| asked(&example));
    let (mut seen, mut long) = (HashSet::new(), 0);
    let mut recorded = Vec::new();
    for question in fixed.chain(seeded).map(lowered).chain(about_lent()) {
        let Question { text, limits, .. } = &question;
        let answer = reference(text, *limits, &Lent::least(LENT)).recorded(text);
        let is_long = answer.len() > LONG_ANSWER;
        if seen.insert((text.clone(), *limits)) && (!is_long || long < LONG_ANSWERS) {
            long += usize::from(is_long);
            recorded.push((question, answer));
        }
    }
    recorded
}

/// Of the texts with many declarations one for each count that is full; they begin differently.
fn full_examples() -> Vec<Example> {
    let mut examples = large_examples();
    examples.retain(|example| example.number == 28 && example.text.len() < LENT.text as usize);
    examples.dedup_by_key(|example| example.text[..6].to_owned());
    examples
}

/// The same with no more nodes in all than are lent.
fn lowered(mut question: Question) -> Question {
    question.limits.nodes = question.limits.nodes.min(LENT.nodes);
    question
}

/// A text under limits for which exactly enough is lent, and under such for which too little is.
fn about_lent() -> Vec<Question> {
    let limits = [(LENT.text, LENT.nodes), (LENT.text + 1, LENT.nodes), (LENT.text, LENT.nodes + 1), (65_536, 32_768)];
    let question = Question::exact(b"sort A", 0);
    limits.map(|(text, nodes)| Question { limits: Limits { text, nodes }, ..question.clone() }).to_vec()
}
