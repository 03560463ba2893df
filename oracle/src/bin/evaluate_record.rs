//! Writes the fixed list of texts and the original's evaluations, to be replayed where no Rust is at hand.

use horn_oracle::command::{folder, write_recorded};
use horn_oracle::evaluate::with_large_stack;
use horn_oracle::evaluate_cases::{BENCH, Limit, Program, generated};
use horn_oracle::evaluate_examples::examples;
use horn_oracle::evaluated::{Terms, WORDS};
use horn_oracle::loaded::Limits;
use horn_oracle::random::Random;
use std::collections::HashSet;

/// Any seed serves, but the recorded list is that of this one.
const SEED: u64 = 2;

/// How many generated texts are added, and how long each may be.
const GENERATED: usize = 120;
const GENERATED_BYTES: usize = 500;

/// What the replaying program has to lend is enough for these limits; higher ones are refused by 1.
const LENT: Limits = Limits { text: 16_384, nodes: 4_096 };
const LENT_WORDS: u32 = 65_536;

/// What is recorded of an `#eval` has at most so many bytes, and no term of more nodes.
const LONG_ANSWER: usize = 3_000;
const LARGE_TERM: u64 = 300;

/// A text and the limits under which it is loaded and evaluated.
#[derive(Clone)]
struct Text {
    text: String,
    limits: Limits,
    words: u32,
}

fn main() -> std::io::Result<()> {
    let folder = folder("evaluate_record");
    let (mut list, mut answers, mut evals) = (String::new(), String::new(), 0);
    let recorded = with_large_stack(recorded);
    for (index, (Text { text, limits, words }, answer)) in recorded.iter().enumerate() {
        list += &format!("{} {} {} {words}\n{text}\n", text.len(), limits.text, limits.nodes);
        answers += &format!("text {}\n{answer}", index + 1);
        evals += answer.lines().filter(|line| line.starts_with("eval ")).count();
    }
    write_recorded(&folder, list.as_bytes(), answers.as_bytes())?;
    let (count, bytes) = (recorded.len(), list.len());
    println!("{count} texts with {evals} evaluations, {bytes} bytes of texts, {} bytes of answers", answers.len());
    Ok(())
}

/// Each text once with its answers: the examples, generated ones that are short, and one under limits about those that are
/// lent.
fn recorded() -> Vec<(Text, String)> {
    let mut seen = HashSet::new();
    let texts = joined_examples().into_iter().chain(generated_texts()).chain(about_lent());
    let new = |text: &Text| seen.insert((text.text.clone(), text.limits, text.words));
    let answered = |text: Text| {
        let answer = answer(&text);
        (text, answer)
    };
    texts.filter(new).map(answered).collect()
}

fn exact(text: String, words: u32) -> Text {
    let limits = Limits { text: text.len() as u32, nodes: LENT.nodes };
    Text { text, limits, words }
}

/// Where more is set than is lent, the text is refused by 1, or else each evaluation.
fn answer(Text { text, limits, words }: &Text) -> String {
    if limits.text > LENT.text || limits.nodes > LENT.nodes {
        return "refused 1 line 0\n".to_owned();
    }
    match Program::load(text.as_bytes(), *limits) {
        Err(refusal) => refusal.recorded(text.as_bytes()),
        Ok(program) if *words > LENT_WORDS => {
            let line = |(eval, [line, _]): (usize, &[u32; 2])| match program.loaded.is_forward_call(eval) {
                true => format!("eval {line} refused 1\n"),
                false => format!("eval {line} goal\n"),
            };
            program.storage.evals.iter().enumerate().map(line).collect()
        }
        Ok(program) => program.listing(text.as_bytes(), *words),
    }
}

/// Whether all that is recorded of a text is short.
fn is_short(text: &Text) -> bool {
    let Ok(program) = Program::load(text.text.as_bytes(), text.limits) else { return true };
    let (bytes, words) = (text.text.as_bytes(), text.words);
    (0..program.storage.evals.len()).all(|eval| {
        program.largest(bytes, eval, words) <= LARGE_TERM && program.recorded(bytes, eval, words).len() <= LONG_ANSWER
    })
}

/// The examples under no higher limits than are lent. Those that differ only in their last `#eval` make one text.
fn joined_examples() -> Vec<Text> {
    let mut texts: Vec<(usize, Text)> = Vec::new();
    for example in examples() {
        let words = example.limit.min(LENT_WORDS);
        let start = example.text.rfind("#eval").expect("an example ends in an `#eval`");
        let (before, last) = example.text.split_at(start);
        if !is_short(&exact(example.text.clone(), words)) {
            continue;
        }
        let same = |(end, text): &&mut (usize, Text)| text.words == words && text.text[..*end] == *before;
        match texts.iter_mut().find(same) {
            Some((_, text)) => *text = exact(format!("{}\n{last}", text.text), words),
            None => texts.push((start, exact(example.text.clone(), words))),
        }
    }
    texts.into_iter().map(|(_, text)| text).collect()
}

fn generated_texts() -> Vec<Text> {
    let mut random = Random::new(SEED);
    let texts = std::iter::repeat_with(|| {
        let question = generated(&mut random);
        let text = String::from_utf8(question.text).unwrap_or_default();
        let words = match question.limit {
            Limit::Words(words) => words.min(LENT_WORDS),
            Limit::Used(_) => about_used(&text, question.limit),
        };
        exact(text, words)
    });
    texts.filter(|text| (1..=GENERATED_BYTES).contains(&text.text.len()) && is_short(text)).take(GENERATED).collect()
}

/// The limit for the first value of a text.
fn about_used(text: &str, limit: Limit) -> u32 {
    let Ok(program) = Program::load(text.as_bytes(), Limits { text: text.len() as u32, nodes: LENT.nodes }) else {
        return BENCH;
    };
    let answers = (0..program.storage.evals.len())
        .map(|eval| program.agreed(text.as_bytes(), eval, &mut Terms::default()).expect("both sides agree").0);
    answers.into_iter().find(|answer| answer.number() == 0).map_or(BENCH, |answer| limit.words(&answer).min(LENT_WORDS))
}

/// A text under limits for which exactly enough is lent, and under such for which too little is.
fn about_lent() -> Vec<Text> {
    let text = "sort A ctor a : A def f : A | => a\n#eval f\n#eval f = a".to_owned();
    let limits = [
        (LENT.text, LENT.nodes, LENT_WORDS),
        (LENT.text, LENT.nodes, LENT_WORDS + 1),
        (LENT.text, LENT.nodes, WORDS),
        (LENT.text, LENT.nodes, u32::MAX),
        (LENT.text + 1, LENT.nodes, LENT_WORDS),
        (LENT.text, LENT.nodes + 1, LENT_WORDS),
    ];
    limits
        .map(|(bytes, nodes, words)| Text { text: text.clone(), limits: Limits { text: bytes, nodes }, words })
        .to_vec()
}
