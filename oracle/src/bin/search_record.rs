//! Writes the fixed lists of goals and the original's answers, to be replayed where no Rust is at hand.

use horn_oracle::command::{folder, write_recorded};
use horn_oracle::evaluate::with_large_stack;
use horn_oracle::evaluate_cases::Program;
use horn_oracle::loaded::Limits;
use horn_oracle::random::Random;
use horn_oracle::search_cases::{Both, Question, ask_of, every_step, generated, lowered, with_asks, without_asks};
use horn_oracle::search_examples::examples;
use horn_oracle::searched::{Allowance, Ask};
use std::collections::HashSet;

/// Any seed serves, but the recorded list is that of this one.
const SEED: u64 = 2;

/// How many generated lists are added, and how long the text of each may be.
const GENERATED: usize = 260;
const GENERATED_BYTES: usize = 900;

/// What the replaying program has to lend is enough for these limits; under higher ones the text or the goal is refused by 1.
const LENT: Limits = Limits { text: 16_384, nodes: 4_096 };
const LENT_TO_GOALS: Allowance = Allowance { steps: 2_000, variables: 4_096, words: 8_192 };

/// What is recorded of a list has at most so many bytes.
const LONG_ANSWER: usize = 6_000;

/// A text, what is asked of each of its `#eval`, and what the answers are.
struct List {
    text: Vec<u8>,
    asks: Vec<Ask>,
    answers: String,
}

fn main() -> std::io::Result<()> {
    let folder = folder("search_record");
    let (mut list, mut answers, mut goals) = (Vec::new(), String::new(), 0);
    let recorded = with_large_stack(recorded);
    for (index, List { text, asks, answers: given }) in recorded.iter().enumerate() {
        let asked = |[steps, depth, step_limit, variables, words]: [u32; 5]| format!("{steps} {depth} {step_limit} {variables} {words}\n");
        let lines: String = asks.iter().map(Ask::numbers).map(asked).collect();
        let heading = format!("{} {} {} {}\n", text.len(), text.len(), LENT.nodes, lines.len());
        list.extend_from_slice(&[heading.as_bytes(), text, b"\n", lines.as_bytes()].concat());
        answers += &format!("text {}\n{given}", index + 1);
        goals += asks.len();
    }
    write_recorded(&folder, &list, answers.as_bytes())?;
    let (count, bytes) = (recorded.len(), list.len());
    println!("{count} texts with {goals} goals, {bytes} bytes of texts, {} bytes of answers", answers.len());
    Ok(())
}

/// Each list once with its answers: the examples, small searches with every number of steps, generated ones that are short, and
/// one under limits about those that are lent.
fn recorded() -> Vec<List> {
    let mut random = Random::new(SEED);
    let short = |question: &Question| question.text.len() <= GENERATED_BYTES;
    let seeded = std::iter::repeat_with(|| generated(&mut random)).filter(short);
    let fixed = examples().into_iter().map(|text| Question::new(&text)).chain(every_step(&[4, 8, 32]));
    let (mut seen, mut lists) = (HashSet::new(), Vec::new());
    let mut add = |question: Question| {
        let list = answered(&question.text).filter(|list| list.answers.len() <= LONG_ANSWER);
        let new = list.filter(|list| seen.insert((list.text.clone(), list.asks.clone())));
        let is_new = new.is_some();
        lists.extend(new);
        is_new
    };
    for question in fixed.chain([about_lent()]) {
        add(question);
    }
    seeded.filter(|question| add(question.clone())).take(GENERATED).for_each(drop);
    lists
}

fn is_lent(Allowance { steps, variables, words }: Allowance) -> bool {
    let Allowance { steps: most_steps, variables: most_variables, words: most_words } = LENT_TO_GOALS;
    steps <= most_steps && variables <= most_variables && words <= most_words
}

/// A list as it is recorded, all its `#eval` asked as goals; none where the text is not loaded.
fn answered(text: &[u8]) -> Option<List> {
    let load = |text: &[u8]| Program::load(text, Limits { text: text.len() as u32, nodes: LENT.nodes }).ok();
    let lines: Vec<u32> = load(text)?.storage.evals.iter().map(|[line, _]| *line).collect();
    let asks: Vec<Ask> = lines.iter().map(|line| lowered(ask_of(text, *line), &LENT_TO_GOALS)).collect();
    let asked = with_asks(text, &lines, &asks);
    let program = load(&asked)?;
    let (mut both, mut answers) = (Both::new(&program, &asked), String::new());
    for (eval, (line, ask)) in lines.iter().zip(&asks).enumerate() {
        let verdict = match is_lent(ask.limits) {
            false => "refused 1\n".to_owned(),
            true => {
                let (answer, _) = both.answer(eval).expect("the Rust and the definitions agree");
                both.listed(&answer, true)
            }
        };
        answers += &format!("eval {line} {verdict}");
    }
    both.is_asked().then(|| List { text: without_asks(text), asks, answers })
}

/// A goal under limits for which exactly enough is lent, and under such for which too little is.
fn about_lent() -> Question {
    let Allowance { steps, variables, words } = LENT_TO_GOALS;
    let limits = [
        [steps, variables, words],
        [steps + 1, variables, words],
        [steps, variables + 1, words],
        [steps, variables, words + 1],
        [u32::MAX, u32::MAX, u32::MAX],
        [0, 0, 0],
    ];
    let goal = |[steps, variables, words]: [u32; 3]| format!("#eval p ?x -- 9 4 {steps} {variables} {words}\n");
    Question::new(&format!("sort A ctor a : A pred p : A → Prop rule r : p a\n{}", limits.map(goal).concat()))
}
