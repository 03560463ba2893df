//! Times the original's search and another one over lent storage on the same goals in one run, in turn, so that both meet the same
//! machine.

use crate::evaluate_cases::Program;
use crate::evaluated::Terms;
use crate::loaded::{self, Limits as TextLimits, NODES};
use crate::search::Session;
use crate::search_cases::{Both, Question, ask_of, with_asks};
use crate::search_compared::{Posed, Searching};
use crate::search_definitions as definitions;
use crate::search_texts::texts;
use crate::searched::{Allowance, Ask, Buffers, Counts, Given, Lent, STEPS, VARIABLES, WORDS};
use crate::timing::processor_timed;
use crate::tokens::TEXT_BYTES;
use std::time::{Duration, Instant};

/// Each text is run at least so often, and on until it has taken so long.
const RUNS: usize = 5;
const TIME: Duration = Duration::from_millis(400);

/// A line for each text: goals, steps of their last bounds, the original's median time for such a step; and the time of the search on
/// storage that is known to be in form, under limits that fit, and that of the search that tests its storage, under those and under
/// document 01's: each for a step, and how many times as fast as the original in the same runs. Only texts whose name starts so are
/// timed.
pub fn table(searching: &mut impl Searching, cleared: &mut impl Searching, start: &str) -> String {
    let columns = [
        "count", "steps", "variables", "words", "Rust µs", "Rust ns/step", "cleared", "ours", "tested", "ours", "most",
        "ours",
    ];
    let columns: String = columns.iter().zip(WIDTHS).map(|(name, width)| format!(" {name:>width$}")).collect();
    let mut table = format!("{:<20}{columns}\n", "goals");
    for (name, text) in texts().into_iter().filter(|(name, _)| name.starts_with(start)) {
        table += &format!("{name:<20}{}\n", line(text.as_bytes(), searching, cleared));
    }
    table
}

const WIDTHS: [usize; 12] = [5, 11, 9, 7, 10, 12, 10, 7, 10, 7, 10, 7];

fn line(text: &[u8], searching: &mut impl Searching, cleared: &mut impl Searching) -> String {
    let fitted = fitted(text);
    let known = measured(&fitted, cleared);
    let [fitting, most] = [&fitted[..], text].map(|text| measured(text, searching));
    let Allowance { steps: step_limit, variables, words } = fitting.limits;
    let a_step = |time: f64| time * 1e3 / f64::from(fitting.steps.max(1));
    let cells = [
        fitting.goals.to_string(),
        format!("{}/{step_limit}", fitting.steps),
        variables.to_string(),
        words.to_string(),
        format!("{:.1}", fitting.rust),
        format!("{:.0}", a_step(fitting.rust)),
        format!("{:.0}", a_step(known.ours)),
        format!("{:.2}", known.rust / known.ours),
        format!("{:.0}", a_step(fitting.ours)),
        format!("{:.2}", fitting.rust / fitting.ours),
        format!("{:.0}", a_step(most.ours)),
        format!("{:.2}", most.rust / most.ours),
    ];
    cells.iter().zip(WIDTHS).map(|(cell, width)| format!(" {cell:>width$}")).collect()
}

/// The same goals under the bench program's limits, each doubled until it fits.
fn fitted(text: &[u8]) -> Vec<u8> {
    let program = Question { text: text.to_vec() }.load().expect("a timed text is loaded");
    let lines: Vec<u32> = program.storage.evals.iter().map(|[line, _]| *line).collect();
    let asks: Vec<Ask> = lines.iter().map(|line| ask_of(text, *line)).collect();
    let (mut session, terms) = (definitions::Session::new(&program.signature), &mut Terms::default());
    let mut limits = Ask::BENCH.limits;
    let double = |limit: &mut u32, least: u64, most: u32| {
        while u64::from(*limit) < least {
            *limit *= 2;
        }
        *limit = most.min(*limit);
    };
    for (eval, ask) in asks.iter().enumerate() {
        let asked = session.ask(&program.term(text, eval), ask, terms);
        double(&mut limits.steps, u64::from(asked.answer.steps) + 1, STEPS);
        double(&mut limits.variables, asked.most.variables, VARIABLES);
        double(&mut limits.words, asked.most.words, WORDS);
    }
    let lower = |ask: &Ask| Ask { steps: ask.steps.min(limits.steps), limits, ..*ask };
    with_asks(text, &lines, &asks.iter().map(lower).collect::<Vec<Ask>>())
}

/// Goals, steps of their last bounds, the limits of the first, and the median times of both sides in microseconds.
struct Measured {
    goals: usize,
    steps: u32,
    limits: Allowance,
    rust: f64,
    ours: f64,
}

fn measured(text: &[u8], searching: &mut impl Searching) -> Measured {
    let (question, limits) = (Question { text: text.to_vec() }, TextLimits { text: TEXT_BYTES, nodes: NODES });
    let program = question.load().expect("a timed text is loaded");
    let least = loaded::Lent::least(limits);
    let mut stored = loaded::Buffers::default();
    stored.reset(&least, 0, 0);
    assert_eq!(searching.load(text, limits, &least, &mut stored) >> 32, 0, "a timed text is loaded");
    let mut both = Both::new(&program, text);
    let asks: Vec<Ask> = (0..program.storage.evals.len()).map(|eval| both.ask_of(eval)).collect();
    let answered = |eval: usize| {
        let (answer, _) = both.answer(eval).expect("the Rust and the definitions agree");
        let standing = both.standing(0).expect("the Rust and the definitions agree");
        Given::expected(&answer, &standing)
    };
    let expected: Vec<Given> = (0..asks.len()).map(answered).collect();
    let most = asks.iter().fold(Lent::used(&Counts::default()), |lent, ask| lent.joined(&Lent::least(&ask.limits)));
    let mut list =
        List { text, program: &program, stored: &stored, asks: &asks, buffers: Buffers::new(&most, 0, 0), most };
    let (mut our_times, mut rust_times, start) = (Vec::new(), Vec::new(), Instant::now());
    while our_times.len() < RUNS || start.elapsed() < TIME {
        our_times.push(list.ours(searching, &expected));
        rust_times.push(list.rust());
    }
    let [ours, rust] = [our_times, rust_times].map(median);
    Measured { goals: asks.len(), steps: expected.iter().map(steps).sum(), limits: asks[0].limits, rust, ours }
}

fn steps(given: &Given) -> u32 {
    match given {
        Given::Refused(_) => 0,
        Given::Proved { steps, .. } | Given::Nothing { steps, .. } | Given::Undecided { steps, .. } => *steps,
    }
}

/// The median time in microseconds, which a few disturbed runs do not move.
fn median(mut times: Vec<Duration>) -> f64 {
    times.sort();
    times[times.len() / 2].as_secs_f64() * 1e6
}

struct List<'a> {
    text: &'a [u8],
    program: &'a Program,
    stored: &'a loaded::Buffers,
    asks: &'a [Ask],
    most: Lent,
    buffers: Buffers,
}

impl List<'_> {
    /// All goals in a new session, which is opened before.
    fn rust(&self) -> Duration {
        let mut session = Session::loaded(&self.program.loaded);
        processor_timed(|| {
            for (eval, ask) in self.asks.iter().enumerate() {
                session.ask_eval(&self.program.loaded, eval, [ask.steps, ask.depth], None, false);
            }
        })
    }

    fn ours(&mut self, searching: &mut impl Searching, expected: &[Given]) -> Duration {
        let Lent { words, bindings, .. } = self.most;
        let limits = Allowance { steps: 0, variables: bindings as u32, words: words as u32 };
        assert_eq!(searching.open(&limits, &self.most, &mut self.buffers), 0, "a session is opened");
        let (mut counts, mut given) = (Counts::default(), Vec::new());
        let time = processor_timed(|| {
            for (ask, [_, at]) in self.asks.iter().zip(&self.program.storage.evals) {
                let posed = Posed { text: self.text, stored: self.stored, at: *at as usize, ask: *ask };
                let answer = searching.prove(&posed, counts, &self.most, &mut self.buffers);
                counts = answer.counts().unwrap_or(counts);
                given.push(answer);
            }
        });
        assert_eq!(given, expected, "both sides must agree");
        time
    }
}
