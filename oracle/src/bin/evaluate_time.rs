//! Times both evaluators on the same terms in one run, in turn, so that both meet the same machine.

#[path = "../ours_evaluate.rs"]
mod ours;
#[path = "../ours_load.rs"]
mod ours_load;

use horn_oracle::evaluate::with_large_stack;
use horn_oracle::evaluate_cases::{BENCH, Program};
use horn_oracle::evaluate_texts::texts;
use horn_oracle::evaluated::{Answer, Buffers, COUNTS_READ, Lent, Stored, Terms, Value, WORDS};
use horn_oracle::loaded::{self, Limits, NODES};
use horn_oracle::timing::timed;
use horn_oracle::tokens::TEXT_BYTES;
use std::hint::black_box;
use std::time::Duration;

const RUNS: usize = 301;

fn main() {
    println!(
        "{:<11} {:>5} {:>6} {:>8} {:>13} {:>8} {:>13} {:>8} {:>13} {:>8}",
        "term", "calls", "words", "Rust µs", "fitting", "ours", "8,192 words", "ours", "most words", "ours"
    );
    for (name, text) in texts() {
        println!("{}", with_large_stack(|| measured(name, text.as_bytes())));
    }
    println!(
        "Medians of {RUNS} runs of each side, in turn: microseconds of the Rust's `expression`, of horn_evaluate under a limit"
    );
    println!(
        "on words that fits the term (the power of two above what it uses), under the bench program's and under the largest,"
    );
    println!("and how many times as fast as the Rust in the same runs ours is. The Rust's");
    println!(
        "signature is loaded, and its time includes making and freeing its terms and trees. horn_evaluate tests the signature"
    );
    println!("and the rows, and zeroes all that it is lent and does not use.");
}

fn measured(name: &str, text: &[u8]) -> String {
    let limits = Limits { text: TEXT_BYTES, nodes: NODES };
    let Ok(program) = Program::load(text, limits) else { panic!("a timed text is loaded") };
    let Ok((Answer::Value(value), true)) = program.agreed(text, 0, &mut Terms::default()) else {
        panic!("a timed term has a value");
    };
    let least = loaded::Lent::least(limits);
    let mut loaded = loaded::Buffers::default();
    loaded.reset(&least, 0, 0);
    assert_eq!(ours_load::load(text, limits, &least, &mut loaded) >> 32, 0, "a timed text is loaded");
    let (counts, at) = (&loaded.counts[..COUNTS_READ], loaded.evals[0][1] as usize);
    let pattern = &loaded.words[..counts[3] as usize];
    let loaded::Buffers { sorts, symbols, rules, rows, .. } = &loaded;
    let stored = Stored { text, sorts, symbols, rules, pattern, counts, rows };
    let rust = || program.loaded.original_evaluate(black_box(0)).expect("a timed term has a value");
    let fitting = (value.words as u32).next_power_of_two();
    let sides = [fitting, BENCH, WORDS].map(|limit| {
        let enough = value.words <= u64::from(limit);
        enough.then(|| {
            beside(|buffers, lent| ours::evaluate(black_box(&stored), limit, at, lent, buffers), limit, &value, rust)
        })
    });
    let [_, _, most] = sides;
    let (_, rust) = most.expect("the largest limit is enough");
    let shown = |side: Option<(f64, f64)>| match side {
        Some((ours, rust)) => format!("{ours:>13.1} {:>8.2}", rust / ours),
        None => format!("{:>13} {:>8}", "-", "-"),
    };
    let [fitting, bench, most] = sides.map(shown);
    format!("{name:<11} {:>5} {:>6} {rust:>8.1} {fitting} {bench} {most}", value.calls.len(), value.words)
}

/// The median times of ours under a limit and of the Rust, in turn.
fn beside(
    mut ours: impl FnMut(&mut Buffers, &Lent) -> u64,
    limit: u32,
    value: &Value,
    rust: impl Fn() -> usize,
) -> (f64, f64) {
    let lent = Lent::least(limit);
    let mut buffers = Buffers::default();
    buffers.reset(&lent, 0, 0);
    assert_eq!(ours(&mut buffers, &lent), 0, "both sides must agree first");
    let expected = [value.calls.len() as u32, value.words as u32];
    assert_eq!(buffers.results[1..3], expected, "both sides must agree first");
    let (mut our_times, mut rust_times) = (Vec::new(), Vec::new());
    for _ in 0..RUNS {
        our_times.push(timed(|| ours(&mut buffers, &lent)));
        rust_times.push(timed(&rust));
    }
    (median(our_times), median(rust_times))
}

/// The median time in microseconds, which a few disturbed runs do not move.
fn median(mut times: Vec<Duration>) -> f64 {
    times.sort();
    times[times.len() / 2].as_secs_f64() * 1e6
}
