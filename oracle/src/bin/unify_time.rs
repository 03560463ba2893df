//! Times both unifications on the same random pairs, and on towers of shared terms.

#[path = "../ours.rs"]
mod ours;

use horn_oracle::random::Random;
use horn_oracle::unify::Problem;
use ours::Storage;
use std::hint::black_box;
use std::time::Instant;

const PAIRS: usize = 400;
const RUNS: usize = 101;
const WORDS: usize = 200;

/// The Rust's time doubles at each level, so it is asked only so far.
const TALLEST: usize = 20;

fn main() {
    println!("{:<36} {:>6} {:>12} {:>12} {:>11}", "pairs", "unify", "ours a second", "Rust a second", "ours / Rust");
    let mut random = Random::new(1);
    measured("random", &large(|| Problem::random(&mut random, 8)));
    measured("a term and a more general one", &large(|| Problem::matching(&mut random, 5)));
    println!("{PAIRS} pairs of at least {WORDS} words in each row; medians of {RUNS} runs of each side, in turn. Both sides take their new bindings back.\n");
    println!("{:>6} {:>12} {:>12}", "height", "ours us", "Rust us");
    for height in [5, 10, 15, TALLEST, 100, 1000] {
        println!("{}", towers(height));
    }
}

/// Small pairs end before they have begun.
fn large(pair: impl FnMut() -> Problem) -> Vec<Problem> {
    std::iter::repeat_with(pair).filter(|problem| problem.words.len() >= WORDS).take(PAIRS).collect()
}

fn measured(name: &str, problems: &[Problem]) {
    let mut originals: Vec<_> = problems.iter().map(Problem::original).collect();
    let before: Vec<Storage> = problems.iter().map(Storage::new).collect();
    let (mut storages, mut our_times, mut rust_times) = (before.clone(), Vec::new(), Vec::new());
    for _ in 0..RUNS {
        our_times.push(seconds(|| {
            for ((problem, storage), before) in problems.iter().zip(&mut storages).zip(&before) {
                black_box(ours::unify_unchecked(problem, storage));
                storage.bindings.copy_from_slice(&before.bindings);
            }
        }));
        rust_times.push(seconds(|| originals.iter_mut().for_each(|original| _ = black_box(original.unify()))));
    }
    let (ours, rust) = (PAIRS as f64 / median(our_times), PAIRS as f64 / median(rust_times));
    let unified = problems.iter().filter(|problem| problem.answer().is_some()).count();
    println!("{name:<36} {unified:>6} {ours:>13.0} {rust:>13.0} {:>11.2}", ours / rust);
}

/// Two towers alike, each level of each stored once.
fn towers(height: usize) -> String {
    let problem = Problem::stored_towers(height);
    let mut storage = Storage::new(&problem);
    let ours = seconds(|| assert!(ours::unify_unchecked(&problem, &mut storage).is_some(), "towers alike"));
    let rust = (height <= TALLEST).then(|| {
        let mut original = Problem::towers(height).original();
        seconds(|| assert!(original.unify(), "towers alike"))
    });
    let rust = rust.map_or("-".into(), |time| format!("{:.1}", time * 1e6));
    format!("{height:>6} {:>12.1} {rust:>12}", ours * 1e6)
}

fn seconds(run: impl FnOnce()) -> f64 {
    let start = Instant::now();
    run();
    start.elapsed().as_secs_f64()
}

fn median(mut times: Vec<f64>) -> f64 {
    times.sort_by(f64::total_cmp);
    times[times.len() / 2]
}
