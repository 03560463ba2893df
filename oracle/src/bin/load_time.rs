//! Times both loaders, lexing and parsing included, on the same texts in one run, in turn, so that both meet the same
//! machine.

#[path = "../ours_load.rs"]
mod ours;

use horn_oracle::load::{original_load, reference};
use horn_oracle::load_texts::texts;
use horn_oracle::loaded::{Buffers, Lent, Limits, NODES};
use horn_oracle::timing::{speed, timed};
use horn_oracle::tokens::TEXT_BYTES;
use std::hint::black_box;
use std::time::Duration;

const RUNS: usize = 101;

fn main() {
    println!(
        "{:<10} {:>6} {:>7} {:>5} {:>8} {:>8} {:>12}",
        "text", "bytes", "symbols", "rules", "ours µs", "Rust µs", "ours / Rust"
    );
    for (name, text) in texts() {
        println!("{}", measured(name, &text));
    }
    println!(
        "Medians of {RUNS} runs of each side, in turn, and how many times as fast as the Rust ours is. All storage is"
    );
    println!(
        "lent for the largest limits, and the caller does not clear it between runs: horn_load zeroes what it does not"
    );
    println!("use. The Rust's time includes making and freeing its lists and maps.");
}

fn measured(name: &str, text: &str) -> String {
    assert!(text.len() <= TEXT_BYTES as usize, "{name} is too long");
    let limits = Limits { text: TEXT_BYTES, nodes: NODES };
    let lent = Lent::least(limits);
    let mut buffers = Buffers::default();
    buffers.reset(&lent, 0, 0);
    let answer = reference(text.as_bytes(), limits, &lent);
    assert_eq!(answer.number(), 0, "a timed text is accepted");
    let mut ours = |text: &str| ours::load(text.as_bytes(), limits, &lent, &mut buffers);
    assert_eq!(ours(text), answer.code(), "both sides must agree first");
    let (mut our_times, mut rust_times) = (Vec::new(), Vec::new());
    for _ in 0..RUNS {
        our_times.push(timed(|| ours(black_box(text))));
        rust_times.push(timed(|| original_load(black_box(text))));
    }
    let (symbols, rules) = original_load(text).expect("a timed text is accepted");
    let (ours, rust) = (microseconds(text, our_times), microseconds(text, rust_times));
    format!("{name:<10} {:>6} {symbols:>7} {rules:>5} {ours:>8.0} {rust:>8.0} {:>12.2}", text.len(), rust / ours)
}

/// The median time; a megabyte a second is a byte a microsecond.
fn microseconds(text: &str, times: Vec<Duration>) -> f64 {
    text.len() as f64 / speed(text, times)
}
