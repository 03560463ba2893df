//! Times our test of a stored signature beside our loader, which leaves it, on the same texts in one run, in turn.

#[path = "../ours_load.rs"]
mod ours;

use horn_oracle::load_texts::texts;
use horn_oracle::loaded::{Buffers, Lent, Limits, NODES};
use horn_oracle::timing::timed;
use horn_oracle::tokens::TEXT_BYTES;
use std::hint::black_box;
use std::time::Duration;

const RUNS: usize = 101;

fn main() {
    println!(
        "{:<10} {:>6} {:>7} {:>5} {:>8} {:>8} {:>12}",
        "text", "bytes", "symbols", "rules", "check µs", "load µs", "check / load"
    );
    for (name, text) in texts() {
        println!("{}", measured(name, &text));
    }
    println!(
        "Medians of {RUNS} runs of each, in turn: horn_load, and horn_check_signature on what it left. All storage"
    );
    println!("is lent for the largest limits.");
}

fn measured(name: &str, text: &str) -> String {
    assert!(text.len() <= TEXT_BYTES as usize, "{name} is too long");
    let limits = Limits { text: TEXT_BYTES, nodes: NODES };
    let lent = Lent::least(limits);
    let mut buffers = Buffers::default();
    buffers.reset(&lent, 0, 0);
    let (mut loads, mut checks) = (Vec::new(), Vec::new());
    for _ in 0..RUNS {
        loads.push(timed(|| ours::load(black_box(text.as_bytes()), limits, &lent, &mut buffers)));
        checks.push(timed(|| {
            assert_eq!(ours::check(black_box(text.as_bytes()), &lent, &buffers), 0, "{name} is refused")
        }));
    }
    let (symbols, rules) = (buffers.counts[1], buffers.counts[2]);
    let (check, load) = (median(checks), median(loads));
    format!("{name:<10} {:>6} {symbols:>7} {rules:>5} {check:>8.0} {load:>8.0} {:>12.2}", text.len(), check / load)
}

/// The median time in microseconds, which a few disturbed runs do not move.
fn median(mut times: Vec<Duration>) -> f64 {
    times.sort();
    times[times.len() / 2].as_secs_f64() * 1e6
}
