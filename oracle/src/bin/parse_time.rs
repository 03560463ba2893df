//! Times both parsers, lexing included, on the same texts in one run, in turn, so that both meet the same machine.

#[path = "../ours.rs"]
mod ours;

use horn_oracle::declarations::{declarations, plainly_written};
use horn_oracle::declared::PARENTHESES;
use horn_oracle::parse::{original_parse, reference};
use horn_oracle::random::Random;
use horn_oracle::timing::{BYTES, repeated, speed, timed, whole_lines};
use horn_oracle::tokens::{Row, TEXT_BYTES};
use std::hint::black_box;

const RUNS: usize = 301;

fn main() {
    println!(
        "{:<15} {:>6} {:>12} {:>10} {:>10} {:>12}",
        "text", "bytes", "declarations", "ours MB/s", "Rust MB/s", "ours / Rust"
    );
    let pieces = declarations(&mut Random::new(1), BYTES / 8);
    let nested = format!("#eval {}a{}\n", "f (".repeat(PARENTHESES), ")".repeat(PARENTHESES));
    let texts = [
        ("declarations", whole_lines(plainly_written(&pieces))),
        ("sorts", repeated("", "sort a\n")),
        ("one long call", repeated("#eval f", " a")),
        ("nested calls", repeated("", &nested)),
    ];
    for (name, text) in texts {
        println!("{}", measured(name, &text));
    }
    println!(
        "Medians of {RUNS} runs of each side, in turn. {BYTES} rows are lent for tokens and for declarations each, and the caller"
    );
    println!(
        "does not clear them between runs: horn_parse zeroes those past the used ones. The Rust's time includes making and"
    );
    println!("freeing its lists.");
}

fn measured(name: &str, text: &str) -> String {
    let (mut tokens, mut rows): (Vec<Row>, Vec<Row>) = (vec![[0; 4]; BYTES], vec![[0; 4]; BYTES]);
    let answer = reference(text.as_bytes(), TEXT_BYTES, BYTES, BYTES);
    let mut ours = |text: &str| ours::parse(text.as_bytes(), TEXT_BYTES, &mut tokens, &mut rows);
    assert_eq!(ours(text), answer.code(), "both sides must agree first");
    assert_eq!(answer.number(), 0, "a timed text is accepted");
    let (mut our_times, mut rust_times) = (Vec::new(), Vec::new());
    for _ in 0..RUNS {
        our_times.push(timed(|| ours(black_box(text))));
        rust_times.push(timed(|| original_parse(black_box(text))));
    }
    let (ours, rust) = (speed(text, our_times), speed(text, rust_times));
    let (bytes, count) = (text.len(), answer.code());
    format!("{name:<15} {bytes:>6} {count:>12} {ours:>10.1} {rust:>10.1} {:>12.2}", ours / rust)
}
