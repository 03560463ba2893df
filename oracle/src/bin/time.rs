//! Times both lexers on the same texts in one run, in turn, so that both meet the same machine.

#[path = "../ours.rs"]
mod ours;

use horn_oracle::declarations::{declarations, written};
use horn_oracle::random::Random;
use horn_oracle::timing::{BYTES, repeated, speed, timed, whole_lines};
use horn_oracle::tokens::{Row, TEXT_BYTES};
use horn_oracle::words::{original_lex, reference};
use std::hint::black_box;

const RUNS: usize = 301;

fn main() {
    println!(
        "{:<17} {:>6} {:>7} {:>10} {:>10} {:>12}",
        "text", "bytes", "tokens", "ours MB/s", "Rust MB/s", "ours / Rust"
    );
    let texts = [
        ("declarations", declared()),
        ("comments", repeated("", "-- a list of what holds, été → été\n")),
        ("one-letter words", repeated("", "a b c d e f g h i j k l m n o p\n")),
    ];
    for (name, text) in texts {
        println!("{}", measured(name, &text));
    }
    println!(
        "Medians of {RUNS} runs of each side, in turn. {BYTES} rows are lent, and the caller does not clear them between"
    );
    println!(
        "runs: horn_lex zeroes those past the tokens. The Rust's time includes making and freeing its list of tokens."
    );
}

fn declared() -> String {
    let mut random = Random::new(1);
    let pieces = declarations(&mut random, BYTES / 8);
    whole_lines(written(&mut random, &pieces))
}

fn measured(name: &str, text: &str) -> String {
    let mut rows: Vec<Row> = vec![[0; 4]; BYTES];
    let answer = reference(text.as_bytes(), TEXT_BYTES, BYTES);
    assert_eq!(ours::lex(text.as_bytes(), TEXT_BYTES, &mut rows), answer.code(), "both sides must agree first");
    assert_eq!(answer.number(), 0, "a timed text is accepted");
    let (mut our_times, mut rust_times) = (Vec::new(), Vec::new());
    for _ in 0..RUNS {
        our_times.push(timed(|| ours::lex(black_box(text.as_bytes()), TEXT_BYTES, &mut rows)));
        rust_times.push(timed(|| original_lex(black_box(text))));
    }
    let (ours, rust) = (speed(text, our_times), speed(text, rust_times));
    let (bytes, tokens) = (text.len(), answer.code());
    format!("{name:<17} {bytes:>6} {tokens:>7} {ours:>10.1} {rust:>10.1} {:>12.2}", ours / rust)
}
