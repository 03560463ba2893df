//! The original's listing of the goals of a text on standard input, all in one session.

use horn_oracle::evaluate::with_large_stack;
use horn_oracle::evaluate_cases::Program;
use horn_oracle::loaded::{Limits, NODES};
use horn_oracle::search_cases::listing;
use horn_oracle::tokens::TEXT_BYTES;
use std::io::{Read, stdin};

fn main() -> std::io::Result<()> {
    let mut text = Vec::new();
    stdin().read_to_end(&mut text)?;
    with_large_stack(|| match Program::load(&text, Limits { text: TEXT_BYTES, nodes: NODES }) {
        Ok(program) => print!("{}", listing(&text, &program).expect("the Rust and the definitions agree")),
        Err(refusal) => print!("{}", refusal.recorded(&text)),
    });
    Ok(())
}
