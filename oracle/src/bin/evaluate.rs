//! The original's listing of the `#eval` of a text on standard input.

use horn_oracle::evaluate::with_large_stack;
use horn_oracle::evaluate_cases::Program;
use horn_oracle::evaluated::WORDS;
use horn_oracle::loaded::{Limits, NODES};
use horn_oracle::tokens::TEXT_BYTES;
use std::io::{Read, stdin};

fn main() -> std::io::Result<()> {
    let mut text = Vec::new();
    stdin().read_to_end(&mut text)?;
    with_large_stack(|| match Program::load(&text, Limits { text: TEXT_BYTES, nodes: NODES }) {
        Ok(program) => print!("{}", program.listing(&text, WORDS)),
        Err(refusal) => print!("{}", refusal.recorded(&text)),
    });
    Ok(())
}
