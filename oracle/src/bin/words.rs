//! The original's listing of a text on standard input.

use horn_oracle::{tokens::TEXT_BYTES, words::reference};
use std::io::{Read, Write, stdin, stdout};

fn main() -> std::io::Result<()> {
    let mut text = Vec::new();
    stdin().read_to_end(&mut text)?;
    let answer = reference(&text, TEXT_BYTES, TEXT_BYTES as usize);
    stdout().write_all(&answer.listing(&text))
}
