//! The original's listing of the declarations of a text on standard input.

use horn_oracle::{declared::listing, parse::declarations, tokens::TEXT_BYTES};
use std::io::{Read, stdin};

fn main() -> std::io::Result<()> {
    let mut text = Vec::new();
    stdin().read_to_end(&mut text)?;
    let rows = TEXT_BYTES as usize;
    match declarations(&text, TEXT_BYTES, rows, rows) {
        Ok(declarations) => print!("{}", listing(&declarations.listed())),
        Err(refusal) => print!("{}", refusal.recorded()),
    }
    Ok(())
}
