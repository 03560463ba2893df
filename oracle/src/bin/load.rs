//! The original's listing of the signature of a text on standard input.

use horn_oracle::load::load;
use horn_oracle::loaded::{Lent, Limits, NODES};
use horn_oracle::tokens::TEXT_BYTES;
use std::io::{Read, stdin};

fn main() -> std::io::Result<()> {
    let mut text = Vec::new();
    stdin().read_to_end(&mut text)?;
    let limits = Limits { text: TEXT_BYTES, nodes: NODES };
    match load(&text, limits, &Lent::least(limits)) {
        Ok(loaded) => print!("{}", loaded.listing()),
        Err(refusal) => print!("{}", refusal.recorded(&text)),
    }
    Ok(())
}
