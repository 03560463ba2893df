//! One question to both sides, and the seeded mix of questions.

use crate::damage::{damage_bytes, damage_tokens, soup};
use crate::declarations::{declarations, written};
use crate::random::Random;
use crate::shrink::Question;
use crate::tokens::TEXT_BYTES;

/// A text, the limit that the caller sets, and how many rows it lends.
#[derive(Clone, Debug, PartialEq, Eq, Hash)]
pub struct Case {
    pub text: Vec<u8>,
    pub limit: u32,
    pub rows: usize,
}

impl Case {
    pub fn new(text: &[u8], limit: u32, rows: usize) -> Case {
        Case { text: text.to_vec(), limit, rows }
    }

    /// The smallest limit and number of rows that the text needs.
    pub fn exact(text: &[u8]) -> Case {
        Case::new(text, text.len() as u32, text.len())
    }
}

impl Question for Case {
    fn text(&self) -> &[u8] {
        &self.text
    }

    fn about(&self, text: Vec<u8>) -> Case {
        Case { text, ..*self }
    }

    fn lowered(&self) -> Vec<Case> {
        let exact = Case::exact(&self.text);
        let one_more = Case { rows: exact.rows + 1, ..exact.clone() };
        vec![exact, one_more]
    }
}

/// A generated question; most get past 1 and 2, so that the lexer is what is compared.
pub fn generated(random: &mut Random) -> Case {
    let text = generated_text(random);
    let length = text.len();
    let (limit, rows) = match random.below(50) {
        0 => (length, length.saturating_sub(1)),
        1 => (random.below(length + 3), random.below(length + 3)),
        2 => (length.saturating_sub(1), length),
        3 if random.percent(20) => (random.between(65_535, 65_538), random.between(65_535, 65_537)),
        4 if random.percent(10) => (u32::MAX as usize, TEXT_BYTES as usize),
        _ => {
            let limit = length + random.below(4);
            (limit, limit + random.below(3))
        }
    };
    Case { text, limit: limit as u32, rows }
}

/// A text for the lexer: declarations, often damaged by tokens or by bytes, or a soup.
pub fn generated_text(random: &mut Random) -> Vec<u8> {
    if random.percent(20) {
        return soup(random);
    }
    let count = if random.percent(2) { random.between(30, 600) } else { random.between(2, 12) };
    let mut pieces = declarations(random, count);
    if random.percent(40) {
        damage_tokens(random, &mut pieces);
    }
    let mut text = written(random, &pieces);
    if random.percent(40) {
        damage_bytes(random, &mut text);
    }
    text
}
