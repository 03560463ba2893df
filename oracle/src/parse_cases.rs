//! One question to both parsers, the fixed ones, and the seeded mix of questions.

use crate::cases::generated_text as lexical_text;
use crate::declarations::{Pieces, rich_declarations, written};
use crate::parse::reference;
use crate::parse_examples::{DECLARATIONS, TOKENS, examples, large_texts, parentheses};
use crate::random::Random;
use crate::shrink;
use crate::tokens::TEXT_BYTES;

/// A text, the limit that the caller sets, and how many rows it lends for tokens and for declarations.
#[derive(Clone, Debug, PartialEq, Eq, Hash)]
pub struct Question {
    pub text: Vec<u8>,
    pub limit: u32,
    pub tokens: usize,
    pub rows: usize,
}

impl Question {
    pub fn new(text: &[u8], limit: u32, tokens: usize, rows: usize) -> Question {
        Question { text: text.to_vec(), limit, tokens, rows }
    }

    /// The smallest limit and numbers of rows that the text needs.
    pub fn exact(text: &[u8]) -> Question {
        Question::new(text, text.len() as u32, text.len(), text.len())
    }
}

impl shrink::Question for Question {
    fn text(&self) -> &[u8] {
        &self.text
    }

    fn about(&self, text: Vec<u8>) -> Question {
        Question { text, ..*self }
    }

    fn lowered(&self) -> Vec<Question> {
        let exact = Question::exact(&self.text);
        let one_more = Question { tokens: exact.tokens + 1, rows: exact.rows + 1, ..exact.clone() };
        vec![exact, one_more]
    }
}

/// The fixed questions with few bytes and rows.
pub fn small_questions() -> Vec<Question> {
    let listed = examples().into_iter().chain(parentheses()).map(|(text, _, _)| text.into_bytes());
    let texts = listed.chain(prefixes().into_iter().map(|pieces| pieces.join("\n").into_bytes()));
    let mut questions: Vec<Question> = texts.map(|text| Question::exact(&text)).collect();
    for limit in [0, 1, 6, 40] {
        questions.extend(limits(limit));
    }
    questions
}

/// The fixed questions with many bytes or rows.
pub fn large_questions() -> Vec<Question> {
    let mut questions: Vec<Question> = large_texts().iter().map(|text| Question::exact(text)).collect();
    for limit in [TEXT_BYTES - 1, TEXT_BYTES, TEXT_BYTES + 1, u32::MAX] {
        questions.extend(limits(limit));
    }
    questions
}

/// An example that the original does not answer as listed.
pub fn unexpected_example() -> Option<String> {
    let examples = examples().into_iter().chain(parentheses());
    examples.into_iter().find_map(|(text, number, line)| {
        let length = text.len();
        let answer = reference(text.as_bytes(), length as u32, length, length);
        let (actual, shown) = (answer.code(), text.escape_debug());
        let accepted = number == 0 && answer.number() == 0;
        let expected = u64::from(number) << 32 | u64::from(line);
        (!accepted && actual != expected)
            .then(|| format!("\"{shown}\" gives {} line {}, not {number} line {line}", answer.number(), actual as u32))
    })
}

/// Texts and both kinds of rows one short, exact and one more, for one limit.
fn limits(limit: u32) -> Vec<Question> {
    let effective = limit.min(TEXT_BYTES) as usize;
    let around = effective.saturating_sub(1)..=effective + 1;
    let mut questions = Vec::new();
    for length in around.clone() {
        for tokens in around.clone() {
            questions.extend(around.clone().map(|rows| Question::new(&sorts(length), limit, tokens, rows)));
        }
        questions.push(Question::new(&vec![b'('; length], limit, effective, effective));
        questions.push(Question::new(&vec![0xE9; length], limit, effective, effective));
    }
    questions
}

/// As many declarations of a sort as fit into a length, then blanks.
fn sorts(length: usize) -> Vec<u8> {
    let mut text = b"sort a\n".repeat(length / 7);
    text.resize(length, b' ');
    text
}

/// Each declaration cut off after each of its tokens, with the whole declaration before it in front.
fn prefixes() -> Vec<Pieces> {
    let mut all = vec![vec![]];
    let mut before: Pieces = Vec::new();
    for declaration in DECLARATIONS {
        let tokens: Pieces = declaration.split(' ').map(str::to_owned).collect();
        all.extend((1..=tokens.len()).map(|count| [&before[..], &tokens[..count]].concat()));
        before = tokens;
    }
    all
}

/// Every text of at most four tokens of all kinds, and every cut declaration with at most two tokens more, each on a
/// line of its own.
pub fn exhaustive() -> impl Iterator<Item = Question> {
    let two = sequences(2);
    let more = prefixes()
        .into_iter()
        .flat_map(move |start| two.clone().into_iter().map(move |end| [&start[..], &end].concat()));
    sequences(4).into_iter().chain(more).map(|pieces| Question::exact(pieces.join("\n").as_bytes()))
}

/// Every sequence of at most `longest` tokens.
fn sequences(longest: usize) -> Vec<Pieces> {
    let mut all = vec![vec![]];
    let mut last = all.clone();
    for _ in 0..longest {
        last = last.iter().flat_map(|start| TOKENS.map(|token| [&start[..], &[token.to_owned()]].concat())).collect();
        all.extend_from_slice(&last);
    }
    all
}

/// A generated question; most get past 1 and 2, so that the parser is what is compared.
pub fn generated(random: &mut Random) -> Question {
    let text = generated_text(random);
    let length = text.len();
    let (limit, tokens, rows) = match random.below(60) {
        0 => (length, length.saturating_sub(1), length),
        1 => (length, length, length.saturating_sub(1)),
        2 => (random.below(length + 3), random.below(length + 3), random.below(length + 3)),
        3 => (length.saturating_sub(1), length, length),
        4 if random.percent(2) => (u32::MAX as usize, TEXT_BYTES as usize, TEXT_BYTES as usize),
        _ => {
            let limit = length + random.below(4);
            (limit, limit + random.below(3), limit + random.below(3))
        }
    };
    Question { text, limit: limit as u32, tokens, rows }
}

fn generated_text(random: &mut Random) -> Vec<u8> {
    if random.percent(8) {
        return lexical_text(random);
    }
    let mut pieces = if random.percent(25) { soup(random) } else { declared(random) };
    let chance = random.pick(&[0, 3, 20, 100]);
    break_lines(random, &mut pieces, chance);
    written(random, &pieces)
}

/// Declarations, whole or with a token or two changed.
fn declared(random: &mut Random) -> Pieces {
    let count = if random.percent(1) { random.between(30, 400) } else { random.between(2, 9) };
    let mut pieces = rich_declarations(random, count);
    if random.percent(60) {
        for _ in 0..random.pick(&[1, 1, 1, 2]) {
            change_token(random, &mut pieces);
        }
    }
    pieces
}

/// Deletes, repeats, swaps, replaces or adds a token, cuts the text off after it, or equates it with what cannot be
/// applied.
fn change_token(random: &mut Random, pieces: &mut Pieces) {
    let at = random.below(pieces.len());
    let other = if random.percent(50) { random.below(pieces.len()) } else { (at + 1).min(pieces.len() - 1) };
    match random.below(7) {
        0 if pieces.len() > 1 => drop(pieces.remove(at)),
        1 => pieces.insert(at, pieces[other].clone()),
        2 => pieces.swap(at, other),
        3 => pieces.insert(at, random.pick(&TOKENS).to_owned()),
        4 => pieces.truncate(at + 1),
        5 => drop(pieces.splice(at..at, [random.pick(&["2", "?x"]).to_owned(), "=".to_owned()])),
        _ => pieces[at] = random.pick(&TOKENS).to_owned(),
    }
}

/// Tokens in any order, mostly after the start of a declaration; some are favoured, so that terms get longer.
fn soup(random: &mut Random) -> Pieces {
    let mut pieces = Vec::new();
    if random.percent(80) {
        let declaration: Pieces = random.pick(&DECLARATIONS).split(' ').map(str::to_owned).collect();
        pieces.extend_from_slice(&declaration[..random.between(1, declaration.len())]);
    }
    for _ in 0..random.between(0, 12) {
        let favoured = random.pick(&["a", "f", "(", ")", "→", "=", "?x", "2"]);
        let token = if random.percent(50) { favoured } else { random.pick(&TOKENS) };
        pieces.push(token.to_owned());
    }
    pieces
}

/// Puts line ends between tokens, some behind a comment.
fn break_lines(random: &mut Random, pieces: &mut Pieces, chance: usize) {
    let mut broken = Vec::with_capacity(pieces.len());
    for piece in pieces.drain(..) {
        let breaks = random.percent(chance) && !piece.starts_with("--");
        broken.push(piece);
        if breaks {
            if random.percent(5) {
                broken.push("-- ( sort".to_owned());
            }
            broken.push("\n".to_owned());
        }
    }
    *pieces = broken;
}
