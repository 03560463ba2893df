//! Damage to good texts, by tokens and by bytes, and to numbers that are stored; and soups that never were good.

use crate::declarations::Pieces;
use crate::random::Random;

/// Short spellings around every rule of the lexer: signs that begin alike, words of single marks, odd blanks.
#[rustfmt::skip]
const SOUP: [&str; 56] = [
    "->", "-->", "--", "-", ">", "=>", "==>", "=", "==", ":=", ":=>", ":", "::=", "→", "-→", "→>", "(", ")", ",",
    "|", "?", "??x", "?x", "x?", "?1", "1?", "'", "#", "##", ".", "_", "1", "007", "1a", "a1", "a", "sort",
    "sorts", "sor", "#eval", "#evaluate", "#chec", "eval", "by", "?by", "induction", " ", "\t", "\u{b}", "\u{c}",
    "\r", "\r\n", "\n", "\n", "\u{1f}", "a-->b",
];

/// Characters and broken characters that the test of the text must tell apart.
#[rustfmt::skip]
const FOREIGN: [&[u8]; 22] = [
    "é".as_bytes(),
    "→".as_bytes(),
    "\u{85}".as_bytes(),
    "\u{a0}".as_bytes(),
    "\u{2028}".as_bytes(),
    "\u{feff}".as_bytes(),
    "\u{10ffff}".as_bytes(),
    "\u{2191}".as_bytes(),
    "\u{2193}".as_bytes(),
    "\u{0663}".as_bytes(),
    b"\xc0\x80",
    b"\xc1\xbf",
    b"\xe0\x9f\xbf",
    b"\xed\xa0\x80",
    b"\xed\xbf\xbf",
    b"\xf0\x8f\xbf\xbf",
    b"\xf4\x90\x80\x80",
    b"\xf5\x80\x80\x80",
    b"\xe2\x86",
    b"\xe2",
    b"\x80",
    b"\xff",
];

/// Swaps, repeats, deletes or replaces a few tokens.
pub fn damage_tokens(random: &mut Random, pieces: &mut Pieces) {
    for _ in 0..random.between(1, 4) {
        if pieces.is_empty() {
            return;
        }
        let (at, other) = (random.below(pieces.len()), random.below(pieces.len()));
        match random.below(5) {
            0 => pieces.swap(at, other),
            1 => pieces.insert(at, pieces[other].clone()),
            2 => drop(pieces.remove(at)),
            3 => pieces[at] = random.pick(&SOUP).to_owned(),
            _ => pieces[at] = boundary_word(random),
        }
    }
}

/// Flips, deletes, inserts or cuts off a few bytes.
pub fn damage_bytes(random: &mut Random, text: &mut Vec<u8>) {
    for _ in 0..random.between(1, 3) {
        let at = random.below(text.len() + 1);
        let end = text.len().min(at + random.between(1, 3));
        let inserted = match random.below(8) {
            0 if at < text.len() => vec![text[at] ^ (1 << random.below(8))],
            1 => vec![],
            2 => vec![random.byte()],
            3 => vec![random.byte() | 0x80],
            4 => random.pick(&[b"\0", b"\r", b"\n", b"-", b"\x7f", b"\x1c"]).to_vec(),
            5 => random.pick(&SOUP).as_bytes().to_vec(),
            6 => return text.truncate(at),
            _ => random.pick(&FOREIGN).to_vec(),
        };
        let replaced = if random.percent(50) { at..end } else { at..at };
        text.splice(replaced, inserted);
    }
}

/// Short signs in any order, now and then with a foreign character or in a comment.
pub fn soup(random: &mut Random) -> Vec<u8> {
    let mut text = Vec::new();
    for _ in 0..random.between(1, 12) {
        match random.below(30) {
            0 => text.extend_from_slice(random.pick(&FOREIGN)),
            1 => text.extend_from_slice(boundary_word(random).as_bytes()),
            _ => text.extend_from_slice(random.pick(&SOUP).as_bytes()),
        }
        if random.percent(40) {
            text.push(b' ');
        }
    }
    text
}

/// A word about 64 bytes long, or a numeral about 2^64.
fn boundary_word(random: &mut Random) -> String {
    let length = random.between(62, 66);
    let numeral = u128::from(u64::MAX) - 2 + random.below(5) as u128;
    match random.below(7) {
        0 => "a".repeat(length),
        1 => "7".repeat(length),
        2 => "?".repeat(length),
        3 => format!("?{}", "9".repeat(length - 1)),
        4 => format!("{numeral:0length$}"),
        5 => numeral.to_string(),
        _ => format!("{}'", "1".repeat(length - 1)),
    }
}

/// Another number that may stand in a row, given one that stands elsewhere.
pub fn changed_number(random: &mut Random, number: u32, other: u32) -> u32 {
    match random.below(8) {
        0 => other,
        1 => random.pick(&[0, 1, 2, 16, 63, 64, 65, 1 << 20, u32::MAX]),
        2 => number.wrapping_add(32),
        3 => number.wrapping_sub(32),
        4 => number ^ 1,
        5 => number.wrapping_sub(1),
        _ => number.wrapping_add(1),
    }
}
