//! Fixed questions on both sides of every boundary of document 01's lexer.

use crate::cases::Case;
use crate::tokens::TEXT_BYTES;
use crate::words::keywords;

/// Line ends, comments and odd blanks.
#[rustfmt::skip]
const LINES: &[&str] = &[
    "", "\n", "\n\n", "\r", "\r\n", "\n\r", "a\n", "a", "a\r", "a\r\n", "a\r\nb", "a\rb", "a\r\r\nb", "\na\n\nb\n",
    "--", "--\n", "-- only", "-- only\n", "-- one\n-- two\r\n-- three", "-- one\n\n-- two\n\n", "--\ra", "--\r\na",
    "a -- b\nc", "a -- b -- c\nd", "a--\n--b\nc", "a\u{b}b", "a\u{c}b", "a\tb", " a ", "\n\n\n-", "\r\n\r\n-",
    "\r\r-", "-\n-", "a-\n-b", "-- a\n-", "-- é\n-", "é\n-", "-\né", "a\né", "é", "-- é", "-- é\né", "a é -- é",
];

/// Signs that begin alike, words of single marks, and characters that nothing begins with.
#[rustfmt::skip]
const SIGNS: &[&str] = &[
    "-", ">", "->", "-->", "--->", "->-", "->->", "->--", "- ->", "- -", "a->b", "a-->b", "a--->b", "a-b", "a- b",
    "→", "→→", "a→b", "-→", "→-", "→--→", "=>", "=", "==", "==>", "=>>", "=>=", "=->", ":=", ":", "::", ":=>",
    "::=", ":=:=", ":==", ":->", "()", ")(", "(,|:=)", "||", "?", "??", "??x", "? x", "x?", "?x?", "?1", "1?",
    "?sort", "?#eval", "'", "''", "#", "##", "#1", ".", "..", "1.", "1.5", "_", "__", "1_000", "1a", "a1", "0",
    "00", "007", "0x1", "a'b", "a.b", "a#b", "a?b", "f'(x)", "a,b", "a|b", "a=b", "a:=b", "a=>b", "a:b", "-1",
    "+", "*", "a+b", "[", "]", "{", "}", "\"", "\\", "/", ";", "<", "<-", "&", "@", "!", "~", "`", "^", "%", "$",
    "#eval add 1 1", "18446744073709551615 -", "- 18446744073709551616", "18446744073709551616 -",
];

/// First and last characters of each length, neighbours of the arrow, foreign blanks, and what only looks like UTF-8.
#[rustfmt::skip]
const SEQUENCES: &[&[u8]] = &[
    b"\xc2\x80", b"\xdf\xbf", b"\xe0\xa0\x80", b"\xed\x9f\xbf", b"\xee\x80\x80", b"\xef\xbf\xbf",
    b"\xf0\x90\x80\x80", b"\xf4\x8f\xbf\xbf", b"\xe2\x86\x92", b"\xe2\x86\x91", b"\xe2\x86\x93", b"\xe2\x87\x92",
    b"\xe3\x86\x92", b"\xc2\x85", b"\xc2\xa0", b"\xe2\x80\xa8", b"\xef\xbb\xbf", b"\xc3\xa9", b"\xd9\xa3",
    b"\x80", b"\xbf", b"\xc0\x80", b"\xc1\xbf", b"\xc2\x7f", b"\xc2\xc0", b"\xe0\x9f\xbf", b"\xed\xa0\x80",
    b"\xed\xbf\xbf", b"\xe2\x86\x7f", b"\xe2\x86\xc0", b"\xf0\x8f\xbf\xbf", b"\xf4\x90\x80\x80",
    b"\xf5\x80\x80\x80", b"\xf0\x90\x80\x7f", b"\xfe", b"\xff",
];

/// Every fixed question but the short texts.
pub fn boundaries() -> Vec<Case> {
    [small_boundaries(), limits(65_535), limits(65_536), limits(65_537), limits(u32::MAX)].concat()
}

/// Those with few bytes and rows.
pub fn small_boundaries() -> Vec<Case> {
    let texts =
        [bytes(LINES), bytes(SIGNS), changed_keywords(), codes(), characters(), numerals(), long_words()].concat();
    let mut cases: Vec<Case> = texts.iter().map(|text| Case::exact(text)).collect();
    for limit in [0, 1, 2, 3, 40] {
        cases.extend(limits(limit));
    }
    cases
}

/// Texts and rows one short, exact and one more, for one limit.
fn limits(limit: u32) -> Vec<Case> {
    let effective = limit.min(TEXT_BYTES) as usize;
    let around = effective.saturating_sub(1)..=effective + 1;
    let mut cases = Vec::new();
    for length in around.clone() {
        for rows in around.clone() {
            cases.push(Case::new(&b"a ".repeat(length)[..length], limit, rows));
        }
        cases.push(Case::new(&commented(length), limit, effective));
        cases.push(Case::new(&b"->".repeat(length)[..length], limit, effective));
        cases.push(Case::new(&vec![0xE9; length], limit, effective));
    }
    cases
}

/// A text of `length` bytes that is one comment and, where they fit, a line end and two last names.
pub fn commented(length: usize) -> Vec<u8> {
    let tail = b"\nlast name";
    let comment = length.saturating_sub(tail.len());
    let mut text = vec![b'-'; comment];
    text.extend_from_slice(tail);
    text.truncate(length);
    text
}

fn bytes(texts: &[&str]) -> Vec<Vec<u8>> {
    texts.iter().map(|text| text.as_bytes().to_vec()).collect()
}

/// Each keyword whole, one byte short, one byte long, and with each byte changed.
fn changed_keywords() -> Vec<Vec<u8>> {
    let mut texts = Vec::new();
    for keyword in keywords() {
        let bytes = keyword.as_bytes();
        texts.push(bytes.to_vec());
        texts.push(bytes[..bytes.len() - 1].to_vec());
        texts.push([bytes, b"s"].concat());
        texts.push([b"?", bytes].concat());
        texts.push(keyword.to_ascii_uppercase().into_bytes());
        for at in 0..bytes.len() {
            let mut changed = bytes.to_vec();
            changed[at] = if changed[at] == b'x' { b'y' } else { b'x' };
            texts.push(changed);
        }
    }
    texts.push(keywords().join(" ").into_bytes());
    texts.push(keywords().concat().into_bytes());
    texts
}

/// Every ASCII code between two names, and in a comment.
fn codes() -> Vec<Vec<u8>> {
    (0..128).flat_map(|code| [vec![b'a', code, b'b'], vec![b'-', b'-', code, b'b', b'\n', b'c']]).collect()
}

/// Each sequence alone, in a comment, after what the lexer refuses, and cut off.
fn characters() -> Vec<Vec<u8>> {
    let mut texts = Vec::new();
    for &sequence in SEQUENCES {
        texts.push(sequence.to_vec());
        texts.push([b"a\n-- ", sequence, b"\nb"].concat());
        texts.push([b"a\n- ", sequence, b" b"].concat());
        texts.push(sequence[..sequence.len() - 1].to_vec());
        texts.push([b"-- ", &sequence[..sequence.len() - 1], b"a"].concat());
    }
    texts.push([b"- \xc3\xa9\n", &b"a".repeat(65)[..], b" \xff"].concat());
    texts.push("-\né\né".as_bytes().to_vec());
    texts
}

/// Values about 2^64 and where the product by ten passes it, with leading zeros up to and over 64 digits.
fn numerals() -> Vec<Vec<u8>> {
    let top = u128::from(u64::MAX);
    let tenth = top / 10;
    let mut values: Vec<u128> = (top - 2..=top + 6).collect();
    values.extend([tenth, tenth + 1, tenth * 10, (tenth + 1) * 10, tenth * 10 + 9, top * 2 + 2, (top + 1) * 10]);
    values.extend([0, 9, 10, 10_u128.pow(19), 10_u128.pow(20) - 1, 10_u128.pow(20), u128::MAX]);
    let mut texts = Vec::new();
    for value in values {
        for width in [1, 21, 64, 65] {
            texts.push(format!("{value:0width$}").into_bytes());
        }
        texts.push(format!("x\n({value})\n-").into_bytes());
        texts.push(format!("-- {value}").into_bytes());
    }
    texts
}

/// Words of 63, 64 and 65 bytes of every kind, alone and beside what else is refused.
fn long_words() -> Vec<Vec<u8>> {
    let mut texts = Vec::new();
    for length in [63, 64, 65] {
        for first in ["a", "_", ".", "'", "#", "?", "0", "1"] {
            for rest in ["a", "0", "9", "?"] {
                let word = first.to_owned() + &rest.repeat(length - 1);
                texts.push(word.into_bytes());
            }
        }
        for word in ["a".repeat(length), "9".repeat(length), "?".repeat(length)] {
            texts.extend(in_contexts(&word));
        }
    }
    texts.push(b"a".repeat(35));
    texts.push([b"a".repeat(35), b" ".to_vec(), b"a".repeat(36)].concat());
    texts
}

fn in_contexts(word: &str) -> Vec<Vec<u8>> {
    let texts = [
        format!("a\n\n  {word}\n"),
        format!("{word} {word}a"),
        format!("-- {word}"),
        format!("x--{word}\n-"),
        format!("- {word}"),
        format!("{word} -"),
        format!("{word}-"),
        format!("-{word}"),
        format!("18446744073709551616 {word}"),
        format!("{word} 18446744073709551616"),
        format!("{word}\n-"),
        format!("-\n{word}"),
        format!("({word})=>"),
        format!("{word}--"),
        format!("{word}→{word}"),
        format!("{word}\r\n{word}"),
        format!("{word} é"),
    ];
    texts.map(String::into_bytes).to_vec()
}

/// Every text of at most two bytes, and every text of at most four characters that the signs are made of.
pub fn short_texts() -> Vec<Case> {
    let bytes: Vec<Vec<u8>> = (0..=255).map(|byte| vec![byte]).collect();
    let marks = ["-", ">", "=", ":", "?", "#", "'", "a", "1", " ", "\n", "\r", "→", "é", "|"];
    let marks: Vec<Vec<u8>> = marks.iter().map(|mark| mark.as_bytes().to_vec()).collect();
    let mut texts = sequences(&bytes, 2);
    texts.extend(sequences(&marks, 4));
    texts.iter().map(|text| Case::exact(text)).collect()
}

/// Every sequence of at most `count` of the parts.
fn sequences(parts: &[Vec<u8>], count: usize) -> Vec<Vec<u8>> {
    let mut all = vec![vec![]];
    let mut last = all.clone();
    for _ in 0..count {
        last = last.iter().flat_map(|start| parts.iter().map(|part| [&start[..], part].concat())).collect();
        all.extend_from_slice(&last);
    }
    all
}
