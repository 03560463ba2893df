//! Document 01's `lex`: the original's own tokens and refusals 4 and 5, with 1, 2, 3 and 6 put around them.

use super::super::{KEYWORDS, Tok, lex};
use crate::tokens::{Answer, METAVARIABLE, NAME, NUMERAL, Row, SIGNS, TEXT_BYTES, WORD_BYTES};

/// The answer for a text with the limit that the caller set and the number of rows that it lent.
pub fn reference(text: &[u8], limit: u32, rows: usize) -> Answer {
    let limit = limit.min(TEXT_BYTES) as usize;
    if rows < limit {
        return refused(1, 0);
    }
    if text.len() > limit {
        return refused(2, 0);
    }
    let Ok(text) = std::str::from_utf8(text) else {
        return refused(3, 0);
    };
    if let Some(line) = first_line_outside_domain(text) {
        return refused(3, line);
    }
    match tokens_or_refusal(text) {
        Ok(tokens) => Answer::Tokens(located(text, &tokens)),
        Err(refusal) => refusal,
    }
}

/// The original's `lex` alone, to be timed; tells how many tokens it made.
pub fn original_lex(text: &str) -> Result<usize, String> {
    lex(text).map(|tokens| tokens.len())
}

/// The original's keywords, in the order of their kinds.
pub fn keywords() -> &'static [&'static str] {
    KEYWORDS
}

fn refused(number: u32, line: usize) -> Answer {
    Answer::Refused { number, line: line as u32 }
}

/// The lines, numbered from 1, each up to its comment.
fn code_lines(text: &str) -> impl Iterator<Item = (usize, &str)> {
    text.lines()
        .map(|line| line.split_once("--").map_or(line, |(code, _)| code))
        .enumerate()
        .map(|(index, code)| (index + 1, code))
}

fn first_line_outside_domain(text: &str) -> Option<usize> {
    let outside = |c: char| !c.is_ascii() && c != '→';
    code_lines(text).find(|(_, code)| code.contains(outside)).map(|(line, _)| line)
}

/// The original has no bound on words, so 6 is found by a scan; what the original refuses before it comes first.
fn tokens_or_refusal(text: &str) -> Result<Vec<(Tok, usize)>, Answer> {
    let Some((line, place)) = first_long_word(text) else {
        return lex(text).map_err(|message| mapped(&message));
    };
    match lex(&text[..place]) {
        Ok(_) => Err(refused(6, line)),
        Err(message) => Err(mapped(&message)),
    }
}

/// Line and place of the first word of too many bytes.
fn first_long_word(text: &str) -> Option<(usize, usize)> {
    code_lines(text).find_map(|(line, code)| {
        let word = code.split(|c| !is_word(c)).find(|word| word.len() > WORD_BYTES)?;
        Some((line, word.as_ptr() as usize - text.as_ptr() as usize))
    })
}

fn is_word(c: char) -> bool {
    c.is_alphanumeric() || "_.'#?".contains(c)
}

/// The refusal that an error text of the original stands for.
fn mapped(message: &str) -> Answer {
    let parts = message.strip_prefix("line ").and_then(|rest| rest.split_once(": "));
    let (line, cause) = parts.unwrap_or_else(|| panic!("an error without a line: {message}"));
    let number = match cause {
        "bad numeral" => 5,
        _ if cause.starts_with("unexpected character") => 4,
        _ => panic!("an error that has no number: {message}"),
    };
    refused(number, line.parse().expect("a line is a number"))
}

/// The original's tokens have no places: each must stand where blanks and comments after the last one end.
fn located(text: &str, tokens: &[(Tok, usize)]) -> Vec<Row> {
    let (mut place, mut line) = (0, 1);
    let mut rows = Vec::with_capacity(tokens.len());
    for (token, token_line) in tokens {
        let start = place + blank_length(&text[place..]);
        line += text[place..start].matches('\n').count();
        assert_eq!(line, *token_line, "the line of {token:?}");
        let length = written_length(&text[start..], token);
        rows.push([kind(token), start as u32, length as u32, line as u32]);
        place = start + length;
    }
    assert_eq!(place + blank_length(&text[place..]), text.len(), "only blanks follow the last token");
    rows
}

/// Bytes of blanks, line ends and comments at the start of `rest`.
fn blank_length(rest: &str) -> usize {
    let mut left = rest.trim_start();
    while left.starts_with("--") {
        left = left.find('\n').map_or("", |end| left[end..].trim_start());
    }
    rest.len() - left.len()
}

/// How many bytes the token takes as written at the start of `rest`, where it must stand.
fn written_length(rest: &str, token: &Tok) -> usize {
    let (stands, length) = match token {
        Tok::Ident(word) => (rest.starts_with(word.as_str()), word.len()),
        Tok::Meta(name) => {
            let named = rest.strip_prefix('?').is_some_and(|after| after.starts_with(name.as_str()));
            (named, 1 + name.len())
        }
        Tok::Num(value) => {
            let end = rest.find(|c: char| !c.is_ascii_digit()).unwrap_or(rest.len());
            (rest[..end].parse() == Ok(*value), end)
        }
        Tok::Sym("→") if rest.starts_with("->") => (true, 2),
        Tok::Sym(sign) => (rest.starts_with(sign), sign.len()),
    };
    assert!(stands, "{token:?} does not stand at {rest:?}");
    length
}

fn kind(token: &Tok) -> u32 {
    match token {
        Tok::Ident(word) => match KEYWORDS.iter().position(|keyword| keyword == word) {
            Some(index) => index as u32 + 1,
            None => NAME,
        },
        Tok::Meta(_) => METAVARIABLE,
        Tok::Num(_) => NUMERAL,
        Tok::Sym(sign) => SIGNS.iter().find(|(spelling, _)| spelling == sign).expect("a listed sign").1,
    }
}
