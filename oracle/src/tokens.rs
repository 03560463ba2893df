//! The answer of `lex`: token rows or a refusal, what it leaves in the lent rows, and its listing.

/// Kind, first byte's place, length in bytes, line.
pub type Row = [u32; 4];

/// Kinds 1 to 11 are the keywords in the original's order.
pub const NAME: u32 = 12;
pub const METAVARIABLE: u32 = 13;
pub const NUMERAL: u32 = 14;

pub const OPEN: u32 = 18;
pub const CLOSE: u32 = 19;
pub const COLON: u32 = 20;

/// The signs as the original's tokens spell them, with their kinds.
pub const SIGNS: [(&str, u32); 9] =
    [("→", 15), ("=>", 16), (":=", 17), ("(", OPEN), (")", CLOSE), (":", COLON), (",", 21), ("|", 22), ("=", 23)];

/// Document 01: a text has at most 65,536 bytes.
pub const TEXT_BYTES: u32 = 65_536;

/// Document 01: a word has at most 64 bytes.
pub const WORD_BYTES: usize = 64;

#[derive(Clone, Debug, PartialEq)]
pub enum Answer {
    Tokens(Vec<Row>),
    Refused { number: u32, line: u32 },
}

impl Answer {
    /// The answer as `horn_lex` returns it: the number above 32 bits of count or line.
    pub fn code(&self) -> u64 {
        match self {
            Answer::Tokens(rows) => rows.len() as u64,
            Answer::Refused { number, line } => u64::from(*number) << 32 | u64::from(*line),
        }
    }

    /// Document 01's number, 0 for an accepted text.
    pub fn number(&self) -> usize {
        (self.code() >> 32) as usize
    }

    /// Leaves in `rows` what the contract says of them: 1 writes nothing, any other refusal zeroes all.
    pub fn leave_in(&self, rows: &mut [Row]) {
        match self {
            Answer::Refused { number: 1, .. } => {}
            Answer::Refused { .. } => rows.fill([0; 4]),
            Answer::Tokens(tokens) => {
                rows.fill([0; 4]);
                rows[..tokens.len()].copy_from_slice(tokens);
            }
        }
    }

    /// A line `LINE KIND TEXT` for each token, or the one line of the refusal.
    pub fn listing(&self, text: &[u8]) -> Vec<u8> {
        match self {
            Answer::Refused { number, line } => format!("refused {number} line {line}\n").into_bytes(),
            Answer::Tokens(rows) => rows.iter().flat_map(|row| listed(text, row)).collect(),
        }
    }
}

fn listed(text: &[u8], &[kind, start, length, line]: &Row) -> Vec<u8> {
    let (start, length) = (start as usize, length as usize);
    let mut bytes = format!("{line} {} ", kind_word(kind)).into_bytes();
    bytes.extend_from_slice(&text[start..start + length]);
    bytes.push(b'\n');
    bytes
}

fn kind_word(kind: u32) -> &'static str {
    match kind {
        0..NAME => "keyword",
        NAME => "name",
        METAVARIABLE => "metavariable",
        NUMERAL => "numeral",
        _ => "sign",
    }
}
