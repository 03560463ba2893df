//! Declaration texts of realistic shape: every name is declared before its use and applied to as many arguments as it takes.

use crate::random::Random;

/// A text before it is written out: its tokens, comments and line ends in order.
pub type Pieces = Vec<String>;

/// Writes declarations one after another, each as its tokens.
pub trait Writing {
    /// The tokens of the declaration that is being written.
    fn pieces(&mut self) -> &mut Pieces;

    /// The declarations before it.
    fn done(&mut self) -> &mut Vec<Pieces>;

    fn put(&mut self, piece: &str) {
        self.pieces().push(piece.to_owned());
    }

    fn put_all(&mut self, pieces: &[&str]) {
        pieces.iter().for_each(|piece| self.put(piece));
    }

    fn end(&mut self) {
        let pieces = std::mem::take(self.pieces());
        self.done().push(pieces);
    }
}

const SORTS: [&str; 6] = ["Nat", "List", "Tree", "Bool", "Colour", "Sort_1"];
const STEMS: [&str; 12] =
    ["add", "append", "cons", "node", "even", "length", "reverse", "le", "mirror", "f'", "map.at", "is_ok?"];
const VARIABLES: [&str; 10] = ["n", "m", "x", "y", "xs", "ys", "left", "right", "x'", "acc.1"];
const COMMENTS: [&str; 7] = [
    "-- a comment",
    "--",
    "-- été → mañana",
    "--- | zero, n => n",
    "-- é\u{a0}\u{85}\u{10ffff}",
    "-->",
    "-- -- (twice",
];

/// Values on both sides of what a row of a numeral holds and of what a numeral may be; the last is refused.
const NUMERALS: [&str; 9] = [
    "13",
    "00",
    "65536",
    "4294967294",
    "4294967295",
    "4294967296",
    "18446744073709551615",
    "0000000000000000000000000000000000000000000018446744073709551615",
    "18446744073709551616",
];

/// A declared constructor, predicate or function: its name and number of arguments.
type Symbol = (String, usize);

/// What the text has declared so far.
#[derive(Default)]
struct Scope {
    sorts: Vec<String>,
    constructors: Vec<Symbol>,
    predicates: Vec<Symbol>,
    functions: Vec<Symbol>,
}

struct Writer<'a> {
    random: &'a mut Random,
    scope: Scope,
    pieces: Pieces,
    rich: bool,
}

/// A text of about `count` declarations.
pub fn declarations(random: &mut Random, count: usize) -> Pieces {
    text_of(random, count, false)
}

/// The same with all else that the parser reads: groups of binders, judgments as arguments, names and calls in
/// parentheses, large numerals, and about 64 parentheses open together.
pub fn rich_declarations(random: &mut Random, count: usize) -> Pieces {
    text_of(random, count, true)
}

fn text_of(random: &mut Random, count: usize, rich: bool) -> Pieces {
    let mut writer = Writer { random, scope: Scope::default(), pieces: Vec::new(), rich };
    writer.sort();
    writer.constructor(0);
    for _ in 2..count {
        writer.declaration();
    }
    writer.pieces
}

impl Writer<'_> {
    fn declaration(&mut self) {
        match self.random.below(16) {
            0 => self.sort(),
            1..4 => {
                let inputs = self.random.below(4);
                self.constructor(inputs);
            }
            4 | 5 => self.predicate(),
            6 | 7 => self.rule(),
            8..11 => self.function(),
            11 => self.theorem(),
            12..15 => self.query(),
            _ => self.put("\n"),
        }
    }

    fn put(&mut self, piece: &str) {
        self.pieces.push(piece.to_owned());
    }

    fn put_all(&mut self, pieces: &[&str]) {
        pieces.iter().for_each(|piece| self.put(piece));
    }

    fn end_line(&mut self) {
        if self.random.percent(8) {
            let comment = self.random.pick(&COMMENTS);
            self.put(comment);
        }
        self.put("\n");
    }

    /// Whether a rich text takes its chance; other texts draw no number here and stay as they are.
    fn chance(&mut self, percent: usize) -> bool {
        self.rich && self.random.percent(percent)
    }

    fn fresh_name(&mut self) -> String {
        format!("{}{}", self.random.pick(&STEMS), self.pieces.len())
    }

    fn sort(&mut self) {
        let name = format!("{}{}", self.random.pick(&SORTS), self.scope.sorts.len());
        self.put_all(&["sort", &name]);
        self.end_line();
        self.scope.sorts.push(name);
    }

    /// `A → B → last`, with `inputs` sorts before the last.
    fn arrows(&mut self, inputs: usize, last: &str) {
        for _ in 0..inputs {
            let sort = self.random.pick(&self.scope.sorts);
            self.put(&sort);
            self.arrow();
        }
        self.put(last);
    }

    fn arrow(&mut self) {
        let arrow = if self.random.percent(60) { "→" } else { "->" };
        self.put(arrow);
    }

    /// `keyword name : A → B → last` on a line of its own.
    fn signature(&mut self, keyword: &str, inputs: usize, last: &str) -> Symbol {
        let name = self.fresh_name();
        self.put_all(&[keyword, &name, ":"]);
        self.arrows(inputs, last);
        self.end_line();
        (name, inputs)
    }

    fn constructor(&mut self, inputs: usize) {
        let sort = self.random.pick(&self.scope.sorts);
        let symbol = self.signature("ctor", inputs, &sort);
        self.scope.constructors.push(symbol);
    }

    fn predicate(&mut self) {
        let inputs = self.random.below(4);
        let symbol = self.signature("pred", inputs, "Prop");
        self.scope.predicates.push(symbol);
    }

    fn function(&mut self) {
        let inputs = self.random.below(4);
        let sort = self.random.pick(&self.scope.sorts);
        let symbol = self.signature("def", inputs, &sort);
        self.scope.functions.push(symbol);
        for _ in 0..self.random.below(4) {
            self.clause(inputs);
        }
    }

    fn clause(&mut self, inputs: usize) {
        self.put("|");
        for index in 0..inputs {
            if index > 0 {
                self.put(",");
            }
            self.pattern(2);
        }
        self.put("=>");
        self.expression(3);
        self.end_line();
    }

    fn rule(&mut self) {
        let name = self.fresh_name();
        self.put_all(&["rule", &name, ":"]);
        self.judgments();
        self.end_line();
    }

    fn judgments(&mut self) {
        for _ in 0..self.random.below(3) {
            self.judgment();
            self.arrow();
        }
        self.judgment();
    }

    fn judgment(&mut self) {
        if self.chance(15) && !self.scope.functions.is_empty() {
            return self.rich_judgment();
        }
        if self.random.percent(50) && !self.scope.functions.is_empty() {
            self.application(2, |scope| &scope.functions);
            self.put("=");
            self.argument(2);
        } else if !self.scope.predicates.is_empty() {
            self.application(2, |scope| &scope.predicates);
        } else {
            self.expression(2);
        }
    }

    /// `(f a) = b`, `f = g b`, `f a = g b`, `(f a = b)`.
    fn rich_judgment(&mut self) {
        match self.random.below(4) {
            0 => {
                self.put("(");
                self.application(2, |scope| &scope.functions);
                self.put_all(&[")", "="]);
                self.argument(2);
            }
            1 => {
                let (name, _) = self.random.pick(&self.scope.functions);
                self.put_all(&[&name, "="]);
                self.expression(2);
            }
            2 => {
                self.application(2, |scope| &scope.functions);
                self.put("=");
                self.expression(2);
            }
            _ => {
                self.put("(");
                self.judgment();
                self.put(")");
            }
        }
    }

    fn theorem(&mut self) {
        let name = self.fresh_name();
        let variable = self.random.pick(&VARIABLES);
        let sort = self.random.pick(&self.scope.sorts);
        self.put_all(&["theorem", &name]);
        let groups = if self.rich { self.random.below(4) } else { 1 };
        for _ in 0..groups {
            self.put_all(&["(", variable]);
            while self.chance(40) {
                let other = self.random.pick(&VARIABLES);
                self.put(other);
            }
            self.put_all(&[":", &sort, ")"]);
        }
        self.put(":");
        self.judgments();
        let tactics: [&[&str]; 3] = [&[], &[":=", "by", "auto"], &[":=", "by", "induction", variable]];
        let tactic = self.random.pick(&tactics);
        self.put_all(tactic);
        self.end_line();
    }

    fn query(&mut self) {
        let keyword = if self.random.percent(85) { "#eval" } else { "#check" };
        self.put(keyword);
        self.judgment();
        self.end_line();
    }

    fn pattern(&mut self, depth: usize) {
        if depth == 0 || self.random.percent(50) {
            return self.leaf();
        }
        self.application(depth, |scope| &scope.constructors);
    }

    fn expression(&mut self, depth: usize) {
        if self.random.percent(50) && !self.scope.functions.is_empty() {
            self.application(depth, |scope| &scope.functions);
        } else {
            self.pattern(depth);
        }
    }

    /// A name picked from `list` and its arguments.
    fn application(&mut self, depth: usize, list: fn(&Scope) -> &Vec<Symbol>) {
        let (name, arguments) = self.random.pick(list(&self.scope));
        if self.chance(5) {
            self.put_all(&["(", &name, ")"]);
        } else {
            self.put(&name);
        }
        for _ in 0..arguments {
            self.argument(depth - 1);
        }
    }

    fn argument(&mut self, depth: usize) {
        if self.chance(3) {
            return self.nested(depth);
        }
        if depth == 0 || self.random.percent(60) {
            return self.leaf();
        }
        self.put("(");
        self.expression(depth);
        self.put(")");
    }

    /// A judgment or a leaf in several parentheses, now and then in about as many as may be open.
    fn nested(&mut self, depth: usize) {
        let count = match self.random.below(20) {
            0..3 => self.random.between(61, 66),
            3..6 => self.random.between(5, 30),
            _ => self.random.between(1, 4),
        };
        (0..count).for_each(|_| self.put("("));
        if depth == 0 {
            self.leaf();
        } else {
            self.judgment();
        }
        (0..count).for_each(|_| self.put(")"));
    }

    fn leaf(&mut self) {
        if self.chance(3) {
            let numeral = self.random.pick(&NUMERALS);
            return self.put(numeral);
        }
        let variable = self.random.pick(&VARIABLES);
        let leaf = match self.random.below(8) {
            0..4 => variable.to_owned(),
            4 | 5 => format!("?{variable}"),
            6 => self.random.below(13).to_string(),
            _ => "?".to_owned(),
        };
        self.put(&leaf);
    }
}

/// The text of the pieces, mostly as people write it.
pub fn written(random: &mut Random, pieces: &Pieces) -> Vec<u8> {
    let mut text = Vec::new();
    for (index, piece) in pieces.iter().enumerate() {
        text.extend_from_slice(piece.as_bytes());
        if let Some(next) = pieces.get(index + 1) {
            text.extend_from_slice(separator(random, piece, next).as_bytes());
        }
    }
    if random.percent(10) && text.ends_with(b"\n") {
        text.pop();
    }
    text
}

/// The same with nothing odd between pieces, so that all of them stay apart.
pub fn plainly_written(pieces: &Pieces) -> Vec<u8> {
    let ends = pieces.iter().skip(1).map(String::as_str).chain(["\n"]);
    pieces
        .iter()
        .zip(ends)
        .flat_map(|(piece, next)| [piece, plain_separator(piece, next)].concat().into_bytes())
        .collect()
}

fn separator(random: &mut Random, piece: &str, next: &str) -> &'static str {
    const ODD: [&str; 8] = ["  ", "\t", "\u{b}", "\u{c}", "\r", " \r\n", "", "\n"];
    if random.percent(2) {
        return random.pick(&ODD);
    }
    plain_separator(piece, next)
}

fn plain_separator(piece: &str, next: &str) -> &'static str {
    let tight = piece == "(" || next == ")" || next == "," || piece == "\n" || next == "\n";
    if tight { "" } else { " " }
}
