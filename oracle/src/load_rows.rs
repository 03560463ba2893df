//! Reads the loader's storage back with nothing but the text, and trusts nothing in it: names stand behind their
//! keywords in the text, rows are zero past what they count, words are in postorder with each node once, sorts fit, and
//! variables are numbered as they appear.

use crate::declared::{CHECK, Declaration, EVAL};
use crate::loaded::*;
use crate::rows::{Word, decoded, words_of};
use crate::tokens::Row;

type Read<T> = Result<T, String>;

enum Pattern {
    Variable(u32),
    Node(u32, Vec<Pattern>),
}

struct Reader<'a> {
    words: Vec<Word<'a>>,
    storage: &'a Storage,
}

/// The storage of a text of `count` declarations, listed as `oracle/load` lists the original's values; else what is
/// wrong with it.
pub fn read_back(text: &[u8], count: usize, storage: &Storage) -> Read<String> {
    let reader = Reader { words: words_of(text), storage };
    let mut lines = reader.sorts()?;
    let keywords = reader.symbol_keywords()?;
    for (number, keyword) in keywords.iter().enumerate() {
        lines += &reader.symbol(number, keyword).map_err(|cause| format!("symbol {number}: {cause}"))?;
    }
    reader.names_of_rules()?;
    let mut first = 0;
    for (number, rule) in storage.rules.iter().enumerate() {
        lines += &reader.rule(rule, &mut first).map_err(|cause| format!("rule {number}: {cause}"))?;
    }
    expect(first as usize == storage.words.len(), "words behind those of the last rule")?;
    Ok(lines + &reader.evals(text, count)?)
}

fn expect(holds: bool, otherwise: &str) -> Read<()> {
    if holds { Ok(()) } else { Err(otherwise.to_owned()) }
}

/// The numbers in use, and only zeros behind them.
fn used(numbers: &[u32], count: u32) -> Read<&[u32]> {
    expect(count as usize <= numbers.len(), "a count over its limit")?;
    let (used, rest) = numbers.split_at(count as usize);
    expect(rest.iter().all(|number| *number == 0), "a number past the count")?;
    Ok(used)
}

impl<'a> Reader<'a> {
    /// The keyword and the name of each declaration that starts with one of these.
    fn declared(&self, keywords: &[&str]) -> Vec<(&'a str, &Word<'a>)> {
        let pairs = self.words.windows(2).filter(|pair| keywords.contains(&pair[0].spelling));
        pairs.map(|pair| (pair[0].spelling, &pair[1])).collect()
    }

    fn is_at(&self, word: &Word, start: u32, length: u32) -> Read<()> {
        let place = (word.start, word.spelling.len());
        let cause = format!("place {start}, {length} instead of that of {}", word.spelling);
        expect(place == (start as usize, length as usize), &cause)
    }

    /// The word at a place.
    fn word_at(&self, start: u32, length: u32) -> Read<&'a str> {
        let word = self.words.binary_search_by_key(&(start as usize), |word| word.start);
        let word = &self.words[word.map_err(|_| format!("no word at {start}"))?];
        self.is_at(word, start, length)?;
        Ok(word.spelling)
    }

    fn sorts(&self) -> Read<String> {
        let declared = self.declared(&["sort"]);
        expect(declared.len() == self.storage.sorts.len(), "another number of sorts")?;
        let mut lines = String::new();
        for ((_, word), [start, length]) in declared.iter().zip(&self.storage.sorts) {
            self.is_at(word, *start, *length)?;
            lines += &format!("sort {}\n", word.spelling);
        }
        Ok(lines)
    }

    fn sort_name(&self, sort: u32) -> Read<&'a str> {
        let index = (sort as usize).checked_sub(1).ok_or("no sort")?;
        let [start, length] = self.storage.sorts.get(index).ok_or("a sort that is not declared")?;
        self.word_at(*start, *length)
    }

    fn sort_names(&self, sorts: &[u32]) -> Read<Vec<&'a str>> {
        sorts.iter().map(|sort| self.sort_name(*sort)).collect()
    }

    /// The keywords with which the symbols were declared.
    fn symbol_keywords(&self) -> Read<Vec<&'a str>> {
        let declared = self.declared(&["ctor", "pred", "def"]);
        expect(declared.len() == self.storage.symbols.len(), "another number of symbols")?;
        for ((_, word), row) in declared.iter().zip(&self.storage.symbols) {
            self.is_at(word, row[0], row[1])?;
        }
        Ok(declared.into_iter().map(|(keyword, _)| keyword).collect())
    }

    fn symbol_name(&self, symbol: u32) -> Read<&'a str> {
        let row = self.storage.symbols.get(symbol as usize).ok_or("a symbol that is not declared")?;
        self.word_at(row[0], row[1])
    }

    fn symbol(&self, number: usize, keyword: &str) -> Read<String> {
        let [_, _, output, function, first, clauses, inputs, zero, all_inputs @ ..] = &self.storage.symbols[number];
        expect(*zero == 0, "the number before the inputs")?;
        let (name, inputs) = (self.symbol_name(number as u32)?, self.sort_names(used(all_inputs, *inputs)?)?);
        let joined = |last: &[&str]| [&inputs[..], last].concat().join(" → ");
        let no_clauses = (*first, *clauses) == (0, 0);
        match (keyword, output, function) {
            ("ctor", 1.., 0) if no_clauses => Ok(format!("ctor {name} : {}\n", joined(&[self.sort_name(*output)?]))),
            ("pred", 0, 0) if no_clauses => Ok(format!("pred {name} : {}\n", joined(&["Prop"]))),
            ("def", 0, 1) => Ok(format!("def {name} : {} clauses {first} {clauses}\n", joined(&[]))),
            _ => Err(format!("output {output}, mark {function}, clauses {first} {clauses} for a {keyword}")),
        }
    }

    /// Rules and clauses follow each other as in the text, and each function knows its clauses.
    fn names_of_rules(&self) -> Read<()> {
        let mut symbols = self.storage.symbols.iter();
        let mut rule = 0;
        for (keyword, word) in self.declared(&["ctor", "pred", "def", "rule"]) {
            if keyword == "rule" {
                self.is_rule(rule, word, 0)?;
                rule += 1;
                continue;
            }
            let [_, _, _, _, first, clauses, ..] = symbols.next().ok_or("a symbol for each declaration")?;
            expect(*first == if *clauses == 0 { 0 } else { rule }, "the first clause")?;
            for clause in 0..*clauses {
                self.is_rule(rule, word, clause + 1)?;
                rule += 1;
            }
        }
        expect(rule as usize == self.storage.rules.len(), "another number of rules")
    }

    fn is_rule(&self, rule: u32, word: &Word, clause: u32) -> Read<()> {
        let row = self.storage.rules.get(rule as usize).ok_or("too few rules")?;
        self.is_at(word, row[0], row[1])?;
        expect(row[2] == clause, "another clause")
    }

    /// A rule whose words start at `first`, which becomes their end.
    fn rule(&self, row: &RuleRow, first: &mut u32) -> Read<String> {
        let [start, length, clause, variables, premises, conclusion, address, before, after, met, ..] = *row;
        expect(address == *first, "the first word")?;
        let middle = address.checked_add(before).ok_or("too many words")?;
        let end = middle.checked_add(after).ok_or("too many words")?;
        expect(end as usize <= self.storage.words.len(), "words past the last one")?;
        *first = end;
        let premises = used(&row[FIRST_PREMISE..FIRST_SORT], premises)?;
        let mut judgments = self.patterns(premises, address, middle)?;
        judgments.extend(self.patterns(&[conclusion], middle, end)?);
        let sorts = used(&row[FIRST_SORT..FIRST_PLACE], variables)?;
        self.judgments_fit(&judgments, sorts)?;
        expect(
            meeting(&judgments) == (met, used(&row[FIRST_PLACE..], variables)?.to_vec()),
            "the places of variables",
        )?;
        let name = self.word_at(start, length)?;
        let name = if clause == 0 { name.to_owned() } else { format!("{name}.{}", clause - 1) };
        let judgments: Vec<String> = judgments.iter().map(|judgment| self.listed(judgment)).collect::<Read<_>>()?;
        Ok(format!("rule {name} ({}) : {}\n", self.sort_names(sorts)?.join(" "), judgments.join(" → ")))
    }

    /// The patterns whose words fill a part.
    fn patterns(&self, references: &[u32], start: u32, mut end: u32) -> Read<Vec<Pattern>> {
        let read = references.iter().rev().map(|reference| self.pattern(*reference, start, &mut end));
        let mut patterns: Vec<Pattern> = read.collect::<Read<_>>()?;
        expect(start == end, "words that are part of no term")?;
        patterns.reverse();
        Ok(patterns)
    }

    /// The pattern whose words end at `end`, which becomes their start.
    fn pattern(&self, reference: u32, start: u32, end: &mut u32) -> Read<Pattern> {
        let Some(address) = reference.checked_sub(FIRST_NODE) else { return Ok(Pattern::Variable(reference)) };
        expect(start <= address && address < *end, "a reference out of its part")?;
        let header = self.storage.words[address as usize].checked_sub(FIRST_HEADER).ok_or("no header")?;
        let (symbol, arity) = (header / ARITIES, header % ARITIES);
        let row = self.storage.symbols.get(symbol as usize).ok_or("a symbol that is not declared")?;
        expect(arity == row[6] && address + 1 + arity == *end, "a node that does not end where it must")?;
        let references = &self.storage.words[address as usize + 1..*end as usize];
        *end = address;
        let read = references.iter().rev().map(|reference| self.pattern(*reference, start, end));
        let mut arguments: Vec<Pattern> = read.collect::<Read<_>>()?;
        arguments.reverse();
        Ok(Pattern::Node(symbol, arguments))
    }

    /// Sorts fit, and variables have numbers in the order in which they appear.
    fn judgments_fit(&self, judgments: &[Pattern], sorts: &[u32]) -> Read<()> {
        let (mut variables, mut nodes) = (0, 0);
        for judgment in judgments {
            self.fits(judgment, 0, sorts, &mut variables, &mut nodes)?;
        }
        expect(variables as usize == sorts.len(), "variables that do not appear")?;
        expect(nodes <= RULE_NODES, "too many nodes")
    }

    fn fits(&self, pattern: &Pattern, wanted: u32, sorts: &[u32], variables: &mut u32, nodes: &mut usize) -> Read<()> {
        *nodes += 1;
        match pattern {
            Pattern::Variable(variable) => {
                let sort = *sorts.get(*variable as usize).ok_or("a variable that is not counted")?;
                expect(*variable <= *variables, "a variable before those with lower numbers")?;
                *variables = (*variables).max(variable + 1);
                expect(wanted == 0 || wanted == sort, "a variable of another sort")
            }
            Pattern::Node(symbol, arguments) => {
                let row = self.storage.symbols[*symbol as usize];
                expect(row[2] == wanted, "a symbol of another sort")?;
                let mut inputs = arguments.iter().zip(&row[FIRST_INPUT..]);
                inputs.try_for_each(|(argument, sort)| self.fits(argument, *sort, sorts, variables, nodes))
            }
        }
    }

    /// As the original's `pat_text`.
    fn listed(&self, pattern: &Pattern) -> Read<String> {
        let (symbol, arguments) = match pattern {
            Pattern::Variable(variable) => return Ok(format!("?v{variable}")),
            Pattern::Node(symbol, arguments) => (symbol, arguments),
        };
        let name = self.symbol_name(*symbol)?;
        if arguments.is_empty() && self.storage.symbols[*symbol as usize][2] > 0 {
            return Ok(name.to_owned());
        }
        let arguments = arguments.iter().map(|argument| Ok(format!(" {}", self.listed(argument)?)));
        Ok(format!("({name}{})", arguments.collect::<Read<String>>()?))
    }

    /// The terms that wait: where their rows are, and how they are spelled.
    fn evals(&self, text: &[u8], count: usize) -> Read<String> {
        let is_head = |row: &&Row| row[0] <= CHECK;
        expect(self.storage.rows.iter().filter(is_head).count() == count, "another number of declarations")?;
        let listed = decoded(text, count, &self.storage.rows)?;
        let terms = listed.iter().filter_map(|listed| match &listed.declaration {
            Declaration::Eval(term) => Some((listed.line, term)),
            _ => None,
        });
        let rows = (0..self.storage.rows.len()).filter(|row| self.storage.rows[*row][0] == EVAL);
        let expected: Vec<(u32, u32, &String)> =
            terms.zip(rows).map(|((line, term), row)| (line, row as u32 + 1, term)).collect();
        let stored: Vec<Pair> = expected.iter().map(|(line, row, _)| [*line, *row]).collect();
        expect(stored == self.storage.evals, "lines and rows of the terms that wait")?;
        Ok(expected.iter().map(|(line, _, term)| format!("eval {line} {term}\n")).collect())
    }
}

/// How many variables the conclusion, which is last, has, and the place of each variable where an instance meets them:
/// the conclusion from left to right, then the premises from the last to the first.
fn meeting(judgments: &[Pattern]) -> (u32, Vec<u32>) {
    let mut order = Vec::new();
    let mut met = 0;
    for (after, judgment) in judgments.iter().rev().enumerate() {
        met_in(judgment, &mut order);
        met = if after == 0 { order.len() as u32 } else { met };
    }
    let place = |variable: u32| order.iter().position(|other| *other == variable).expect("met") as u32;
    (met, (0..order.len() as u32).map(place).collect())
}

fn met_in(pattern: &Pattern, order: &mut Vec<u32>) {
    match pattern {
        Pattern::Variable(variable) if order.contains(variable) => {}
        Pattern::Variable(variable) => order.push(*variable),
        Pattern::Node(_, arguments) => arguments.iter().for_each(|argument| met_in(argument, order)),
    }
}
