//! A text loaded for both evaluators, one question about it, the fixed questions, and the seeded mix of questions.

use crate::damage::{changed_number, damage_bytes, damage_tokens};
use crate::declarations::{Pieces, plainly_written, written};
use crate::evaluate::{Evaluated, Kept};
use crate::evaluate_definitions::Evaluation;
use crate::evaluate_examples::{Example, examples};
use crate::evaluated::{Answer, NO_WORDS, Terms, WORDS};
use crate::load::{Loaded, load};
use crate::loaded::{
    self, ARITIES, Buffers, FIRST_HEADER, FIRST_INPUT, FIRST_NODE, FIRST_PREMISE, Lent, Limits, NODES, Pair, RuleRow,
    Storage, SymbolRow,
};
use crate::pattern_definitions::Written;
use crate::programs::program;
use crate::random::Random;
use crate::shrink;
use crate::signatures::signature;
use crate::stored_definitions::{Signature, term_at};
use std::collections::HashSet;
use std::ops::Range;

/// A loaded text: the original's signature, and the same as it is stored and as the definitions read it.
pub struct Program {
    pub declarations: usize,
    pub loaded: Loaded,
    pub storage: Storage,
    pub signature: Signature,
}

impl Program {
    pub fn load(text: &[u8], limits: Limits) -> Result<Program, loaded::Answer> {
        let loaded = load(text, limits, &Lent::least(limits))?;
        let loaded::Answer::Loaded(declarations, storage) = loaded.answer() else { panic!("a loaded text is stored") };
        let signature = Signature::stored(text, &storage.symbols, &storage.rules, &storage.words);
        Ok(Program { declarations, loaded, storage, signature })
    }

    /// The term of an `#eval` by its rows.
    pub fn term(&self, text: &[u8], eval: usize) -> Written {
        let [_, row] = self.storage.evals[eval];
        term_at(text, &self.storage.rows, row as usize).expect("the rows of an `#eval` are a term's").0
    }

    /// What the evaluator gives for an `#eval` under a limit on words, as it is recorded.
    pub fn recorded(&self, text: &[u8], eval: usize, limit: u32) -> String {
        let limit = u64::from(limit.min(WORDS));
        match self.signature.evaluate(limit, &self.term(text, eval), &mut Terms::default()) {
            Evaluation { answer: Answer::Refused(NO_WORDS), .. } => format!("refused {NO_WORDS}\n"),
            Evaluation { compared, .. } if compared > COMPARED => "not known: too large for the Rust\n".to_owned(),
            _ => self.loaded.evaluated(eval).recorded(),
        }
    }

    /// The same for all of them, each behind its line. Of a goal only that it is one; a term that is too large to be
    /// printed is refused.
    pub fn listing(&self, text: &[u8], limit: u32) -> String {
        let listed = |(eval, [line, _]): (usize, &Pair)| {
            let verdict = match self.loaded.is_forward_call(eval) {
                false => "goal\n".to_owned(),
                true if self.largest(text, eval, limit) > PRINTED => "refused 39\n".to_owned(),
                true => self.recorded(text, eval, limit),
            };
            format!("eval {line} {verdict}")
        };
        self.storage.evals.iter().enumerate().map(listed).collect()
    }

    /// The nodes of the largest term that is listed for an `#eval`, 0 where it is refused.
    pub fn largest(&self, text: &[u8], eval: usize, limit: u32) -> u64 {
        let mut terms = Terms::default();
        let Answer::Value(value) = self.signature.evaluate_with(limit, &self.term(text, eval), &mut terms) else {
            return 0;
        };
        let all = value.calls.iter().map(|call| call.goal).chain([value.term]);
        all.map(|term| terms.size(term)).max().expect("a value")
    }

    /// The answer to an `#eval` without a limit on words, on which the original and the definitions agree; else how they
    /// differ. Tells also whether the original was asked.
    pub fn agreed(&self, text: &[u8], eval: usize, terms: &mut Terms) -> Result<(Answer, bool), String> {
        let forward = self.loaded.is_forward_call(eval);
        agreed(&self.signature, &self.term(text, eval), forward, || self.loaded.evaluated(eval), terms)
    }
}

/// The same for a term and a signature as it is stored, which no text need have made.
pub fn agreed_as_kept(
    kept: &Kept,
    signature: &Signature,
    term: &Written,
    terms: &mut Terms,
) -> Result<(Answer, bool), String> {
    agreed(signature, term, kept.is_forward_call(term), || kept.evaluated(term), terms)
}

fn agreed<'s>(
    signature: &Signature,
    term: &Written,
    forward: bool,
    evaluated: impl FnOnce() -> Evaluated<'s>,
    terms: &mut Terms,
) -> Result<(Answer, bool), String> {
    if signature.is_forward_call(term) != forward {
        return Err(format!("forward call: the Rust says {forward}, the definitions {}", !forward));
    }
    let Evaluation { answer, compared } = signature.evaluate(BUILT, term, terms);
    if answer == Answer::Refused(NO_WORDS) || compared > COMPARED {
        return Ok((answer, false));
    }
    let original = evaluated().answer(terms);
    if original == answer {
        return Ok((answer, true));
    }
    Err(format!("the Rust says {}, the definitions {}", original.shown(terms), answer.shown(terms)))
}

/// Document 01: a term over so many nodes is not printed.
const PRINTED: u64 = 4_096;

/// How many words the original may build and how many nodes it may compare. Over these it is not asked: it compares shared
/// terms as if they were written out, and needs a stack as deep as they are.
const BUILT: u64 = 1 << 21;
const COMPARED: u64 = 1 << 22;

/// The limit on words.
#[derive(Clone, Copy, Debug, PartialEq, Eq, Hash)]
pub enum Limit {
    Words(u32),
    /// So many more than the words of the value; for a refused term it is the bench program's.
    Used(i32),
}

/// The bench program's limit on words, and one under which most texts make as many calls as there may be.
pub const BENCH: u32 = 8_192;
const ENOUGH: u32 = 65_536;

impl Limit {
    pub fn words(self, answer: &Answer) -> u32 {
        match (self, answer) {
            (Limit::Words(words), _) => words,
            (Limit::Used(more), Answer::Value(value)) => (value.words as u32).saturating_add_signed(more),
            (Limit::Used(_), Answer::Refused(_)) => BENCH,
        }
    }
}

/// What is lent has sizes: sorts, symbols, rules, words of the signature, counts, rows; words, links, tree rows, results.
pub const PARTS: usize = 10;

/// A text, the limit on words that the caller sets, the part of what is lent that is not of the least size with how much
/// more it is, and the seed of a damage to what is stored.
#[derive(Clone, Debug, PartialEq, Eq, Hash)]
pub struct Question {
    pub text: Vec<u8>,
    pub limit: Limit,
    pub size: Option<(usize, isize)>,
    pub damage: Option<u64>,
}

impl Question {
    pub fn plain(text: &[u8], limit: Limit) -> Question {
        Question { text: text.to_vec(), limit, size: None, damage: None }
    }

    /// The limits under which the text is loaded.
    pub fn limits(&self) -> Limits {
        Limits { text: self.text.len() as u32, nodes: NODES }
    }
}

/// What a declaration or a clause starts with.
const PART_STARTS: [&[u8]; 7] = [b"sort ", b"ctor ", b"pred ", b"rule ", b"def ", b"#eval ", b"|"];

/// The declarations of a text, and behind them its clauses.
pub fn parts(text: &[u8]) -> Vec<Range<usize>> {
    let starts_one = |at: &usize| PART_STARTS.iter().any(|start| text[*at..].starts_with(start));
    let starts: Vec<usize> = (0..text.len()).filter(starts_one).chain([text.len()]).collect();
    let is_clause = |at: usize| text.get(at) == Some(&b'|');
    let declarations: Vec<usize> = starts.iter().copied().filter(|at| !is_clause(*at)).collect();
    let parts = |starts: &[usize]| starts.windows(2).map(|pair| pair[0]..pair[1]).collect::<Vec<_>>();
    let clauses = parts(&starts).into_iter().filter(|part| is_clause(part.start));
    parts(&declarations).into_iter().chain(clauses).collect()
}

impl shrink::Question for Question {
    fn text(&self) -> &[u8] {
        &self.text
    }

    fn about(&self, text: Vec<u8>) -> Question {
        Question { text, ..*self }
    }

    fn parts(&self) -> Vec<Range<usize>> {
        parts(&self.text)
    }

    fn lowered(&self) -> Vec<Question> {
        let limits = [Limit::Words(WORDS), Limit::Words(BENCH), self.limit];
        limits.map(|limit| Question::plain(&self.text, limit)).to_vec()
    }
}

/// Terms of 2^100 nodes of which few are stored, compared with themselves and with others. The original is not asked.
const SHARED: [&str; 2] = [
    "sort A ctor a : A ctor zero : A ctor succ : A → A ctor d : A → A → A def twice : A → A | x => d x x
     def t : A → A | succ x => twice (t x) | x => x def e : A → A → A | x, x => a | x, y => zero
     #eval e (t 100) (t 100) #eval e (t 100) (d (t 99) (t 99)) #eval e (t 100) (t 99) #eval e (t 100) (twice (t (succ 99)))",
    "sort A ctor a : A ctor zero : A ctor succ : A → A ctor d : A → A → A def twice : A → A | x => d x x
     def t : A → A | succ x => twice (t x) | x => x def q : A → A → A | d x y, d y x => x | x, y => zero
     #eval q (t 90) (t 90) #eval q (t 90) (t 89) #eval q (t 90) (d (t 89) (t 88)) #eval q (t 2) (t 2)",
];

/// The fixed questions.
pub fn fixed_questions() -> Vec<Question> {
    let mut questions = Vec::new();
    for Example { text, limit, .. } in examples() {
        let limits = [Limit::Words(limit), Limit::Used(-1), Limit::Used(0), Limit::Used(1), Limit::Words(0)];
        questions.extend(limits.map(|limit| Question::plain(text.as_bytes(), limit)));
    }
    let text = "sort A ctor a : A ctor s : A → A def f : A → A | s x => f x | x => s x def g : A\n\
                #eval f (s a) #eval g #eval f ?x #eval s a #eval f b";
    questions.extend(SHARED.map(|text| Question::plain(text.as_bytes(), Limit::Words(WORDS))));
    for limit in [0, 1, 11, 12, BENCH, WORDS - 1, WORDS, WORDS + 1, u32::MAX].map(Limit::Words) {
        let exact = Question::plain(text.as_bytes(), limit);
        let sized = |size| Question { size: Some(size), ..exact.clone() };
        questions.extend((0..PARTS).flat_map(|part| [-1, 1].map(|change| sized((part, change)))));
        questions.push(exact);
    }
    questions
}

/// An example that the original and the definitions do not answer as listed.
pub fn unexpected_example() -> Option<String> {
    examples().into_iter().find_map(|example| {
        let cause = unexpected(&example)?;
        Some(format!("\"{}\" with {} words: {cause}", example.text.escape_debug(), example.limit))
    })
}

fn unexpected(Example { text, limit, forward, answer, words }: &Example) -> Option<String> {
    let limits = Limits { text: text.len() as u32, nodes: NODES };
    let program = match Program::load(text.as_bytes(), limits) {
        Ok(program) => program,
        Err(refusal) => return Some(format!("the text is refused by {}", refusal.number())),
    };
    let eval = program.storage.evals.len() - 1;
    if program.loaded.is_forward_call(eval) != *forward {
        return Some(format!("a forward call: {}", !forward));
    }
    let recorded = program.recorded(text.as_bytes(), eval, *limit);
    let first = recorded.lines().next().expect("an answer has a line");
    let expected = match answer.strip_suffix("..") {
        Some(start) => first.starts_with(start),
        None => *answer == recorded || answer == first,
    };
    if !expected {
        return Some(format!("{recorded}and not {answer}"));
    }
    match program.agreed(text.as_bytes(), eval, &mut Terms::default()) {
        Err(cause) => Some(cause),
        Ok((Answer::Value(value), _)) if words.is_some_and(|words| words != value.words) => {
            Some(format!("{} words and not {words:?}", value.words))
        }
        Ok(_) => None,
    }
}

/// A generated question.
pub fn generated(random: &mut Random) -> Question {
    let text = generated_text(random);
    let limit = match random.below(20) {
        0 => Limit::Words(WORDS),
        1 => Limit::Words(random.pick(&[0, 1, 2, WORDS + 1, u32::MAX])),
        2..5 => Limit::Words(random.below(100) as u32),
        5..8 => Limit::Words(ENOUGH),
        8..12 => Limit::Words(BENCH),
        _ => Limit::Used(random.pick(&[-1, -1, 0, 0, 1, -2])),
    };
    let size = random.percent(8).then(|| (random.below(PARTS), random.pick(&[-1, -1, 1, 3])));
    let damage = random.percent(40).then(|| random.below(1 << 40) as u64);
    Question { text, limit, size, damage }
}

/// A text that most likely is loaded.
pub fn generated_text(random: &mut Random) -> Vec<u8> {
    let declarations = if random.percent(4) { signature(random, 12, 0) } else { program(random) };
    let mut pieces: Pieces =
        declarations.into_iter().flat_map(|declaration| [declaration, vec!["\n".to_owned()]].concat()).collect();
    if random.percent(2) {
        damage_tokens(random, &mut pieces);
    }
    let mut text = if random.percent(10) { written(random, &pieces) } else { plainly_written(&pieces) };
    if random.percent(1) {
        damage_bytes(random, &mut text);
    }
    text
}

/// Changes one number of what is stored, or one byte of the text; the counts tell how much is in use.
pub fn damage(seed: u64, text: &mut [u8], stored: &mut Buffers) {
    let random = &mut Random::new(seed);
    let [sorts, symbols, rules, words] = [0, 1, 2, 3].map(|at| stored.counts[at] as usize);
    let rows = stored.rows.iter().position(|row| row[0] == 0).unwrap_or(stored.rows.len());
    match random.below(40) {
        0..3 => change(random, &mut stored.sorts[..sorts], 2),
        3..13 => change(random, &mut stored.symbols[..symbols], 10),
        13..21 => change(random, &mut stored.rules[..rules], 12),
        21..29 => change(random, stored.words[..words].as_chunks_mut::<1>().0, 1),
        29 | 30 => change(random, stored.counts[..4].as_chunks_mut::<1>().0, 1),
        31..38 => change(random, &mut stored.rows[..rows], 4),
        _ if text.is_empty() => {}
        _ => {
            let (at, other) = (random.below(text.len()), random.below(text.len()));
            text[at] = text[other];
        }
    }
}

/// Changes a number of a row, mostly one of the first `often` and to what another row has in its place.
fn change<const N: usize>(random: &mut Random, rows: &mut [[u32; N]], often: usize) {
    if rows.is_empty() {
        return;
    }
    let (at, other) = (random.below(rows.len()), random.below(rows.len()));
    let column = if random.percent(90) { random.below(often) } else { random.below(N) };
    let another = rows[other][column];
    rows[at][column] = if random.percent(50) { another } else { changed_number(random, rows[at][column], another) };
}

/// Changes what is stored so that it stays in the listed form, and that no text need make it: sorts of inputs and outputs,
/// and symbols of nodes, where the others have as many inputs. Functions stay what clauses conclude and call.
pub fn change_in_form(random: &mut Random, storage: &mut Storage) {
    let (sorts, symbols) = (storage.sorts.len(), storage.symbols.len());
    if random.percent(30) && sorts > 0 && symbols > 0 {
        let symbol = &mut storage.symbols[random.below(symbols)];
        let column = random.below(1 + symbol[6] as usize);
        let sort = random.between(1, sorts) as u32;
        match column {
            0 if symbol[2] == 0 => {}
            0 => symbol[2] = sort,
            _ => symbol[FIRST_INPUT + column - 1] = sort,
        }
        return;
    }
    let roots = |rule: &RuleRow| rule[FIRST_PREMISE..][..rule[4] as usize].to_vec();
    let premises: HashSet<u32> = storage.rules.iter().flat_map(roots).collect();
    let conclusions: HashSet<u32> = storage.rules.iter().map(|rule| rule[5]).collect();
    let is_node = |at: &usize| storage.words[*at] >= FIRST_HEADER;
    let nodes: Vec<usize> = (0..storage.words.len()).filter(is_node).collect();
    let nodes: Vec<usize> = nodes.into_iter().filter(|at| !conclusions.contains(&(*at as u32 + FIRST_NODE))).collect();
    if nodes.is_empty() {
        return;
    }
    let at = random.pick(&nodes);
    let (inputs, calls) = (storage.words[at] % ARITIES, premises.contains(&(at as u32 + FIRST_NODE)));
    let fits = |row: &SymbolRow| row[6] == inputs && (!calls || row[3] == 1);
    let others: Vec<usize> = (0..symbols).filter(|symbol| fits(&storage.symbols[*symbol])).collect();
    if !others.is_empty() {
        storage.words[at] = FIRST_HEADER + ARITIES * random.pick(&others) as u32 + inputs;
    }
}
