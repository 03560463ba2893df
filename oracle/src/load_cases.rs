//! One question to both loaders, the fixed ones, and the seeded mix of questions.

use crate::cases::generated_text as lexical_text;
use crate::damage::{damage_bytes, damage_tokens};
use crate::declarations::{Pieces, rich_declarations, written};
use crate::load::reference;
use crate::load_definitions::defined;
use crate::load_examples::{Example, examples, large_examples};
use crate::loaded::{Lent, Limits, NODES};
use crate::random::Random;
use crate::shrink;
use crate::signatures::signature;
use crate::tokens::{self, TEXT_BYTES};
use crate::words;

/// A text, the limits that the caller sets, and what it lends.
#[derive(Clone, Debug, PartialEq, Eq, Hash)]
pub struct Question {
    pub text: Vec<u8>,
    pub limits: Limits,
    pub lent: Lent,
}

impl Question {
    /// The smallest text limit and storage that the text needs, under a limit on nodes in all.
    pub fn exact(text: &[u8], nodes: u32) -> Question {
        let limits = Limits { text: text.len() as u32, nodes };
        Question { text: text.to_vec(), limits, lent: Lent::least(limits) }
    }
}

impl shrink::Question for Question {
    fn text(&self) -> &[u8] {
        &self.text
    }

    fn about(&self, text: Vec<u8>) -> Question {
        Question { text, ..*self }
    }

    fn lowered(&self) -> Vec<Question> {
        vec![Question::exact(&self.text, NODES), Question::exact(&self.text, self.limits.nodes)]
    }
}

/// The question that an example is.
pub fn asked(example: &Example) -> Question {
    Question::exact(example.text.as_bytes(), example.nodes)
}

/// The fixed questions with few bytes.
pub fn small_questions() -> Vec<Question> {
    let mut questions: Vec<Question> = examples().iter().map(asked).collect();
    for text in ["", "sort A", "rule r : u", "sort A\nctor a : A pred p : A → Prop rule r : p a #eval p a"] {
        for nodes in [0, 1, 2, 40] {
            questions.extend(storage(text.as_bytes(), nodes));
        }
    }
    questions
}

/// The fixed questions with many bytes or nodes.
pub fn large_questions() -> Vec<Question> {
    let mut questions: Vec<Question> = large_examples().iter().map(asked).collect();
    for nodes in [NODES - 1, NODES, NODES + 1, u32::MAX] {
        for text in [TEXT_BYTES - 1, TEXT_BYTES, TEXT_BYTES + 1, u32::MAX] {
            let limits = Limits { text, nodes };
            let lent = Lent::least(limits);
            let length = TEXT_BYTES as usize;
            questions.extend([0, length - 1, length, length + 1].map(|length| Question {
                text: vec![b' '; length],
                limits,
                lent,
            }));
        }
    }
    questions
}

/// A text with each kind of storage one short, exact and one more, and with limits about its length.
fn storage(text: &[u8], nodes: u32) -> Vec<Question> {
    let mut questions = Vec::new();
    for limit in text.len().saturating_sub(1)..=text.len() + 1 {
        let limits = Limits { text: limit as u32, nodes };
        let exact = Question { text: text.to_vec(), limits, lent: Lent::least(limits) };
        for part in 0..exact.lent.parts().len() {
            for change in [-1, 1] {
                let mut question = exact.clone();
                let lent = &mut *question.lent.parts_mut()[part];
                *lent = lent.saturating_add_signed(change);
                questions.push(question);
            }
        }
        questions.push(exact);
    }
    questions
}

/// An example that the original does not answer as listed.
pub fn unexpected_example() -> Option<String> {
    let examples = examples().into_iter().chain(large_examples());
    examples.into_iter().find_map(|example| {
        let question = asked(&example);
        let answer = reference(&question.text, question.limits, &question.lent);
        let Example { text, nodes, number, line } = example;
        let accepted = number == 0 && answer.number() == 0;
        let expected = u64::from(number) << 32 | u64::from(line);
        let (actual, shown) = (answer.code(), text.escape_debug());
        let given = format!("{} line {}", answer.number(), actual as u32);
        (!accepted && actual != expected)
            .then(|| format!("\"{shown}\" with {nodes} nodes gives {given}, not {number} line {line}"))
    })
}

/// Names for short terms: constructors of two sorts, predicates, functions, and names that are not declared.
const HEADS: [&str; 12] = ["zero", "succ", "d", "b", "q", "p", "t", "f", "g", "x", "u", "A"];
const LEAVES: [&str; 17] =
    ["zero", "succ", "d", "b", "q", "p", "t", "f", "g", "x", "u", "A", "?x", "0", "1", "2", "18446744073709551615"];

/// Judgments that go into pairs beside the shortest ones.
const LONGER: [&str; 6] = ["t x x", "t x y", "t y x", "t ?x (f x)", "f x x", "p (d x (u x))"];

const DECLARED: &str = "sort A sort B ctor zero:A ctor succ:A→A ctor d:A→B→A ctor b:B pred q:Prop pred p:A→Prop \
     pred t:A→B→Prop def f:A→A def g:A\n";

/// Every judgment of at most three names, every pair of short ones, and every clause of short parts, each with several
/// limits on nodes.
pub fn exhaustive() -> impl Iterator<Item = Question> {
    let leaves: Vec<String> = LEAVES.map(str::to_owned).to_vec();
    let one: Vec<String> = applied(&leaves);
    let inner: Vec<String> = one.iter().map(|argument| format!("({argument})")).collect();
    let short: Vec<String> =
        [leaves.clone(), one.iter().step_by(3).cloned().collect(), LONGER.map(str::to_owned).to_vec()].concat();
    let mut judgments = [leaves.clone(), one, applied(&inner)].concat();
    for head in HEADS {
        for left in &leaves {
            judgments.extend(leaves.iter().map(|right| format!("{head} {left} {right}")));
        }
    }
    let rules = judgments.into_iter().map(|judgment| format!("rule r : {judgment}"));
    let first = short.clone();
    let pairs = first.into_iter().flat_map({
        let second = short.clone();
        move |premise| second.clone().into_iter().map(move |conclusion| format!("rule r : {premise} → {conclusion}"))
    });
    let clauses = leaves.into_iter().flat_map(move |pattern| {
        short.clone().into_iter().map(move |body| format!("def k : A → A | {pattern} => {body}"))
    });
    let limits = [0, 1, 2, 3, 4, 6, NODES];
    let texts = rules.chain(pairs).chain(clauses).map(|declaration| format!("{DECLARED}{declaration}"));
    texts.flat_map(move |text| limits.map(|nodes| Question::exact(text.as_bytes(), nodes)))
}

/// Every head with one of the arguments.
fn applied(arguments: &[String]) -> Vec<String> {
    HEADS.iter().flat_map(|head| arguments.iter().map(move |argument| format!("{head} {argument}"))).collect()
}

/// A generated question; most get past 1 and 2, so that the loader is what is compared.
pub fn generated(random: &mut Random) -> Question {
    let text = generated_text(random);
    let limit = if random.percent(2) { text.len().saturating_sub(1) } else { text.len() + random.below(3) };
    let limits = Limits { text: limit as u32, nodes: generated_nodes(random, &text) };
    let mut lent = Lent::least(limits);
    if random.percent(4) {
        let part = random.below(lent.parts().len());
        let more = random.percent(60);
        let lent = &mut *lent.parts_mut()[part];
        *lent = if more { *lent + random.between(1, 3) } else { lent.saturating_sub(1) };
    }
    Question { text, limits, lent }
}

/// A limit on nodes: document 01's, about as many as the text has, or any.
fn generated_nodes(random: &mut Random, text: &[u8]) -> u32 {
    match random.below(10) {
        0..5 => NODES,
        5 => random.below(60) as u32,
        _ => {
            let nodes = nodes_of(text);
            (nodes + 2).saturating_sub(random.below(5).max(random.below(nodes / 4 + 1))) as u32
        }
    }
}

/// Nodes of all rules of a text that is accepted, else few.
fn nodes_of(text: &[u8]) -> usize {
    match words::reference(text, TEXT_BYTES, TEXT_BYTES as usize) {
        tokens::Answer::Tokens(tokens) => defined(text, &tokens, NODES).map_or(20, |(_, storage)| storage.nodes()),
        tokens::Answer::Refused { .. } => 20,
    }
}

fn generated_text(random: &mut Random) -> Vec<u8> {
    match random.below(100) {
        0 => return lexical_text(random),
        1 | 2 => {
            let pieces = rich_declarations(random, 8);
            return written(random, &pieces);
        }
        _ => {}
    }
    let count = if random.percent(1) { random.between(30, 150) } else { random.between(2, 14) };
    let fault = random.pick(&[0, 0, 0, 1, 2, 5, 15]);
    let mut declarations = signature(random, count, fault);
    if random.percent(50) {
        for _ in 0..random.pick(&[1, 1, 1, 2, 3]) {
            damage(random, &mut declarations);
        }
    }
    let mut pieces: Pieces =
        declarations.into_iter().flat_map(|declaration| [declaration, vec!["\n".to_owned()]].concat()).collect();
    if random.percent(4) {
        damage_tokens(random, &mut pieces);
    }
    let mut text = written(random, &pieces);
    if random.percent(2) {
        damage_bytes(random, &mut text);
    }
    text
}

/// Changes declarations so that most texts are still parsed.
fn damage(random: &mut Random, declarations: &mut Vec<Pieces>) {
    if declarations.is_empty() {
        return;
    }
    let (at, other) = (random.below(declarations.len()), random.below(declarations.len()));
    match random.below(14) {
        0 => drop(declarations.remove(at)),
        1 => declarations.insert(at, declarations[other].clone()),
        2 => declarations.swap(at, other),
        3 => {
            let moved = declarations.remove(at);
            declarations.insert(other.min(declarations.len()), moved);
        }
        4 => {
            let text = random.pick(&["theorem t : u", "#check u", "#eval u v", "sort Nat", "rule r : ?x"]);
            declarations.insert(at, text.split(' ').map(str::to_owned).collect());
        }
        5 => rename(random, declarations),
        6 => change_keyword(random, &mut declarations[at]),
        7 | 8 => change_word(random, declarations, at, words_in, |name, _| name),
        9 => {
            let word = random.pick(&["0", "3", "1022", "18446744073709551615", "?x", "?", "u", "x", "result.1"]);
            change_word(random, declarations, at, terms_in, |_, _| word.to_owned());
        }
        10 | 11 => change_word(random, declarations, at, terms_in, |name, old| format!("{old} {name}")),
        12 => change_word(random, declarations, at, terms_in, |_, _| String::new()),
        _ => change_word(random, declarations, at, terms_in, |name, old| format!("({name} {old})")),
    }
}

/// Whether a piece is a name, a metavariable or a numeral.
fn is_word(piece: &str) -> bool {
    piece.starts_with(|c: char| c.is_ascii_alphanumeric() || "_.'?".contains(c)) && !words::keywords().contains(&piece)
}

/// Places of words behind the name that a declaration declares.
fn words_in(declaration: &Pieces) -> Vec<usize> {
    (2..declaration.len()).filter(|at| is_word(&declaration[*at])).collect()
}

/// Those of them that stand in terms.
fn terms_in(declaration: &Pieces) -> Vec<usize> {
    let start = match declaration[0].as_str() {
        "rule" | "theorem" | "#eval" | "#check" => 0,
        _ => declaration.iter().position(|piece| piece == "|").unwrap_or(declaration.len()),
    };
    words_in(declaration).into_iter().filter(|at| *at > start).collect()
}

/// Some name of the text.
fn some_name(random: &mut Random, declarations: &[Pieces]) -> Option<String> {
    let names: Vec<&String> = declarations.iter().flatten().filter(|piece| is_word(piece)).collect();
    (!names.is_empty()).then(|| random.pick(&names).clone())
}

/// Changes one of the words of a declaration, given some name of the text.
fn change_word(
    random: &mut Random,
    declarations: &mut [Pieces],
    at: usize,
    words: fn(&Pieces) -> Vec<usize>,
    change: impl FnOnce(String, &str) -> String,
) {
    let (name, places) = (some_name(random, declarations), words(&declarations[at]));
    if let (Some(name), false) = (name, places.is_empty()) {
        let word = &mut declarations[at][random.pick(&places)];
        *word = change(name, word);
    }
}

/// Gives one name of the text to all that has another.
fn rename(random: &mut Random, declarations: &mut [Pieces]) {
    let (Some(old), Some(new)) = (some_name(random, declarations), some_name(random, declarations)) else { return };
    declarations.iter_mut().flatten().filter(|piece| **piece == old).for_each(|piece| *piece = new.clone());
}

fn change_keyword(random: &mut Random, declaration: &mut Pieces) {
    if ["ctor", "def"].contains(&declaration[0].as_str()) {
        declaration[0] = random.pick(&["ctor", "def"]).to_owned();
        return;
    }
    if declaration[0] == "rule" {
        declaration[0] = "theorem".to_owned();
    }
}
