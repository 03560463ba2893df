//! A list of goals for both searches: a text whose `#eval` are goals in one session, and behind each of them, in a comment on its
//! line, what is asked. The answers on which the original and the definitions agree, the fixed lists, and the seeded mix.

use crate::evaluate::Kept;
use crate::evaluate_cases::{Program, parts};
use crate::evaluated::Terms;
use crate::goals::{Goals, goals};
use crate::loaded::{Limits as TextLimits, NODES};
use crate::pattern_definitions::Written;
use crate::random::Random;
use crate::search::{self, Asked as OriginalAsked};
use crate::search_definitions::{Asked, Limits, Session};
use crate::search_examples::{ADD, examples, large_examples};
use crate::search_texts::texts as timed_texts;
use crate::searched::{Allowance, Answer, Ask, DEPTH, NO_ROOM, STEPS, Standing, VARIABLES, Verdict, WORDS};
use crate::shrink;
use crate::stored_definitions::Signature;
use crate::tokens::TEXT_BYTES;
use std::ops::Range;

/// How many variables, words and nodes the original may make and look at for a goal. Over these it is not asked: it has no
/// limits, and looks at shared terms as if they were written out.
const FREE: Limits = Limits { variables: 1 << 20, words: 1 << 22 };
const COST: u64 = 1 << 23;

/// Words are counted by a copy of the original's `solve` where a goal costs no more than this and its session is small.
const COUNTED_COST: u64 = 1 << 16;
const COUNTED_VARIABLES: usize = 1 << 12;

/// A text with goals.
#[derive(Clone, Debug, PartialEq, Eq, Hash)]
pub struct Question {
    pub text: Vec<u8>,
}

impl Question {
    pub fn new(text: &str) -> Question {
        Question { text: text.as_bytes().to_vec() }
    }

    pub fn load(&self) -> Option<Program> {
        Program::load(&self.text, TextLimits { text: TEXT_BYTES, nodes: NODES }).ok()
    }
}

impl shrink::Question for Question {
    fn text(&self) -> &[u8] {
        &self.text
    }

    fn about(&self, text: Vec<u8>) -> Question {
        Question { text }
    }

    fn parts(&self) -> Vec<Range<usize>> {
        parts(&self.text)
    }

    fn lowered(&self) -> Vec<Question> {
        Vec::new()
    }
}

/// The comment on a line, if there is one.
fn comment(text: &[u8], line: u32) -> String {
    let line = String::from_utf8_lossy(text).lines().nth(line as usize - 1).unwrap_or_default().to_owned();
    line.split_once("--").map_or(String::new(), |(_, comment)| comment.to_owned())
}

/// What is asked of a goal: the numbers in the comment on its line, which are steps, depth, and the limits on steps, variables
/// and words; the last ones may be left out and are the bench program's.
pub fn ask_of(text: &[u8], line: u32) -> Ask {
    let mut numbers = Ask::BENCH.numbers();
    let comment = comment(text, line);
    let written = comment.split_whitespace().map_while(|word| word.parse::<u32>().ok());
    numbers.iter_mut().zip(written).for_each(|(number, written)| *number = written);
    Ask::of_numbers(numbers)
}

/// A text without its comments.
pub fn without_asks(text: &[u8]) -> Vec<u8> {
    let text = String::from_utf8_lossy(text);
    let lines = text.lines().map(|line| line.split_once("--").map_or(line, |(start, _)| start.trim_end()));
    lines.map(|line| format!("{line}\n")).collect::<String>().into_bytes()
}

/// A text with other numbers behind the goals that start on these lines.
pub fn with_asks(text: &[u8], lines: &[u32], asks: &[Ask]) -> Vec<u8> {
    let text = String::from_utf8(without_asks(text)).expect("a loaded text is UTF-8");
    let asked = |(at, line): (usize, &str)| match lines.iter().position(|other| *other as usize == at + 1) {
        None => format!("{line}\n"),
        Some(goal) => {
            let [steps, depth, step_limit, variables, words] = asks[goal].numbers();
            format!("{line} -- {steps} {depth} {step_limit} {variables} {words}\n")
        }
    };
    text.lines().enumerate().map(asked).collect::<String>().into_bytes()
}

/// A limit that is document 01's, as another.
pub fn lowered(ask: Ask, most: &Allowance) -> Ask {
    let lower = |limit: u32, usual: u32, most: u32| if limit == usual { most } else { limit };
    let limits = Allowance {
        steps: lower(ask.limits.steps, STEPS, most.steps),
        variables: lower(ask.limits.variables, VARIABLES, most.variables),
        words: lower(ask.limits.words, WORDS, most.words),
    };
    Ask { limits, ..ask }
}

/// The same goals with limits that are document 01's lowered to the bench program's, so that less has to be lent.
pub fn with_lower_limits(question: &Question) -> Question {
    let Some(program) = question.load() else { return question.clone() };
    let lines: Vec<u32> = program.storage.evals.iter().map(|[line, _]| *line).collect();
    let ask = |line: &u32| lowered(ask_of(&question.text, *line), &Ask::BENCH.limits);
    let asks: Vec<Ask> = lines.iter().map(ask).collect();
    Question { text: with_asks(&question.text, &lines, &asks) }
}

/// What the comment says that the answer must be, behind `=>`.
fn expected_of(text: &[u8], line: u32) -> Option<String> {
    comment(text, line).split_once("=>").map(|(_, expected)| expected.trim().to_owned())
}

/// A session of the definitions and one of the original, which agree after each goal.
pub struct Both<'p> {
    program: &'p Program,
    text: &'p [u8],
    definitions: Session<'p>,
    /// None from the first goal on that is too large for it.
    original: Option<search::Session>,
    /// Whether the signature is not the one that the original loaded.
    changed: bool,
    /// What the original answered last.
    last: Option<OriginalAsked>,
    pub terms: Terms,
}

impl<'p> Both<'p> {
    pub fn new(program: &'p Program, text: &'p [u8]) -> Both<'p> {
        let original = Some(search::Session::loaded(&program.loaded));
        let definitions = Session::new(&program.signature);
        Both { program, text, definitions, original, changed: false, last: None, terms: Terms::default() }
    }

    /// The same goals over another signature as it is stored, which no text need make.
    pub fn changed(program: &'p Program, text: &'p [u8], kept: &Kept, signature: &'p Signature) -> Both<'p> {
        let original = Some(search::Session::kept(kept));
        let definitions = Session::new(signature);
        Both { program, text, definitions, original, changed: true, last: None, terms: Terms::default() }
    }

    /// Whether the original is still asked.
    pub fn is_asked(&self) -> bool {
        self.original.is_some()
    }

    /// How the session stands, with the bindings from a place on; else how both differ.
    pub fn standing(&mut self, from: usize) -> Result<Standing, String> {
        let standing = self.definitions.standing(from, &mut self.terms);
        if let Some(original) = &self.original {
            let other = original.standing(from, &mut self.terms);
            same("session", &other, &standing, |standing| standing.shown(&self.terms))?;
        }
        Ok(standing)
    }

    pub fn ask_of(&self, eval: usize) -> Ask {
        ask_of(self.text, self.program.storage.evals[eval][0])
    }

    /// The answer to the term of an `#eval`, as it is asked, and how the session then stands, with its new bindings; else how both
    /// differ.
    pub fn answer(&mut self, eval: usize) -> Result<(Answer, Standing), String> {
        let (goal, ask) = (self.program.term(self.text, eval), self.ask_of(eval));
        let bound = self.definitions.bound();
        let before = self.definitions.standing(bound, &mut self.terms);
        self.last = None;
        let free = match ask.steps > ask.limits.steps.min(STEPS) || ask.depth > DEPTH {
            true => None,
            false => Some(self.free(&goal, eval, ask)?),
        };
        let asked = self.definitions.ask(&goal, &ask, &mut self.terms);
        let after = self.definitions.standing(bound, &mut self.terms);
        self.compare_limited(&ask, free.as_ref(), &asked, &before, &after)?;
        if let (Verdict::Refused(_), Some(original), Some((_, mark))) =
            (&asked.answer.verdict, &mut self.original, &free)
        {
            original.restore(*mark);
        }
        self.last = self.last.take().filter(|_| asked.answer.verdict.number() != NO_ROOM);
        Ok((asked.answer, self.standing(bound)?))
    }

    /// Asks without limits, by the definitions, which are then restored, and by the original, which is not.
    fn free(&mut self, goal: &Written, eval: usize, ask: Ask) -> Result<(Asked, search::Mark), String> {
        let (mark, bound) = (self.definitions.mark(), self.definitions.bound());
        let asked = self.definitions.answered(goal, ask.steps, ask.depth, FREE, &mut self.terms);
        let standing = self.definitions.standing(bound, &mut self.terms);
        self.definitions.restore(mark);
        let too_large = asked.answer == Answer::refused(NO_ROOM) || asked.cost > COST;
        let Some(original) = self.original.as_mut().filter(|_| !too_large) else {
            self.original = None;
            return Ok((asked, search::Mark::default()));
        };
        let mark = original.mark();
        let counted = asked.cost <= COUNTED_COST && standing.variables <= COUNTED_VARIABLES;
        let numbers = [ask.steps, ask.depth];
        let answered = match self.changed {
            true => original.ask_written(goal, numbers, asked.full, counted),
            false => original.ask_eval(&self.program.loaded, eval, numbers, asked.full, counted),
        };
        let (answer, left) = (answered.answer(&mut self.terms), original.standing(bound, &mut self.terms));
        same("answer", answer, asked.answer.clone(), |answer| answer.shown(&self.terms))?;
        same("session without limits", left, standing, |standing| standing.shown(&self.terms))?;
        if let Some(words) = answered.most_words {
            same("most words", words, asked.most.words, u64::to_string)?;
        }
        self.last = Some(answered);
        Ok((asked, mark))
    }

    /// Under limits the answer is the same, or 37 exactly where more was tested than they allow; 38 comes first; and a refused
    /// goal leaves the session as it was.
    fn compare_limited(
        &self,
        ask: &Ask,
        free: Option<&(Asked, search::Mark)>,
        asked: &Asked,
        before: &Standing,
        after: &Standing,
    ) -> Result<(), String> {
        let limits = Limits::of(&ask.limits);
        let expected = match free {
            None => Answer::refused(38),
            Some((free, _)) if free.most.variables > limits.variables || free.most.words > limits.words => {
                Answer::refused(NO_ROOM)
            }
            Some((free, _)) => free.answer.clone(),
        };
        same("answer under limits", expected, asked.answer.clone(), |answer| answer.shown(&self.terms))?;
        match asked.answer.verdict {
            Verdict::Refused(_) => {
                same("session of a refused goal", before, after, |standing| standing.shown(&self.terms))
            }
            _ => Ok(()),
        }
    }

    /// What is listed of the last goal behind its line, with the bindings put in or as it is recorded.
    pub fn listed(&self, answer: &Answer, recorded: bool) -> String {
        match (&answer.verdict, &self.last, &self.original) {
            (Verdict::Refused(number), ..) => format!("refused {number}\n"),
            (_, Some(last), Some(original)) if recorded => last.recorded(original),
            (_, Some(last), Some(original)) => last.listing(original),
            _ => "not known: too large for the Rust\n".to_owned(),
        }
    }
}

fn same<T: PartialEq>(what: &str, one: T, other: T, shown: impl Fn(&T) -> String) -> Result<(), String> {
    if one == other { Ok(()) } else { Err(format!("{what}: {} and {}", shown(&one), shown(&other))) }
}

/// The goals of a text in one session, a part behind the line of each: of a forward call only that it is one.
pub fn listing(text: &[u8], program: &Program) -> Result<String, String> {
    let (mut both, mut listing) = (Both::new(program, text), String::new());
    for (eval, [line, _]) in program.storage.evals.iter().enumerate() {
        let verdict = match program.loaded.is_forward_call(eval) {
            true => "call\n".to_owned(),
            false => {
                let (answer, _) = both.answer(eval)?;
                both.listed(&answer, false)
            }
        };
        listing += &format!("eval {line} {verdict}");
    }
    Ok(listing)
}

/// What is not answered as the comments of the examples say.
pub fn unexpected_answers() -> Vec<String> {
    examples().iter().chain(&large_examples()).flat_map(|text| unexpected(text.as_bytes())).collect()
}

fn unexpected(text: &[u8]) -> Vec<String> {
    let question = Question { text: text.to_vec() };
    let Some(program) = question.load() else { return vec![format!("not loaded: {}", text.escape_ascii())] };
    let (mut both, mut unexpected) = (Both::new(&program, text), Vec::new());
    for (eval, [line, _]) in program.storage.evals.iter().enumerate() {
        let source = String::from_utf8_lossy(text).lines().nth(*line as usize - 1).unwrap_or_default().to_owned();
        let (answer, standing) = match both.answer(eval) {
            Ok(answered) => answered,
            Err(cause) => {
                unexpected.push(format!("{source}: {cause}"));
                break;
            }
        };
        let Standing { names, variables, bound, words, .. } = standing;
        let given = match answer.verdict {
            Verdict::Refused(number) => format!("refused {number}"),
            verdict => format!("{} {}", verdict.word(), answer.steps),
        };
        let given = format!("{given} names {} variables {variables} bound {bound} words {words}", names.len());
        if expected_of(text, *line).is_some_and(|expected| !format!("{given} ").starts_with(&format!("{expected} "))) {
            unexpected.push(format!("{source}: {given}"));
        }
    }
    unexpected
}

/// The fixed lists.
pub fn fixed_questions() -> Vec<Question> {
    let texts = examples().into_iter().chain(large_examples());
    let depths = [0, 3, 4, 5, 7, 8, 16, 32];
    let timed = timed_texts().into_iter().map(|(_, text)| text);
    texts.chain(timed).map(|text| Question::new(&text)).chain(every_step(&depths)).collect()
}

/// Small searches, to be asked with every number of steps up to 30. `@` stands for the number of the goal, so that each has names
/// of its own.
#[rustfmt::skip]
const SMALL: &[(&str, &str)] = &[
    (ADD, "add ?x@ 1 = 2"),
    (ADD, "add ?x@ 2 = 1"),
    (ADD, "add 3 ?x@ = ?y@"),
    (ADD, "add ?x@ ?y@ = 3"),
    (ADD, "add 6 ?x@ = 5"),
    ("sort A ctor a : A ctor s : A → A pred p : A → Prop rule r : p x → p (s x) rule t : p a", "p (s (s (s (s a))))"),
    ("sort A ctor a : A ctor s : A → A pred p : A → Prop rule r : p (s x) → p x", "p ?x@"),
    ("sort A ctor a : A ctor s : A → A pred p : A → A → Prop rule r : p x (s x)", "p ?x@ ?x@"),
    ("sort A ctor a : A pred p : A → Prop pred q : A → Prop rule r : p x → p y → q x rule t : p a", "q ?x@"),
    ("sort A ctor a : A ctor b : A pred e : A → A → Prop pred t : A → A → Prop rule f : e a b rule g : e b a
rule o : e x y → t x y rule m : t x y → t y z → t x z", "t a ?x@"),
    ("sort A ctor a : A ctor b : A pred e : A → A → Prop pred l : A → Prop rule f : e a b rule g : e b a
rule h : e x y → l y → l x", "l ?x@"),
    ("sort A pred q : Prop pred r : Prop rule f : r → q rule g : q", "q"),
    ("sort A pred q : Prop", "q"),
];

/// The small searches with these depths.
pub fn every_step(depths: &[u32]) -> impl Iterator<Item = Question> {
    SMALL.iter().flat_map(move |(declarations, goal)| {
        depths.iter().map(move |depth| {
            let line = |steps: u32| format!("#eval {} -- {steps} {depth}\n", goal.replace('@', &steps.to_string()));
            Question::new(&format!("{declarations}\n{}", (0..31).map(line).collect::<String>()))
        })
    })
}

/// A generated list.
pub fn generated(random: &mut Random) -> Question {
    let Goals { declarations, goals } = goals(random);
    let evals: Vec<String> = goals.iter().map(|goal| format!("#eval {goal}")).collect();
    let plain = Question::new(&format!("{declarations}{}\n", evals.join("\n")));
    let Some(program) = plain.load() else { return plain };
    let mut session = Session::new(&program.signature);
    let mut text = declarations;
    for (eval, line) in evals.iter().enumerate() {
        let goal = program.term(&plain.text, eval);
        let [steps, depth, step_limit, variables, words] = numbers(random, &mut session, &goal).numbers();
        text += &format!("{line} -- {steps} {depth} {step_limit} {variables} {words}\n");
    }
    Question::new(&text)
}

/// What is asked of a goal: steps about those that it takes, or any; limits about what it tests, or any.
fn numbers(random: &mut Random, session: &mut Session, goal: &Written) -> Ask {
    let terms = &mut Terms::default();
    let depth = match random.below(40) {
        0 => 129,
        1 => random.pick(&[0, 1, 2, u32::MAX]),
        _ => random.pick(&[3, 4, 4, 5, 7, 8, 8, 9, 12, 15, 16, 16, 24, 31, 32, 32, 32, 63, 64, 127, 128]),
    };
    let mark = session.mark();
    let enough = random.pick(&[20, 60, 60, 200, 200, 600]);
    let used = session.answered(goal, enough, depth.min(DEPTH), FREE, terms).answer.steps;
    session.restore(mark);
    let steps = match random.below(80) {
        0 => STEPS,
        1 => STEPS + 1,
        2 => random.pick(&[0, 1, STEPS - 1, u32::MAX]),
        3..30 => (used + 2).saturating_sub(random.below(5) as u32),
        30..50 => random.below(used as usize + 2) as u32,
        50..65 => random.below(12) as u32,
        _ => enough,
    };
    let most = session.answered(goal, steps.min(STEPS), depth.min(DEPTH), FREE, terms).most;
    session.restore(mark);
    let standing = session.standing(session.bound(), terms);
    let limits = Allowance {
        steps: match random.below(30) {
            0 => steps.saturating_sub(1),
            1..4 => steps,
            4 => u32::MAX,
            _ => STEPS,
        },
        variables: about(random, most.variables, standing.variables as u64, VARIABLES),
        words: about(random, most.words, standing.words, WORDS),
    };
    let ask = Ask { steps, depth, limits };
    session.ask(goal, &ask, terms);
    ask
}

/// A limit: mostly document 01's, else about the most that is tested, or what the session has, or any.
fn about(random: &mut Random, most: u64, used: u64, limit: u32) -> u32 {
    let most = most.min(u64::from(u32::MAX) - 2);
    match random.below(50) {
        0..36 => limit,
        36 => random.pick(&[0, 1, limit - 1, limit + 1, u32::MAX]),
        37..43 => most as u32,
        43 | 44 => most.saturating_sub(1) as u32,
        45 | 46 => most as u32 + 1,
        47 => used.saturating_sub(1) as u32,
        48 => used as u32,
        _ => random.below(most as usize + 1) as u32,
    }
}
