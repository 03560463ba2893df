//! Fixed texts with one `#eval` each, and what it must give: every rule of the evaluator with its smallest text, pairs of
//! refusals whose order matters, and both sides of every limit.

use crate::evaluated::WORDS;

/// A text whose last declaration is an `#eval`, the limit on words, whether it is a forward call, and what its term gives,
/// as it is recorded: all lines, each with its end, or the first alone, or how it starts before `..`. Of a value the words
/// may be told too.
#[derive(Clone)]
pub struct Example {
    pub text: String,
    pub limit: u32,
    pub forward: bool,
    pub answer: String,
    pub words: Option<u64>,
}

/// What stands before most examples.
const BEFORE: &str = "sort A sort B
ctor a : A ctor b : B ctor s : A → A ctor d : A → A → A ctor zero : A ctor succ : A → A
pred p : A → Prop pred q : Prop
def id : A → A | x => x def k : A → A → A | x, y => x
def c : A | => a def n : A → A
def m : A → A | a => a def l : A → A | x => l x
def u : A → A | x => y def v : A → A | x => n y
def e : A → A → A | x, x => a | x, y => s a def f : A → A | s x => m x | x => a
def r : A → A → A | result.1, x => id x def t : A → A | x => k (id x) result.1
def h : A → A | x => k result.2 (id x)";

/// Document 01's text.
const ADD: &str = "sort Nat ctor zero : Nat ctor succ : Nat → Nat
def add : Nat → Nat → Nat
| zero, n => n
| succ m, n => succ (add m n)";

/// Forward calls behind `BEFORE`.
#[rustfmt::skip]
const CALLS: &[(&str, &str)] = &[
    // which term is evaluated
    ("c", "value a\n1 c.0 (c a)\n"), ("(c)", "value a\n1 c.0 (c a)\n"), ("id = a", "value a\n1 id.0 (id a a)\n"),
    ("id x", "refused 20"), ("(id a)", "value a"), ("(id) a", "value a"),
    // what a term is refused for, and in which order
    ("id (p a a)", "refused 32"), ("id p", "refused 32"), ("id q", "refused 32"), ("id (q a)", "refused 32"),
    ("id (z a)", "refused 20"), ("id A", "refused 20"), ("id Prop", "refused 20"), ("id id.0", "refused 20"),
    ("id (s b b)", "refused 21"), ("id (id)", "refused 21"), ("id s", "refused 21"), ("id (c a)", "refused 21"),
    ("id (a a)", "refused 21"), ("id (k a)", "refused 21"), ("id (id a a)", "refused 21"),
    ("k b z", "refused 33"), ("k z b", "refused 20"), ("k b (n a)", "refused 33"), ("k (n a) b", "refused 34"),
    ("id (d b z)", "refused 33"), ("id (d z b)", "refused 20"), ("id b", "refused 33"), ("id (s b)", "refused 33"),
    ("k a b", "refused 33"), ("k (p a) b", "refused 32"), ("k b (p a)", "refused 33"), ("k (s a a) z", "refused 21"),
    ("id (s (s (s b)))", "refused 33"), ("id (n b)", "refused 33"), ("id (d a (l a))", "refused 29"),
    // calls: the first clause that fits is taken
    ("n a", "refused 34"), ("m (s a)", "refused 34"), ("m a", "value a\n1 m.0 (m a a)\n"),
    ("f (s (s a))", "refused 34"), ("f (s a)", "value a\n1 f.0 (f (s a) a)\n2 m.0 (m a a)\n"),
    ("f (d a a)", "value a\n1 f.1 (f (d a a) a)\n"), ("f zero", "value a"),
    ("e a a", "value a\n1 e.0 (e a a a)\n"), ("e a (s a)", "value (s a)\n1 e.1 (e a (s a) (s a))\n"),
    ("e (d a (s a)) (d a (s a))", "value a"), ("e (d a (s a)) (d a (s zero))", "value (s a)"),
    ("e (id (s a)) (s (id a))", "value a"), ("e (d (s a) a) (d a (s a))", "value (s a)"),
    ("l a", "refused 29"), ("u a", "refused 36"), ("v a", "refused 36"), ("h a", "refused 36"),
    ("t a", "value a\n1 t.0 (t a a)\n2 id.0 (id a a)\n2 k.0 (k a a a)\n"),
    ("r a a", "value a\n1 r.0 (r a a a)\n2 id.0 (id a a)\n"), ("r (s a) a", "refused 35"),
    ("r (s a) (s (id a))", "value (s a)"), ("r (s (s a)) (s (id a))", "refused 35"),
    // the trees: innermost first, left before right
    ("k (id a) (id (s a))", "value a\n1 id.0 (id a a)\n1 id.0 (id (s a) (s a))\n1 k.0 (k a (s a) a)\n"),
    ("k (d (id a) c) (id c)",
     "value (d a a)\n1 id.0 (id a a)\n1 c.0 (c a)\n1 c.0 (c a)\n1 id.0 (id a a)\n1 k.0 (k (d a a) a (d a a))\n"),
    // numerals
    ("id 0", "value zero\n1 id.0 (id zero zero)\n"), ("id 2", "value (succ (succ zero))"), ("id 00", "value zero"),
    ("id 128", "refused 29"), ("id 200", "refused 29"), ("id (s 127)", "refused 29"), ("id (s (s 126))", "refused 29"),
    ("id 18446744073709551615", "refused 29"), ("id 4294967295", "refused 29"), ("id 4294967296", "refused 29"),
    ("k b 18446744073709551615", "refused 33"), ("k 18446744073709551615 b", "refused 29"),
    ("id (p 18446744073709551615)", "refused 32"), ("id (s 1 18446744073709551615)", "refused 21"),
];

/// Goals behind `BEFORE`, with what the evaluator gives where it is asked all the same.
#[rustfmt::skip]
const GOALS: &[(&str, &str)] = &[
    ("c = a", "refused 21"), ("id a = a", "refused 21"), ("id a a", "refused 21"), ("id", "refused 21"),
    ("id a a a", "refused 21"), ("id a x", "refused 21"), ("id ?x", "refused 31"), ("id (s ?x)", "refused 31"),
    ("?", "refused 31"), ("?x", "refused 31"), ("k b ?x", "refused 33"), ("k ?x b", "refused 31"),
    ("k z ?x", "refused 20"), ("k (n a) ?x", "refused 34"), ("k ?x (n a)", "refused 31"), ("id (p ?x)", "refused 32"),
    ("s (id a)", "value (s a)\n1 id.0 (id a a)\n"), ("d a a", "value (d a a)\n"), ("a", "value a\n"),
    ("d (id a) (s c)", "value (d a (s a))\n1 id.0 (id a a)\n1 c.0 (c a)\n"), ("b", "value b\n"),
    ("3", "value (succ (succ (succ zero)))\n"), ("0", "value zero\n"), ("129", "refused 29"),
    ("18446744073709551615", "refused 29"), ("x", "refused 20"), ("x a", "refused 20"), ("A", "refused 20"),
    ("p a", "refused 32"), ("q", "refused 32"), ("p", "refused 32"), ("p z", "refused 32"), ("s", "refused 21"),
    ("s b", "refused 33"), ("d a b", "refused 33"), ("d b a", "refused 33"), ("s (u a)", "refused 36"),
    ("f (s (s a)) = ?z", "refused 21"), ("f (s (s a)) a", "refused 21"),
];

/// Further declarations behind `BEFORE`, a forward call, the limit on words, and its answer.
#[rustfmt::skip]
const DECLARED: &[(&str, &str, u32, &str)] = &[
    ("def w : A → A | x => n x", "w a", WORDS, "refused 34"),
    ("def j : A | => a | => s a", "j", WORDS, "value a\n1 j.0 (j a)\n"),
    ("def g : A → A | ?x => x", "g a", WORDS, "refused 36"),
    ("def g : A → A | ?x => ?x", "g a", WORDS, "value a"),
    ("ctor result.1 : A def g : A → A | x => s (id x)", "g a", WORDS, "refused 35"),
    ("ctor result.1 : A def g : A → A | x => s (id x)", "g result.1", WORDS, "value (s result.1)"),
    ("ctor result.2 : A def g : A → A | x => k (id x) (id x)", "g a", WORDS, "refused 35"),
    ("ctor result.2 : A def g : A → A | x => k (id x) (id x)", "g result.2", WORDS, "value result.2"),
    ("sort result.1 def g : A → A | x => s (id x)", "g a", WORDS, "value (s a)"),
    ("rule result.1 : q def g : A → A | x => s (id x)", "g a", WORDS, "value (s a)"),
    // rules that are no clauses never take part
    ("rule n.0 : n x = x", "n a", WORDS, "refused 34"), ("rule m.1 : m x = x", "m (s a)", WORDS, "refused 34"),
    ("def o : A → A rule o.0 : o x = a", "o a", WORDS, "refused 34"),
    // a function behind its `#eval` counts, and one that is called by a later one
    ("#eval late a def late : A → A | x => s x", "late a", WORDS, "value (s a)\n1 late.0 (late a (s a))\n"),
    // premises in order, and their trees as children
    ("def g : A → A | x => k (id x) c", "g a", WORDS, "value a\n1 g.0 (g a a)\n2 id.0 (id a a)\n2 c.0 (c a)\n2 k.0 (k a a a)\n"),
    ("def g : A → A | x => d (n x) (u x)", "g a", WORDS, "refused 34"),
    ("def g : A → A | x => d (u x) (n x)", "g a", WORDS, "refused 36"),
    ("def g : A → A | x => d (l x) (n x)", "g a", WORDS, "refused 29"),
    ("def g : A → A | x => d y (n x)", "g a", WORDS, "refused 34"),
    // a clause that is taken stays taken
    ("def g : A → A | x => n x | x => a", "g a", WORDS, "refused 34"),
    ("def g : A → A | x => y | x => a", "g a", WORDS, "refused 36"),
    ("def g : A → A | x => l x | x => a", "g a", WORDS, "refused 29"),
    ("def g : A → A → A | result.1, x => id x | x, y => a", "g a (s a)", WORDS, "refused 35"),
    // patterns that are numerals, and deep ones
    ("def g : A → A | 2 => a | succ x => x | x => s x", "g 2", WORDS, "value a\n1 g.0 (g (succ (succ zero)) a)\n"),
    ("def g : A → A | 2 => a | succ x => x | x => s x", "g 3", WORDS, "value (succ (succ zero))"),
    ("def g : A → A | 2 => a | succ x => x | x => s x", "g 0", WORDS, "value (s zero)"),
    ("def g : A → A | d (d x y) x => y", "g (d (d a (s a)) a)", WORDS, "value (s a)"),
    ("def g : A → A | d (d x y) x => y", "g (d (d a (s a)) (s a))", WORDS, "refused 34"),
    ("def g : A → A | d x (d y x) => y", "g (d (s a) (d zero (s a)))", WORDS, "value zero"),
    // 29 before 30 and both before any clause; 36 at depth 128
    ("def g : A → A | zero => g y | succ x => g x", "g 127", WORDS, "refused 36"),
    ("def g : A → A | zero => n a | succ x => g x", "g 127", WORDS, "refused 29"),
    ("def g : A → A | zero => n a | succ x => g x", "g 126", WORDS, "refused 34"),
    ("def g : A → A | zero => l a | succ x => g x", "g 126", WORDS, "refused 29"),
    // a countdown from a value that a clause makes
    ("def big : A | => 127 def g : A → A | zero => a | succ x => g x", "g big", WORDS, "value a"),
    ("def big : A | => 127 def g : A → A | zero => a | succ x => g x", "g (succ big)", WORDS, "refused 29"),
    ("def big : A | => 1000", "id big", WORDS, "value (succ .."),
    // words
    ("", "c", 3, "value a"), ("", "c", 2, "refused 37"), ("", "c", 1, "refused 37"), ("", "c", 0, "refused 37"),
    ("", "id a", 4, "value a"), ("", "id a", 3, "refused 37"), ("", "id a", 0, "refused 37"),
    ("def i : A | => i", "i", 0, "refused 29"), ("def i : A | => i", "i", WORDS, "refused 29"),
    ("def o : A → A | x => d 3 y", "o a", 7, "refused 37"), ("def o : A → A | x => d 3 y", "o a", 8, "refused 36"),
    ("def o : A → A | x => d y 3", "o a", 1, "refused 36"), ("def o : A → A | x => d y 3", "o a", 0, "refused 37"),
    ("", "id 200", 0, "refused 29"), ("", "id 127", 0, "refused 37"), ("", "id x", 0, "refused 20"),
    ("", "id b", 0, "refused 37"), ("", "id b", 1, "refused 33"), ("", "k b z", 0, "refused 37"),
    ("", "k a z", 0, "refused 37"), ("", "k a z", 1, "refused 20"), ("", "u a", 1, "refused 36"),
    ("", "u a", 0, "refused 37"), ("", "n a", 1, "refused 34"), ("", "n a", 0, "refused 37"),
    ("", "l a", 1, "refused 29"), ("", "r (s a) a", 7, "refused 35"), ("", "r (s a) a", 6, "refused 37"),
    ("", "r (s a) a", 3, "refused 37"), ("", "id (p a)", 0, "refused 32"), ("", "id (s b b)", 0, "refused 21"),
    ("", "m (s a)", 3, "refused 34"), ("", "m (s a)", 2, "refused 37"),
    // limits over document 01's count as that
    ("", "c", WORDS + 1, "value a"), ("", "c", u32::MAX, "value a"),
];

/// Whole signatures in which numerals are odd, a forward call, the limit on words, and its answer.
#[rustfmt::skip]
const NUMERALS: &[(&str, &str, u32, &str)] = &[
    ("sort A ctor zero : A ctor succ : A → A → A def id : A → A | x => x", "id 0", WORDS, "value zero"),
    ("sort A ctor zero : A ctor succ : A → A → A def id : A → A | x => x", "id 1", WORDS, "refused 21"),
    ("sort A ctor zero : A ctor succ : A → A → A def id : A → A | x => x", "id 500", WORDS, "refused 21"),
    ("sort A ctor zero : A ctor succ : A → A → A def id : A → A | x => x", "id 18446744073709551615", 0, "refused 21"),
    ("sort A ctor zero : A ctor succ : A def id : A → A | x => x", "id 0", WORDS, "value zero"),
    ("sort A ctor zero : A ctor succ : A def id : A → A | x => x", "id 1", 0, "refused 21"),
    ("sort A ctor zero : A → A ctor succ : A → A def id : A → A | x => x", "id 0", WORDS, "refused 21"),
    ("sort A ctor zero : A → A ctor succ : A → A def id : A → A | x => x", "id 127", WORDS, "refused 21"),
    ("sort A ctor zero : A → A ctor succ : A → A def id : A → A | x => x", "id 128", WORDS, "refused 29"),
    ("sort A ctor zero : A → A ctor succ : A → A → A def id : A → A | x => x", "id 128", WORDS, "refused 21"),
    ("sort A sort B ctor zero : A ctor succ : A → B def g : B → A | x => zero", "g 1", WORDS, "value zero"),
    ("sort A sort B ctor zero : A ctor succ : A → B def g : B → A | x => zero", "g 2", WORDS, "refused 33"),
    ("sort A sort B ctor zero : A ctor succ : A → B def g : B → A | x => zero", "g 2", 3, "refused 33"),
    ("sort A sort B ctor zero : A ctor succ : A → B def g : B → A | x => zero", "g 2", 2, "refused 37"),
    ("sort A sort B ctor zero : A ctor succ : A → B def g : B → A | x => zero", "g 200", WORDS, "refused 29"),
    ("sort A sort B ctor zero : A ctor succ : A → B def g : B → A | x => zero", "g 0", WORDS, "refused 33"),
    ("sort A sort B ctor zero : A ctor succ : A → B def g : B → A | x => zero", "g 0", 0, "refused 37"),
    ("sort A sort B ctor zero : B ctor succ : A → A def id : A → A | x => x", "id 1", WORDS, "refused 33"),
    ("sort A sort B ctor zero : B ctor succ : A → A def id : A → A | x => x", "id 1", 1, "refused 33"),
    ("sort A sort B ctor zero : B ctor succ : A → A def id : A → A | x => x", "id 1", 0, "refused 37"),
    ("sort A ctor zero : A def id : A → A | x => x", "id 0", WORDS, "refused 26"),
    ("sort A ctor zero : A def id : A → A | x => x", "id 18446744073709551615", 0, "refused 26"),
    ("sort A ctor succ : A → A def id : A → A | x => x", "id 0", WORDS, "refused 26"),
    ("sort A ctor zero : A def succ : A → A def id : A → A | x => x", "id 0", WORDS, "refused 26"),
    ("sort A ctor zero : A pred succ : A → Prop def id : A → A | x => x", "id 1", WORDS, "refused 26"),
    ("sort A def zero : A ctor succ : A → A def id : A → A | x => x", "id 0", WORDS, "refused 26"),
    ("sort zero sort succ def id : zero → zero | x => x", "id 0", WORDS, "refused 26"),
    ("sort A ctor Zero : A ctor succ : A → A def id : A → A | x => x", "id 0", WORDS, "refused 26"),
    ("sort A ctor succ : A → A ctor zero : A def id : A → A | x => x", "id 2", WORDS, "value (succ (succ zero))"),
];

/// `add` of two numerals, the limit on words, and the answer.
#[rustfmt::skip]
const SUMS: &[(u64, u64, u32, &str)] = &[
    (1, 1, 19, "value (succ (succ zero))\n1 add.1 (add (succ zero) (succ zero) (succ (succ zero)))\n2 add.0 (add zero (succ zero) (succ zero))\n"),
    (1, 1, 18, "refused 37"), (0, 128, WORDS, "refused 29"), (128, 0, WORDS, "refused 29"), (0, 128, 0, "refused 37"),
    (0, 128, 1, "refused 29"), (128, 0, 0, "refused 29"), (18446744073709551615, 0, 0, "refused 29"), (0, 18446744073709551615, 1, "refused 29"),
    (0, 18446744073709551615, 0, "refused 37"), (64, 64, WORDS, "value (succ .."), (127, 127, WORDS, "value (succ .."),
];

fn example(text: String, limit: u32, answer: &str) -> Example {
    Example { text, limit, forward: true, answer: answer.to_owned(), words: None }
}

/// The fixed texts with their answers.
pub fn examples() -> Vec<Example> {
    let after = |declarations: &str, term: &str| format!("{BEFORE}\n{declarations}\n#eval {term}");
    let mut all: Vec<Example> = CALLS.iter().map(|(term, answer)| example(after("", term), WORDS, answer)).collect();
    all.extend(
        GOALS.iter().map(|(term, answer)| Example { forward: false, ..example(after("", term), WORDS, answer) }),
    );
    let declared = |(declarations, term, limit, answer): &(&str, &str, u32, &str)| {
        example(after(declarations, term), *limit, answer)
    };
    all.extend(DECLARED.iter().map(declared));
    let whole = |(signature, term, limit, answer): &(&str, &str, u32, &str)| {
        example(format!("{signature}\n#eval {term}"), *limit, answer)
    };
    all.extend(NUMERALS.iter().map(whole));
    let sum = |(left, right, limit, answer): &(u64, u64, u32, &str)| {
        example(format!("{ADD}\n#eval add {left} {right}"), *limit, answer)
    };
    all.extend(SUMS.iter().map(sum));
    all.extend(sums());
    all.extend(parentheses());
    all.extend(wide());
    all.extend(words());
    all.extend(calls());
    all
}

/// So many times a constructor on a constant.
fn tower(constructor: &str, constant: &str, times: usize) -> String {
    format!("{}{constant}{}", format!("({constructor} ").repeat(times), ")".repeat(times))
}

/// Values on the near side of the limits on depth: the last numeral, and the last nested call.
fn sums() -> Vec<Example> {
    let add = |left: usize, right: usize| format!("{ADD}\n#eval add {left} {right}");
    let value = |times: usize| format!("value {}", tower("succ", "zero", times));
    let id = |term: &str, answer: String| example(format!("{BEFORE}\n#eval {term}"), WORDS, &answer);
    vec![
        example(format!("{ADD}\n#eval add 1 = 2"), WORDS, &value(3)),
        example(add(0, 127), WORDS, &value(127)),
        example(add(127, 0), WORDS, &value(127)),
        example(add(126, 127), WORDS, &value(253)),
        id("id 127", value(127)),
        id("id (s 126)", format!("value (s {})", tower("succ", "zero", 126))),
        id("id (id 126)", value(126)),
        id("id (id 127)", "refused 29".to_owned()),
    ]
}

/// A parenthesis adds one level, or two where a call in it is written `f = ..`.
fn parentheses() -> Vec<Example> {
    let double =
        |count: usize, inside: &str| format!("{}id = id {inside}{}", "id = id (".repeat(count), ")".repeat(count));
    let single = |count: usize| format!("{}zero{}", "id (".repeat(count), ")".repeat(count));
    let asked = |term: String, answer: &str| example(format!("{BEFORE}\n#eval {term}"), WORDS, answer);
    vec![
        asked(single(64), "value zero"),
        asked(double(63, "zero"), "value zero"),
        asked(double(64, "zero"), "refused 29"),
        asked(double(63, "z"), "refused 20"),
        asked(double(64, "z"), "refused 29"),
        asked(double(63, "0"), "value zero"),
        asked(double(63, "1"), "refused 29"),
        asked(double(62, "2"), "value (succ (succ zero))"),
        asked(double(62, "3"), "refused 29"),
        asked(double(63, "c"), "refused 29"),
        asked(double(62, "c"), "value a"),
        asked(double(62, "(id c)"), "value a"),
        asked(double(62, "(id (id c))"), "refused 29"),
    ]
}

/// A function of 15 arguments that calls itself at every depth on terms of 16 arguments, and such terms in one another as deep as they are written.
fn wide() -> Vec<Example> {
    let (inputs, ys) = ("A → ".repeat(15), (0..14).map(|at| format!("y{at}")).collect::<Vec<_>>().join(", "));
    let node = |first: &str| format!("(w {first}{})", " zero".repeat(15));
    let functions = format!(
        "sort A ctor zero : A ctor succ : A → A ctor w : A → {inputs}A\ndef f : {inputs}A | zero, {ys} => y0 | succ x, {ys} => f x{}",
        format!(" {}", node("zero")).repeat(14)
    );
    let deepest = (0..62).fold("zero".to_owned(), |inner, _| node(&inner));
    let asked = |first: &str, second: &str, answer: &str| {
        example(format!("{functions}\n#eval f {first} {second}{}", " zero".repeat(13)), WORDS, answer)
    };
    vec![
        asked("127", "zero", &format!("value {}", node("zero"))),
        asked("128", "zero", "refused 29"),
        asked("0", &deepest, &format!("value {deepest}")),
    ]
}

/// Values with the words that they take, and one word fewer.
fn words() -> Vec<Example> {
    let valued = |text: String, words: u64, answer: &str| {
        let value = |limit: u64| Example { words: Some(words), ..example(text.clone(), limit as u32, answer) };
        let refused = example(text.clone(), words as u32 - 1, "refused 37");
        vec![value(u64::from(WORDS)), value(words), value(words + 1), refused]
    };
    let after = |term: &str| format!("{BEFORE}\n#eval {term}");
    let mut all = Vec::new();
    all.extend(valued(after("c"), 3, "value a"));
    all.extend(valued(after("id a"), 4, "value a"));
    all.extend(valued(after("k (id a) (id (s a))"), 1 + 3 + 3 + 3 + 4, "value a"));
    all.extend(valued(after("id 2"), 5 + 3, "value (succ (succ zero))"));
    all.extend(valued(after("f (s a)"), 3 + 5 + 5, "value a"));
    all.extend(valued(after("t a"), 1 + 3 + 4 + 3, "value a"));
    all.extend(valued(format!("{ADD}\n#eval add 1 1"), 19, "value (succ (succ zero))"));
    all.extend(valued(full(985), u64::from(WORDS), "value .."));
    all.push(example(full(986), WORDS, "refused 37"));
    all.push(example(full(986), u32::MAX, "refused 37"));
    all
}

/// A text whose value takes 260,171 words and, for the numeral of its last call, 3 more and 2 for each `succ`: `big` takes
/// 2,047 and `many` 16 times as much and 19, the term has 22 nodes of `d`, and `id` takes 3.
fn full(numeral: usize) -> String {
    let inputs = "A → ".repeat(16);
    let declarations = format!(
        "ctor w : {inputs}A\ndef big : A | => 1022\ndef many : A | => w{}\ndef rest : A | => {numeral}",
        " big".repeat(16)
    );
    let term = format!("{}{}rest{}", "(d many ".repeat(7), "(d big ".repeat(15), ")".repeat(22));
    format!("{BEFORE}\n{declarations}\n#eval id {term}")
}

/// Functions that make 1, 11, 111 and 1,111 calls.
fn spending() -> String {
    let inputs = "A → ".repeat(10);
    let mut text = format!("{BEFORE}\nctor w : {inputs}A\ndef f0 : A | => a\n");
    for number in 1..4 {
        text += &format!("def f{number} : A | => w{}\n", format!(" f{}", number - 1).repeat(10));
    }
    text
}

/// A term that makes so many calls and has few parts.
fn spent(mut calls: usize) -> String {
    let mut parts = Vec::new();
    for (name, cost) in [("f3", 1_111), ("f2", 111), ("f1", 11), ("f0", 1)] {
        parts.extend(vec![name.to_owned(); calls / cost]);
        calls %= cost;
    }
    while parts.len() > 1 {
        let node = |parts: &[String]| {
            let none = vec!["a".to_owned(); 10 - parts.len()];
            format!("(w {})", [parts, &none].concat().join(" "))
        };
        parts = parts.chunks(10).map(node).collect();
    }
    parts.concat()
}

/// Exactly as many calls as there may be, and one more, in a term and in a clause.
fn calls() -> Vec<Example> {
    let asked = |term: String, limit: u32, answer: &str| example(format!("{}#eval {term}", spending()), limit, answer);
    let clause = |last: &str, answer: &str| {
        let function = format!("ctor w9 : {}A def g : A | => {last}", "A → ".repeat(9));
        example(format!("{}{function}\n#eval g", spending()), WORDS, answer)
    };
    vec![
        asked(format!("id {}", spent(9_999)), WORDS, "value .."),
        asked(format!("id {}", spent(10_000)), WORDS, "refused 30"),
        Example { forward: false, ..asked(spent(10_000), WORDS, "value ..") },
        Example { forward: false, ..asked(spent(10_001), WORDS, "refused 30") },
        // 30 before any clause, and 29 before 30: `l` makes 127 calls from depth 2 on
        asked(format!("n {}", spent(9_999)), WORDS, "refused 34"),
        asked(format!("n {}", spent(10_000)), WORDS, "refused 30"),
        asked(format!("k {} (l a)", spent(9_873)), WORDS, "refused 29"),
        asked(format!("k {} (l a)", spent(9_874)), WORDS, "refused 30"),
        asked(format!("k {} z", spent(10_000)), WORDS, "refused 20"),
        asked(format!("k {} b", spent(10_000)), WORDS, "refused 33"),
        asked(format!("k {} z", spent(10_001)), WORDS, "refused 30"),
        // words, of which each call takes at least 3 here
        asked(format!("id {}", spent(10_000)), 30_000, "refused 37"),
        clause(&format!("w9{}", " f3".repeat(9)), "value .."),
        clause(&format!("w{} f0", " f3".repeat(9)), "refused 30"),
        clause(&format!("w{} a", " f3".repeat(9)), "value .."),
    ]
}
