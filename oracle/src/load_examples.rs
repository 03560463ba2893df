//! Fixed texts on both sides of every refusal of document 01's loader and of every limit, with what they must give. The
//! keyword of the declaration that is refused stands on the line given.

use crate::loaded::{INPUTS, NODES, PREMISES, RULE_NODES, RULES, SORTS, SYMBOLS, VARIABLES};

/// A text, the limit on nodes in all, the number that refuses it (0: none), and the line (0: none).
#[derive(Clone)]
pub struct Example {
    pub text: String,
    pub nodes: u32,
    pub number: u32,
    pub line: u32,
}

/// What stands before most examples, on one line: two sorts, constructors, predicates and functions over them.
const BEFORE: &str = "sort A sort B ctor a:A ctor b:B ctor c:A→A ctor d:A→B→A pred q:Prop pred p:A→Prop \
     pred s:B→Prop pred t:A→B→Prop def f:A→A def g:A def h:A→B→A";

/// The same with numerals.
const NUMERALS: &str = "sort A sort B ctor zero:A ctor succ:A→A ctor b:B pred q:Prop pred p:A→Prop pred s:B→Prop \
     pred t:A→B→Prop def f:A→A";

/// Whole texts that are accepted.
#[rustfmt::skip]
const ACCEPTED: &[&str] = &[
    "", "\n", "-- only", "sort A", "sort A\nsort B", "sort Prop", "sort Prop\npred p : Prop → Prop",
    "sort Prop\nctor c : Prop → Prop", "sort A\nctor a : A", "sort A\nctor c : A → A → A", "pred p : Prop",
    "sort A\ndef f : A", "sort A\nctor a : A\ndef f : A | => a", "sort A\ndef f : A | => x",
    "sort Nat\nctor zero : Nat\nctor succ : Nat → Nat\ndef add : Nat → Nat → Nat\n| zero, n => n\n\
     | succ m, n => succ (add m n)\n#eval add 1 1\n#eval add ?x 2 = 1\n",
    // names of rules are not tested
    "pred q : Prop\nrule r : q\nrule r : q", "pred q : Prop\nrule q : q", "sort A\npred q : Prop\nrule A : q",
    "pred q : Prop\nrule r : q\npred r : Prop", "pred q : Prop\nrule f.0 : q\nsort A\ndef f : A | => x",
    // nothing of an `#eval` is tested
    "#eval u", "#eval 3", "#eval u x = 18446744073709551615", "#eval\nu\n#eval v",
    "sort A\n#eval A = A\nctor a : A\n#eval a (a = 2) ?x",
];

/// Whole texts that are refused: names and sorts, in their order.
#[rustfmt::skip]
const REFUSED: &[(&str, u32, u32)] = &[
    // 17 already declared, among sorts and symbols together
    ("sort A\nsort A", 17, 2), ("sort A\nsort B\nsort\nA", 17, 3), ("sort A\nctor A : A", 17, 2),
    ("sort A\npred A : Prop", 17, 2), ("sort A\ndef A : A", 17, 2), ("sort A\nctor a : A\nsort a", 17, 3),
    ("sort A\nctor a : A\nctor a : A", 17, 3), ("sort A\nctor a : A\npred a : Prop", 17, 3),
    ("sort A\nctor a : A\ndef a : A", 17, 3), ("pred p : Prop\nsort p", 17, 2),
    ("pred p : Prop\npred p : Prop", 17, 2), ("sort A\ndef f : A\nctor f : A", 17, 3),
    ("sort A\ndef f : A\ndef f : A", 17, 3), ("sort A\ndef f : A\nsort f", 17, 3), ("sort Prop\nsort Prop", 17, 2),
    // before the clauses
    ("sort A\nctor a : A\ndef a : A | => u v", 17, 3), ("sort A\ndef f : A | => u v\ndef f : A", 20, 2),
    // 18 unknown sort, and before 17
    ("ctor a : A", 18, 1), ("pred p : A → Prop", 18, 1), ("def f : A", 18, 1), ("sort A\nctor c : A → B", 18, 2),
    ("sort A\nctor c : B → A", 18, 2), ("sort A\npred p : A → B → Prop", 18, 2), ("sort A\ndef f : A → B", 18, 2),
    ("sort A\ndef f : B → A", 18, 2), ("pred p : Prop → Prop", 18, 1), ("ctor c : Prop", 18, 1),
    ("def f : Prop", 18, 1), ("sort A\nctor a : a", 18, 2), ("sort A\nctor a : A\nctor b : a", 18, 3),
    ("sort A\npred p : p → Prop", 18, 2), ("ctor a : A\nsort A", 18, 1), ("sort a\nctor b : A", 18, 2),
    ("sort A\nctor A : B", 18, 2), ("sort A\npred A : B → Prop", 18, 2), ("sort A\ndef A : A → B", 18, 2),
    ("sort A\nctor a : A\nctor a : B", 18, 3), ("sort A\nctor a : A\ndef a : B | => a", 18, 3),
    ("sort A\nsort A\nctor a : B", 17, 2), ("ctor a : B\nsort A\nsort A", 18, 1),
    // 27
    ("theorem t : u", 27, 1), ("#check u", 27, 1), ("#check 3", 27, 1),
    ("sort A\ntheorem t (x : B) : u x := by induction y", 27, 2), ("#check u\nsort A\nsort A", 27, 1),
    ("sort A\nsort A\n#check u", 17, 2), ("#eval u\n#check u", 27, 2), ("theorem t : u\n#check u", 27, 1),
    ("rule r : u\n#check u", 19, 1),
    // the whole text is read and parsed first
    ("sort A\nsort A\nby", 16, 3), ("ctor a : A\n-", 4, 2), ("#check u\nsort\n", 9, 2),
    ("theorem t : u\n#eval 2 3", 11, 2),
    // numerals need constructors of these names
    ("sort A pred p : A → Prop\nrule r : p 0", 26, 2), ("sort A pred p : A → Prop\nrule r : p 7 → u", 26, 2),
    ("rule r : 0", 26, 1), ("sort A ctor zero : A pred p : A → Prop\nrule r : p 0", 26, 2),
    ("sort A ctor succ : A → A pred p : A → Prop\nrule r : p 1", 26, 2),
    ("sort A ctor zero : A ctor Succ : A → A pred p : A → Prop\nrule r : p 1", 26, 2),
    ("sort A pred zero : Prop ctor succ : A → A pred p : A → Prop\nrule r : p 0", 26, 2),
    ("sort A def zero : A ctor succ : A → A pred p : A → Prop\nrule r : p 0", 26, 2),
    ("sort A ctor zero : A pred succ : A → Prop pred p : A → Prop\nrule r : p 1", 26, 2),
    ("sort A ctor zero : A def succ : A → A pred p : A → Prop\nrule r : p 0", 26, 2),
    ("sort zero sort succ pred p : zero → Prop\nrule r : p 0", 26, 2),
    ("sort A ctor zero : A pred p : A → Prop\nrule r : p 1 rule s : p x\nctor succ : A → A", 26, 2),
    ("sort A sort B ctor zero : A pred s : B → Prop\nrule r : s 1", 26, 2),
    ("sort A pred p : A → Prop\nrule r : p 18446744073709551615", 26, 2),
    // of other sorts and with other numbers of inputs
    ("sort A sort B ctor zero : A ctor succ : A → A pred s : B → Prop\nrule r : s 0", 23, 2),
    ("sort A sort B ctor zero : A ctor succ : A → A pred s : B → Prop\nrule r : s 1", 23, 2),
    ("sort A sort B ctor zero : A ctor succ : A → A pred s : B → Prop\nrule r : s 18446744073709551615", 23, 2),
    ("sort A sort B ctor zero : B ctor succ : A → A pred p : A → Prop\nrule r : p 0", 23, 2),
    ("sort A sort B ctor zero : B ctor succ : A → A pred p : A → Prop\nrule r : p 1", 23, 2),
    ("sort A sort B ctor zero : B ctor succ : A → A pred p : A → Prop\nrule r : p 18446744073709551615", 28, 2),
    ("sort A sort B ctor zero : B ctor succ : B → A pred p : A → Prop\nrule r : p 1", 0, 0),
    ("sort A sort B ctor zero : B ctor succ : B → A pred p : A → Prop\nrule r : p 0", 23, 2),
    ("sort A sort B ctor zero : B ctor succ : B → A pred p : A → Prop\nrule r : p 2", 23, 2),
    ("sort A sort B ctor zero : B ctor succ : B → A pred p : A → Prop\nrule r : p 18446744073709551615", 23, 2),
    ("sort A sort B ctor zero : A ctor succ : B → A pred p : A → Prop\nrule r : p 0", 0, 0),
    ("sort A sort B ctor zero : A ctor succ : B → A pred p : A → Prop\nrule r : p 1", 23, 2),
    ("sort A ctor zero : A → A ctor succ : A → A pred p : A → Prop\nrule r : p 0", 21, 2),
    ("sort A ctor zero : A → A ctor succ : A → A pred p : A → Prop\nrule r : p 2", 21, 2),
    ("sort A ctor zero : A ctor succ : A pred p : A → Prop\nrule r : p 0", 0, 0),
    ("sort A ctor zero : A ctor succ : A pred p : A → Prop\nrule r : p 1", 21, 2),
    ("sort A ctor zero : A ctor succ : A → A → A pred p : A → Prop\nrule r : p 0", 0, 0),
    ("sort A ctor zero : A ctor succ : A → A → A pred p : A → Prop\nrule r : p 1", 21, 2),
    ("sort A sort B ctor zero : A ctor succ : A → A → B pred p : A → Prop\nrule r : p 1", 23, 2),
    ("sort A ctor zero : A ctor succ : A → A → A pred p : A → Prop\nrule r : p 18446744073709551615", 21, 2),
    ("sort A ctor succ : A → A ctor zero : A pred p : A → Prop\nrule r : p 2", 0, 0),
    // a user's `result.1` as what it may be declared
    ("sort A ctor a : A def f : A → A ctor result.1 : A\ndef k : A | => f a", 0, 0),
    ("sort A ctor a : A def f : A → A ctor result.2 : A\ndef k : A | => f (f a)", 0, 0),
    ("sort A ctor a : A def f : A → A ctor result.1 : A → A\ndef k : A | => f a", 21, 2),
    ("sort A sort B ctor a : A def f : A → A ctor result.1 : B\ndef k : A | => f a", 23, 2),
    ("sort A ctor a : A def f : A → A pred result.1 : Prop\ndef k : A | => f a", 23, 2),
    ("sort A ctor a : A def f : A → A def result.1 : A\ndef k : A | => f a", 22, 2),
    ("sort A ctor a : A def f : A → A def result.2 : A\ndef k : A | => f a", 0, 0),
    ("sort A ctor a : A def f : A → A sort result.1\ndef k : A | => f a", 0, 0),
    ("sort A\ndef result.1 : A | => result.1", 22, 2), ("sort A ctor a : A\ndef result.1 : A | => a", 0, 0),
    ("sort A ctor a : A def f : A → A pred result.1 : A → Prop\nrule r : result.1 a", 0, 0),
    ("sort A ctor a : A def f : A → A\ndef k : A | => f a\nctor result.1 : B", 18, 3),
];

/// Declarations after `BEFORE`, on lines from 2 on, that are accepted.
#[rustfmt::skip]
const ACCEPTED_AFTER: &[&str] = &[
    "rule r : q", "rule r : q → q", "rule r : p a", "rule r : p (c a)", "rule r : p (d (c a) b)", "rule r : f a = a",
    "rule r : f a a", "rule r : g = a", "rule r : g a", "rule r : h a b = c a", "rule r : (q)", "rule r : (p) a",
    "rule r : (f a = a) → p a",
    // variables, by whole names
    "rule r : p x", "rule r : p x → p ?x", "rule r : p ?", "rule r : t x y → t x y", "rule r : p A", "rule r : p Prop",
    "rule r : t A B", "rule r : s A → p B", "rule r : p r", "rule r : p x' → p x", "rule r : s ?x → p x",
    "rule r : p ?a", "rule r : p result.1", "rule r : p f.0", "rule r : p later\nctor later : A",
    "rule r : p later\ndef later : A",
    // a metavariable alone, where its sort is known
    "rule r : ?x → p ?x", "rule r : p ?x → ?x", "rule r : ?x → ?x → ?x → s ?x", "rule r : ?x → ?y → t ?y ?z → t ?x ?z",
    // clauses
    "def k : A | => a", "def k : A | => x", "def k : A → A | x => x",
    "def k : A → B → A | a, b => a | x, b => c x | x, y => d x y", "def k : A → A | x => k x",
    "def k : A → A | x => k (k (k x))", "def k : A | => k", "def k : A → A | x => d (k x) b",
    "def k : A → A | x => h (k g) b", "def k : A → A | ?x => ?x", "def k : A → A | x => f ?y",
    "def k : A | => later\ndef later : A", "def k : A → A | x => c (c x) | x => f (c (f x))",
    // flattening variables that a user names too
    "def k : A → A | result.1 => f result.1", "def k : A → A | x => d (f result.2) y",
    "def k : A → A | ?result.1 => f ?result.1", "def k : A → A | result.2 => f a",
    "def k : A → A | x => h (f result.2) (y)", "rule r : p result.1 → s result.2",
];

/// The same, refused.
#[rustfmt::skip]
const REFUSED_AFTER: &[(&str, u32, u32)] = &[
    // 19 unknown predicate
    ("rule r : u", 19, 2), ("rule r : u → q", 19, 2), ("rule r : q → u", 19, 2), ("rule r : A", 19, 2),
    ("rule r : Prop", 19, 2), ("rule r : p x → x", 19, 2), ("rule r : later\npred later : Prop", 19, 2),
    ("\nrule\nr : q\nrule r : q →\nu", 19, 5), ("rule r : result.1", 19, 2), ("rule r : Q", 19, 2),
    // 20 unknown symbol
    ("rule r : u a", 20, 2), ("rule r : u = a", 20, 2), ("rule r : p (u a)", 20, 2), ("rule r : A a", 20, 2),
    ("rule r : p (A a)", 20, 2), ("rule r : p (x a)", 20, 2), ("rule r : later a\npred later : A → Prop", 20, 2),
    ("def k : A → A | u x => x", 20, 2), ("def k : A → A | x => u x", 20, 2),
    ("def k : A → A | x => later x\ndef later : A → A", 20, 2), ("rule r : r a", 20, 2),
    ("def k : A | => f (u a)", 20, 2), ("def k : A | => u (f a)", 20, 2), ("rule r : p (f.0 a)", 20, 2),
    // 21 argument count
    ("rule r : p", 21, 2), ("rule r : p a a", 21, 2), ("rule r : q a", 21, 2), ("rule r : q = a", 21, 2),
    ("rule r : p = a", 0, 0), ("rule r : f", 21, 2), ("rule r : f a", 21, 2), ("rule r : f a a a", 21, 2),
    ("rule r : f = a", 21, 2), ("rule r : g", 21, 2), ("rule r : p c", 21, 2), ("rule r : p (a a)", 21, 2),
    ("rule r : p (d a)", 21, 2), ("rule r : p (c a a)", 21, 2), ("def k : A → A | => a", 21, 2),
    ("def k : A → A | x, y => x", 21, 2), ("def k : A | x => x", 21, 2), ("def k : A → A | x => k", 21, 2),
    ("def k : A → A | x => k x x", 21, 2), ("def k : A → A | x => x\n| x, y => x", 21, 2),
    ("def k : A | => g a", 21, 2), ("def k : A | => f", 21, 2), ("def k : A | => c", 21, 2),
    ("def k : A | => d (f a)", 21, 2),
    // 22 function inside a term
    ("rule r : p (f a)", 22, 2), ("rule r : p g", 22, 2), ("rule r : f (f a) = a", 22, 2),
    ("rule r : f a = f a", 22, 2), ("rule r : f a = g", 22, 2), ("rule r : s g", 22, 2),
    ("rule r : p (c (c g))", 22, 2), ("def k : A → A | f x => x", 22, 2), ("def k : A → A | g => a", 22, 2),
    ("def k : A → A | k x => x", 22, 2), ("def k : A → A | k => a", 22, 2), ("def k : A → A | k => k", 21, 2),
    ("def k : A → A | c (k x) => x", 22, 2),
    // 23 cannot stand here
    ("rule r : a", 23, 2), ("rule r : c a", 23, 2), ("rule r : c", 23, 2), ("rule r : q → a", 23, 2),
    ("rule r : p q", 23, 2), ("rule r : p (p a)", 23, 2), ("rule r : p b", 23, 2), ("rule r : s a", 23, 2),
    ("rule r : t b a", 23, 2), ("rule r : t a (c a)", 23, 2), ("rule r : f b = a", 23, 2), ("rule r : f a = b", 23, 2),
    ("rule r : a = a", 23, 2), ("def k : A | => q", 23, 2), ("def k : A | => b", 23, 2),
    ("def k : A → A | b => a", 23, 2), ("def k : B | => f a", 24, 2), ("def k : A | => f (p a)", 23, 2),
    ("def k : A | => f b", 23, 2), ("def k : A | => p (f a)", 23, 2),
    // 24 two sorts
    ("rule r : p x → s x", 24, 2), ("rule r : t x x", 24, 2), ("rule r : p ?x → s ?x", 24, 2),
    ("rule r : p (d x x)", 24, 2), ("rule r : ?x → p ?x → s ?x", 24, 2), ("rule r : p ?x → ?x → s ?x", 24, 2),
    ("rule r : p ? → s ?", 24, 2), ("def k : A → B | x => x", 24, 2), ("def k : A → B → A | x, x => x", 24, 2),
    ("def k : B → A | result.1 => f a", 24, 2), ("def k : B → A | x => f x", 24, 2),
    ("def k : B → A | result.2 => f (f a)", 24, 2), ("def k : A → A | x => h x result.1", 24, 2),
    // 25 sort not known, after the whole rule
    ("rule r : ?x", 25, 2), ("rule r : ?x → q", 25, 2), ("rule r : q → ?x", 25, 2), ("rule r : ?x → p x", 25, 2),
    ("rule r : ?x → p ?y", 25, 2), ("rule r : ?", 25, 2), ("rule r : ?x → ?y → p ?x", 25, 2),
    ("rule r : ?x → p ?x\nrule s : ?x", 25, 3), ("rule r : ?x\nrule s : u", 25, 2),
    // 26 there are no `zero` and `succ`
    ("rule r : 0", 26, 2), ("rule r : p 0", 26, 2), ("rule r : p 2", 26, 2), ("def k : A | => 1", 26, 2),
    ("def k : A → A | 0 => a", 26, 2),
    // a bare and an applied unknown name
    ("rule r : u → u a", 19, 2), ("rule r : u a → u", 20, 2), ("rule r : p (u a) → u", 20, 2),
    ("rule r : u → p (u a)", 19, 2),
    // 22 before 23 and 21, 23 before 21
    ("rule r : p (f a a a)", 22, 2), ("rule r : p f", 22, 2), ("rule r : s (f a)", 22, 2), ("rule r : p (b a)", 23, 2),
    ("rule r : p (s b b)", 23, 2), ("rule r : a a", 23, 2), ("rule r : c a a", 23, 2), ("rule r : s c", 23, 2),
    ("rule r : p p", 23, 2),
    // 21 before the arguments
    ("rule r : p (u a) a", 21, 2), ("rule r : p b b", 21, 2), ("rule r : p x x x", 21, 2), ("rule r : q u", 21, 2),
    ("rule r : f (f a)", 21, 2), ("rule r : p (c b b)", 21, 2), ("rule r : p (d (u a))", 21, 2),
    ("rule r : p 0 0", 21, 2),
    // arguments from left to right, each whole
    ("rule r : t (u a) a", 20, 2), ("rule r : t b (u a)", 23, 2), ("rule r : t (c (u a)) (c a a)", 20, 2),
    ("rule r : t c (u a)", 21, 2), ("rule r : t 0 (u a)", 26, 2), ("rule r : t (u a) 0", 20, 2),
    ("rule r : t x x → u", 24, 2), ("rule r : t (c b) x → s x", 23, 2), ("rule r : t (f a) a", 22, 2),
    ("rule r : t b (f a)", 23, 2),
    // premises from first to last, then the conclusion
    ("rule r : p b → p (f a) → u", 23, 2), ("rule r : p (f a) → p b → u", 22, 2), ("rule r : q a → u a", 21, 2),
    ("rule r : u a → q a", 20, 2), ("rule r : p x → s x → u", 24, 2), ("rule r : p x → u → s x", 19, 2),
    ("rule r : ?x → u", 19, 2), ("rule r : ?x → p y → s y", 24, 2), ("rule r : ?x → p", 21, 2),
    ("rule r : ?x → p 0", 26, 2),
    // in a clause the calls first, inner before outer, then the patterns, then the right side
    ("def k : A → A | u x => f (v x)", 20, 2), ("def k : A → A | b => f (f x x)", 21, 2),
    ("def k : A → A | f x => f b", 23, 2), ("def k : A → A | f x => f a", 22, 2), ("def k : A → A | f x => c", 22, 2),
    ("def k : A → A | x, y => f b", 23, 2), ("def k : A → A | x, y => b", 21, 2),
    ("def k : A → A | x, y => u a", 21, 2), ("def k : A → A | b => u a", 23, 2), ("def k : A → A | x => u b", 20, 2),
    ("def k : A | => f (f b)", 23, 2), ("def k : A | => f (h b a)", 23, 2), ("def k : A | => h (f b) (u a)", 23, 2),
    ("def k : A | => h (u a) (f b)", 23, 2), ("def k : A | => f (f a a)", 21, 2),
    // the line is that of the declaration
    ("def k : A\n| => a\n| => u a", 20, 2), ("def\nk : A\n| => a\n| => x\n\n| => b", 23, 2),
    ("sort C\ndef k : A | => a\nrule r : u", 19, 4),
];

/// Declarations after `NUMERALS`, on lines from 2 on.
#[rustfmt::skip]
const WITH_NUMERALS: &[(&str, u32, u32)] = &[
    ("rule r : p 0", 0, 0), ("rule r : p 3 → p 00", 0, 0), ("rule r : t 2 b", 0, 0),
    ("def k : A → A | 0 => 3 | succ x => f 1", 0, 0), ("rule r : 0", 23, 2), ("rule r : 3", 23, 2),
    ("rule r : 18446744073709551615", 23, 2), ("rule r : q → 1", 23, 2), ("rule r : s 0", 23, 2),
    ("rule r : s 1", 23, 2), ("rule r : p 1 1", 21, 2), ("rule r : q 1", 21, 2), ("rule r : t 1 1", 23, 2),
    ("rule r : t b 18446744073709551615", 23, 2), ("rule r : succ 1", 23, 2), ("rule r : p (succ 1)", 0, 0),
    ("rule r : p (succ 1 2)", 21, 2), ("rule r : p (f 1)", 22, 2), ("rule r : u 1", 20, 2), ("rule r : 1 → u", 23, 2),
    ("rule r : p 18446744073709551615 1", 21, 2), ("rule r : s (succ 18446744073709551615)", 23, 2),
    ("rule r : u 18446744073709551615", 20, 2), ("rule r : u → p 18446744073709551615", 19, 2),
    ("def k : A → A | 18446744073709551615, x => x", 21, 2), ("rule r : p 18446744073709551615", 28, 2),
    ("rule r : p 4294967296", 28, 2), ("rule r : p 4294967295", 28, 2), ("rule r : p 65536", 28, 2),
    ("rule r : p 1022", 0, 0), ("rule r : p 1023", 28, 2), ("rule r : p 1024", 28, 2), ("rule r : p 1025", 28, 2),
    ("rule r : p (succ 1021)", 0, 0), ("rule r : p (succ 1022)", 28, 2), ("rule r : p 510 → p 510", 0, 0),
    ("rule r : p 510 → p 511", 28, 2), ("rule r : p 511 → p 510", 28, 2), ("rule r : p 1021 → q", 0, 0),
    ("rule r : p 1022 → q", 28, 2), ("rule r : p 1022 → u", 19, 2), ("rule r : p 1022 → u a", 20, 2),
    ("rule r : p 1022 → p", 21, 2), ("rule r : p 1022 → p u", 28, 2), ("rule r : p 1022 → ?x", 28, 2),
    ("rule r : t 1021 b", 0, 0), ("rule r : t 1022 b", 28, 2), ("rule r : t 1021 x", 0, 0),
    ("rule r : t 1022 x", 28, 2), ("rule r : t 1022 (f 0)", 22, 2), ("rule r : t 1022 1", 23, 2),
    ("rule r : t 1023 1", 28, 2), ("rule r : p x → t 1018 x", 24, 2), ("rule r : p x → t 1020 x", 24, 2),
    ("rule r : p x → t 1021 x", 28, 2), ("rule r : ?x → p 1021", 25, 2), ("rule r : ?x → p 1022", 28, 2),
    ("rule r : ?x → p ?x → p 1020", 28, 2), ("rule r : ?x → p ?x → p 1019", 0, 0), ("def k : A | => 1022", 0, 0),
    ("def k : A | => 1023", 28, 2), ("def k : A → A | 18446744073709551615 => 0", 28, 2),
    ("def k : A → A | x => f 18446744073709551615", 28, 2), ("def k : A → A | x => f 1018", 0, 0),
    ("def k : A → A | x => f 1019", 28, 2), ("def k : A → A | x => f (u 18446744073709551615)", 20, 2),
];

/// Declarations after `BEFORE`, on lines from 2 on, under a lower limit on nodes in all.
#[rustfmt::skip]
const FEW_NODES: &[(&str, u32, u32, u32)] = &[
    ("#eval u v", 0, 0, 0), ("def k : A", 0, 0, 0), ("rule r : q", 0, 28, 2), ("rule r : q", 1, 0, 0),
    ("rule r : u", 0, 19, 2), ("rule r : u a", 0, 20, 2), ("rule r : a", 0, 23, 2), ("rule r : p", 0, 21, 2),
    ("rule r : p u", 0, 28, 2), ("rule r : ?x", 0, 28, 2), ("rule r : ?x", 1, 25, 2), ("rule r : 0", 0, 26, 2),
    ("rule r : q\nrule r : q", 1, 28, 3), ("rule r : q\nrule r : q", 2, 0, 0), ("rule r : q → q", 1, 28, 2),
    ("rule r : q → q", 2, 0, 0), ("rule r : q → u", 1, 19, 2), ("rule r : q → u", 0, 28, 2),
    ("rule r : p (u a)", 1, 20, 2), ("rule r : p (u a)", 0, 28, 2), ("rule r : p b", 1, 23, 2),
    ("rule r : p b", 0, 28, 2), ("rule r : p (f a)", 1, 22, 2), ("rule r : p (f a)", 0, 28, 2),
    ("rule r : p c", 1, 21, 2), ("rule r : p 0", 1, 26, 2), ("rule r : p 0", 0, 28, 2), ("rule r : p x", 1, 28, 2),
    ("rule r : p x", 2, 0, 0), ("rule r : p a", 1, 28, 2), ("rule r : p a", 2, 0, 0), ("rule r : p x → s x", 2, 28, 2),
    ("rule r : p x → s x", 3, 24, 2), ("rule r : p x → s x", 4, 24, 2), ("rule r : p x → p x", 3, 28, 2),
    ("rule r : p x → p x", 4, 0, 0), ("rule r : p (d a b)", 4, 0, 0), ("rule r : p (d a b)", 3, 28, 2),
    ("rule r : p (d a b)", 2, 28, 2), ("rule r : p (d a a)", 3, 23, 2), ("rule r : p (d a a)", 2, 28, 2),
    ("rule r : p (d (u a) b)", 2, 20, 2), ("rule r : p (d (u a) b)", 1, 28, 2), ("rule r : ?x → p ?x", 2, 28, 2),
    ("rule r : ?x → p ?x", 3, 0, 0), ("rule r : p ?x → ?x", 2, 28, 2), ("rule r : ?x → q", 2, 25, 2),
    ("rule r : ?x → q", 1, 28, 2), ("def k : A | => a", 1, 28, 2), ("def k : A | => a", 2, 0, 0),
    ("def k : A | => a | => a", 3, 28, 2), ("def k : A | => a | => a", 4, 0, 0),
    ("def k : A | => a | => u a", 3, 20, 2), ("def k : A | => a | => u a", 2, 28, 2),
    ("def k : A → A | x => k x", 5, 28, 2), ("def k : A → A | x => k x", 6, 0, 0),
    ("def k : A → A | b => k x", 4, 23, 2), ("def k : A → A | b => k x", 3, 28, 2),
    ("rule r : q\ndef k : A | => a\nrule s : q", 4, 0, 0), ("rule r : q\ndef k : A | => a\nrule s : q", 3, 28, 4),
    ("rule r : q\n#eval u\nrule s : ?x", 2, 25, 4), ("rule r : q\nctor e : C", 1, 18, 3),
    ("rule r : q\nctor e : C", 0, 28, 2),
];

fn example(text: String, number: u32, line: u32) -> Example {
    Example { text, nodes: NODES, number, line }
}

fn accepted(text: String) -> Example {
    example(text, 0, 0)
}

/// The fixed texts with their answers.
pub fn examples() -> Vec<Example> {
    let after = |declarations: &str| format!("{BEFORE}\n{declarations}");
    let mut all: Vec<Example> = ACCEPTED.iter().map(|text| accepted((*text).to_owned())).collect();
    all.extend(REFUSED.iter().map(|(text, number, line)| example((*text).to_owned(), *number, *line)));
    all.extend(ACCEPTED_AFTER.iter().map(|text| accepted(after(text))));
    all.extend(REFUSED_AFTER.iter().map(|(text, number, line)| example(after(text), *number, *line)));
    all.extend(WITH_NUMERALS.iter().map(|(text, number, line)| example(format!("{NUMERALS}\n{text}"), *number, *line)));
    let few = |(text, nodes, number, line): &(&str, u32, u32, u32)| Example {
        nodes: *nodes,
        ..example(after(text), *number, *line)
    };
    all.extend(FEW_NODES.iter().map(few));
    all.extend(names());
    all.extend(small_limits());
    all
}

/// So many names, with a blank before each.
fn variables(count: usize) -> String {
    (1..=count).map(|number| format!(" x{number}")).collect()
}

/// Names of the greatest length that differ only in one byte, counted from 1.
fn names() -> Vec<Example> {
    let mut all = Vec::new();
    for byte in [1, 35, 36, 63, 64] {
        let name = |letter: &str| ["n".repeat(byte - 1).as_str(), letter, &"n".repeat(64 - byte)].concat();
        let (one, other, third) = (name("a"), name("b"), name("c"));
        let two = format!(
            "sort A sort B ctor {one} : A ctor {other} : B pred p : A → Prop pred s : B → Prop pred t : A → A → Prop"
        );
        all.extend([
            accepted(format!("sort {one}\nsort {other}\nctor a : {other}")),
            example(format!("sort {one}\nsort {other}\nsort {one}"), 17, 3),
            example(format!("sort {one}\nctor a : {other}"), 18, 2),
            accepted(format!("{two}\nrule r : p {one} → s {other}")),
            example(format!("{two}\nrule r : p {other}"), 23, 2),
            accepted(format!("{two}\nrule r : p {third}")),
            example(format!("{two}\nrule r : {third}"), 19, 2),
            example(format!("{two}\nrule r : {third} {one}"), 20, 2),
            accepted(format!("sort A pred t : A → A → Prop\nrule r : t {one} {other} → t {third} {one}")),
            example(format!("sort A sort B pred t : A → B → Prop\nrule r : t {one} {one}"), 24, 2),
        ]);
    }
    let long = "n".repeat(64);
    all.push(accepted(format!("sort {long}\nsort {}\nctor {} : {long}", &long[..63], &long[..62])));
    all.push(example(format!("sort {}\nctor a : {long}", &long[..63]), 18, 2));
    all.push(accepted(format!(
        "sort {long}\npred p : {long} → {long} → Prop\nrule r : p ?{} {}",
        &long[..63],
        &long[..63]
    )));
    all
}

/// Both sides of the limits that short texts meet: inputs, premises, variables.
fn small_limits() -> Vec<Example> {
    let mut all = Vec::new();
    let arrows = |count: usize| "A → ".repeat(count);
    for (more, number) in [(0, 0), (1, 28), (2, 28)] {
        let line = if number == 0 { 0 } else { 2 };
        let inputs = INPUTS + more;
        all.push(example(format!("sort A\nctor c : {}A", arrows(inputs)), number, line));
        all.push(example(format!("sort A\npred p : {}Prop", arrows(inputs)), number, line));
        all.push(example(format!("sort A\ndef f : {}A", arrows(inputs - 1)), number, line));
        let premises = PREMISES + more;
        all.push(example(format!("pred q : Prop\nrule r : {}q", "q → ".repeat(premises)), number, line));
        all.push(example(
            format!("sort A def f : A → A\ndef k : A | => {}x{}", "f (".repeat(premises), ")".repeat(premises)),
            number,
            line,
        ));
        all.push(example(
            format!("sort A pred p : {}Prop\n{}", arrows(INPUTS), many_variables(VARIABLES + more)),
            number,
            line,
        ));
        all.push(example(format!("sort A def f : {}A\n{}", arrows(15), many_calls(VARIABLES + more)), number, line));
    }
    let inputs = arrows(INPUTS + 1);
    let calls = format!("{}x{}", "f (".repeat(17), ")".repeat(17));
    let premises = "q → ".repeat(PREMISES + 1);
    let wide = format!("sort A pred p : {}Prop", arrows(INPUTS));
    all.extend([
        // 18 and 17 before 28, and both before the clauses
        example(format!("sort A\nctor c : {inputs}B"), 18, 2),
        example(format!("sort A\nctor A : {inputs}A"), 17, 2),
        example(format!("sort A\npred A : B → {inputs}Prop"), 18, 2),
        example(format!("sort A\ndef A : {inputs}A"), 17, 2),
        example(format!("sort A\ndef f : {inputs}A | => u a"), 28, 2),
        // too many premises before any pattern
        example(format!("pred q : Prop\nrule r : {premises}u"), 28, 2),
        example(format!("pred q : Prop\nrule r : u → {premises}q"), 28, 2),
        example(format!("pred q : Prop\nrule r : u → {}q", "q → ".repeat(15)), 19, 2),
        example(format!("sort A def f : A → A\ndef k : A → A | u a => {calls}"), 28, 2),
        example(format!("sort A def f : A → A\ndef k : A → A | => {calls}"), 28, 2),
        example(format!("sort A def f : A → A\ndef k : A → A | x, y => u ({calls})"), 28, 2),
        example(format!("sort A def f : A → A\ndef k : A | => x | => u x | => {calls}"), 20, 2),
        example(
            format!(
                "sort A ctor c : A → A def f : A → A\ndef k : A | => c {}",
                format!("(f {calls})").replace("x", "(u x)")
            ),
            28,
            2,
        ),
        accepted(format!("sort A ctor c : {}A def f : A\ndef k : A | => c{}", arrows(16), " f".repeat(16))),
        example(format!("sort A ctor c : {}A def f : A\ndef k : A | => f", arrows(16)), 0, 0),
        example(
            format!("sort A ctor c : {}A def f : A → A\ndef k : A | => f (c{})", arrows(16), " (f x)".repeat(16)),
            28,
            2,
        ),
        // the 65th variable, after its symbol's tests and before what follows
        example(format!("{wide}\n{}", many_variables(65).replace("x65 x65", "x65 (u a)")), 28, 2),
        example(format!("{wide}\n{}", many_variables(65).replace("x64 →", "(u a) →")), 20, 2),
        example(format!("{wide} pred s : A → Prop\n{} → s x1", many_variables(64)), 0, 0),
        example(format!("{wide} pred s : A → Prop\n{} → s x65", many_variables(64)), 28, 2),
        example(format!("{wide} pred s : A → Prop\n{} → s ?x1", many_variables(64)), 28, 2),
        example(format!("{wide} pred s : A → Prop\n{} → ?x1", many_variables(64)), 28, 2),
        example(format!("{wide} pred s : A → Prop\n{} → ?x1", many_variables(63)), 25, 2),
        example(format!("{wide} sort B pred s : B → Prop\n{} → s x1", many_variables(64)), 24, 2),
        example(format!("{wide} sort B pred s : B → Prop\n{} → s x65", many_variables(64)), 28, 2),
    ]);
    all
}

/// A rule over `p` of 16 inputs with so many variables; the last one fills up the last judgment.
fn many_variables(count: usize) -> String {
    let names: Vec<String> =
        (1..=count.div_ceil(INPUTS) * INPUTS).map(|number| format!(" x{}", number.min(count))).collect();
    let judgments: Vec<String> = names.chunks(INPUTS).map(|names| format!("p{}", names.concat())).collect();
    format!("rule r : {}", judgments.join(" → "))
}

/// A function of 15 patterns and 4 calls of `f` with so many variables, one for each result.
fn many_calls(count: usize) -> String {
    let mut last = 0;
    let mut names = |many: usize| -> Vec<String> {
        let first = last;
        last += many;
        (first + 1..=last).map(|number| format!("x{}", number.min(count - 4))).collect()
    };
    let patterns = names(15).join(", ");
    let mut body = format!("f {}", names(15).join(" "));
    for _ in 1..4 {
        body = format!("f {} ({body})", names(14).join(" "));
    }
    format!("def k : {}A | {patterns} => {body}", "A → ".repeat(15))
}

/// Texts of many declarations, on both sides of the limits on sorts, symbols, rules and nodes in all.
pub fn large_examples() -> Vec<Example> {
    let mut all = Vec::new();
    let numbered =
        |count: usize, line: &dyn Fn(usize) -> String| (0..count).map(|number| line(number) + "\n").collect::<String>();
    let sorts = numbered(SORTS, &|number| format!("sort s{number}"));
    let symbols = "sort A\n".to_owned() + &numbered(SYMBOLS, &|number| format!("ctor c{number}:A"));
    let rules = "pred q : Prop\n".to_owned() + &numbered(RULES, &|_| "rule r:q".to_owned());
    let (after_sorts, after_symbols, after_rules) = (SORTS as u32 + 1, SYMBOLS as u32 + 2, RULES as u32 + 2);
    all.extend([
        accepted(sorts.clone()),
        example(format!("{sorts}sort A"), 28, after_sorts),
        example(format!("{sorts}sort s255"), 17, after_sorts),
        example(format!("{sorts}ctor s255 : A"), 18, after_sorts),
        accepted(format!("{sorts}ctor c : s0 → s255")),
        example(format!("{sorts}ctor c : s0 → s256"), 18, after_sorts),
        accepted(symbols.clone()),
        example(format!("{symbols}ctor c : A"), 28, after_symbols),
        example(format!("{symbols}pred p : Prop"), 28, after_symbols),
        example(format!("{symbols}def f : A | => u a"), 28, after_symbols),
        example(format!("{symbols}ctor c1023 : A"), 17, after_symbols),
        example(format!("{symbols}ctor c1023 : B"), 18, after_symbols),
        accepted(format!("{symbols}sort B")),
        accepted(symbols.replace("ctor c1022:A", "def f : A").replace("ctor c1023:A", "ctor c : A → A")),
        accepted(symbols.replace("ctor c1022:A", "pred p : A → Prop") + "rule r : p c1023 → p c0 → p x"),
        accepted(rules.clone()),
        example(format!("{rules}rule r : q"), 28, after_rules),
        example(format!("{rules}rule r : u"), 19, after_rules),
        example(format!("{rules}rule r : ?x"), 25, after_rules),
        example(format!("{rules}rule r : ?x → q\n"), 25, after_rules),
        example(format!("{rules}sort A\ndef f : A | => x"), 28, after_rules + 1),
        example(format!("{rules}sort A\ndef f : A | => u x"), 20, after_rules + 1),
        accepted(format!("{rules}sort A\ndef f : A\n#eval f")),
    ]);
    let clauses = format!("pred q : Prop\nsort A\n{}def f : A\n", numbered(RULES - 3, &|_| "rule r:q".to_owned()));
    all.push(accepted(format!("{clauses}| => x | => y | => z")));
    all.push(example(format!("{clauses}| => x | => y | => z | => x"), 28, RULES as u32));
    all.push(example(format!("{clauses}| => x | => y | => z | => x x"), 20, RULES as u32));
    all.extend(nodes_in_all());
    all
}

/// Rules of the most nodes, on both sides of the limit on nodes in all and of some lower ones.
fn nodes_in_all() -> Vec<Example> {
    let most = NODES as usize / RULE_NODES;
    let before = format!("{NUMERALS}\n");
    let full = |count: usize| "rule r : p 1022\n".repeat(count);
    let mut all = vec![
        accepted(format!("{before}{}", full(most))),
        example(format!("{before}{}rule r : q", full(most)), 28, most as u32 + 2),
        example(format!("{before}{}rule r : u", full(most)), 19, most as u32 + 2),
        example(format!("{before}{}", full(most + 1)), 28, most as u32 + 2),
        accepted(format!("{before}{}rule r : p 1021\nrule r : q", full(most - 1))),
        example(format!("{before}{}rule r : p 1021\nrule r : p x", full(most - 1)), 28, most as u32 + 2),
        example(format!("{before}{}rule r : p 1023", full(most - 1)), 28, most as u32 + 1),
    ];
    for (nodes, number) in [(RULE_NODES as u32, 0), (RULE_NODES as u32 - 1, 28), (RULE_NODES as u32 + 1, 0)] {
        let line = if number == 0 { 0 } else { 2 };
        all.push(Example { nodes, ..example(format!("{before}rule r : p 1022"), number, line) });
    }
    for (nodes, number) in [(2_048, 0), (2_047, 28), (1_536, 28), (NODES + 1, 0), (u32::MAX, 0)] {
        let line = if number == 0 { 0 } else { 3 };
        all.push(Example { nodes, ..example(format!("{before}{}", full(2)), number, line) });
    }
    all.push(Example { nodes: u32::MAX, ..example(format!("{before}{}rule r : q", full(most)), 28, most as u32 + 2) });
    all.push(Example { nodes: 1_536, ..accepted(format!("{before}{}rule r : p 510", full(1))) });
    all.push(Example { nodes: 1_536, ..example(format!("{before}{}rule r : p 511", full(1)), 28, 3) });
    let wide = "sort A pred p : A → A → A → A → A → A → A → A → A → A → A → A → A → A → A → A → Prop\nrule r : ";
    let judgment = format!("p{}", variables(16));
    all.push(accepted(format!("{wide}{}", [judgment.as_str(); 17].join(" → "))));
    all
}
