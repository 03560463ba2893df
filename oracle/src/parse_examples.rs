//! Fixed texts on both sides of every refusal of document 01's parser, with what they must give. They go over several
//! lines, so that the lines of neighbouring tokens differ.

use crate::tokens::TEXT_BYTES;

/// A text, the number that refuses it (0: none), and the line (0: none).
pub type Example = (String, u32, u32);

/// A token of every kind, and `Prop`.
#[rustfmt::skip]
pub const TOKENS: [&str; 24] = [
    "sort", "ctor", "pred", "rule", "def", "theorem", "by", "auto", "induction", "#eval", "#check",
    "a", "?x", "2", "→", "=>", ":=", "(", ")", ":", ",", "|", "=", "Prop",
];

/// Declarations of all eight kinds, with a blank between tokens.
pub const DECLARATIONS: [&str; 14] = [
    "sort Nat",
    "ctor zero : Nat",
    "ctor succ : Nat → Nat",
    "pred holds : Prop",
    "pred even : Nat -> Prop",
    "rule step : even ?x → add x 1 = y → even ( succ ( succ ?x ) )",
    "def none : Nat",
    "def one : Nat | => 1",
    "def add : Nat → Nat → Nat | zero , n => n | succ m , ( n ) => succ ( add m n )",
    "theorem plain : holds",
    "theorem short : holds := by auto",
    "theorem long ( x y : Nat ) ( z : Nat ) : add x y = z → add y x = z := by induction x",
    "#eval add ( succ 4294967296 ) ?x = ( ? )",
    "#check ( even ) ( add 1 1 = 2 )",
];

/// Accepted texts: document 01's own, and those that a port could refuse.
#[rustfmt::skip]
const ACCEPTED: &[&str] = &[
    "", "\n", "-- only", "sort a\n\nsort b -- sort", "sort\na", "sort Prop", "sort sort?",
    "sort Nat\nctor zero : Nat\nctor succ : Nat → Nat\ndef add : Nat → Nat → Nat\n| zero, n => n\n\
     | succ m, n => succ (add m n)\n#eval add 1 1\n#eval add ?x 2 = 1\n",
    // names and calls in parentheses
    "#eval\n(f)\na", "#eval ((f)) ((a))", "#eval (f\na)\n= b", "#eval (f) = a", "#eval f = a", "#eval f = g a b",
    "#eval f\n= (g = a)", "#eval (f = a) = b", "#eval g (d x\n= y)", "#eval (d x = y)", "#eval g a (d = (e = y)) b",
    "#eval f (3)", "#eval (3)", "#eval (?x)", "#eval ?", "#eval f ? ?", "#check f a", "#check a\n= b",
    // a keyword or a sign ends an application
    "#eval f a\nsort b", "#eval f\n#eval a", "rule r : f a → f b\nrule s : a", "rule r : f a\n-> f b = c\n→ d",
    // values of numerals
    "#eval f 0 00 7 65536 4294967294 4294967295 4294967296 18446744073709551615", "#eval 00000000018446744073709551615",
    // sorts, predicates and functions
    "ctor c : A", "ctor c : A -> B → C", "pred p : Prop", "pred p : A → Prop", "pred Prop : Prop\n→ Prop",
    "def f : A", "def f : A → B", "def f : A | => a", "def f : A | a => b | => c", "def f : A\n| a, 2, ?x, (g a)\n=> g 2",
    "def f : A | f a b => f b", "def f : A | (a = b) => (a = b)",
    // theorems
    "theorem t : a", "theorem t : a → b", "theorem t : a = b := by auto", "theorem t : a\n:= by\ninduction\nx",
    "theorem t (x : A) : a", "theorem t (x y\nz : A) (x : B)\n: a → b := by auto", "theorem t (Prop : Prop) : Prop",
    "theorem t : a theorem u : b := by auto theorem v : c", "theorem t : (a) := by auto\nsort b",
];

/// Refused texts, by number: one just past an accepted one, and the order of numbers where several hold.
#[rustfmt::skip]
const REFUSED: &[(&str, u32, u32)] = &[
    // 8 a sign expected
    ("ctor c", 8, 1), ("ctor c\nA", 8, 2), ("ctor c\n= A", 8, 2), ("ctor c\n:=\nA", 8, 2), ("ctor c\n(A)", 8, 2),
    ("pred p\n→ Prop", 8, 2), ("pred p\nsort a", 8, 2), ("rule r\na", 8, 2), ("rule r", 8, 1), ("def f\n| => a", 8, 2),
    ("def f : A\n| a", 8, 2), ("def f : A | a\n→ b", 8, 2), ("def f : A | a, b\n| c => d", 8, 2),
    ("def f : A | a\n\nsort b", 8, 3), ("def f : A\n| x\n= x\n=> a", 8, 3), ("def f : A | a\n:= b", 8, 2),
    ("def f : A | a\n)", 8, 2), ("def f : A | a, b\n= c => d", 8, 2), ("theorem t", 8, 1), ("theorem t\na", 8, 2),
    ("theorem t\n:= by auto", 8, 2), ("theorem t (x : A)\n(y : A)\na", 8, 3), ("theorem t (x : A", 8, 1),
    ("theorem t (x : A\n: a", 8, 2), ("theorem t (x : A\nB) : a", 8, 2), ("theorem t (x : A\n→ B) : a", 8, 2),
    ("theorem t (x : A)\n)", 8, 2), ("theorem t\nsort a", 8, 2), ("#eval (a", 8, 1), ("#eval (a\nsort b", 8, 2),
    ("#eval (a\n→ b)", 8, 2), ("#eval (a\n, b)", 8, 2), ("#eval f (a\n: b)", 8, 2), ("#eval (f a = b\n= c)", 8, 2),
    ("#eval (f (a)\n\n:= b", 8, 3), ("#eval ((a)\n\n", 8, 1),
    // 9 a name expected
    ("sort", 9, 1), ("sort\n\n", 9, 1), ("sort\n2", 9, 2), ("sort\n?a", 9, 2), ("sort\nsort a", 9, 2),
    ("sort\nby", 9, 2), ("sort\n(a)", 9, 2), ("ctor\n: A", 9, 2), ("ctor c :", 9, 1), ("ctor c :\n2", 9, 2),
    ("ctor c :\n→ A", 9, 2), ("ctor c : A →", 9, 1), ("ctor c : A →\n?B", 9, 2), ("ctor c : A\n→\nctor d : A", 9, 3),
    ("ctor c :\n(A)", 9, 2), ("ctor c : A → 2\n", 9, 1), ("pred p :\nby", 9, 2), ("pred p : Prop →", 9, 1),
    ("pred p : Prop\n→\n", 9, 2), ("pred p :\n?Prop", 9, 2), ("rule\n2 : a", 9, 2), ("def\ndef", 9, 2),
    ("def f : A →\n| a => b", 9, 2), ("theorem", 9, 1), ("theorem\n(x : A)", 9, 2), ("theorem t\n(", 9, 2),
    ("theorem t (\n)", 9, 2), ("theorem t (x\n) : a", 9, 2), ("theorem t (x", 9, 1), ("theorem t (x y\n2 : A)", 9, 2),
    ("theorem t (x\n\nby : A)", 9, 3), ("theorem t (x :\n) : a", 9, 2), ("theorem t (x :", 9, 1),
    ("theorem t (\n: A) : a", 9, 2), ("theorem t (\n(x : A)) : a", 9, 2), ("theorem t (x\n(y) : A)", 9, 2),
    ("theorem t (x\n:= A) : a", 9, 2), ("theorem t : a := by induction", 9, 1),
    ("theorem t : a := by\ninduction\n2", 9, 3), ("theorem t : a := by induction\nsort b", 9, 2),
    ("theorem t : a := by induction\nauto", 9, 2), ("theorem t : a := by induction\n(x)", 9, 2),
    ("theorem t : a := by induction\n?x", 9, 2),
    // 10 a term expected
    ("#eval", 10, 1), ("#eval\n\n", 10, 1), ("#eval\n)", 10, 2), ("#eval\nsort a", 10, 2), ("#eval\nby", 10, 2),
    ("#eval\n=", 10, 2), ("#eval (", 10, 1), ("#eval (\n)", 10, 2), ("#eval (\nsort)", 10, 2), ("#eval f (\n)", 10, 2),
    ("#eval f a\n(\n= b)", 10, 3), ("#eval 3 =", 10, 1), ("#eval\n3\n=", 10, 3), ("#eval 3 =\n\nsort a", 10, 3),
    ("#eval f =\n= a", 10, 2), ("#eval f = \n)", 10, 2), ("#eval f = (\n", 10, 1), ("#check\n#check", 10, 2),
    ("rule r :", 10, 1), ("rule r :\n→ a", 10, 2), ("rule r : a →", 10, 1), ("rule r : a →\nrule", 10, 2),
    ("rule r : a →\n→ b", 10, 2), ("def f : A |", 10, 1), ("def f : A |\n, a => b", 10, 2),
    ("def f : A | a,\n=> b", 10, 2), ("def f : A | a,\n, b => c", 10, 2), ("def f : A | =>", 10, 1),
    ("def f : A | =>\n| a => b", 10, 2), ("def f : A | a =>\n=> b", 10, 2), ("def f : A |\n\n| => b", 10, 3),
    ("def f : A |\n= => b", 10, 2), ("theorem t :", 10, 1), ("theorem t :\n:= by auto", 10, 2),
    ("theorem t : a →\n:= by auto", 10, 2), ("theorem t : (x : A)", 8, 1),
    // 11 only a name applies: the line of the token after
    ("#eval 3 4", 11, 1), ("#eval 3 4\n\n", 11, 1), ("#eval 3 4\nsort a", 11, 2), ("#eval\n3\n4\n=\n5", 11, 4),
    ("#eval 3\n4\n\n)", 11, 4), ("#eval ?x\na", 11, 2), ("#eval (f a)\nb\n: c", 11, 3), ("#eval ((f a)) b", 11, 1),
    ("#eval (f = a) b\n= c", 11, 2), ("#eval f (2 3\n)", 11, 2), ("#eval (2)\n(3)\nby", 11, 3),
    ("#eval f = 2\na\n", 11, 2), ("#eval f = 2 a\nsort b", 11, 2), ("#eval 2 = 3 4\n)", 11, 2),
    ("rule r : ?x a\n→ b", 11, 2), ("rule r : a →\n2 b\n= c", 11, 3), ("def f : A\n| 2 a\n=> b", 11, 3),
    ("def f : A\n| a, ?x b\n, c => d", 11, 3), ("def f : A\n| a => 2 b\n| c => d", 11, 3),
    ("theorem t : 2 a\n:= by auto", 11, 2),
    // 12 left of `=`: the line of the token after
    ("#eval 3 = 4", 12, 1), ("#eval\n3\n=\n4", 12, 4), ("#eval 3 = 4\nsort a", 12, 2),
    ("#eval ?x\n=\na\n\nsort a", 12, 5), ("#eval (3) = f a\n)", 12, 2), ("#eval f (2 = a\n)", 12, 2),
    ("#eval f (2 = a\n\n", 12, 1), ("#eval 3 = 4\n= 5", 12, 2), ("rule r : 2 = a\n→ b", 12, 2),
    ("theorem t : ? = a\n:= by auto", 12, 2),
    // 13 a declaration expected
    ("a", 13, 1), ("?x", 13, 1), ("\n2", 13, 2), ("\n\n(", 13, 3), ("→", 13, 1), ("=>", 13, 1), (":=", 13, 1),
    (")", 13, 1), (":", 13, 1), (",", 13, 1), ("|", 13, 1), ("=", 13, 1), ("Prop", 13, 1), ("sorts a", 13, 1),
    ("bye", 13, 1), ("?by", 13, 1), ("#evaluate\na", 13, 1), ("eval a", 13, 1), ("sort a\nb", 13, 2),
    ("sort a\n:", 13, 2), ("ctor c : A\nB", 13, 2), ("ctor c : A\n| a", 13, 2), ("ctor c : A\n(B)", 13, 2),
    ("pred p : Prop\nA", 13, 2), ("pred p : Prop\n(", 13, 2), ("rule r : a = b\n= c", 13, 2),
    ("rule r : a\n:= by auto", 13, 2), ("rule r (x : A)", 8, 1), ("def f : A\na => b", 13, 2),
    ("def f : A | a => b\n, c", 13, 2), ("def f : A | a => b\n→ c", 13, 2), ("def f : A\n| x =>\nx\n= x", 13, 4),
    ("def f : A | a => b\n=> c", 13, 2), ("#eval f a\n= b\n= c", 13, 3), ("#eval (f\na = b)\n= c\n= d", 13, 4),
    ("#eval a\n)", 13, 2), ("#eval a\n→ b", 13, 2), ("#eval a\n: b", 13, 2), ("#eval a\n:= by auto", 13, 2),
    ("#check a b\n, c", 13, 2), ("theorem t : a\n| b", 13, 2), ("theorem t : a := by auto\nx", 13, 2),
    ("theorem t : a := by induction x\ny", 13, 2), ("theorem t : a = b\n= c", 13, 2),
    // 14 no `Prop` at the end: the line of the token after
    ("pred p : A", 14, 1), ("pred p : A\n\n", 14, 1), ("pred p : A\nsort b", 14, 2), ("pred p : Prop → A\n\n)", 14, 3),
    ("pred p :\nProp\n→\nprop", 14, 4), ("pred p : Prop'", 14, 1), ("pred p : Propp\n2", 14, 2),
    ("pred p : Pro\n?x", 14, 2), ("pred p : A\n→ B\nProp", 14, 3), ("pred p : A\nby", 14, 2),
    // 15 the form of `by`: back to the token after `:=`
    ("theorem t : a :=", 15, 1), ("theorem t : a\n:=\n", 15, 2), ("theorem t : a :=\nby", 15, 2),
    ("theorem t : a :=\nby\nb\nc", 15, 2), ("theorem t : a :=\nauto", 15, 2), ("theorem t : a :=\nauto\nby", 15, 2),
    ("theorem t : a\n:=\nby\nby\nauto", 15, 3), ("theorem t : a :=\ninduction\nx", 15, 2),
    ("theorem t : a :=\nby\n(auto)", 15, 2), ("theorem t : a :=\n?by\nauto", 15, 2),
    ("theorem t : a\n:=\n\nsort\nb", 15, 4), ("theorem t : a := by\nAuto", 15, 1),
    ("theorem t : a :=\nby\nsort b", 15, 2), ("theorem t : a :=\nby\n?auto", 15, 2),
    ("theorem t : a :=\nby\n2\n3", 15, 2), ("theorem t : a :=\n:=\nby auto", 15, 2), ("theorem t : a :=\nx", 15, 2),
    // 16 another keyword: the line of the token after
    ("by", 16, 1), ("auto", 16, 1), ("induction", 16, 1), ("by\nx", 16, 2), ("by\n\n-- by\nsort a", 16, 4),
    ("auto\nby", 16, 2), ("induction\n(", 16, 2), ("by\nauto", 16, 2), ("sort a\nby", 16, 2),
    ("sort\na\nauto\n\n", 16, 3), ("sort a\ninduction\nx", 16, 3), ("theorem t : a\nby\nauto", 16, 3),
    ("#eval a\nby\n2", 16, 3), ("theorem t : a := by auto\nauto\n)", 16, 3), ("def f : A | a => b\ninduction", 16, 2),
    // what the lexer refuses comes first
    ("by\n-", 4, 2), ("sort\n18446744073709551616", 5, 2), ("sort a\nby é", 3, 2), ("by\n:=>", 4, 2),
];

/// The fixed texts with their answers, but for those about many parentheses.
pub fn examples() -> Vec<Example> {
    let long_word = (format!("by\n{}", "a".repeat(65)), 6, 2);
    let accepted = ACCEPTED.iter().map(|text| ((*text).to_owned(), 0, 0));
    let refused = REFUSED.iter().map(|(text, number, line)| ((*text).to_owned(), *number, *line));
    accepted.chain(refused).chain([long_word]).collect()
}

fn open(count: usize) -> String {
    "(".repeat(count)
}

/// A name in as many parentheses.
fn nested(count: usize) -> String {
    format!("{}a{}", open(count), ")".repeat(count))
}

/// Both sides of 64 parentheses: 7 comes where the 65th stands, after what is refused before it and before all else.
pub fn parentheses() -> Vec<Example> {
    let (full, over) = (open(64), open(65));
    let closed = ")".repeat(64);
    let mut texts = vec![
        (format!("#eval\n{}a", "(\n".repeat(65)), 7, 66),
        (format!("#eval {full}\n(a)"), 7, 2),
        (format!("#eval {full}f a\n(b"), 7, 2),
        (format!("#eval {over}\nsort"), 7, 1),
        (format!("#eval {over}"), 7, 1),
        // what is only certain after all atoms comes after 7
        (format!("#eval {full}2 3\n(b"), 7, 2),
        (format!("#eval {full}2 3\n)"), 11, 2),
        (format!("#eval {full}2 = 3\n("), 7, 2),
        (format!("#eval {full}2 = 3\n)"), 12, 2),
        (format!("#eval {full}2 =\n("), 7, 2),
        (format!("#eval {full}2 =\n)"), 10, 2),
        (format!("#eval {full}f a = b\n("), 7, 2),
        (format!("#eval {full}f a = b = \n("), 8, 1),
        // 64 open at the end
        (format!("#eval {full}\n"), 10, 1),
        (format!("#eval {full}\n)"), 10, 2),
        (format!("#eval {full}\nsort"), 10, 2),
        (format!("#eval {full}a"), 8, 1),
        (format!("#eval {full}a\n\n{}", ")".repeat(63)), 8, 3),
        (format!("#eval {full}a{closed}\n)"), 13, 2),
        // closed ones do not count, nor do those of binders
        (format!("#eval f {0} {0}\n{0}", nested(64)), 0, 0),
        (format!("#eval f {}\n{}", nested(64), nested(65)), 7, 2),
        (format!("#eval {}f (a) (b) (c){}", open(63), ")".repeat(63)), 0, 0),
        (format!("theorem t {} : a", "(x : A) ".repeat(70)), 0, 0),
        // what the parser refuses before comes first
        (format!("sort\n2\n#eval {over}"), 9, 2),
        (format!("#eval 2 3\nsort a #eval {over}"), 11, 2),
        (format!("#eval a ))\n#eval {over}(("), 13, 1),
        (format!("#eval {}f (f 3 4 ) )\n{over}", open(60)), 7, 2),
        (format!("#eval {}2 (3 4 ) )\n{over}", open(60)), 11, 1),
        // parentheses that start no term
        (over.clone(), 13, 1),
        (format!("by\n{over}"), 16, 2),
        (format!("sort\n{over}"), 9, 2),
        (format!("ctor c :\n{over}"), 9, 2),
        (format!("theorem t\n{over}"), 9, 2),
        (format!("theorem t (x\n{over}"), 9, 2),
        (format!("theorem t (x : A\n{over}"), 8, 2),
        (format!("theorem t : a := by\n{over}"), 15, 1),
        (format!("theorem t : a := by induction\n{over}"), 9, 2),
    ];
    for (count, number) in [(1, 0), (63, 0), (64, 0), (65, 7), (66, 7), (200, 7)] {
        texts.extend(in_places(&nested(count)).map(|text| (text, number, if number == 0 { 0 } else { 2 })));
    }
    texts
}

/// A term on the second line, wherever a term may stand.
fn in_places(term: &str) -> [String; 12] {
    [
        format!("#eval\n{term}"),
        format!("#check f\n{term}\nb"),
        format!("#eval f a =\n{term}"),
        format!("#eval\n{term} = b"),
        format!("rule r :\n{term} → b"),
        format!("rule r : a →\n{term} = b\n→ c"),
        format!("def f : A |\n{term} => b"),
        format!("def f : A | a, f\n{term} b, c => b"),
        format!("def f : A | =>\n{term}"),
        format!("def f : A | a => f b\n{term}\n| c => d"),
        format!("theorem t (x : A) (y z : A) :\n{term} := by auto"),
        format!("theorem t : a →\n{term}"),
    ]
}

/// Texts of the greatest length, full of one thing each, whole and cut off.
pub fn large_texts() -> Vec<Vec<u8>> {
    let nested = format!("{} ", nested(64));
    let parts: [(&str, &str, &str); 19] = [
        ("", "sort a\n", ""),
        ("", "theorem t:a:=by induction x\n", ""),
        ("", "(", ""),
        ("#eval ", "(", ""),
        ("#eval ", "(\n", ""),
        ("#eval ", ")", ""),
        ("#eval f", " 2", ""),
        ("#eval f ", &nested, ""),
        ("#eval f", "=a", ""),
        ("ctor c : A", "→A", ""),
        ("pred p : Prop", "->Prop", ""),
        ("pred p : Prop", "->Prop", "->Pro"),
        ("rule r : a", "->f a=?x", ""),
        ("def f : A", "|=>2", ""),
        ("def f : A", "\n|a,b=>f a", "|"),
        ("theorem t", "(x:A)", ":a"),
        ("theorem t", "(x:A)", ""),
        ("theorem t (x", " y", ":A):a"),
        ("theorem t (x", " y", ""),
    ];
    let filled = |(start, part, end): (&str, &str, &str)| {
        let length = TEXT_BYTES as usize;
        let count = (length - start.len() - end.len()) / part.len();
        let mut text = [start, &part.repeat(count), end].concat().into_bytes();
        text.resize(length, b' ');
        text
    };
    parts.into_iter().map(filled).collect()
}
