//! Terms to be evaluated and timed: the functions that people write first, and values that are shared.

/// Document 01's `add`, and multiplication.
const NUMBERS: &str = "sort Nat
ctor zero : Nat
ctor succ : Nat → Nat
def add : Nat → Nat → Nat
| zero, n => n
| succ m, n => succ (add m n)
def mul : Nat → Nat → Nat
| zero, n => zero
| succ m, n => add n (mul m n)
def id : Nat → Nat
| n => n
";

/// Lists put together and turned round.
pub const LISTS: &str = "sort Nat
sort List
ctor zero : Nat
ctor succ : Nat → Nat
ctor nil : List
ctor cons : Nat → List → List
def append : List → List → List
| nil, ys => ys
| cons x xs, ys => cons x (append xs ys)
def reverse : List → List
| nil => nil
| cons x xs => append (reverse xs) (cons x nil)
";

/// A result used twice for each `succ`, and a test whether two terms are the same.
const PAIRS: &str = "sort Nat
ctor zero : Nat
ctor succ : Nat → Nat
ctor pair : Nat → Nat → Nat
def twice : Nat → Nat
| x => pair x x
def tower : Nat → Nat
| zero => zero
| succ n => twice (tower n)
def same : Nat → Nat → Nat
| x, x => zero
| x, y => succ zero
";

/// A text with one `#eval`, by the name of what is timed.
pub fn texts() -> Vec<(&'static str, String)> {
    let list = |count: usize| format!("{}nil{}", "(cons 0 ".repeat(count), ")".repeat(count));
    let asked = |functions: &str, term: String| format!("{functions}#eval {term}\n");
    vec![
        ("add 1 1", asked(NUMBERS, "add 1 1".to_owned())),
        ("add 60 60", asked(NUMBERS, "add 60 60".to_owned())),
        ("add 120 7", asked(NUMBERS, "add 120 7".to_owned())),
        ("mul 60 60", asked(NUMBERS, "mul 60 60".to_owned())),
        ("id 127", asked(NUMBERS, "id 127".to_owned())),
        ("append 30", asked(LISTS, format!("append {} {}", list(30), list(30)))),
        ("reverse 25", asked(LISTS, format!("reverse {}", list(25)))),
        ("reverse 35", asked(LISTS, format!("reverse {}", list(35)))),
        ("tower 100", asked(PAIRS, "tower 100".to_owned())),
        ("tower 126", asked(PAIRS, "tower 126".to_owned())),
        ("same 12", asked(PAIRS, "same (tower 12) (tower 12)".to_owned())),
    ]
}
