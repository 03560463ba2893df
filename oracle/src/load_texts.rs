//! Texts to be loaded and timed, each close to one of the limits.

use crate::loaded::{RULES, SORTS, SYMBOLS};

/// The texts by name.
pub fn texts() -> [(&'static str, String); 4] {
    [("rules", rules(900)), ("symbols", symbols()), ("functions", functions()), ("numerals", numerals())]
}

const NAT: &str = "sort Nat\nctor zero : Nat\nctor succ : Nat → Nat\nctor pair : Nat → Nat → Nat\n";

/// So many rules over three predicates, in a text close to the limit.
fn rules(count: usize) -> String {
    let mut text = NAT.to_owned() + "pred le : Nat → Nat → Prop\npred even : Nat → Prop\npred odd : Nat → Prop\n";
    for number in 0..count {
        let conclusion = ["even (succ ?x)", "le x (pair y zero)", "odd (pair 1 ?x)"][number % 3];
        text += &format!("rule clause{number:03} : le x (succ ?x) → odd (pair x y) → {conclusion}\n");
    }
    text
}

/// As many sorts and symbols as there may be; the symbols go by all the sorts.
fn symbols() -> String {
    let mut text: String = (0..SORTS).map(|number| format!("sort S{number:03}\n")).collect();
    let sort = |number: usize| format!("S{:03}", number * 37 % SORTS);
    for number in 0..SYMBOLS {
        let (first, second, third) = (sort(number), sort(number + 1), sort(number + 2));
        text += &match number % 3 {
            0 => format!("ctor constructor{number:04} : {first} → {second} → {third}\n"),
            1 => format!("pred predicate{number:04} : {first} → {second} → Prop\n"),
            _ => format!("def function{number:04} : {first} → {second}\n"),
        };
    }
    text
}

/// As many clauses as there may be, with calls in calls.
fn functions() -> String {
    let mut text = NAT.to_owned();
    for number in 0..RULES / 2 {
        let before = number.saturating_sub(1);
        text += &format!("def f{number:03} : Nat → Nat → Nat\n| zero, n => n\n");
        text += &format!("| succ m, n => succ (f{number:03} m (f{before:03} n (succ m)))\n");
    }
    text
}

/// Rules of the most nodes, as many as there may be.
fn numerals() -> String {
    NAT.to_owned() + "pred even : Nat → Prop\n" + &"rule r : even 1022\n".repeat(32)
}
