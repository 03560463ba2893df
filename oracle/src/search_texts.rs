//! Goals to be searched and timed: the programs that people write first, many rules, searches that go deep and fail, small goals,
//! and a long session. Each goal has enough steps, depth and storage, or as many steps as there may be.

use crate::evaluate_texts::LISTS;
use crate::search_examples::ADD;

/// What is asked: steps, depth, and document 01's limits.
fn asked(goal: &str, steps: u32, depth: u32) -> String {
    format!("#eval {goal} -- {steps} {depth} 65535 65536 262144\n")
}

/// A text with goals in one session, by the name of what is timed.
pub fn texts() -> Vec<(&'static str, String)> {
    let list = |count: usize| tower("cons 0", "nil", count);
    let timed = |rules: &str, goal: &str| format!("{rules}{}", asked(goal, 65_535, 128));
    vec![
        ("add backwards 60", timed(ADD, "add ?x 60 = 120")),
        ("add backwards all", timed(ADD, "add ?x (succ ?x) = 120")),
        ("reverse 14", timed(LISTS, &format!("reverse {} = ?x", list(14)))),
        ("reverse 25", timed(LISTS, &format!("reverse {} = ?x", list(25)))),
        ("append backwards", timed(LISTS, &format!("append ?x (cons ?y ?x) = {}", list(60)))),
        ("paths over 200", timed(&edges(200), "path c0 c120")),
        ("paths over 200, none", timed(&edges(200), "path c150 c0")),
        ("900 rules, 300 heads", many_rules(300)),
        ("900 rules, one head", many_rules(1)),
        ("deep failure", deep_failure()),
        ("small, proved", timed(ADD, "add ?x 1 = 2")),
        ("small, none", timed(ADD, "add ?x 2 = 1")),
        ("small, refused", timed(ADD, "add ?x 2 ?y ?z")),
        ("100 goals", long_session()),
    ]
}

/// A graph that goes forward from corner to corner, and the paths in it.
fn edges(count: usize) -> String {
    let corners: String = (0..=count).map(|corner| format!("ctor c{corner} : C\n")).collect();
    let edges: String = (0..count).map(|corner| format!("rule e{corner} : edge c{corner} c{}\n", corner + 1)).collect();
    let paths = "rule one : edge x y → path x y\nrule more : edge x y → path y z → path x z\n";
    format!("sort C\n{corners}pred edge : C → C → Prop\npred path : C → C → Prop\n{edges}{paths}")
}

/// 900 rules under so many heads, of which the last one of the last head leads on to the first.
fn many_rules(heads: usize) -> String {
    let mut text = "sort A\nctor a : A\nctor s : A → A\nctor t : A → A\nctor n : A\n".to_owned();
    text += &(0..heads).map(|head| format!("pred p{head} : A → Prop\n")).collect::<String>();
    for rule in 0..900 {
        let (head, last) = (rule * heads / 900, rule % (900 / heads) == 900 / heads - 1);
        text += &match last {
            true => format!("rule r{rule} : p{} x → p{head} (s x)\n", (head + 1) % heads),
            false => format!("rule r{rule} : p{head} {}\n", tower("t", "x", 1 + rule % 3)),
        };
    }
    text + &asked(&format!("p0 {}", tower("s", "n", 30)), 65_535, 128)
}

/// So many times a constructor on a term.
fn tower(constructor: &str, term: &str, times: usize) -> String {
    format!("{}{term}{}", format!("({constructor} ").repeat(times), ")".repeat(times))
}

/// A binary tree of attempts, each of which fails at its end.
fn deep_failure() -> String {
    let rules = "sort A\nctor a : A\nctor b : A\nctor s : A → A\npred p : A → Prop\npred q : A → Prop\n\
        rule l : p x → p (s x)\nrule r : p x → p (s x)\nrule e : q x → p x\nrule f : q b\n";
    format!("{rules}{}", asked(&format!("p {}", tower("s", "a", 12)), 65_535, 128))
}

/// Goals that share names, each over what the last ones left.
fn long_session() -> String {
    let goals = (0..50).map(|goal| {
        let sum = asked(&format!("add ?n{} {} = {}", goal % 60, goal % 9, goal % 9 + 5), 2_000, 32);
        sum + &asked(&format!("add ?n{} 1 = ?m", goal % 60), 2_000, 32)
    });
    format!("{ADD}{}", goals.collect::<String>())
}
