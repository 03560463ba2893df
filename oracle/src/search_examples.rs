//! Fixed lists of goals, each a text. Behind each goal stand what is asked and, after `=>`, what it must give: the verdict with its
//! steps or the number of the refusal, and how many names, variables, bound variables and words the session then has, as far as
//! that is told. Document 01's cases, every rule of a session with its smallest text, and both sides of every limit.

/// Document 01's text.
pub const ADD: &str = "sort Nat ctor zero : Nat ctor succ : Nat → Nat
def add : Nat → Nat → Nat
| zero, n => n
| succ m, n => succ (add m n)
";

/// What stands before most lists.
const BEFORE: &str = "sort A sort B
ctor a : A ctor b : B ctor s : A → A ctor d : A → A → A ctor zero : A ctor succ : A → A
pred p : A → Prop pred q : Prop pred t : A → B → Prop pred k : A → Prop pred e : A → A → Prop
def f : A → A | x => s x
rule p0 : p a
rule p1 : p x → p (s x)
rule t0 : t x y
rule k0 : k x
rule e0 : e x x
";

/// Goals behind document 01's text, each list in a session of its own.
const SUMS: &[&str] = &[
    "#eval add ?x 1 = 2 -- 5 32 => proved 5 names 1 variables 6 bound 5 words 29",
    "#eval add ?x 1 = 2 -- 4 32 => undecided 4",
    "#eval add ?x 1 = 2 -- 2000 3 => undecided 0 names 1 variables 1 bound 0 words 0",
    "#eval add ?x 1 = 2 -- 2000 0 => undecided 0",
    "#eval add ?x 2 = 1 -- 3 32 => none 2",
    "#eval add ?x 2 = 1 -- 2 32 => undecided 2",
    "#eval add ?x 2 = 1 -- 0 32 => undecided 0",
    "#eval add 1 1 -- => refused 21",
];

/// Goals behind `BEFORE`, each list in a session of its own.
const LISTS: &[&str] = &[
    // a session keeps its bindings, and a name is one variable
    "#eval e ?x (s a) -- 100 8 => proved 3 names 1 variables 7 bound 2 words 9\n#eval p ?x -- 100 8 => proved 5 names 1\n#eval e ?x a -- 100 8 => none 1",
    "#eval e x (s ?x) -- 100 8 => proved 3 names 2\n#eval e ?x (s x) -- 100 8 => none 1 names 2",
    "#eval e ?x (s ?x) -- 100 8 => none 1 names 1",
    // a lone variable is a goal once its sort is known, and can be bound to a judgment
    "#eval ?x -- 100 8 => refused 25 names 0\n#eval k ?x -- 100 8 => proved 3 names 1\n#eval ?x -- 100 8 => proved 3 names 1\n#eval p ?x -- 100 8 => none 1",
    // a name keeps its sort, also where the goal that entered it has no proof, but not where that was refused
    "#eval t ?x ?y -- 100 8 => proved 3 names 2\n#eval t ?y ?x -- 100 8 => refused 24 names 2\n#eval p ?y -- 100 8 => refused 24\n#eval t ?x ?y -- 100 8 => proved 3",
    "#eval t ?x ?y -- 1 8 => undecided 1 names 2 variables 14 bound 0 words 0\n#eval p ?y -- 100 8 => refused 24",
    "#eval t ?x (z ?y) -- 100 8 => refused 20 names 0\n#eval t ?y ?x -- 100 8 => proved 3 names 2",
    "#eval e ?x (d ?y b) -- 100 8 => refused 23 names 0 variables 0\n#eval t ?y ?x -- 100 8 => proved 3 names 2",
    // what a goal is refused for, and in which order
    "#eval u -- => refused 19\n#eval u a -- => refused 20\n#eval p -- => refused 21\n#eval p a a -- => refused 21\n#eval q a -- => refused 21",
    "#eval p (f a) -- => refused 22\n#eval p f -- => refused 22\n#eval p (p a) -- => refused 23\n#eval p b -- => refused 23\n#eval a -- => refused 23",
    "#eval 0 -- => refused 23\n#eval 1 -- => refused 23\n#eval s a -- => refused 23\n#eval f a -- => refused 21\n#eval f a a -- => none 1\n#eval f a (s a) -- => proved 3",
    "#eval p (u a) -- => refused 20\n#eval p A -- => proved 3\n#eval p (s a a) -- => refused 21\n#eval t ?x ?x -- => refused 24\n#eval t (s ?x) ?x -- => refused 24",
    "#eval p (s b) -- => refused 23\n#eval t b ?x -- => refused 23\n#eval t (f a) b -- => refused 22\n#eval e (u a) b -- => refused 20\n#eval e b (u a) -- => refused 23",
    "#eval ? -- => refused 25\n#eval ?q -- => refused 25\n#eval p ? -- => proved 3 names 1\n#eval ? -- 100 8 => none 1",
    // 38 first
    "#eval u -- 65536 8 65535 100 100 => refused 38\n#eval u -- 65535 8 65535 100 100 => refused 19\n#eval u -- 9 129 9 9 9 => refused 38\n#eval u -- 9 128 9 9 9 => refused 19",
    "#eval u -- 9 8 8 9 9 => refused 38\n#eval u -- 9 8 9 0 0 => refused 19\n#eval q -- 4294967295 8 4294967295 100 100 => refused 38",
    "#eval q -- 65535 128 4294967295 4294967295 4294967295 => none 1\n#eval q -- 65535 128 65536 65537 262145 => none 1 names 0 variables 12 bound 0 words 0",
    "#eval q -- 0 0 0 0 1 => undecided 0\n#eval q -- 0 0 0 0 0 => refused 37\n#eval q -- 0 4 0 0 1 => undecided 0\n#eval k ?x -- 0 0 0 0 2 => refused 37\n#eval k ?x -- 0 0 0 1 2 => undecided 0 names 1 variables 1",
    // variables and words, each at the limit and one under it: the goal, a conclusion that fails, and the premises
    "#eval k a -- 100 8 100 4 100 => refused 37 names 0 variables 0\n#eval k a -- 100 8 100 5 100 => proved 3 names 0 variables 5",
    "#eval k a -- 100 8 100 100 7 => refused 37\n#eval k a -- 100 8 100 100 8 => proved 3 names 0 variables 5 bound 1 words 5",
    "#eval p (s a) -- 100 8 100 100 9 => refused 37\n#eval p (s a) -- 100 8 100 100 15 => refused 37\n#eval p (s a) -- 100 8 100 100 16 => proved 5",
    // a session above a goal's own lower limits
    "#eval k 9 -- 100 8 => proved 3 names 0 variables 5 bound 1 words 23\n#eval q -- 100 8 100 4 100 => refused 37 names 0 variables 5\n#eval q -- 100 8 100 100 23 => refused 37\n#eval q -- 0 8 100 100 24 => undecided 0 names 0 variables 5 bound 1 words 23",
    // 28 and the order around it
    "#eval k 1022 -- 100 8 => proved 3\n#eval k 1023 -- 100 8 => refused 28\n#eval k 18446744073709551615 -- 100 8 => refused 28\n#eval t 1022 b -- => refused 28\n#eval t 1021 b -- => proved 3",
    "#eval t 1023 a -- => refused 28\n#eval t 1021 a -- => refused 23\n#eval t 1022 a -- => refused 23\n#eval t b 1023 -- => refused 23\n#eval e 1022 ?x -- => refused 28 names 0\n#eval e 1021 ?x -- => proved 3",
];

/// The lists of few goals.
pub fn examples() -> Vec<String> {
    let sums = SUMS.iter().map(|list| format!("{ADD}{list}\n"));
    let lists = LISTS.iter().map(|list| format!("{BEFORE}{list}\n"));
    sums.chain(lists).chain([names(), depths()]).collect()
}

/// 64 names in four goals, and another; a name that is known is still taken, and a refused goal leaves none.
fn names() -> String {
    let goal = |names: std::ops::Range<usize>| {
        format!("#eval w{}", names.map(|name| format!(" ?n{name}")).collect::<String>())
    };
    let inputs = "A → ".repeat(16);
    let mut text = format!(
        "sort A sort B ctor a : A ctor b : B pred w : {inputs}Prop pred k : A → Prop pred l : B → Prop pred z : A → B → Prop\n"
    );
    text += &format!("{} -- 9 4 => none 1 names 16\n", goal(0..16));
    text += &format!("{} -- 9 4 => none 1 names 32\n", goal(16..32));
    text += &format!("{} -- 9 4 => none 1 names 48\n", goal(32..48));
    text += &format!("{} -- 9 4 => none 1 names 63\n", goal(47..63));
    text += "#eval z ?n63 ?n64 -- 9 4 => refused 28 names 63\n#eval z ?n63 ?n62 -- 9 4 => refused 24 names 63\n";
    text += "#eval k ?n63 -- 9 4 => none 1 names 64\n#eval k ?n64 -- 9 4 => refused 28 names 64\n";
    text += "#eval k n63 -- 9 4 => refused 28\n#eval k ?n0 -- 9 4 => none 1\n#eval l ?n0 -- 9 4 => refused 24\n#eval l ?n64 -- 9 4 => refused 28\n";
    text + "#eval z ?n64 a -- 9 4 => refused 28\n#eval z a ?n64 -- 9 4 => refused 28\n#eval z (u a) ?n64 -- 9 4 => refused 20\n#eval ?n64 -- 9 4 => refused 28\n"
}

/// A proof of height 128 needs depth 128, and one step for each goal and node and the last.
fn depths() -> String {
    let rules =
        "sort A ctor zero : A ctor succ : A → A pred p : A → Prop rule p0 : p zero rule p1 : p x → p (succ x)\n";
    let goals = [
        "#eval p 127 -- 257 128 => proved 257",
        "#eval p 127 -- 256 128 => undecided 256",
        "#eval p 128 -- 1000 128 => undecided 129",
        "#eval p 63 -- 129 127 => proved 129",
        "#eval p 64 -- 1000 127 => undecided 65",
        "#eval p 3 -- 9 4 => proved 9",
        "#eval p 4 -- 9 7 => undecided 5",
        "#eval p 4 -- 11 8 => proved 11",
    ];
    rules.to_owned() + &goals.join("\n") + "\n"
}

/// The lists of many goals, variables or words.
pub fn large_examples() -> Vec<String> {
    vec![full_words(), full_variables(), many_steps(), deep(), shared(), long_session()]
}

/// Goals that keep all the words there may be: 2,049 by 127 goals, and the rest by one more.
fn full_words() -> String {
    let rules = "sort A ctor zero : A ctor succ : A → A pred q : Prop pred k : A → Prop rule k0 : k x\n";
    let limits = "65535 128 65535 65536 262144";
    let mut text = rules.to_owned() + &format!("#eval k 1022 -- {limits} => proved 3\n").repeat(127);
    text +=
        &format!("#eval k 959 -- {limits} => refused 37\n#eval k 958 -- 65535 128 65535 65536 262143 => refused 37\n");
    text + &format!(
        "#eval k 958 -- {limits} => proved 3 names 0 variables 128 bound 128 words 262144\n#eval q -- {limits} => refused 37\n"
    )
}

/// Goals that make all the variables there may be: each attempt makes those of the conclusion, also where it fails.
fn full_variables() -> String {
    let inputs = "A → ".repeat(16);
    let names: String = (0..16).map(|name| format!(" x{name}")).collect();
    let mut text =
        format!("sort A ctor a : A pred z : Prop pred q : Prop pred k : A → Prop pred w : {inputs}Prop rule z0 : z\n");
    text += &format!("rule r : w{names}\n").repeat(512);
    let limits = "1 128 65535 65536 262144";
    text += &format!(
        "#eval q -- {limits} => undecided 1 names 0 variables 49152\n#eval q -- 1 7 65535 57344 262144 => undecided 1 names 0 variables 57344\n"
    );
    text += &format!(
        "#eval k ?x -- 1 7 65535 65536 262144 => refused 37 names 0 variables 57344\n#eval q -- 1 7 65535 65535 262144 => refused 37\n"
    );
    text += &format!(
        "#eval q -- 1 7 65535 65536 262144 => undecided 1 names 0 variables 65536\n#eval z -- 9 4 65535 65536 262144 => proved 3 names 0 variables 65536\n"
    );
    text + &format!(
        "#eval q -- {limits} => refused 37\n#eval k ?x -- 9 4 65535 65536 262144 => refused 37 names 0\n#eval z -- 9 4 65535 65535 262144 => refused 37\n"
    )
}

/// All steps that there may be: a search that goes on, and a proof of 32,767 nodes, each with two steps, and the last step. A
/// tree of `d` has 17 nodes, of `c` 273, of `b` 4,369, of `z` 16 and of `y` 272; that of `p` has 7 of `b`, 7 of `c` and one of `y`.
fn many_steps() -> String {
    let predicates: String =
        ["l", "e", "d", "c", "b", "y", "z", "p"].map(|name| format!("pred {name} : Prop ")).concat();
    let rule = |name: &str, premises: &[(&str, usize)]| {
        let premises: String = premises.iter().map(|(premise, count)| format!("{premise} → ").repeat(*count)).collect();
        format!("rule r : {premises}{name}\n")
    };
    let rules = [
        rule("l", &[("l", 1)]),
        rule("l", &[("l", 1)]),
        rule("e", &[]),
        rule("d", &[("e", 16)]),
        rule("c", &[("d", 16)]),
        rule("b", &[("c", 16)]),
        rule("z", &[("e", 15)]),
        rule("y", &[("d", 15), ("z", 1)]),
        rule("p", &[("b", 7), ("c", 7), ("y", 1)]),
    ];
    let goals = "#eval l -- 65535 128 65535 65536 262144 => undecided 65535
#eval p -- 65534 128 65535 65536 262144 => undecided 65534
#eval p -- 65535 128 65535 65536 262144 => proved 65535 names 0 variables 0 bound 0 words 65534
#eval p -- 65536 128 65536 65536 262144 => refused 38
#eval p -- 65535 128 65534 65536 262144 => refused 38
#eval p -- 65535 128 65535 0 131067 => refused 37
#eval p -- 65535 128 65535 0 131068 => proved 65535 names 0 variables 0 bound 0 words 131068\n";
    format!("{predicates}\n{}{goals}", rules.concat())
}

/// Terms as deep as the words allow, each name bound to a tower on the next, and one unified with another.
fn deep() -> String {
    let mut text =
        "sort A ctor a : A ctor s : A → A pred e : A → A → Prop rule e0 : e x x pred g : A → A → Prop\n".to_owned();
    let tower = |times: usize, last: &str| format!("{}{last}{}", "(s ".repeat(times), ")".repeat(times));
    text += &format!("rule g0 : g x {} rule g1 : g x y → g y z → g x z\n", tower(60, "x"));
    let limits = "65535 128 65535 65536 262144";
    for name in 0..30 {
        text += &format!("#eval e ?n{name} {} -- {limits}\n", tower(60, &format!("?n{}", name + 1)));
    }
    for name in 0..30 {
        text += &format!("#eval e ?m{name} {} -- {limits}\n", tower(60, &format!("?m{}", name + 1)));
    }
    text + &format!(
        "#eval e ?n0 ?m0 -- {limits}\n#eval e ?n30 a -- {limits}\n#eval e ?m0 ?n1 -- {limits}\n#eval e ?m30 (s ?n30) -- {limits}\n#eval g a ?n0 -- 300 8 300 65536 262144\n"
    )
}

/// Terms of 2^40 nodes of which few are stored, compared with themselves, with others and with a variable in them. The original
/// is not asked about these.
fn shared() -> String {
    let mut text = "sort A ctor a : A ctor b : A ctor d : A → A → A pred e : A → A → Prop rule e0 : e x x pred two : A → A → Prop rule t0 : two x (d x x)\n".to_owned();
    for tower in ["n", "m"] {
        for name in 0..25 {
            text += &format!("#eval two ?{tower}{name} ?{tower}{} -- 9 4 => proved 3\n", name + 1);
        }
    }
    text + "#eval e ?n25 ?m25 -- 9 4 => proved 3\n#eval e ?n0 ?m0 -- 9 4 => proved 3\n#eval e ?n25 ?m24 -- 9 4 => none 1\n#eval e ?n25 (d ?m24 ?n24) -- 9 4 => proved 3\n#eval e ?n0 (d ?x ?x) -- 9 4 => proved 3\n#eval e ?x ?n25 -- 9 4 => none 1\n"
}

/// Many goals in one session, each over what the last ones left.
fn long_session() -> String {
    let mut text = ADD.to_owned();
    for goal in 0..60 {
        let value = goal % 7;
        text += &format!("#eval add ?n{goal} {value} = ?m{} -- 400 32 65535 65536 262144\n", goal % 3);
        text += &format!("#eval add ?n{} ?n{goal} = ?m{} -- 60 16 65535 65536 262144\n", goal / 2, goal % 2);
    }
    text
}
