//! Random sessions for the theory's search, answered by the Rust's own `Prover` and written as cases that the checker computes.
//!
//! Arguments: seed, number of cases, cases in a file, output folder, the head of each file. Each file `BatchN.antt` holds one list of cases and one lemma that all of
//! them pass; the last line printed counts the verdicts.
use super::super::*;
use super::load::no_declarations;
use super::search::{Count, copied, counted_proof, is_none, new_prover, same_proof, words};
use crate::random::Random;
use std::fs;

/// Constructors 0 to 3 and predicates 4 to 7, by number of arguments.
const CTORS: [(u32, usize); 4] = [(0, 0), (1, 1), (2, 2), (3, 0)];
const PREDS: [(u32, usize); 4] = [(4, 1), (5, 2), (6, 3), (7, 0)];

fn app(f: u32, args: Vec<Pat>) -> Pat {
    Pat::A(f, args)
}

fn term(rng: &mut Random, vars: usize, depth: usize) -> Pat {
    if vars > 0 && rng.percent(if depth == 0 { 60 } else { 40 }) {
        return Pat::Var(rng.below(vars));
    }
    if rng.percent(8) {
        return (0..rng.below(10)).fold(app(0, vec![]), |t, _| app(1, vec![t]));
    }
    let (f, n) = if depth == 0 { rng.pick(&[CTORS[0], CTORS[3]]) } else { rng.pick(&CTORS) };
    app(f, (0..n).map(|_| term(rng, vars, depth - 1)).collect())
}

fn atom(rng: &mut Random, vars: usize, depth: usize) -> Pat {
    let many = if rng.percent(90) { 3 } else { 4 };
    let (f, n) = rng.pick(&PREDS[..many]);
    app(f, (0..n).map(|_| term(rng, vars, depth)).collect())
}

fn rule(rng: &mut Random) -> Rule {
    let vars = rng.below(4);
    let premises = rng.pick(&[0, 0, 0, 1, 1, 2, 3]);
    Rule {
        name: String::new(),
        sorts: vec![0; 4],
        premises: (0..premises).map(|_| atom(rng, vars, 1)).collect(),
        conclusion: atom(rng, vars, 2),
    }
}

fn clause(conclusion: Pat, premises: Vec<Pat>) -> Rule {
    Rule { name: String::new(), sorts: vec![0; 6], premises, conclusion }
}

/// Programs whose searches go deep: addition, a path in a graph, lists.
fn family(rng: &mut Random) -> Vec<Rule> {
    let v = Pat::Var;
    let zero = || app(0, vec![]);
    let succ = |t| app(1, vec![t]);
    let pair = |a, b| app(2, vec![a, b]);
    let mut rules = match rng.below(4) {
        0 => vec![
            clause(app(6, vec![zero(), v(0), v(0)]), vec![]),
            clause(app(6, vec![succ(v(0)), v(1), succ(v(2))]), vec![app(6, vec![v(0), v(1), v(2)])]),
        ],
        1 => vec![
            clause(app(5, vec![v(0), v(0)]), vec![]),
            clause(app(5, vec![v(0), v(2)]), vec![app(5, vec![v(0), v(1)]), app(5, vec![v(1), v(2)])]),
            clause(app(5, vec![zero(), succ(zero())]), vec![]),
        ],
        2 => vec![
            clause(app(6, vec![zero(), v(0), v(0)]), vec![]),
            clause(app(6, vec![pair(v(0), v(1)), v(2), pair(v(0), v(3))]), vec![app(6, vec![v(1), v(2), v(3)])]),
            clause(app(5, vec![zero(), zero()]), vec![]),
            clause(
                app(5, vec![pair(v(0), v(1)), v(2)]),
                vec![app(5, vec![v(1), v(3)]), app(6, vec![v(3), pair(v(0), zero()), v(2)])],
            ),
        ],
        _ => vec![
            clause(app(4, vec![zero()]), vec![]),
            clause(app(4, vec![succ(v(0))]), vec![app(5, vec![v(0), v(1)]), app(4, vec![v(1)])]),
            clause(app(5, vec![v(0), v(0)]), vec![app(7, vec![])]),
            clause(app(5, vec![succ(v(0)), v(0)]), vec![]),
            clause(app(7, vec![]), vec![]),
        ],
    };
    if rng.percent(40) {
        let at = rng.below(rules.len() + 1);
        rules.insert(at, rule(rng));
    }
    rules
}

fn signature(rules: Vec<Rule>) -> Sig {
    let mut sig = Sig { sorts: vec!["S".into()], rules, ..no_declarations() };
    for i in 0..8 {
        sig.add_sym(&format!("s{i}"), Vec::new(), None).expect("new");
    }
    sig
}

/// Goals with more nodes than this, once the bindings are put in, are left out: terms that double at each step soon have too many for any checker.
const LARGEST: usize = 2000;

#[derive(Clone, Copy, PartialEq, Debug)]
enum Kind {
    Proved,
    Nothing,
    Undecided,
}

struct Outcome {
    kind: Kind,
    proof: Option<Proof>,
    steps: u64,
    words: u64,
    most: u64,
    cut: bool,
}

/// The Rust's `prove`, counted by a second run beside it; nothing if a goal grew too large.
fn ask(p: &mut Prover, goal: &T, m: u64) -> Option<Outcome> {
    let mut q = copied(p);
    let mut count = Count::new(m, LARGEST);
    let found = counted_proof(&mut q, goal, m, &mut count);
    if count.large {
        return None;
    }
    p.budget = 0;
    p.cut = false;
    let proof = p.prove(goal);
    let kind = match &proof {
        Some(_) => Kind::Proved,
        None if is_none(p) => Kind::Nothing,
        None => Kind::Undecided,
    };
    let steps = if p.max_depth >= 4 { p.round - p.budget } else { 0 };
    assert!(q.binding == p.binding && q.trail == p.trail && q.budget == p.budget && q.cut == p.cut, "the counting run differs");
    match (&proof, &found) {
        (None, None) => {}
        (Some(a), Some((b, _))) => assert!(same_proof(a, b), "the counting run's proof differs"),
        _ => panic!("the counting run's verdict differs"),
    }
    let end = found.map_or(m, |f| f.1);
    Some(Outcome { kind, proof, steps, words: end, most: count.most, cut: count.cut })
}

// Writing

fn text_pat(p: &Pat, out: &mut String) {
    match p {
        Pat::Var(x) => out.push_str(&format!("var {x}")),
        Pat::A(f, args) => {
            out.push_str(&format!("app {f} "));
            text_args(args, &text_pat, out);
        }
        Pat::E(_) => unreachable!("no rigid names"),
    }
}

fn text_term(t: &T, out: &mut String) {
    match t {
        T::V(x) => out.push_str(&format!("var {x}")),
        T::A(f, args) => {
            out.push_str(&format!("app {f} "));
            text_args(args, &text_term, out);
        }
        T::E(_) => unreachable!("no rigid names"),
    }
}

fn text_args<X>(args: &[X], each: &dyn Fn(&X, &mut String), out: &mut String) {
    match args {
        [] => out.push_str("nil"),
        [a, rest @ ..] => {
            out.push_str("(cons (");
            each(a, out);
            out.push_str(") ");
            text_args(rest, each, out);
            out.push(')');
        }
    }
}

fn code_term(t: &T, out: &mut Vec<u64>) {
    match t {
        T::V(x) => out.extend([0, *x as u64]),
        T::A(f, args) => {
            out.extend([1, u64::from(*f), args.len() as u64]);
            args.iter().for_each(|a| code_term(a, out));
        }
        T::E(_) => unreachable!("no rigid names"),
    }
}

fn code_proof(p: &Proof, out: &mut Vec<u64>) {
    let Just::Rule(r) = p.just else { unreachable!("only rules") };
    out.extend([2, r as u64]);
    code_term(&p.goal, out);
    p.children.iter().for_each(|c| code_proof(c, out));
    out.push(3);
}

fn code_session(names: usize, p: &Prover, words: u64, out: &mut Vec<u64>) {
    out.extend([names as u64, p.binding.len() as u64, words]);
    for &x in p.trail.iter().rev() {
        out.extend([5, x as u64]);
        code_term(p.binding[x].as_ref().expect("bound"), out);
    }
    out.push(4);
}

fn text_bindings(p: &Prover) -> String {
    let mut out = String::from("start");
    for &x in &p.trail {
        let mut t = String::new();
        text_term(p.binding[x].as_ref().expect("bound"), &mut t);
        out = format!("bind {x} ({t}) ({out})");
    }
    out
}

fn names_of(p: &Pat, out: &mut Vec<usize>) {
    match p {
        Pat::Var(x) if !out.contains(x) => out.push(*x),
        Pat::A(_, args) => args.iter().for_each(|a| names_of(a, out)),
        _ => {}
    }
}

#[derive(Default, Clone, Copy)]
struct Tally {
    goals: usize,
    proved: usize,
    nothing: usize,
    undecided: usize,
    refused: usize,
    too_much: usize,
    bound_at_start: usize,
    out_of_steps: usize,
    cut: usize,
    left_out: usize,
}

/// A goal whose variables are the numbers of names, with its steps, depth and limits.
struct Posed {
    goal: Pat,
    steps: u64,
    depth: u32,
    limit_steps: u64,
    limit_vars: usize,
    limit_words: u64,
}

/// Rules, a starting session and goals. Names are given with their variables, bindings in the order in which they were made.
struct Plan {
    note: &'static str,
    rules: Vec<Rule>,
    variables: usize,
    names: Vec<(usize, usize)>,
    bindings: Vec<(usize, T)>,
    words: u64,
    goals: Vec<Posed>,
}

pub(super) fn prover(rules: &[Rule], variables: usize, bindings: &[(usize, T)]) -> Prover {
    let mut p = new_prover(Rc::new(signature(rules.to_vec())));
    for _ in 0..variables {
        p.fresh(0);
    }
    for (x, t) in bindings {
        p.binding[*x] = Some(t.clone());
        p.trail.push(*x);
    }
    p
}

fn random(rng: &mut Random) -> Plan {
    let rules = if rng.percent(50) { family(rng) } else { (0..1 + rng.below(5)).map(|_| rule(rng)).collect() };
    let variables = if rng.percent(70) { 1 + rng.below(6) } else { 0 };
    // Names stand for some of the variables; the others are the remains of earlier searches.
    let mut names = Vec::new();
    for x in 0..variables {
        if rng.percent(60) {
            names.push((names.len(), x));
        }
    }
    let mut bindings = Vec::new();
    for _ in 0..rng.below(variables + 2) {
        let x = if variables == 0 { break } else { rng.below(variables) };
        let mut p = prover(&rules, variables, &bindings);
        let t = term(rng, variables, 2);
        let mut env: Vec<Option<T>> = (0..variables).map(|v| Some(T::V(v))).collect();
        let t = p.inst(&t, &mut env, &vec![0; variables], &[]);
        if p.binding[x].is_none() && !p.occurs(x, &t) {
            bindings.push((x, t));
        }
    }
    let goals = (0..1 + rng.below(4))
        .map(|_| Posed {
            goal: if rng.percent(15) { atom(rng, 5, 2) } else { likely(rng, &rules) },
            steps: rng.pick(&[0, 1, 2, 3, 4, 5, 6, 8, 10, 12, 16, 20, 25, 30, 40, 60]),
            depth: if rng.percent(2) { 129 } else { rng.pick(&[0, 3, 4, 4, 5, 7, 8, 8, 12, 16, 32]) },
            limit_steps: if rng.percent(95) { 65535 } else { rng.below(30) as u64 },
            limit_vars: if rng.percent(75) { 65536 } else { rng.below(60) },
            limit_words: if rng.percent(75) { 262_144 } else { rng.below(250) as u64 },
        })
        .collect();
    Plan { note: "", rules, variables, names, bindings, words: rng.below(20) as u64, goals }
}

/// One case: a plan and what the Rust answers; nothing if a goal grew too large.
fn case(plan: &Plan, tally: &mut Tally) -> Option<String> {
    let mut p = prover(&plan.rules, plan.variables, &plan.bindings);
    let mut names = plan.names.clone();
    let mut kept = plan.words;
    tally.bound_at_start += usize::from(!plan.bindings.is_empty());
    let mut out = String::from("record {\n      rules = ");
    for r in &plan.rules {
        let mut premises = String::new();
        text_args(&r.premises, &text_pat, &mut premises);
        let mut conclusion = String::new();
        text_pat(&r.conclusion, &mut conclusion);
        out.push_str(&format!("record {{ name = []; sorts = []; premises = {premises}; conclusion = {conclusion} }} ∷ "));
    }
    let named: String = names.iter().map(|(n, x)| format!("record {{ name = record {{ text = {n} ∷ []; sort = 1 }}; variable = {x} }} ∷ ")).collect();
    out.push_str(&format!(
        "[];\n      session = record {{ names = {named}[]; variables = {}; bindings = {}; words = {kept} }};\n      goals = ",
        plan.variables,
        text_bindings(&p)
    ));
    let mut expected = Vec::new();
    let mut goals = String::new();
    for g in &plan.goals {
        let mut text = String::new();
        text_pat(&g.goal, &mut text);
        goals.push_str(&format!(
            "record {{ goal = {text}; steps = {}; depth = {}; limits = record {{ steps = {}; variables = {}; words = {} }} }} ∷ ",
            g.steps, g.depth, g.limit_steps, g.limit_vars, g.limit_words
        ));
        tally.goals += 1;
        if g.steps > g.limit_steps || g.depth > 128 {
            tally.too_much += 1;
            expected.extend([6, 38]);
            code_session(names.len(), &p, kept, &mut expected);
            continue;
        }
        let saved = (p.binding.clone(), p.var_sort.clone(), p.trail.clone(), names.clone());
        // The goal as a rule without premises: a name's own variable, or a new one in the order of first appearance.
        let mut met = Vec::new();
        names_of(&g.goal, &mut met);
        let most = met.iter().copied().chain(names.iter().map(|n| n.0)).max().map_or(0, |n| n + 1);
        let mut env: Vec<Option<T>> = vec![None; most];
        for (n, x) in &names {
            env[*n] = Some(T::V(*x));
        }
        let t = p.inst(&g.goal, &mut env, &vec![0; most], &[]);
        for n in met {
            if !names.iter().any(|m| m.0 == n) {
                let Some(T::V(x)) = env[n] else { unreachable!("a variable") };
                names.push((n, x));
            }
        }
        let m = kept + words(&t);
        p.round = g.steps;
        p.max_depth = g.depth;
        let before = p.trail.len();
        let o = ask(&mut p, &t, m)?;
        tally.out_of_steps += usize::from(p.budget == 0 && o.kind != Kind::Proved);
        tally.cut += usize::from(o.cut);
        if p.binding.len() > g.limit_vars || o.most > g.limit_words {
            tally.refused += 1;
            (p.binding, p.var_sort, p.trail, names) = saved;
            expected.extend([6, 37]);
        } else {
            assert!(o.kind == Kind::Proved || p.trail.len() == before, "bindings are left");
            match o.kind {
                Kind::Proved => {
                    tally.proved += 1;
                    kept = o.words;
                    expected.extend([7, o.steps]);
                    code_proof(o.proof.as_ref().expect("a proof"), &mut expected);
                    expected.push(3);
                }
                Kind::Nothing => {
                    tally.nothing += 1;
                    expected.extend([8, o.steps]);
                }
                Kind::Undecided => {
                    tally.undecided += 1;
                    expected.extend([9, o.steps]);
                }
            }
        }
        code_session(names.len(), &p, kept, &mut expected);
    }
    let numbers: String = expected.iter().map(|n| format!("{n} ∷ ")).collect();
    out.push_str(&format!("{goals}[];\n      expected = {numbers}[];\n    }}"));
    Some(out)
}

/// Sessions for the places where document 01 says a port goes wrong; they stand in front of the random ones.
fn fixed() -> Vec<Plan> {
    let v = Pat::Var;
    let num = |n: usize| (0..n).fold(app(0, vec![]), |t, _| app(1, vec![t]));
    let add = |a, b, c| app(6, vec![a, b, c]);
    let addition = || {
        vec![
            clause(add(num(0), v(0), v(0)), vec![]),
            clause(add(app(1, vec![v(0)]), v(1), app(1, vec![v(2)])), vec![add(v(0), v(1), v(2))]),
        ]
    };
    let posed = |goal, steps, depth| Posed { goal, steps, depth, limit_steps: 65535, limit_vars: 65536, limit_words: 262_144 };
    let plan = |note, rules, goals| Plan { note, rules, variables: 0, names: Vec::new(), bindings: Vec::new(), words: 0, goals };
    vec![
        plan("The last step was also the last allowed one; then one step more.", addition(), vec![posed(add(v(0), num(2), num(1)), 2, 32), posed(add(v(0), num(2), num(1)), 3, 32)]),
        plan("Cut off at bound 4, none at bound 8.", addition(), vec![posed(add(num(6), v(0), num(5)), 40, 32)]),
        plan(
            "The occurs check: no term is its own successor.",
            vec![clause(app(5, vec![v(0), app(1, vec![v(0)])]), vec![])],
            vec![posed(app(5, vec![v(0), v(0)]), 10, 8)],
        ),
        plan(
            "Premises are instantiated from the last to the first.",
            vec![
                clause(app(5, vec![v(0), v(1)]), vec![app(4, vec![v(2)]), app(4, vec![v(3)])]),
                clause(app(4, vec![num(1)]), vec![]),
            ],
            vec![posed(app(5, vec![v(0), v(1)]), 20, 8)],
        ),
        plan(
            "A branch fails after binding: its variables stay counted, and later goals share the session.",
            vec![
                clause(app(5, vec![v(0), num(0)]), vec![app(4, vec![v(1)]), app(4, vec![num(3)])]),
                clause(app(5, vec![num(2), v(0)]), vec![]),
                clause(app(4, vec![num(0)]), vec![]),
            ],
            vec![posed(app(5, vec![v(0), v(1)]), 30, 8), posed(app(5, vec![v(1), v(2)]), 30, 8), posed(app(4, vec![v(0)]), 30, 8)],
        ),
    ]
}

/// A goal that some rule's conclusion may meet: an instance of it with some of its parts replaced.
fn likely(rng: &mut Random, rules: &[Rule]) -> Pat {
    fn change(rng: &mut Random, p: &Pat) -> Pat {
        if rng.percent(20) {
            return term(rng, 5, 2);
        }
        match p {
            Pat::A(f, args) => Pat::A(*f, args.iter().map(|a| change(rng, a)).collect()),
            Pat::Var(_) => term(rng, 5, 2),
            Pat::E(_) => unreachable!("no rigid names"),
        }
    }
    match &rules[rng.below(rules.len())].conclusion {
        Pat::A(f, args) => Pat::A(*f, args.iter().map(|a| change(rng, a)).collect()),
        _ => unreachable!("a judgment"),
    }
}

/// The program: see above.
pub fn main() {
    let args: Vec<String> = std::env::args().collect();
    let seed: u64 = args[1].parse().expect("seed");
    let cases: usize = args[2].parse().expect("cases");
    let each: usize = args[3].parse().expect("cases in a file");
    let folder = &args[4];
    let head = fs::read_to_string(&args[5]).expect("the head of a file");
    let mut rng = Random::new(seed);
    let mut tally = Tally::default();
    let mut front = fixed().into_iter();
    let mut done = 0;
    let mut file = 0;
    while done < cases {
        let n = each.min(cases - done);
        let mut out = head.clone();
        out.push_str("\nunfoldable pub cases : List Case\ncases =\n");
        for k in 0..n {
            let (note, text) = loop {
                let plan = front.next().unwrap_or_else(|| random(&mut rng));
                let before = tally;
                if let Some(text) = case(&plan, &mut tally) {
                    break (plan.note, text);
                }
                tally = Tally { left_out: before.left_out + 1, ..before };
            };
            if !note.is_empty() {
                out.push_str(&format!("    -- {note}\n"));
            }
            out.push_str(if k == 0 { "    " } else { "    ∷ " });
            out.push_str(&text);
            out.push('\n');
        }
        out.push_str(&format!(
            "    ∷ []\n\n-- All of them come out.\npub all_pass : passing cases ≡ {n}\nunfolding same less mem attempt compile_by cases\nall_pass = refl\n"
        ));
        fs::write(format!("{folder}/Batch{file}.antt"), out).expect("written");
        file += 1;
        done += n;
    }
    println!(
        "{cases} programs, {} goals: {} proved, {} none, {} undecided, {} refused by 37, {} by 38; {} out of steps, {} cut off at some bound; {} programs with bindings at the start; {} left out for their size",
        tally.goals, tally.proved, tally.nothing, tally.undecided, tally.refused, tally.too_much, tally.out_of_steps, tally.cut, tally.bound_at_start, tally.left_out
    );
}
