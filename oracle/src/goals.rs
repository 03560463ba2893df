//! Texts for the search: rules and functions over a few constructors, and lists of goals that share names. Most goals are like
//! a rule's conclusion; what a goal can be refused for is put in with a chance. Most texts are loaded.

use crate::random::Random;

/// The sort with numerals, and another.
const NAT: usize = 0;
const SORTS: [&str; 2] = ["Nat", "B"];
const CONSTANTS: [&str; 2] = ["a", "b"];

const NAMES: [&str; 10] = ["?x", "?y", "?z", "?", "?n", "x", "y", "n", "x'", "?x.1"];
const VARIABLES: [&str; 5] = ["x", "y", "z", "?m", "w"];

/// The most names of a session, and numbers of names at which a goal with many new ones meets that.
const FULL: usize = 64;

/// A term as it is written.
#[derive(Clone, Debug)]
enum Term {
    Variable(String),
    Numeral(u64),
    Node(String, Vec<Term>),
}

use Term::{Node, Numeral, Variable};

impl Term {
    fn text(&self) -> String {
        match self {
            Variable(name) => name.clone(),
            Numeral(value) => value.to_string(),
            Node(name, arguments) => {
                arguments.iter().fold(name.clone(), |text, argument| text + " " + &argument.argument())
            }
        }
    }

    /// In parentheses where it is more than a word.
    fn argument(&self) -> String {
        match self {
            Node(_, arguments) if !arguments.is_empty() => format!("({})", self.text()),
            _ => self.text(),
        }
    }
}

/// A constructor of a sort; a predicate, or a function with its result as the last input, has none.
#[derive(Clone)]
struct Symbol {
    name: String,
    inputs: Vec<usize>,
    output: Option<usize>,
    function: bool,
}

/// Declarations as text, and goals in order, each without its `#eval`.
pub struct Goals {
    pub declarations: String,
    pub goals: Vec<String>,
}

struct Writer<'a> {
    random: &'a mut Random,
    declarations: String,
    symbols: Vec<Symbol>,
    /// The conclusions of rules and clauses.
    conclusions: Vec<Term>,
    /// The names that goals have used, with their sorts, and how many new ones there were in all.
    names: Vec<(String, usize)>,
    made: usize,
}

/// Declarations and a list of goals.
pub fn goals(random: &mut Random) -> Goals {
    let (symbols, conclusions, names) = (Vec::new(), Vec::new(), Vec::new());
    let mut writer = Writer { random, declarations: String::new(), symbols, conclusions, names, made: 0 };
    writer.constructors();
    writer.rules();
    let fault = writer.random.pick(&[0, 5, 15, 15, 40]);
    let many_names = writer.random.percent(5);
    let mut goals: Vec<String> = Vec::new();
    for _ in 0..writer.random.between(1, 7) {
        let goal = match writer.random.below(100) {
            0..12 if !goals.is_empty() => writer.random.pick(&goals),
            chance if chance < 12 + fault => writer.wrong().text(),
            _ if many_names => writer.wide(),
            _ => writer.goal().text(),
        };
        goals.push(goal);
    }
    Goals { declarations: writer.declarations, goals }
}

fn node(name: &str, arguments: Vec<Term>) -> Term {
    Node(name.to_owned(), arguments)
}

impl Writer<'_> {
    fn declare(&mut self, keyword: &str, name: &str, inputs: &[usize], output: &str) {
        let arrows: String = inputs.iter().map(|sort| format!("{} → ", SORTS[*sort])).collect();
        self.declarations += &format!("{keyword} {name} : {arrows}{output}\n");
    }

    fn constructor(&mut self, name: &str, inputs: &[usize], output: usize) {
        self.declare("ctor", name, inputs, SORTS[output]);
        let (name, inputs) = (name.to_owned(), inputs.to_vec());
        self.symbols.push(Symbol { name, inputs, output: Some(output), function: false });
    }

    fn predicate(&mut self, name: &str, inputs: &[usize]) {
        self.declare("pred", name, inputs, "Prop");
        self.symbols.push(Symbol { name: name.to_owned(), inputs: inputs.to_vec(), output: None, function: false });
    }

    fn constructors(&mut self) {
        self.declarations = "sort Nat sort B\n".to_owned();
        (0..SORTS.len()).for_each(|sort| self.constructor(CONSTANTS[sort], &[], sort));
        match self.random.below(14) {
            0 => {}
            1 => self.constructor("succ", &[NAT], NAT),
            2 => {
                self.constructor("zero", &[], 1);
                self.constructor("succ", &[NAT], NAT);
            }
            _ => {
                self.constructor("zero", &[], NAT);
                self.constructor("succ", &[NAT], NAT);
            }
        }
        if self.random.percent(60) {
            self.constructor("d", &[NAT, NAT], NAT);
        }
        if self.random.percent(40) {
            self.constructor("c", &[NAT, 1], 1);
        }
    }

    fn has(&self, name: &str) -> bool {
        self.symbols.iter().any(|symbol| symbol.name == name)
    }

    /// Whether `zero` and `succ` are what numerals need.
    fn has_numerals(&self) -> bool {
        let zero = |symbol: &Symbol| symbol.name == "zero" && symbol.output == Some(NAT);
        self.symbols.iter().any(zero) && self.has("succ")
    }

    fn rules(&mut self) {
        match self.random.below(10) {
            0 | 1 if self.has_numerals() => self.addition(),
            2 if self.has_numerals() => self.countdown(),
            3 if self.has("c") => self.lists(),
            4 | 5 => self.paths(),
            6 if self.has("d") => self.doubling(),
            _ => {}
        }
        let count = if self.conclusions.is_empty() { self.random.between(1, 6) } else { self.random.below(3) };
        for number in 0..self.random.between(1, 3) {
            let inputs: Vec<usize> = (0..self.random.below(4)).map(|_| self.some_sort()).collect();
            self.predicate(&format!("p{number}"), &inputs);
        }
        if self.random.percent(8) {
            let inputs: Vec<usize> = (0..16).map(|_| self.some_sort()).collect();
            self.predicate("wide", &inputs);
        }
        if self.random.percent(50) {
            let x = || Variable("x".to_owned());
            self.function("id", &[NAT, NAT], &[("x => x", vec![x(), x()])]);
        }
        for number in 0..count {
            self.some_rule(number);
        }
        let arguments = self.fresh_arguments("p0");
        if self.random.percent(4) && !arguments.is_empty() {
            self.rule("any", &[node("p0", arguments)], &Variable("?m".to_owned()));
        }
    }

    fn some_sort(&mut self) -> usize {
        if self.random.percent(70) { NAT } else { 1 }
    }

    /// Adds a rule whose judgments are written, and keeps its conclusion as a pattern for goals.
    fn rule(&mut self, name: &str, premises: &[Term], conclusion: &Term) {
        let premises: String = premises.iter().map(|premise| format!("{} → ", premise.text())).collect();
        self.declarations += &format!("rule {name} : {premises}{}\n", conclusion.text());
        if let Node(..) = conclusion {
            self.conclusions.push(conclusion.clone());
        }
    }

    fn fact(&mut self, name: &str, arguments: Vec<Term>) {
        let number = self.conclusions.len();
        self.rule(&format!("{name}.{number}"), &[], &node(name, arguments));
    }

    /// A function by clauses, whose patterns and results are given as the arguments of conclusions.
    fn function(&mut self, name: &str, inputs: &[usize], clauses: &[(&str, Vec<Term>)]) {
        let arrows: Vec<&str> = inputs.iter().map(|sort| SORTS[*sort]).collect();
        self.declarations += &format!("def {name} : {}\n", arrows.join(" → "));
        for (clause, conclusion) in clauses {
            self.declarations += &format!("| {clause}\n");
            self.conclusions.push(node(name, conclusion.clone()));
        }
        let (name, inputs) = (name.to_owned(), inputs.to_vec());
        self.symbols.push(Symbol { name, inputs, output: None, function: true });
    }

    fn addition(&mut self) {
        let v = |name: &str| Variable(name.to_owned());
        let succ = |name: &str| node("succ", vec![v(name)]);
        let zero = || node("zero", vec![]);
        let clauses = [
            ("zero, n => n", vec![zero(), v("n"), v("n")]),
            ("succ m, n => succ (add m n)", vec![succ("m"), v("n"), succ("r")]),
        ];
        self.function("add", &[NAT, NAT, NAT], &clauses);
        if self.random.percent(40) {
            let clauses = [
                ("zero, n => zero", vec![zero(), v("n"), zero()]),
                ("succ m, n => add n (mul m n)", vec![succ("m"), v("n"), v("r")]),
            ];
            self.function("mul", &[NAT, NAT, NAT], &clauses);
        }
    }

    /// Predicates that go down or up by one, the second one for ever.
    fn countdown(&mut self) {
        self.predicate("even", &[NAT]);
        let v = || Variable("x".to_owned());
        let succ = |term| node("succ", vec![term]);
        self.rule("e0", &[], &node("even", vec![node("zero", vec![])]));
        self.rule("e2", &[node("even", vec![v()])], &node("even", vec![succ(succ(v()))]));
        self.predicate("up", &[NAT]);
        self.rule("u", &[node("up", vec![succ(v())])], &node("up", vec![v()]));
        if self.random.percent(50) {
            let top = self.random.below(12) as u64;
            self.rule("top", &[], &node("up", vec![Numeral(top)]));
        }
    }

    fn lists(&mut self) {
        let v = |name: &str| Variable(name.to_owned());
        let cons = |head: &str, tail: &str| node("c", vec![v(head), v(tail)]);
        let nil = || node("b", vec![]);
        let clauses = [
            ("b, ys => ys", vec![nil(), v("ys"), v("ys")]),
            ("c x xs, ys => c x (app xs ys)", vec![cons("x", "xs"), v("ys"), cons("x", "zs")]),
        ];
        self.function("app", &[1, 1, 1], &clauses);
        if self.random.percent(50) {
            let clauses =
                [("b => b", vec![nil(), nil()]), ("c x xs => app (rev xs) (c x b)", vec![cons("x", "xs"), v("ys")])];
            self.function("rev", &[1, 1], &clauses);
        }
    }

    /// Edges of a small graph, and paths by rules that may go round for ever.
    fn paths(&mut self) {
        self.predicate("edge", &[NAT, NAT]);
        self.predicate("path", &[NAT, NAT]);
        for _ in 0..self.random.between(1, 5) {
            let ends = (0..2).map(|_| self.corner()).collect();
            self.fact("edge", ends);
        }
        let v = |name: &str| Variable(name.to_owned());
        let goal = |predicate: &str, from: &str, to: &str| node(predicate, vec![v(from), v(to)]);
        let one = [goal("edge", "x", "y")];
        let more = if self.random.percent(50) {
            [goal("edge", "x", "y"), goal("path", "y", "z")]
        } else {
            [goal("path", "x", "y"), goal("path", "y", "z")]
        };
        self.rule("one", &one, &goal("path", "x", "y"));
        self.rule("more", &more, &goal("path", "x", "z"));
    }

    fn corner(&mut self) -> Term {
        match self.random.below(4) {
            0 => node("a", vec![]),
            1 if self.has("d") => node("d", vec![node("a", vec![]), node("a", vec![])]),
            value if self.has_numerals() => Numeral(value as u64),
            _ => node("a", vec![]),
        }
    }

    /// Terms that are shared, and unified with themselves.
    fn doubling(&mut self) {
        let v = |name: &str| Variable(name.to_owned());
        let pair = |name: &str| node("d", vec![v(name), v(name)]);
        self.predicate("two", &[NAT, NAT]);
        self.rule("two", &[], &node("two", vec![v("x"), pair("x")]));
        self.predicate("same", &[NAT, NAT]);
        self.rule("same", &[], &node("same", vec![v("x"), v("x")]));
        if self.has_numerals() {
            self.predicate("tower", &[NAT, NAT]);
            self.rule("t0", &[], &node("tower", vec![node("zero", vec![]), node("a", vec![])]));
            let premise = node("tower", vec![v("x"), v("y")]);
            self.rule("t1", &[premise], &node("tower", vec![node("succ", vec![v("x")]), pair("y")]));
        }
    }

    fn some_rule(&mut self, number: usize) {
        let name = format!("r{number}");
        let mut variables = Vec::new();
        let mut premises = Vec::new();
        for _ in 0..self.random.pick(&[0, 0, 0, 1, 1, 2, 3]) {
            premises.push(self.judgment(&mut variables, &VARIABLES));
        }
        if !variables.is_empty() && self.random.percent(6) {
            let metavariables = variables.iter().filter(|(name, _): &&(String, usize)| name.starts_with('?'));
            premises.extend(metavariables.take(1).map(|(name, _)| Variable(name.clone())).collect::<Vec<_>>());
        }
        let conclusion = self.judgment(&mut variables, &VARIABLES);
        self.rule(&name, &premises, &conclusion);
    }

    fn judgments(&self) -> Vec<Symbol> {
        self.symbols.iter().filter(|symbol| symbol.output.is_none()).cloned().collect()
    }

    fn judgment(&mut self, variables: &mut Vec<(String, usize)>, names: &[&str]) -> Term {
        let symbol = self.random.pick(&self.judgments());
        let depth = self.random.pick(&[0, 1, 1, 2]);
        let arguments = symbol.inputs.iter().map(|sort| self.term(*sort, depth, variables, names)).collect();
        Node(symbol.name, arguments)
    }

    /// A term of a sort over variables that are known with their sorts, to which new ones are added.
    fn term(&mut self, sort: usize, depth: usize, variables: &mut Vec<(String, usize)>, names: &[&str]) -> Term {
        match self.random.below(100) {
            0..45 => return self.variable(sort, variables, names),
            45..60 if sort == NAT && self.has_numerals() => {
                return Numeral(self.random.pick(&[0, 0, 1, 1, 2, 3, 5, 9]));
            }
            _ => {}
        }
        let fits = |symbol: &&Symbol| symbol.output == Some(sort) && (depth > 0 || symbol.inputs.is_empty());
        let constructors: Vec<Symbol> = self.symbols.iter().filter(fits).cloned().collect();
        let symbol = self.random.pick(&constructors);
        let arguments = symbol.inputs.iter().map(|sort| self.term(*sort, depth - 1, variables, names)).collect();
        Node(symbol.name, arguments)
    }

    fn variable(&mut self, sort: usize, variables: &mut Vec<(String, usize)>, names: &[&str]) -> Term {
        let known: Vec<String> =
            variables.iter().filter(|(_, other)| *other == sort).map(|(name, _)| name.clone()).collect();
        if !known.is_empty() && self.random.percent(65) {
            return Variable(self.random.pick(&known));
        }
        let name = self.random.pick(names).to_owned();
        let taken = variables.iter().any(|(other, _)| *other == name);
        let name = if taken { format!("{name}{}", variables.len()) } else { name };
        variables.push((name.clone(), sort));
        Variable(name)
    }

    /// Other variables for all inputs of a symbol, of which the first is `?m`.
    fn fresh_arguments(&self, name: &str) -> Vec<Term> {
        let symbol = self.symbols.iter().find(|symbol| symbol.name == name).expect("declared");
        let variable = |at: usize| Variable(if at == 0 { "?m".to_owned() } else { format!("?m{at}") });
        (0..symbol.inputs.len()).map(variable).collect()
    }

    /// A goal over the names of the list.
    fn goal(&mut self) -> Term {
        let mut names = std::mem::take(&mut self.names);
        let goal = match self.random.below(100) {
            0..4 if !names.is_empty() => Variable(self.random.pick(&names).0),
            4..20 => self.judgment(&mut names, &NAMES),
            _ if self.conclusions.is_empty() => self.judgment(&mut names, &NAMES),
            _ => {
                let conclusion = self.random.pick(&self.conclusions);
                self.instance(&conclusion, &mut names)
            }
        };
        self.names = names;
        goal
    }

    /// A conclusion with other terms for its variables, and with some of its parts replaced.
    fn instance(&mut self, conclusion: &Term, names: &mut Vec<(String, usize)>) -> Term {
        let Node(name, arguments) = conclusion else { panic!("a conclusion that is kept is a node") };
        let sorts = self.symbols.iter().find(|symbol| symbol.name == *name).expect("declared").inputs.clone();
        let arguments = arguments.iter().zip(sorts).map(|(argument, sort)| self.likely(argument, sort, names));
        Node(name.clone(), arguments.collect())
    }

    fn likely(&mut self, term: &Term, sort: usize, names: &mut Vec<(String, usize)>) -> Term {
        match term {
            Node(name, arguments) if !self.random.percent(25) => {
                let symbol = self.symbols.iter().find(|symbol| symbol.name == *name).expect("declared").clone();
                let parts = arguments.iter().zip(symbol.inputs);
                Node(name.clone(), parts.map(|(argument, sort)| self.likely(argument, sort, names)).collect())
            }
            Numeral(_) if !self.random.percent(25) => term.clone(),
            _ => self.term(sort, 2, names, &NAMES),
        }
    }

    /// A goal with many new names, so that a session's are soon as many as there may be.
    fn wide(&mut self) -> String {
        if !self.has("wide") {
            return self.goal().text();
        }
        let wide = self.symbols.iter().find(|symbol| symbol.name == "wide").expect("declared").clone();
        let left = FULL.saturating_sub(self.made);
        let new = if left <= 17 { self.random.between(left.saturating_sub(1), left + 1) } else { 16 };
        let first = self.made;
        self.made += new.min(16);
        let argument = |at: usize| format!(" {}{}", ["?w", "w"][wide.inputs[at]], first + at % new.max(1));
        format!("wide{}", (0..16).map(argument).collect::<String>())
    }

    /// A goal that is most likely refused.
    fn wrong(&mut self) -> Term {
        let judgment = self.random.pick(&self.judgments());
        let place = (!judgment.inputs.is_empty()).then(|| self.random.below(judgment.inputs.len()));
        let mut names = std::mem::take(&mut self.names);
        let Node(name, mut arguments) = self.instance_of(&judgment, &mut names) else { panic!("a judgment is a node") };
        let other = 1 - place.map_or(NAT, |place| judgment.inputs[place]);
        let functions: Vec<Symbol> = self.symbols.iter().filter(|symbol| symbol.function).cloned().collect();
        let goal = match self.random.below(30) {
            _ if !self.has_numerals() && self.random.percent(40) => Numeral(self.random.below(3) as u64),
            0 => node("u", vec![]),
            1 => node("u", vec![self.term(NAT, 1, &mut names, &NAMES)]),
            2 | 3 => {
                arguments.push(self.term(NAT, 0, &mut names, &NAMES));
                Node(name, arguments)
            }
            4 => {
                arguments.pop();
                Node(name, arguments)
            }
            5 => self.term(NAT, 1, &mut names, &NAMES),
            6 => Numeral(self.random.below(3) as u64),
            7 => Variable(format!("?new{}", names.len())),
            8 | 9 => Variable(self.random.pick(&NAMES).to_owned()),
            chance => {
                let part = match chance {
                    10 => node("u", vec![Numeral(1)]),
                    11 => Node(self.random.pick(&self.judgments()).name, vec![Numeral(0), Numeral(0)]),
                    12 => self.term(other, 1, &mut names, &NAMES),
                    13..17 if !functions.is_empty() => {
                        let function = self.random.pick(&functions);
                        let inputs = &function.inputs[1..];
                        let arguments = inputs.iter().map(|sort| self.term(*sort, 0, &mut names, &NAMES)).collect();
                        Node(function.name, arguments)
                    }
                    17..24 => {
                        let wrong: Vec<String> =
                            names.iter().filter(|(_, sort)| *sort == other).map(|(name, _)| name.clone()).collect();
                        Variable(if wrong.is_empty() { "?x".to_owned() } else { self.random.pick(&wrong) })
                    }
                    24 => node("a", vec![Numeral(0)]),
                    25 => Numeral(self.random.pick(&[4_294_967_295, 4_294_967_296, u64::MAX])),
                    _ => Numeral(self.random.between(1_018, 1_026) as u64),
                };
                if let Some(place) = place {
                    arguments[place] = part;
                }
                Node(name, arguments)
            }
        };
        self.names = names;
        goal
    }

    fn instance_of(&mut self, symbol: &Symbol, names: &mut Vec<(String, usize)>) -> Term {
        let arguments = symbol.inputs.iter().map(|sort| self.term(*sort, 1, names, &NAMES)).collect();
        Node(symbol.name.clone(), arguments)
    }
}
