//! Texts for the evaluator: functions by clauses over a few constructors, and many `#eval`, most of them calls of these
//! functions. Faults that an evaluation can meet are put in with a chance; most texts are loaded.

use crate::declarations::{Pieces, Writing};
use crate::random::Random;

/// The sort with numerals, and two others that a text may have.
const NAT: usize = 0;
const SORTS: [&str; 3] = ["Nat", "B", "List"];
const CONSTANTS: [&str; 3] = ["a", "b", "nil"];

const VARIABLES: [&str; 8] = ["x", "y", "n", "m", "xs", "x'", "acc.1", "z"];
const METAVARIABLES: [&str; 4] = ["?", "?x", "?y", "?n"];
const RESULTS: [&str; 4] = ["result.1", "result.1", "result.2", "result.3"];
const LARGE: [&str; 5] = ["255", "1024", "4294967295", "4294967296", "18446744073709551615"];

/// A constructor, predicate or function. The output of a function is its result, of a predicate not used.
#[derive(Clone)]
struct Symbol {
    name: String,
    inputs: Vec<usize>,
    output: usize,
    /// Whether a call makes twice as many calls for each `succ` of its first argument.
    doubling: bool,
}

struct Writer<'a> {
    random: &'a mut Random,
    sorts: usize,
    constructors: Vec<Symbol>,
    predicates: Vec<Symbol>,
    functions: Vec<Symbol>,
    done: Vec<Pieces>,
    pieces: Pieces,
    /// The variables of a clause with their sorts.
    variables: Vec<(String, usize)>,
    /// The chance of a fault in each part of an `#eval`.
    fault: usize,
}

/// The declarations of a text, each as its tokens.
pub fn program(random: &mut Random) -> Vec<Pieces> {
    let fault = random.pick(&[0, 3, 6, 6, 15]);
    let (constructors, predicates, functions) = (Vec::new(), Vec::new(), Vec::new());
    let (done, pieces, variables) = (Vec::new(), Vec::new(), Vec::new());
    let mut writer = Writer { random, sorts: 0, constructors, predicates, functions, done, pieces, variables, fault };
    writer.start();
    for _ in 0..writer.random.between(2, 6) {
        writer.some_function();
    }
    for _ in 0..writer.random.between(3, 9) {
        writer.query();
        writer.end_query();
    }
    writer.done
}

impl Writing for Writer<'_> {
    fn pieces(&mut self) -> &mut Pieces {
        &mut self.pieces
    }

    fn done(&mut self) -> &mut Vec<Pieces> {
        &mut self.done
    }
}

impl Writer<'_> {
    /// An `#eval` may stand anywhere, since it waits until everything is loaded.
    fn end_query(&mut self) {
        let pieces = std::mem::take(&mut self.pieces);
        let at = if self.random.percent(10) { self.random.below(self.done.len() + 1) } else { self.done.len() };
        self.done.insert(at, pieces);
    }

    fn start(&mut self) {
        for (sort, chance) in SORTS.iter().zip([100, 70, 50]) {
            if self.sorts == SORTS.len() || !self.random.percent(chance) {
                break;
            }
            self.put_all(&["sort", sort]);
            self.end();
            self.sorts += 1;
        }
        self.numerals();
        for sort in 0..self.sorts {
            self.constructor(CONSTANTS[sort], &[], sort);
        }
        self.maybe_constructor(60, "s", &[NAT], NAT);
        self.maybe_constructor(75, "d", &[NAT, NAT], NAT);
        self.maybe_constructor(50, "box", &[NAT, 1], 1);
        self.maybe_constructor(90, "cons", &[NAT, 2], 2);
        let odd = self.some_sort();
        self.maybe_constructor(5, "result.1", &[], odd);
        self.maybe_constructor(3, "result.2", &[], odd);
        for number in 0..self.random.below(3) {
            let inputs = self.inputs(2);
            self.predicate(&format!("p{number}"), &inputs);
        }
    }

    /// `zero` and `succ`, mostly as numerals need them.
    fn numerals(&mut self) {
        let other = self.sorts - 1;
        match self.random.below(30) {
            0 | 1 => {}
            2 => self.constructor("zero", &[], NAT),
            3 => self.constructor("succ", &[NAT], NAT),
            4 => {
                self.constructor("zero", &[], NAT);
                self.predicate("succ", &[NAT]);
            }
            5 => {
                self.constructor("succ", &[NAT], NAT);
                self.function("zero", &[], NAT);
                self.end();
            }
            6 => {
                self.constructor("zero", &[NAT], NAT);
                self.constructor("succ", &[NAT], NAT);
            }
            7 => {
                self.constructor("zero", &[], NAT);
                self.constructor("succ", &[NAT, NAT], NAT);
            }
            8 => {
                self.constructor("zero", &[], other);
                self.constructor("succ", &[NAT], NAT);
            }
            9 => {
                self.constructor("zero", &[], NAT);
                self.constructor("succ", &[NAT], other);
            }
            10 => {
                self.constructor("succ", &[other], NAT);
                self.constructor("zero", &[], NAT);
            }
            _ => {
                self.constructor("zero", &[], NAT);
                self.constructor("succ", &[NAT], NAT);
            }
        }
    }

    fn some_sort(&mut self) -> usize {
        if self.random.percent(50) { NAT } else { self.random.below(self.sorts) }
    }

    fn inputs(&mut self, most: usize) -> Vec<usize> {
        (0..self.random.below(most + 1)).map(|_| self.some_sort()).collect()
    }

    fn arrows(&mut self, sorts: &[usize], last: &str) {
        for sort in sorts {
            self.put_all(&[SORTS[*sort], "→"]);
        }
        self.put(last);
    }

    /// A constructor, where the text has its sorts.
    fn maybe_constructor(&mut self, chance: usize, name: &str, inputs: &[usize], output: usize) {
        if inputs.iter().chain([&output]).all(|sort| *sort < self.sorts) && self.random.percent(chance) {
            self.constructor(name, inputs, output);
        }
    }

    fn constructor(&mut self, name: &str, inputs: &[usize], output: usize) {
        self.put_all(&["ctor", name, ":"]);
        self.arrows(inputs, SORTS[output]);
        self.end();
        self.constructors.push(symbol(name, inputs, output));
    }

    fn predicate(&mut self, name: &str, inputs: &[usize]) {
        self.put_all(&["pred", name, ":"]);
        self.arrows(inputs, "Prop");
        self.end();
        self.predicates.push(symbol(name, inputs, NAT));
    }

    /// The head of a function, to which clauses may be added.
    fn function(&mut self, name: &str, inputs: &[usize], output: usize) -> Symbol {
        self.put_all(&["def", name, ":"]);
        self.arrows(inputs, SORTS[output]);
        let function = symbol(name, inputs, output);
        self.functions.push(function.clone());
        function
    }

    fn some_function(&mut self) {
        let long = "n".repeat(64);
        let is_long = self.random.percent(3) && !self.declares(&long);
        let name = if is_long { long } else { format!("f{}", self.done.len()) };
        let count = self.random.pick(&[0, 1, 1, 1, 1, 2, 2, 2, 3]);
        let inputs: Vec<usize> = (0..count).map(|_| self.some_sort()).collect();
        let output = self.some_sort();
        match self.random.below(100) {
            0..32 if count > 0 => {
                let function = self.function(&name, &inputs, output);
                self.recursive_clauses(&function);
            }
            32..43 => self.doubling(&name, output),
            43..54 => self.with_result(&name),
            54..57 => drop(self.function(&name, &inputs, output)),
            57..61 => {
                let function = self.function(&name, &inputs, output);
                self.loop_clause(&function);
            }
            61..68 if count > 1 && inputs[0] == inputs[1] => {
                let function = self.function(&name, &inputs, output);
                self.comparing_clauses(&function);
            }
            68..73 => self.shared(&name),
            _ => {
                let function = self.function(&name, &inputs, output);
                for _ in 0..self.random.between(1, 4) {
                    self.clause(&function);
                }
            }
        }
        self.end();
        if self.random.percent(8) {
            self.rule();
        }
    }

    /// A rule about a function, which is no clause of it.
    fn rule(&mut self) {
        let function = self.random.pick(&self.functions);
        let name = if function.name.len() > 60 { "r".to_owned() } else { format!("{}.0", function.name) };
        self.put_all(&["rule", &name, ":", &function.name]);
        numbered(function.inputs.len() + 1).iter().for_each(|variable| self.put(variable));
        self.end();
    }

    fn of_sort(list: &[Symbol], sort: usize) -> Vec<Symbol> {
        list.iter().filter(|symbol| symbol.output == sort).cloned().collect()
    }

    /// A clause for each constructor of the first input, most of them calling the function on a part of it.
    fn recursive_clauses(&mut self, function: &Symbol) {
        if self.random.percent(5) {
            self.clause(function);
        }
        for constructor in Self::of_sort(&self.constructors, function.inputs[0]) {
            if self.random.percent(10) {
                continue;
            }
            self.variables.clear();
            self.put("|");
            self.put(&constructor.name);
            let parts: Vec<String> = constructor.inputs.iter().map(|sort| self.new_variable(*sort)).collect();
            parts.iter().for_each(|part| self.put(part));
            for sort in &function.inputs[1..] {
                self.put(",");
                self.pattern(*sort, 1);
            }
            self.put("=>");
            let part = constructor.inputs.iter().position(|sort| *sort == function.inputs[0]);
            match part {
                Some(part) if self.random.percent(85) => self.recursive_body(function, &parts[part]),
                _ => self.body(function.output, 1),
            }
        }
        if self.random.percent(20) {
            self.clause(function);
        }
    }

    /// A call of the function on a part, alone, in a constructor or in another function.
    fn recursive_body(&mut self, function: &Symbol, part: &str) {
        let around = if self.random.percent(70) { &self.constructors } else { &self.functions };
        let fits = |symbol: &&Symbol| symbol.inputs.contains(&function.output) && symbol.output == function.output;
        let around: Vec<Symbol> = around.iter().filter(fits).cloned().collect();
        if around.is_empty() || self.random.percent(25) {
            return self.call_on(function, part);
        }
        let symbol = self.random.pick(&around);
        let mut placed = false;
        self.put(&symbol.name);
        for sort in &symbol.inputs {
            if *sort == function.output && (!placed || self.random.percent(20)) {
                placed = true;
                self.put("(");
                self.call_on(function, part);
                self.put(")");
            } else {
                self.argument(*sort, 1);
            }
        }
    }

    fn call_on(&mut self, function: &Symbol, part: &str) {
        self.put_all(&[&function.name, part]);
        for sort in &function.inputs[1..] {
            self.argument(*sort, 1);
        }
    }

    /// In parentheses where it is more than a word.
    fn in_parentheses(&mut self, write: impl FnOnce(&mut Self)) {
        let start = self.pieces.len();
        write(self);
        if self.pieces.len() > start + 1 {
            self.pieces.insert(start, "(".to_owned());
            self.put(")");
        }
    }

    fn argument(&mut self, sort: usize, depth: usize) {
        self.in_parentheses(|writer| writer.body(sort, depth));
    }

    /// Twice as many calls for each `succ`, under a constructor or a function of two arguments.
    fn doubling(&mut self, name: &str, output: usize) {
        let two = |symbol: &&Symbol| symbol.inputs == [output, output] && symbol.output == output;
        let around: Vec<Symbol> = self.constructors.iter().chain(&self.functions).filter(two).cloned().collect();
        let function = self.function(name, &[NAT], output);
        if around.is_empty() || !self.has_numerals() {
            return self.clause(&function);
        }
        let symbol = self.random.pick(&around);
        self.put_all(&["|", "succ", "x", "=>", &symbol.name, "(", name, "x", ")", "(", name, "x", ")"]);
        self.put_all(&["|", "x", "=>", CONSTANTS[output]]);
        self.functions.last_mut().expect("declared").doubling = true;
    }

    /// A function whose first argument has to be the value of another function on the other arguments.
    fn with_result(&mut self, name: &str) {
        let Some(other) = (!self.functions.is_empty()).then(|| self.random.pick(&self.functions)) else {
            return drop(self.function(name, &[], NAT));
        };
        let inputs = [&[other.output], &other.inputs[..]].concat();
        self.function(name, &inputs, other.output);
        let arguments = numbered(other.inputs.len());
        self.patterns(&[&["result.1".to_owned()], &arguments[..]].concat());
        self.put_all(&["=>", &other.name]);
        arguments.iter().for_each(|argument| self.put(argument));
        if self.random.percent(30) {
            self.patterns(&numbered(inputs.len()));
            self.put_all(&["=>", CONSTANTS[other.output]]);
        }
    }

    /// The patterns of a clause.
    fn patterns(&mut self, patterns: &[String]) {
        for (number, pattern) in patterns.iter().enumerate() {
            self.put(if number == 0 { "|" } else { "," });
            self.put(pattern);
        }
        if patterns.is_empty() {
            self.put("|");
        }
    }

    /// A call that never ends.
    fn loop_clause(&mut self, function: &Symbol) {
        let names = numbered(function.inputs.len());
        self.patterns(&names);
        self.put_all(&["=>", &function.name]);
        names.iter().for_each(|name| self.put(name));
    }

    /// Whether the first two arguments are the same.
    fn comparing_clauses(&mut self, function: &Symbol) {
        for second in ["x", "y"] {
            self.variables = [("x", 0), (second, 1)].map(|(name, at)| (name.to_owned(), function.inputs[at])).to_vec();
            self.put_all(&["|", "x", ",", second]);
            for sort in &function.inputs[2..] {
                self.put(",");
                self.pattern(*sort, 0);
            }
            self.put("=>");
            self.body(function.output, 1);
        }
    }

    /// A value that is used twice, so that terms are shared, for each `succ`.
    fn shared(&mut self, name: &str) {
        if !self.declares("d") || !self.has_numerals() {
            return drop(self.function(name, &[NAT], NAT));
        }
        let twice = format!("twice{}", self.done.len());
        self.function(&twice, &[NAT], NAT);
        self.put_all(&["|", "x", "=>", "d", "x", "x"]);
        self.end();
        self.function(name, &[NAT], NAT);
        self.put_all(&["|", "succ", "x", "=>", &twice, "(", name, "x", ")", "|", "x", "=>", "a"]);
    }

    fn clause(&mut self, function: &Symbol) {
        self.variables.clear();
        self.put("|");
        for (number, sort) in function.inputs.iter().enumerate() {
            if number > 0 {
                self.put(",");
            }
            self.pattern(*sort, 2);
        }
        self.put("=>");
        let depth = self.random.pick(&[0, 1, 1, 2, 3]);
        self.body(function.output, depth);
    }

    /// A variable that the clause does not have.
    fn new_variable(&mut self, sort: usize) -> String {
        let name = match self.random.below(40) {
            0 => self.random.pick(&METAVARIABLES),
            1 => self.random.pick(&RESULTS),
            _ => self.random.pick(&VARIABLES),
        };
        let taken = self.variables.iter().any(|(other, _)| other == name) || self.declares(name);
        let name = if taken { format!("v{}", self.variables.len()) } else { name.to_owned() };
        self.variables.push((name.clone(), sort));
        name
    }

    /// Whether `zero` and `succ` are what numerals need.
    fn has_numerals(&self) -> bool {
        let is = |name: &str, inputs: &[usize]| {
            let fits = |symbol: &Symbol| symbol.name == name && symbol.inputs == inputs && symbol.output == NAT;
            self.constructors.iter().any(fits)
        };
        is("zero", &[]) && is("succ", &[NAT])
    }

    fn declares(&self, name: &str) -> bool {
        self.constructors.iter().chain(&self.predicates).chain(&self.functions).any(|symbol| symbol.name == name)
    }

    fn variable_of(&mut self, sort: usize) -> Option<String> {
        let known: Vec<&String> =
            self.variables.iter().filter(|(_, other)| *other == sort).map(|(name, _)| name).collect();
        (!known.is_empty()).then(|| self.random.pick(&known).clone())
    }

    fn pattern(&mut self, sort: usize, depth: usize) {
        if self.random.percent(10)
            && let Some(name) = self.variable_of(sort)
        {
            return self.put(&name);
        }
        if sort == NAT && self.has_numerals() && self.random.percent(6) {
            let value = self.random.below(4).to_string();
            return self.put(&value);
        }
        let constructors = Self::of_sort(&self.constructors, sort);
        if depth == 0 || constructors.is_empty() || self.random.percent(50) {
            let name = self.new_variable(sort);
            return self.put(&name);
        }
        let constructor = self.random.pick(&constructors);
        self.put(&constructor.name);
        for sort in &constructor.inputs {
            self.in_parentheses(|writer| writer.pattern(*sort, depth - 1));
        }
    }

    /// The right side of a clause: a term of a sort over its variables, with calls.
    fn body(&mut self, sort: usize, depth: usize) {
        if depth == 0 || self.random.percent(25) {
            return self.leaf(sort);
        }
        let constructors = Self::of_sort(&self.constructors, sort);
        let functions = Self::of_sort(&self.functions, sort);
        let list = if !functions.is_empty() && self.random.percent(50) { functions } else { constructors };
        if list.is_empty() {
            return self.leaf(sort);
        }
        let symbol = self.random.pick(&list);
        self.put(&symbol.name);
        for sort in &symbol.inputs {
            self.argument(*sort, depth - 1);
        }
    }

    /// A variable of the clause, mostly; else a constant, a numeral, or a variable that has no value.
    fn leaf(&mut self, sort: usize) {
        match self.random.below(100) {
            0..5 => {
                let name = self.new_variable(sort);
                self.put(&name);
            }
            5 => {
                let name = self.random.pick(&RESULTS);
                self.put(name);
            }
            6..14 if sort == NAT && self.has_numerals() => {
                let value = self.random.pick(&["0", "1", "2", "3", "7", "127", "200"]);
                self.put(value);
            }
            14..25 => self.put(CONSTANTS[sort]),
            _ => match self.variable_of(sort) {
                Some(name) => self.put(&name),
                None => self.put(CONSTANTS[sort]),
            },
        }
    }

    fn query(&mut self) {
        self.put("#eval");
        let sort = self.some_sort();
        match self.random.below(100) {
            0..70 => {
                let function = self.random.pick(&self.functions);
                self.call(&function);
            }
            70..72 => self.nested(),
            72..75 => {
                let function = self.random.pick(&self.functions);
                self.put_all(&[&function.name, "="]);
                self.ground(function.inputs.first().copied().unwrap_or(sort), 2);
            }
            75..80 => {
                let function = self.random.pick(&self.functions);
                self.call(&function);
                self.put("=");
                self.ground_argument(function.output, 1);
            }
            80..84 => {
                let name = self.random.pick(&METAVARIABLES);
                let function = self.random.pick(&self.functions);
                self.put(&function.name);
                for sort in function.inputs {
                    if self.random.percent(50) {
                        self.put(name);
                    } else {
                        self.ground_argument(sort, 1);
                    }
                }
            }
            84..90 => self.ground(sort, 3),
            90..93 => self.numeral(),
            93..95 => self.wrong(sort, 2),
            _ => self.any_symbol(2),
        }
    }

    fn call(&mut self, function: &Symbol) {
        self.put(&function.name);
        let depth = self.random.pick(&[0, 1, 2, 2, 3]);
        for (number, sort) in function.inputs.iter().enumerate() {
            if function.doubling && number == 0 && self.random.percent(75) {
                let value = self.random.between(9, 40).to_string();
                self.put(&value);
                continue;
            }
            self.ground_argument(*sort, depth);
        }
    }

    /// A call in a call, about as often as parentheses may be open, each adding one or two levels.
    fn nested(&mut self) {
        let alone = |symbol: &&Symbol| symbol.inputs == [symbol.output];
        let functions: Vec<Symbol> = self.functions.iter().chain(&self.constructors).filter(alone).cloned().collect();
        if functions.is_empty() {
            return self.numeral();
        }
        let count = self.random.between(58, 64);
        let symbol = self.random.pick(&functions);
        let double = self.random.percent(50);
        for _ in 0..count {
            if double {
                self.put_all(&[&symbol.name, "="]);
            }
            self.put_all(&[&symbol.name, "("]);
        }
        self.ground(symbol.output, 1);
        (0..count).for_each(|_| self.put(")"));
    }

    fn ground_argument(&mut self, sort: usize, depth: usize) {
        self.in_parentheses(|writer| writer.ground(sort, depth));
    }

    /// A term of a sort without variables.
    fn ground(&mut self, sort: usize, depth: usize) {
        if self.random.percent(self.fault) {
            return self.wrong(sort, depth);
        }
        if sort == NAT && self.random.percent(35) {
            return self.numeral();
        }
        let list = if self.random.percent(35) { &self.functions } else { &self.constructors };
        let list = Self::of_sort(list, sort);
        if depth == 0 || list.is_empty() {
            return self.put(CONSTANTS[sort]);
        }
        let symbol = self.random.pick(&list);
        self.put(&symbol.name);
        for sort in symbol.inputs {
            self.ground_argument(sort, depth - 1);
        }
    }

    fn numeral(&mut self) {
        let value = match self.random.below(50) {
            0..36 => self.random.below(6),
            36..42 => self.random.between(6, 20),
            42 => self.random.between(20, 100),
            43..49 => self.random.between(119, 131),
            _ => {
                let large = self.random.pick(&LARGE);
                return self.put(large);
            }
        };
        self.put(&value.to_string());
    }

    /// What an evaluation may refuse, where a term of a sort is wanted.
    fn wrong(&mut self, sort: usize, depth: usize) {
        match self.random.below(13) {
            0 => self.put("u"),
            1 => {
                self.put("u");
                self.ground_argument(sort, 0);
            }
            2 => self.put(SORTS[sort]),
            3..7 => {
                let other = self.random.below(self.sorts);
                self.ground(other, depth);
            }
            7 => {
                let name = self.random.pick(&METAVARIABLES);
                self.put(name);
            }
            8..11 if !self.predicates.is_empty() => {
                let predicate = self.random.pick(&self.predicates);
                self.put(&predicate.name);
                for sort in predicate.inputs {
                    self.ground_argument(sort, 0);
                }
            }
            11 => self.numeral(),
            _ => self.any_symbol(depth),
        }
    }

    /// Any symbol, mostly with another number of arguments than it takes.
    fn any_symbol(&mut self, depth: usize) {
        let all: Vec<Symbol> =
            self.constructors.iter().chain(&self.predicates).chain(&self.functions).cloned().collect();
        let symbol = self.random.pick(&all);
        let mut inputs = symbol.inputs;
        match self.random.below(3) {
            0 => inputs.push(NAT),
            1 => drop(inputs.pop()),
            _ => {}
        }
        self.put(&symbol.name);
        for sort in inputs {
            self.ground_argument(sort, depth.saturating_sub(1));
        }
    }
}

fn symbol(name: &str, inputs: &[usize], output: usize) -> Symbol {
    Symbol { name: name.to_owned(), inputs: inputs.to_vec(), output, doubling: false }
}

/// So many variables.
fn numbered(count: usize) -> Vec<String> {
    (0..count).map(|number| format!("v{number}")).collect()
}
