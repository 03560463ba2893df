//! Texts for the loader: every name is declared before its use and terms have the sorts that are wanted, but for faults
//! that are put in with a chance.

use crate::declarations::{Pieces, Writing};
use crate::random::Random;

const SORTS: [&str; 5] = ["Nat", "List", "Tree", "Prop", "B"];
const STEMS: [&str; 9] = ["add", "append", "cons", "node", "even", "le", "f'", "map.at", "is_ok?"];

/// Names that are variables in one place and may be declared in another.
const SPECIAL: [&str; 12] =
    ["result.1", "result.2", "result.3", "zero", "succ", "x", "y", "Nat", "Prop", "f.0", "B", "n"];

const VARIABLES: [&str; 16] =
    ["n", "m", "x", "y", "xs", "x'", "?x", "?y", "?", "?n", "result.1", "result.2", "Prop", "Nat", "B", "acc.1"];

const NUMERALS: [&str; 12] = [
    "13",
    "00",
    "255",
    "510",
    "1021",
    "1022",
    "1023",
    "1024",
    "65536",
    "4294967295",
    "4294967296",
    "18446744073709551615",
];

/// A declared constructor, predicate or function. The output of a function is its result, of a predicate not used.
#[derive(Clone)]
struct Symbol {
    name: String,
    inputs: Vec<usize>,
    output: usize,
}

#[derive(Default)]
struct Scope {
    sorts: Vec<String>,
    constructors: Vec<Symbol>,
    predicates: Vec<Symbol>,
    functions: Vec<Symbol>,
}

impl Scope {
    fn symbols(&self) -> impl Iterator<Item = &Symbol> {
        self.constructors.iter().chain(&self.predicates).chain(&self.functions)
    }

    fn declares(&self, name: &str) -> bool {
        self.symbols().any(|symbol| symbol.name == name)
    }
}

/// The variables of a rule with their sorts.
type Variables = Vec<(String, usize)>;

struct Writer<'a> {
    random: &'a mut Random,
    scope: Scope,
    done: Vec<Pieces>,
    pieces: Pieces,
    variables: Variables,
    /// The chance of a fault at each place that can have one.
    fault: usize,
}

/// About `count` declarations, each as its tokens; the chance of a fault is in percent.
pub fn signature(random: &mut Random, count: usize, fault: usize) -> Vec<Pieces> {
    let (scope, done, pieces, variables) = (Scope::default(), Vec::new(), Vec::new(), Vec::new());
    let mut writer = Writer { random, scope, done, pieces, variables, fault };
    writer.start();
    for _ in 0..count {
        writer.declaration();
        writer.end();
    }
    writer.done
}

impl Writing for Writer<'_> {
    fn pieces(&mut self) -> &mut Pieces {
        &mut self.pieces
    }

    fn done(&mut self) -> &mut Vec<Pieces> {
        &mut self.done
    }
}

impl Writer<'_> {
    fn goes_wrong(&mut self) -> bool {
        self.random.percent(self.fault)
    }

    /// A sort, mostly with `zero` and `succ`, which are mostly what numerals need.
    fn start(&mut self) {
        self.sort("Nat");
        if self.random.percent(10) {
            self.sort("B");
        }
        let sorts = self.scope.sorts.len();
        for (name, inputs) in [("zero", vec![]), ("succ", vec![0])] {
            let (odd, fault) = (self.random.percent(4), self.goes_wrong());
            let inputs = if odd { vec![self.random.below(sorts)] } else { inputs };
            let output = if odd { self.random.below(sorts) } else { 0 };
            match self.random.below(12) {
                0 if fault => continue,
                1 if fault => self.predicate(name.to_owned(), inputs),
                2 if fault => self.function(name.to_owned(), inputs, output),
                _ => self.constructor(name.to_owned(), inputs, output),
            }
            self.end();
        }
    }

    fn declaration(&mut self) {
        match self.random.below(30) {
            0..2 => {
                let name = self.sort_name();
                return self.sort_open(&name);
            }
            2..8 => {
                let (name, inputs, output) = (self.name(), self.inputs(3), self.some_sort());
                self.constructor(name, inputs, output);
            }
            8..11 => {
                let (name, inputs) = (self.name(), self.inputs(3));
                self.predicate(name, inputs);
            }
            11..18 => {
                let (name, inputs, output) = (self.name(), self.inputs(3), self.some_sort());
                self.function(name, inputs, output);
            }
            18..26 => {
                if self.scope.predicates.is_empty() && self.scope.functions.is_empty() {
                    let (name, inputs) = (self.name(), self.inputs(3));
                    return self.predicate(name, inputs);
                }
                self.rule();
            }
            26 if self.goes_wrong() => self.left_out(),
            _ => self.query(),
        }
    }

    fn sort(&mut self, name: &str) {
        self.sort_open(name);
        self.end();
    }

    fn sort_open(&mut self, name: &str) {
        self.put_all(&["sort", name]);
        self.scope.sorts.push(name.to_owned());
    }

    /// A name that is new, unless a fault makes it an old one.
    fn name(&mut self) -> String {
        if self.goes_wrong() {
            let names: Vec<String> = self.scope.symbols().map(|symbol| symbol.name.clone()).collect();
            return if names.is_empty() { self.random.pick(&self.scope.sorts) } else { self.random.pick(&names) };
        }
        let number = self.done.len();
        let name = match self.random.below(12) {
            0 => long_name(self.random),
            1 | 2 => self.random.pick(&SPECIAL).to_owned(),
            _ => format!("{}{number}", self.random.pick(&STEMS)),
        };
        let taken = self.scope.declares(&name) || self.scope.sorts.contains(&name);
        if taken { format!("{}{number}", self.random.pick(&STEMS)) } else { name }
    }

    fn sort_name(&mut self) -> String {
        let name = if self.random.percent(10) { long_name(self.random) } else { self.random.pick(&SORTS).to_owned() };
        let taken = self.scope.declares(&name) || self.scope.sorts.contains(&name);
        if taken && !self.goes_wrong() { format!("{name}{}", self.done.len()) } else { name }
    }

    fn some_sort(&mut self) -> usize {
        self.random.below(self.scope.sorts.len())
    }

    /// Inputs of a symbol, mostly few, now and then about as many as there may be.
    fn inputs(&mut self, most: usize) -> Vec<usize> {
        let count = if self.random.percent(2) { self.random.between(14, 17) } else { self.random.below(most + 1) };
        (0..count).map(|_| self.some_sort()).collect()
    }

    /// Another number of arguments.
    fn one_more_or_less(&mut self, inputs: &mut Vec<usize>) {
        let sort = self.some_sort();
        if self.random.percent(50) {
            inputs.push(sort);
        } else {
            inputs.pop();
        }
    }

    fn arrow(&mut self) {
        let arrow = if self.random.percent(60) { "→" } else { "->" };
        self.put(arrow);
    }

    /// `A → B → C`, or with `Prop` last.
    fn arrows(&mut self, sorts: &[usize], prop: bool) {
        for (index, sort) in sorts.iter().enumerate() {
            if index > 0 {
                self.arrow();
            }
            let wrong = self.goes_wrong() && self.random.percent(30);
            let name = if wrong { self.random.pick(&SPECIAL).to_owned() } else { self.scope.sorts[*sort].clone() };
            self.put(&name);
        }
        if prop {
            if !sorts.is_empty() {
                self.arrow();
            }
            self.put("Prop");
        }
    }

    fn constructor(&mut self, name: String, inputs: Vec<usize>, output: usize) {
        self.put_all(&["ctor", &name, ":"]);
        self.arrows(&[&inputs[..], &[output]].concat(), false);
        self.scope.constructors.push(Symbol { name, inputs, output });
    }

    fn predicate(&mut self, name: String, inputs: Vec<usize>) {
        self.put_all(&["pred", &name, ":"]);
        self.arrows(&inputs, true);
        self.scope.predicates.push(Symbol { name, inputs, output: 0 });
    }

    fn function(&mut self, name: String, inputs: Vec<usize>, output: usize) {
        self.put_all(&["def", &name, ":"]);
        self.arrows(&[&inputs[..], &[output]].concat(), false);
        let function = Symbol { name, inputs, output };
        self.scope.functions.push(function.clone());
        for _ in 0..self.random.below(4) {
            self.clause(&function);
        }
    }

    fn clause(&mut self, function: &Symbol) {
        self.variables.clear();
        self.put("|");
        let mut sorts = function.inputs.clone();
        if self.goes_wrong() {
            self.one_more_or_less(&mut sorts);
        }
        for (index, sort) in sorts.into_iter().enumerate() {
            if index > 0 {
                self.put(",");
            }
            self.term(sort, 2, false);
        }
        self.put("=>");
        if self.random.percent(2) {
            return self.many_calls(function.output);
        }
        let depth = self.random.pick(&[1, 2, 3, 4]);
        self.term(function.output, depth, true);
    }

    /// About as many calls as there may be, each in the last argument of the other.
    fn many_calls(&mut self, sort: usize) {
        let fits = |symbol: &&Symbol| symbol.output == sort && symbol.inputs.last() == Some(&sort);
        let candidates: Vec<Symbol> = self.scope.functions.iter().filter(fits).cloned().collect();
        if candidates.is_empty() {
            return self.term(sort, 2, true);
        }
        let count = self.random.between(14, 18);
        for index in 0..count {
            let function = self.random.pick(&candidates);
            if index > 0 {
                self.put("(");
            }
            self.put(&function.name);
            for sort in &function.inputs[..function.inputs.len() - 1] {
                self.argument(*sort, 1, false);
            }
        }
        self.argument(sort, 1, false);
        (1..count).for_each(|_| self.put(")"));
    }

    fn rule(&mut self) {
        self.variables.clear();
        let name = if self.random.percent(80) {
            format!("r{}", self.done.len())
        } else {
            self.random.pick(&SPECIAL).to_owned()
        };
        self.put_all(&["rule", &name, ":"]);
        if self.random.percent(2) {
            return self.wide_rule();
        }
        let premises = if self.random.percent(3) { self.random.between(14, 18) } else { self.random.below(4) };
        for _ in 0..premises {
            self.judgment();
            self.arrow();
        }
        self.judgment();
    }

    /// A rule with about as many variables as there may be, where some predicate has inputs.
    fn wide_rule(&mut self) {
        let most = self.scope.predicates.iter().max_by_key(|symbol| symbol.inputs.len()).cloned();
        let Some(predicate) = most.filter(|symbol| !symbol.inputs.is_empty()) else { return self.judgment() };
        let mut left = self.random.between(60, 68);
        let judgments = left.div_ceil(predicate.inputs.len()).min(17);
        for index in 0..judgments {
            if index > 0 {
                self.arrow();
            }
            self.put(&predicate.name);
            for _ in &predicate.inputs {
                left = left.saturating_sub(1);
                self.put(&format!("v{left}"));
            }
        }
    }

    fn judgment(&mut self) {
        if self.goes_wrong() {
            return self.wrong_judgment();
        }
        let known: Vec<String> =
            self.variables.iter().filter(|(name, _)| name.starts_with('?')).map(|(name, _)| name.clone()).collect();
        if !known.is_empty() && self.random.percent(8) {
            let name = self.random.pick(&known);
            return self.put(&name);
        }
        let function = self.random.percent(40) || self.scope.predicates.is_empty();
        if function && !self.scope.functions.is_empty() {
            return self.equation();
        }
        if self.scope.predicates.is_empty() {
            return self.put("u");
        }
        let predicate = self.random.pick(&self.scope.predicates);
        self.application(&predicate.name, &predicate.inputs, 2, false);
    }

    /// `f a = b`, `f a b` or `(f a) = b`.
    fn equation(&mut self) {
        let function = self.random.pick(&self.scope.functions);
        match self.random.below(6) {
            0 => {
                let inputs = [&function.inputs[..], &[function.output]].concat();
                return self.application(&function.name, &inputs, 2, false);
            }
            1 => {
                self.put("(");
                self.application(&function.name, &function.inputs, 2, false);
                self.put(")");
            }
            _ => self.application(&function.name, &function.inputs, 2, false),
        }
        self.put("=");
        self.term(function.output, 2, false);
    }

    fn wrong_judgment(&mut self) {
        match self.random.below(8) {
            0 => self.put("u"),
            1 => {
                self.put("u");
                let sort = self.some_sort();
                self.argument(sort, 1, false);
            }
            2 => {
                let sort = self.some_sort();
                self.term(sort, 2, false);
            }
            3 => {
                let numeral = self.random.pick(&NUMERALS);
                self.put(numeral);
            }
            4 => {
                let variable = self.random.pick(&VARIABLES);
                self.put(variable);
            }
            _ => self.any_symbol(2, true),
        }
    }

    /// Any symbol with mostly as many arguments as it takes.
    fn any_symbol(&mut self, depth: usize, calls: bool) {
        let symbols: Vec<Symbol> = self.scope.symbols().cloned().collect();
        if symbols.is_empty() {
            return self.put("u");
        }
        let symbol = self.random.pick(&symbols);
        let mut inputs = symbol.inputs.clone();
        if self.random.percent(30) {
            self.one_more_or_less(&mut inputs);
        }
        self.application(&symbol.name, &inputs, depth, calls);
    }

    fn application(&mut self, name: &str, inputs: &[usize], depth: usize, calls: bool) {
        if self.random.percent(2) {
            self.put_all(&["(", name, ")"]);
        } else {
            self.put(name);
        }
        for sort in inputs {
            self.argument(*sort, depth.saturating_sub(1), calls);
        }
    }

    fn argument(&mut self, sort: usize, depth: usize, calls: bool) {
        let start = self.pieces.len();
        self.term(sort, depth, calls);
        if self.pieces.len() > start + 1 || self.random.percent(2) {
            self.pieces.insert(start, "(".to_owned());
            self.put(")");
        }
    }

    /// A term of a sort; calls of functions stand in it only on the right side of a clause.
    fn term(&mut self, sort: usize, depth: usize, calls: bool) {
        if self.goes_wrong() {
            return self.wrong_term(sort, depth, calls);
        }
        if depth == 0 || self.random.percent(35) {
            return self.leaf(sort);
        }
        let of_sort = |list: &[Symbol]| list.iter().filter(|symbol| symbol.output == sort).cloned().collect::<Vec<_>>();
        let (constructors, functions) = (of_sort(&self.scope.constructors), of_sort(&self.scope.functions));
        if calls && !functions.is_empty() && self.random.percent(55) {
            let function = self.random.pick(&functions);
            return self.application(&function.name, &function.inputs, depth, calls);
        }
        if constructors.is_empty() {
            return self.leaf(sort);
        }
        let constructor = self.random.pick(&constructors);
        self.application(&constructor.name, &constructor.inputs, depth, calls);
    }

    /// A variable, mostly, or a small numeral.
    fn leaf(&mut self, sort: usize) {
        if sort == 0 && self.random.percent(20) {
            let value = self.random.below(6).to_string();
            return self.put(&value);
        }
        let known: Vec<String> =
            self.variables.iter().filter(|(_, other)| *other == sort).map(|(name, _)| name.clone()).collect();
        if !known.is_empty() && self.random.percent(60) {
            let name = self.random.pick(&known);
            return self.put(&name);
        }
        let name = self.new_variable();
        self.put(&name);
        self.variables.push((name, sort));
    }

    fn new_variable(&mut self) -> String {
        let name =
            if self.random.percent(3) { long_name(self.random) } else { self.random.pick(&VARIABLES).to_owned() };
        let taken = self.scope.declares(&name) || self.variables.iter().any(|(other, _)| *other == name);
        if taken { format!("v{}", self.variables.len()) } else { name }
    }

    fn wrong_term(&mut self, sort: usize, depth: usize, calls: bool) {
        match self.random.below(10) {
            0 => {
                self.put("u");
                self.argument(sort, depth.saturating_sub(1), calls);
            }
            1 => {
                let numeral = self.random.pick(&NUMERALS);
                self.put(numeral);
            }
            2 => {
                let value = self.random.below(1_030).to_string();
                self.put(&value);
            }
            3 => {
                let other = self.some_sort();
                self.term(other, depth, calls);
            }
            4 => {
                let variable = self.random.pick(&VARIABLES);
                self.put(variable);
            }
            5 => self.any_symbol(depth, true),
            _ => {
                let other = !calls;
                self.term(sort, depth, other);
            }
        }
    }

    fn left_out(&mut self) {
        if self.random.percent(50) {
            self.put_all(&["theorem", "t", ":"]);
        } else {
            self.put("#check");
        }
        self.judgment();
    }

    /// Anything may be asked.
    fn query(&mut self) {
        self.put("#eval");
        self.variables.clear();
        let sort = self.some_sort();
        match self.random.below(4) {
            0 => self.judgment(),
            1 => self.any_symbol(2, true),
            2 => self.put("u"),
            _ => self.term(sort, 3, true),
        }
    }
}

/// One of several names of 63 or 64 bytes that differ in few bytes.
fn long_name(random: &mut Random) -> String {
    let mut name = vec![b'n'; random.pick(&[63, 64, 64, 64])];
    let at = random.pick(&[34, 62, 63]).min(name.len() - 1);
    name[at] = random.pick(b"nab");
    String::from_utf8(name).expect("ASCII")
}
