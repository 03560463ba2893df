//! The loader's definitions in plain Rust, over the declarations as `definitions.rs` reads them: patterns, flattening,
//! rules and clauses once more, with every limit of 28 counted, and the storage that is left. They share nothing with
//! the original, so that both can be compared.

use crate::definitions::{Clause, Declaration, Declared, Place, Source, declarations, declared_rows, part_of};
use crate::loaded::*;
use crate::pattern_definitions::Stop::{Full as At, Refused};
use crate::pattern_definitions::{Compiler, Pattern, Point, Stop, Symbol, Tried, Written, met, symbol_named, test};
use crate::tokens::Row;

/// A refused text. Where the number is 28, it is also told what the limit met.
pub struct Refusal {
    pub number: u32,
    pub line: u32,
    pub full: Option<Full>,
}

/// Where 28 is met: the number of the declaration, of its clause (0 for a rule), and the point there.
#[derive(Clone, Copy)]
pub struct Full {
    pub declaration: usize,
    pub clause: usize,
    pub point: Point,
}

struct Rule {
    name: Place,
    /// 0 for a written rule, else the clause's number and 1.
    clause: usize,
    sorts: Vec<u32>,
    premises: Vec<Pattern>,
    conclusion: Pattern,
}

struct Signature<'t> {
    text: &'t [u8],
    /// The limit on nodes in all, and how many there are.
    limit: usize,
    nodes: usize,
    sorts: Vec<Place>,
    symbols: Vec<Symbol>,
    symbol_names: Vec<Place>,
    rules: Vec<Rule>,
    evals: Vec<Pair>,
}

/// Number of declarations and what is stored of them, for a text with these tokens and a limit on nodes in all.
pub fn defined(text: &[u8], tokens: &[Row], nodes: u32) -> Result<(usize, Storage), Refusal> {
    let (declared, _) = declarations(text, tokens).map_err(|(number, line)| Refusal { number, line, full: None })?;
    let limit = nodes.min(NODES) as usize;
    let (sorts, symbols, symbol_names, rules, evals) = (Vec::new(), Vec::new(), Vec::new(), Vec::new(), Vec::new());
    let mut signature = Signature { text, limit, nodes: 0, sorts, symbols, symbol_names, rules, evals };
    let mut rows = Vec::new();
    for (number, declaration) in declared.iter().enumerate() {
        signature
            .declaration(declaration, rows.len())
            .map_err(|(clause, stop)| refusal(declaration, number, clause, stop))?;
        rows.extend(declared_rows(declaration));
    }
    Ok((declared.len(), signature.stored(rows)))
}

fn refusal(declared: &Declared, declaration: usize, clause: usize, stop: Stop) -> Refusal {
    let (number, full) = match stop {
        Refused(number) => (number, None),
        At(point) => (28, Some(Full { declaration, clause, point })),
    };
    Refusal { number, line: declared.line, full }
}

/// In a declaration, the clause where it stops.
fn outside_clauses(stop: Stop) -> (usize, Stop) {
    (0, stop)
}

impl Signature<'_> {
    fn declaration(&mut self, Declared { line, declaration }: &Declared, row: usize) -> Result<(), (usize, Stop)> {
        match declaration {
            Declaration::Sort(name) => self.sort(*name).map_err(outside_clauses),
            Declaration::Ctor(name, sorts) => {
                let (result, inputs) = sorts.split_last().expect("at least one sort");
                self.constructor(*name, inputs, *result).map_err(outside_clauses)
            }
            Declaration::Pred(name, inputs) => self.predicate(*name, inputs, false).map_err(outside_clauses),
            Declaration::Def(name, inputs, clauses) => {
                self.predicate(*name, inputs, true).map_err(outside_clauses)?;
                let tried = |(number, clause)| self.clause(*name, number, clause).map_err(|stop| (number, stop));
                clauses.iter().enumerate().try_for_each(tried)
            }
            Declaration::Rule(name, judgments) => {
                let judgments: Vec<Written> = judgments.iter().map(|judgment| self.term(judgment)).collect();
                self.rule(*name, 0, &judgments).map_err(outside_clauses)
            }
            Declaration::Theorem(..) | Declaration::Check(_) => Err((0, Refused(27))),
            Declaration::Eval(_) => {
                self.evals.push([*line, row as u32 + 1]);
                Ok(())
            }
        }
    }

    fn part(&self, place: Place) -> &[u8] {
        part_of(self.text, place)
    }

    /// The number of a sort, 0 if there is none of this name.
    fn sort_named(&self, name: &[u8]) -> u32 {
        self.sorts.iter().position(|sort| self.part(*sort) == name).map_or(0, |index| index as u32 + 1)
    }

    fn symbol_named(&self, name: &[u8]) -> Option<usize> {
        symbol_named(&self.symbols, name)
    }

    fn is_new(&self, name: Place) -> Tried<()> {
        let name = self.part(name);
        test(self.sort_named(name) == 0 && self.symbol_named(name).is_none(), 17)
    }

    fn sort(&mut self, name: Place) -> Tried<()> {
        self.is_new(name)?;
        if self.sorts.len() == SORTS {
            return Err(At(Point::Tested));
        }
        self.sorts.push(name);
        Ok(())
    }

    fn known_sort(&self, place: Place) -> Tried<u32> {
        let sort = self.sort_named(self.part(place));
        test(sort > 0, 18)?;
        Ok(sort)
    }

    fn known_sorts(&self, places: &[Place]) -> Tried<Vec<u32>> {
        places.iter().map(|place| self.known_sort(*place)).collect()
    }

    fn constructor(&mut self, name: Place, inputs: &[Place], result: Place) -> Tried<()> {
        let inputs = self.known_sorts(inputs)?;
        let output = self.known_sort(result)?;
        self.symbol(name, inputs, output, false)
    }

    fn predicate(&mut self, name: Place, inputs: &[Place], function: bool) -> Tried<()> {
        let inputs = self.known_sorts(inputs)?;
        self.symbol(name, inputs, 0, function)
    }

    fn symbol(&mut self, place: Place, inputs: Vec<u32>, output: u32, function: bool) -> Tried<()> {
        self.is_new(place)?;
        if inputs.len() > INPUTS || self.symbols.len() == SYMBOLS {
            return Err(At(Point::Tested));
        }
        let name = self.part(place).to_vec();
        self.symbols.push(Symbol { name, inputs, output, function, first: 0, clauses: 0 });
        self.symbol_names.push(place);
        Ok(())
    }

    fn term(&self, source: &Source) -> Written {
        match source {
            Source::Numeral(_, value) => Written::Number(*value as u64),
            Source::Metavariable(place) => Written::Meta(self.part(*place).to_vec()),
            Source::Name(place) => Written::Called(self.part(*place).to_vec()),
            Source::Application(place, arguments) => {
                let arguments = arguments.iter().map(|argument| self.term(argument)).collect();
                Written::Applied(self.part(*place).to_vec(), arguments)
            }
        }
    }

    /// Judgments with the conclusion last.
    fn rule(&mut self, name: Place, clause: usize, judgments: &[Written]) -> Tried<()> {
        if judgments.len() - 1 > PREMISES {
            return Err(At(Point::Flattened));
        }
        let mut compiler = Compiler::new(&self.symbols, Vec::new(), RULE_NODES.min(self.limit - self.nodes));
        let mut patterns = judgments.iter().map(|term| compiler.judgment(term)).collect::<Tried<Vec<Pattern>>>()?;
        let (variables, nodes) = compiler.closed()?;
        let sorts = variables.into_iter().map(|(_, sort)| sort).collect();
        if self.rules.len() == RULES {
            return Err(At(Point::Whole));
        }
        let conclusion = patterns.pop().expect("a conclusion");
        self.rules.push(Rule { name, clause, sorts, premises: patterns, conclusion });
        self.nodes += nodes;
        Ok(())
    }

    fn clause(&mut self, function: Place, number: usize, Clause { patterns, body }: &Clause) -> Tried<()> {
        let mut judgments = Vec::new();
        let result = self.flatten(&self.term(body), &mut judgments)?;
        let mut arguments: Vec<Written> = patterns.iter().map(|pattern| self.term(pattern)).collect();
        arguments.push(result);
        judgments.push(Written::Applied(self.part(function).to_vec(), arguments));
        self.rule(function, number + 1, &judgments)?;
        let (rule, symbol) = (self.rules.len() - 1, self.symbol_named(self.part(function)).expect("declared"));
        let Symbol { first, clauses, .. } = &mut self.symbols[symbol];
        *first = if *clauses == 0 { rule } else { *first };
        *clauses += 1;
        Ok(())
    }

    fn is_function(&self, name: &[u8]) -> bool {
        self.symbol_named(name).is_some_and(|symbol| self.symbols[symbol].function)
    }

    fn flatten(&self, term: &Written, calls: &mut Vec<Written>) -> Tried<Written> {
        match term {
            Written::Applied(name, arguments) => {
                let arguments =
                    arguments.iter().map(|argument| self.flatten(argument, calls)).collect::<Tried<Vec<_>>>()?;
                if self.is_function(name) {
                    return called(name, arguments, calls);
                }
                Ok(Written::Applied(name.clone(), arguments))
            }
            Written::Called(name) if self.is_function(name) => called(name, Vec::new(), calls),
            other => Ok(other.clone()),
        }
    }
}

/// A call becomes a premise, and the variable of its result stands for it.
fn called(name: &[u8], mut arguments: Vec<Written>, calls: &mut Vec<Written>) -> Tried<Written> {
    if calls.len() == PREMISES {
        return Err(At(Point::Flattened));
    }
    let result = Written::Called(format!("result.{}", calls.len() + 1).into_bytes());
    arguments.push(result.clone());
    calls.push(Written::Applied(name.to_vec(), arguments));
    Ok(result)
}

impl Signature<'_> {
    fn stored(&self, rows: Vec<Row>) -> Storage {
        let mut words = Vec::new();
        let rules = self.rules.iter().map(|rule| stored_rule(rule, &mut words)).collect();
        let sorts = self.sorts.iter().map(|Place { start, length }| [*start, *length]).collect();
        let symbols = self.symbols.iter().zip(&self.symbol_names).map(stored_symbol).collect();
        Storage { rows, sorts, symbols, rules, words, evals: self.evals.clone() }
    }
}

fn stored_symbol((symbol, name): (&Symbol, &Place)) -> SymbolRow {
    let mut row = [0; 24];
    row[..2].copy_from_slice(&[name.start, name.length]);
    row[2] = symbol.output;
    row[3] = u32::from(symbol.function);
    row[4] = symbol.first as u32;
    row[5] = symbol.clauses as u32;
    row[6] = symbol.inputs.len() as u32;
    row[8..8 + symbol.inputs.len()].copy_from_slice(&symbol.inputs);
    row
}

fn stored_rule(rule: &Rule, words: &mut Vec<u32>) -> RuleRow {
    let first = words.len();
    let premises: Vec<u32> = rule.premises.iter().map(|premise| stored_pattern(premise, words)).collect();
    let middle = words.len();
    let conclusion = stored_pattern(&rule.conclusion, words);
    let end = words.len();
    let mut variables = Vec::new();
    met(&rule.conclusion, &mut variables);
    let in_conclusion = variables.len();
    rule.premises.iter().rev().for_each(|premise| met(premise, &mut variables));
    let mut row = [0; 154];
    row[..2].copy_from_slice(&[rule.name.start, rule.name.length]);
    let numbers =
        [rule.clause, rule.sorts.len(), premises.len(), conclusion as usize, first, middle - first, end - middle];
    numbers.into_iter().chain([in_conclusion]).enumerate().for_each(|(at, number)| row[2 + at] = number as u32);
    row[10..10 + premises.len()].copy_from_slice(&premises);
    row[26..26 + rule.sorts.len()].copy_from_slice(&rule.sorts);
    variables.iter().enumerate().for_each(|(place, variable)| row[90 + variable] = place as u32);
    row
}

/// Writes the words of a pattern, each node's after those of its arguments, and gives its reference.
fn stored_pattern(pattern: &Pattern, words: &mut Vec<u32>) -> u32 {
    match pattern {
        Pattern::Var(variable) => *variable as u32,
        Pattern::App(symbol, arguments) => {
            let references: Vec<u32> = arguments.iter().map(|argument| stored_pattern(argument, words)).collect();
            let address = words.len() as u32;
            words.push(1_048_576 + 32 * *symbol as u32 + references.len() as u32);
            words.extend(references);
            64 + address
        }
    }
}
