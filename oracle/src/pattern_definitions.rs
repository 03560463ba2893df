//! The definitions of crates/patterns/specs/Patterns.antt, and what they are said of: symbols, patterns and terms as they are
//! written. They share nothing with the original, so that both can be compared. Lists are slices and vectors; a refusal is its
//! number, and of 28 it is told where it is met.

use crate::loaded::VARIABLES;

// Term.antt, Symbols.antt

/// `Syn one` of a rule or a goal.
#[derive(Clone, Debug, PartialEq)]
pub enum Pattern {
    Var(usize),
    App(usize, Vec<Pattern>),
}

/// Sorts are numbered from 1; 0 is a predicate's output. The output of a function is 0 too.
pub struct Symbol {
    pub name: Vec<u8>,
    pub inputs: Vec<u32>,
    pub output: u32,
    pub function: bool,
    /// Of a function its first clause among the rules, and how many it has.
    pub first: usize,
    pub clauses: usize,
}

pub fn symbol_named(symbols: &[Symbol], name: &[u8]) -> Option<usize> {
    symbols.iter().position(|symbol| symbol.name == name)
}

// Standing.antt

/// A term as it is written, its names as bytes.
#[derive(Clone, Debug, PartialEq)]
pub enum Written {
    Number(u64),
    Meta(Vec<u8>),
    Called(Vec<u8>),
    Applied(Vec<u8>, Vec<Written>),
}

// Patterns.antt

/// What is done of a declaration or a goal before 28 is met.
#[derive(Clone, Copy, Debug, PartialEq)]
pub enum Point {
    /// A sort's or a symbol's own tests.
    Tested,
    /// Flattening, and no pattern.
    Flattened,
    /// All nodes before this one, and its own tests. Judgments are counted with the conclusion last, nodes in preorder
    /// with a numeral as one; of the numeral so many nodes were counted before.
    Compiled { judgment: usize, node: usize, inside: usize },
    /// The whole rule.
    Whole,
}

#[derive(Clone, Copy, Debug, PartialEq)]
pub enum Stop {
    Refused(u32),
    Full(Point),
}

use Stop::{Full, Refused};

pub type Tried<T> = Result<T, Stop>;

pub fn test(holds: bool, number: u32) -> Tried<()> {
    if holds { Ok(()) } else { Err(Refused(number)) }
}

/// What is known while judgments are compiled in order.
pub struct Compiler<'s> {
    symbols: &'s [Symbol],
    room: usize,
    nodes: usize,
    /// Names of variables with their sorts, 0 where a sort is not known.
    variables: Vec<(Vec<u8>, u32)>,
    judgment: usize,
    /// How many nodes of the judgment were begun, a numeral counted as one.
    node: usize,
}

impl Compiler<'_> {
    /// Over these symbols, with these variables and room for so many nodes.
    pub fn new(symbols: &[Symbol], variables: Vec<(Vec<u8>, u32)>, room: usize) -> Compiler<'_> {
        Compiler { symbols, room, nodes: 0, variables, judgment: 0, node: 0 }
    }

    /// The pattern of the next judgment.
    pub fn judgment(&mut self, term: &Written) -> Tried<Pattern> {
        let pattern = self.pattern(term, 0)?;
        self.judgment += 1;
        self.node = 0;
        Ok(pattern)
    }

    /// The variables with their sorts, and how many nodes there are; 25 where a sort is not known.
    pub fn closed(self) -> Tried<(Vec<(Vec<u8>, u32)>, usize)> {
        test(self.variables.iter().all(|(_, sort)| *sort > 0), 25)?;
        Ok((self.variables, self.nodes))
    }

    /// The pattern of a term where the sort `wanted` is wanted, or where a judgment is (0).
    fn pattern(&mut self, term: &Written, wanted: u32) -> Tried<Pattern> {
        self.node += 1;
        match term {
            Written::Number(value) => self.numeral(*value, wanted),
            Written::Meta(name) => self.variable(name, wanted),
            Written::Called(name) => match symbol_named(self.symbols, name) {
                Some(symbol) => self.symbol(symbol, &[], wanted),
                None if wanted == 0 => Err(Refused(19)),
                None => self.variable(name, wanted),
            },
            Written::Applied(name, arguments) => match symbol_named(self.symbols, name) {
                Some(symbol) => self.symbol(symbol, arguments, wanted),
                None => Err(Refused(20)),
            },
        }
    }

    /// The tests of a symbol where it stands.
    fn fits(&self, symbol: usize, arguments: usize, wanted: u32) -> Tried<()> {
        let Symbol { output, function, inputs, .. } = &self.symbols[symbol];
        test(!function || wanted == 0, 22)?;
        test(*output == wanted, 23)?;
        test(inputs.len() == arguments, 21)
    }

    /// Counts the node that was begun last, of a numeral `inside` nodes after its first.
    fn count(&mut self, inside: usize) -> Tried<()> {
        if self.nodes == self.room {
            return Err(self.here(inside));
        }
        self.nodes += 1;
        Ok(())
    }

    fn here(&self, inside: usize) -> Stop {
        Full(Point::Compiled { judgment: self.judgment, node: self.node - 1, inside })
    }

    fn symbol(&mut self, symbol: usize, arguments: &[Written], wanted: u32) -> Tried<Pattern> {
        self.fits(symbol, arguments.len(), wanted)?;
        self.count(0)?;
        let inputs = &self.symbols[symbol].inputs;
        let compiled = arguments.iter().zip(inputs).map(|(argument, sort)| self.pattern(argument, *sort));
        Ok(Pattern::App(symbol, compiled.collect::<Tried<_>>()?))
    }

    fn variable(&mut self, name: &[u8], wanted: u32) -> Tried<Pattern> {
        let variable = match self.variables.iter().position(|(other, _)| other == name) {
            Some(variable) => variable,
            None if self.variables.len() == VARIABLES => return Err(self.here(0)),
            None => {
                self.variables.push((name.to_vec(), 0));
                self.variables.len() - 1
            }
        };
        let known = &mut self.variables[variable].1;
        test(*known == 0 || wanted == 0 || *known == wanted, 24)?;
        *known = (*known).max(wanted);
        self.count(0)?;
        Ok(Pattern::Var(variable))
    }

    fn constructor_named(&self, name: &[u8]) -> Tried<usize> {
        let symbol = symbol_named(self.symbols, name).filter(|symbol| self.symbols[*symbol].output > 0);
        symbol.ok_or(Refused(26))
    }

    /// So many times `succ` on `zero`; the room ends the loop for every large value.
    fn numeral(&mut self, value: u64, mut wanted: u32) -> Tried<Pattern> {
        let (zero, succ) = (self.constructor_named(b"zero")?, self.constructor_named(b"succ")?);
        let mut inside = 0;
        while (inside as u64) < value {
            self.fits(succ, 1, wanted)?;
            self.count(inside)?;
            wanted = self.symbols[succ].inputs[0];
            inside += 1;
        }
        self.fits(zero, 0, wanted)?;
        self.count(inside)?;
        Ok((0..inside).fold(Pattern::App(zero, Vec::new()), |term, _| Pattern::App(succ, vec![term])))
    }
}

// Fresh.antt

/// The variables met so far, and those of a pattern from left to right.
pub fn met(pattern: &Pattern, seen: &mut Vec<usize>) {
    match pattern {
        Pattern::Var(variable) if seen.contains(variable) => {}
        Pattern::Var(variable) => seen.push(*variable),
        Pattern::App(_, arguments) => arguments.iter().for_each(|argument| met(argument, seen)),
    }
}
