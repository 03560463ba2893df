//! Reads what is stored of a session and of a proof with nothing but the text and the symbols' numbers of inputs, and trusts nothing
//! in it. So it is also a second test of the listed form of a session: what is read is in form, and what cannot be read is not.

use crate::evaluated::{Call, Terms, first_not};
use crate::loaded::{ARITIES, FIRST_HEADER, INPUTS, SymbolRow};
use crate::searched::{Buffers, Counts, Lent, NAMES, Named, ROOM, Standing, VARIABLES, WORDS};
use crate::stored_definitions::name_place;
use crate::tokens::{METAVARIABLE, NAME};
use std::collections::{HashMap, HashSet};

type Read<T> = Result<T, String>;

fn expect(holds: bool, otherwise: &str) -> Read<()> {
    if holds { Ok(()) } else { Err(otherwise.to_owned()) }
}

fn is_zero(numbers: &[u32]) -> bool {
    first_not(numbers, 0).is_none()
}

/// A session's storage, over a signature with so many sorts and these symbols.
pub struct Stored<'a> {
    pub text: &'a [u8],
    pub sorts: u32,
    pub symbols: &'a [SymbolRow],
    pub lent: &'a Lent,
    pub buffers: &'a Buffers,
    pub counts: Counts,
}

/// A session that was read, and the terms of its references.
pub struct Session {
    pub standing: Standing,
    nodes: HashMap<u32, usize>,
}

impl Session {
    /// A reference to each term that is stored.
    pub fn references(&self) -> HashMap<usize, u32> {
        self.nodes.iter().map(|(reference, term)| (*term, *reference)).collect()
    }
}

impl Stored<'_> {
    /// The session, if it is in the listed form; else what is wrong.
    pub fn read(&self, terms: &mut Terms) -> Read<Session> {
        let Counts { names, variables, bound, words } = self.counts;
        let Lent { names: lent_names, words: lent_words, bindings, links, marks, stack, .. } = *self.lent;
        expect(names as usize <= NAMES.min(lent_names), "too many names")?;
        expect(variables <= VARIABLES && variables as usize <= bindings, "too many variables")?;
        expect(bound <= variables, "more bound than there are variables")?;
        expect(words <= WORDS && words as usize <= lent_words, "too many words")?;
        expect(is_zero(self.buffers.links[..links].as_flattened()), "a link that is not zero")?;
        expect(is_zero(self.buffers.marks[..marks].as_flattened()), "a mark that is not zero")?;
        expect(is_zero(self.buffers.stack[..stack].as_flattened()), "a row of the stack that is not zero")?;
        let names = self.names()?;
        let nodes = self.nodes(terms)?;
        let bindings = self.bindings(&nodes, terms)?;
        let (variables, bound, words) = (variables as usize, bound as usize, u64::from(words));
        Ok(Session { standing: Standing { names, variables, bound, bindings, words }, nodes })
    }

    fn names(&self) -> Read<Vec<Named>> {
        let mut names: Vec<Named> = Vec::new();
        for [kind, start, length, sort, variable] in &self.buffers.names[..self.counts.names as usize] {
            expect([NAME, METAVARIABLE].contains(kind), "a name of another kind")?;
            let name = name_place(self.text, *start, *length).ok_or("a name outside the text")?;
            expect(names.iter().all(|other| other.name != name), "a name twice")?;
            expect((1..=self.sorts).contains(sort), "a name of no sort")?;
            expect(names.last().is_none_or(|last| last.variable < *variable as usize), "variables that do not rise")?;
            expect(*variable < self.counts.variables, "a name of no variable")?;
            names.push(Named { name, sort: *sort, variable: *variable as usize });
        }
        Ok(names)
    }

    /// The terms of the nodes that fill the words in use, by reference. Arguments lie below their node.
    fn nodes(&self, terms: &mut Terms) -> Read<HashMap<u32, usize>> {
        let words = &self.buffers.words[..self.counts.words as usize];
        let (mut nodes, mut address) = (HashMap::new(), 0);
        while address < words.len() {
            expect(words[address] >= FIRST_HEADER, "no header")?;
            let (symbol, arity) =
                ((words[address] - FIRST_HEADER) / ARITIES, (words[address] - FIRST_HEADER) % ARITIES);
            let inputs = self.symbols.get(symbol as usize).map(|row| row[6]);
            expect(inputs == Some(arity) && arity as usize <= INPUTS, "no symbol with so many arguments")?;
            let references = words[address + 1..].get(..arity as usize).ok_or("a node past the words in use")?;
            let arguments = references.iter().map(|reference| self.term(*reference, &nodes, terms));
            let arguments = arguments.collect::<Read<Vec<usize>>>()?;
            nodes.insert(ROOM + address as u32, terms.node(symbol, arguments));
            address += 1 + arity as usize;
        }
        Ok(nodes)
    }

    /// The term of a reference: a variable that there is, or a node.
    fn term(&self, reference: u32, nodes: &HashMap<u32, usize>, terms: &mut Terms) -> Read<usize> {
        match reference {
            0..ROOM if reference < self.counts.variables => Ok(terms.variable(reference as usize)),
            0..ROOM => Err("a variable that there is not".to_owned()),
            _ => nodes.get(&reference).copied().ok_or("a reference to no node".to_owned()),
        }
    }

    /// The trail with the term of each variable on it. It lists exactly the bound variables, and no binding leads back.
    fn bindings(&self, nodes: &HashMap<u32, usize>, terms: &mut Terms) -> Read<Vec<(usize, usize)>> {
        let (rows, bound) = (&self.buffers.bindings[..self.lent.bindings], self.counts.bound as usize);
        let (inside, behind) = rows.split_at(self.counts.variables as usize);
        expect(behind.iter().all(|[value, _]| *value == 0), "a binding past the variables")?;
        expect(rows[bound..].iter().all(|[_, trail]| *trail == 0), "a trail past its end")?;
        expect(inside.iter().filter(|[value, _]| *value > 0).count() == bound, "not as many bound as on the trail")?;
        let (mut bindings, mut seen) = (Vec::new(), HashSet::new());
        for [_, variable] in &rows[..bound] {
            let value = inside.get(*variable as usize).map_or(0, |[value, _]| *value);
            expect(value > 0 && seen.insert(*variable), "an unbound variable on the trail, or one twice")?;
            bindings.push((*variable as usize, self.term(value - 1, nodes, terms)?));
        }
        expect(
            is_acyclic(&bindings, self.counts.variables as usize, terms),
            "a binding that leads back to its variable",
        )?;
        Ok(bindings)
    }

    /// The nodes of a proof in preorder, with zero rows past them, for a signature with so many rules.
    pub fn proof(&self, session: &Session, nodes: u32, rules: u32, terms: &mut Terms) -> Read<Vec<Call>> {
        expect(nodes as usize <= self.lent.proof, "more nodes than rows")?;
        let (rows, behind) = self.buffers.proof[..self.lent.proof].split_at(nodes as usize);
        expect(is_zero(behind.as_flattened()), "a row past those of the proof")?;
        let call = |[height, kind, rule, goal, zeros @ ..]: &[u32; 8]| {
            expect(*kind == 0 && is_zero(zeros), "a row with a column that is not zero")?;
            expect(*rule < rules, "a row without a rule")?;
            Ok(Call { height: *height, rule: *rule, goal: self.term(*goal, &session.nodes, terms)? })
        };
        rows.iter().map(call).collect()
    }
}

/// Whether no binding leads back to its own variable. Terms and variables are looked at once, and each is done when all that it
/// leads to is.
fn is_acyclic(bindings: &[(usize, usize)], variables: usize, terms: &Terms) -> bool {
    let mut bound = vec![None; variables];
    bindings.iter().for_each(|(variable, term)| bound[*variable] = Some(*term));
    // A term is open while what it leads to is looked at, and done behind that.
    let (mut open, mut done) = (HashSet::new(), HashSet::new());
    for (_, start) in bindings {
        let mut stack = vec![(*start, false)];
        while let Some((term, leaving)) = stack.pop() {
            if leaving {
                open.remove(&term);
                done.insert(term);
                continue;
            }
            if done.contains(&term) {
                continue;
            }
            if !open.insert(term) {
                return false;
            }
            stack.push((term, true));
            match terms.as_variable(term) {
                Some(variable) => stack.extend(bound[variable].map(|next| (next, false))),
                None => stack.extend(terms.arguments(term).iter().map(|argument| (*argument, false))),
            }
        }
    }
    true
}
