//! Reads what the evaluator leaves with nothing but the symbols' numbers of inputs, and trusts nothing in it: the words in
//! use are nodes one behind another over earlier ones, every reference is the address of a node, and all else is zero.

use crate::evaluated::*;
use crate::loaded::{ARITIES, FIRST_HEADER, SymbolRow};
use std::collections::HashMap;

type Read<T> = Result<T, String>;

fn expect(holds: bool, otherwise: &str) -> Read<()> {
    if holds { Ok(()) } else { Err(otherwise.to_owned()) }
}

fn expect_at(holds: bool, place: usize, otherwise: &str) -> Read<()> {
    if holds { Ok(()) } else { Err(format!("{otherwise} at {place}")) }
}

/// The value in the lent part of the buffers, for a signature of these symbols and so many rules; else what is wrong.
pub fn read_back(lent: &Lent, buffers: &Buffers, symbols: &[SymbolRow], rules: u32, terms: &mut Terms) -> Read<Value> {
    let [value, calls, used] = [0, 1, 2].map(|at| buffers.results[at]);
    expect(is_zero(&buffers.results[RESULTS..lent.results]), "a result behind the third")?;
    expect(is_zero(&buffers.links[..lent.links]), "a link that is not zero")?;
    expect(used as usize <= lent.words, "more words than are lent")?;
    let (words, behind) = buffers.words[..lent.words].split_at(used as usize);
    expect(is_zero(behind), "a word past those in use")?;
    let nodes = nodes(words, symbols, terms)?;
    let term = |reference: u32| nodes.get(&reference).copied().ok_or_else(|| format!("no node at {reference}"));
    expect(calls as usize <= lent.trees, "more calls than rows")?;
    let (rows, behind) = buffers.trees[..lent.trees].split_at(calls as usize);
    expect(is_zero(behind.as_flattened()), "a row past those of the calls")?;
    let mut read = Vec::new();
    for (number, [height, kind, rule, goal, zeros @ ..]) in rows.iter().enumerate() {
        expect_at(*kind == 0 && is_zero(zeros), number, "a row with a column that is not zero")?;
        expect_at(*rule < rules, number, "a row without a rule")?;
        read.push(Call { height: *height, rule: *rule, goal: term(*goal)? });
    }
    Ok(Value { term: term(value)?, calls: read, words: u64::from(used) })
}

fn is_zero(numbers: &[u32]) -> bool {
    first_not(numbers, 0).is_none()
}

/// The terms of the nodes that fill the words, by address. Arguments lie below their node, so one pass sees each before
/// its use.
fn nodes(words: &[u32], symbols: &[SymbolRow], terms: &mut Terms) -> Read<HashMap<u32, usize>> {
    let mut nodes = HashMap::new();
    let mut address = 0;
    while address < words.len() {
        expect_at(words[address] >= FIRST_HEADER, address, "no header")?;
        let (symbol, arity) = ((words[address] - FIRST_HEADER) / ARITIES, (words[address] - FIRST_HEADER) % ARITIES);
        let inputs = symbols.get(symbol as usize).map(|row| row[6]);
        expect_at(inputs == Some(arity), address, "no symbol with so many arguments")?;
        let references = words[address + 1..].get(..arity as usize).ok_or("a node past the words in use")?;
        let argument = |reference: &u32| nodes.get(reference).copied().ok_or("an argument that is no earlier node");
        let arguments = references.iter().map(argument).collect::<Result<Vec<usize>, &str>>()?;
        nodes.insert(address as u32, terms.node(symbol, arguments));
        address += 1 + arity as usize;
    }
    Ok(nodes)
}
