//! Unifies random pairs of terms with both sides, and stops at the first pair on which they differ. The same storage, damaged, must be refused.

#[path = "../ours.rs"]
mod ours;

use horn_oracle::command::count_and_seed;
use horn_oracle::random::Random;
use horn_oracle::unify::{Problem, ROOM, Unified};
use ours::{Counts, Storage};

/// The header of a node with one argument.
const UNARY: u32 = (1 << 20) + 1;

/// How many ways there are to damage storage.
const DAMAGES: usize = 12;

fn main() {
    let (count, seed) = count_and_seed("unify");
    let mut random = Random::new(seed);
    let (mut unified, mut bound) = (0, 0);
    for number in 0..count {
        let depth = random.between(1, 4);
        let problem = Problem::random(&mut random, depth);
        let (expected, actual) = (problem.answer(), answer(&problem));
        if expected != actual {
            println!("pair {number} differs: bindings {:?}", problem.bindings);
            println!("left  {:?}\nright {:?}", problem.read(problem.left), problem.read(problem.right));
            println!("Rust {expected:?}\nours {actual:?}");
            std::process::exit(1);
        }
        for damage in 0..DAMAGES {
            assert!(
                refused(&problem, damage),
                "pair {number} with damage {damage} is not refused, or something is written"
            );
        }
        unified += u64::from(expected.is_some());
        bound += u64::from(!problem.bindings.is_empty());
    }
    println!(
        "{count} pairs, no difference: {unified} unify, {bound} under bindings; each damaged in {DAMAGES} ways and refused"
    );
}

/// Our answer. The scratch must be zero again, and without success the bindings must be as before.
fn answer(problem: &Problem) -> Unified {
    let before = Storage::new(problem);
    let mut storage = before.clone();
    let number = ours::unify(&problem.words, &mut storage, &Counts::new(problem));
    assert!(number != ours::REFUSED, "the storage is in form");
    let bound = ours::bound(number);
    let bindings = std::mem::replace(&mut storage.bindings, before.bindings.clone());
    assert!(storage == before, "the scratch is left as it was");
    if bound.is_none() {
        assert!(bindings == before.bindings, "without success nothing is bound");
    }
    bound.map(|count| {
        let trail = bindings[..count].iter().map(|row| row[1] as usize);
        trail.map(|variable| (variable, problem.read(bindings[variable][0] - 1))).collect()
    })
}

/// Whether storage that is not in form is refused, and every buffer is as it was.
fn refused(problem: &Problem, damage: usize) -> bool {
    let (mut words, mut before, mut counts) = (problem.words.clone(), Storage::new(problem), Counts::new(problem));
    let (end, last) = (ROOM + counts.used, before.links.len() - 1);
    match damage {
        0 => before.links[last][0] = 1,
        1 => before.marks[last][1] = 1,
        2 => before.stack[counts.used as usize][2] = 1,
        3 => counts.left = end,
        4 => counts.right = u32::MAX,
        5 => counts.used += 1,
        6 => counts.bound += 1,
        7 => counts.variables = ROOM + 1,
        8 => before.bindings[0] = [end + 1, before.bindings[0][1]],
        9 => _ = before.links.pop(),
        10 => {
            words.push(UNARY);
            counts.used += 1;
            before.links.push([0; 2]);
            before.marks.push([0; 2]);
        }
        _ => counts.used = u32::MAX,
    }
    let mut storage = before.clone();
    ours::unify(&words, &mut storage, &counts) == ours::REFUSED && storage == before
}
