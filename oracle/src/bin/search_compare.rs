//! Puts the same lists of goals to both searches, each list in one session, and stops at the first that they answer differently.

#[path = "../ours_load.rs"]
mod ours_load;
#[path = "../ours_search.rs"]
mod ours_search;

use horn_oracle::command::{count_and_seed, fail};
use horn_oracle::evaluate::{with_large_stack, with_program_stack};
use horn_oracle::loaded::{self, Limits as TextLimits};
use horn_oracle::search_cases::unexpected_answers;
use horn_oracle::search_compared::{Posed, Searching, compare, questions};
use horn_oracle::searched::{Allowance, Ask, Buffers, Counts, Given, Lent};
use ours_search::{COUNTS, JUNK, Ours, RESULTS, prove};

/// Our search, each goal of it on the stack of a program.
struct Stacked;

impl Searching for Stacked {
    fn load(&mut self, text: &[u8], limits: TextLimits, lent: &loaded::Lent, buffers: &mut loaded::Buffers) -> u64 {
        Ours.load(text, limits, lent, buffers)
    }

    fn open(&mut self, limits: &Allowance, lent: &Lent, buffers: &mut Buffers) -> u32 {
        Ours.open(limits, lent, buffers)
    }

    fn prove(&mut self, posed: &Posed, counts: Counts, lent: &Lent, buffers: &mut Buffers) -> Given {
        with_program_stack(|| Ours.prove(posed, counts, lent, buffers))
    }
}

fn main() {
    let (count, seed) = count_and_seed("search_compare");
    with_large_stack(|| compare_all(count, seed));
}

fn compare_all(count: u64, seed: u64) {
    if let Err(difference) = too_few() {
        fail(&difference);
    }
    let unexpected = unexpected_answers();
    if !unexpected.is_empty() {
        fail(&unexpected.join("\n"));
    }
    match compare(questions(count, seed), &mut Stacked) {
        Ok(tally) => println!("{}", tally.shown()),
        Err(difference) => fail(&difference),
    }
}

/// A goal with too few counts or results is refused by 1, and nothing is written; with as many as are asked for it is proved.
fn too_few() -> Result<(), String> {
    let text = "sort A ctor a : A pred q : A → Prop rule r : q a\n#eval q ?x".as_bytes();
    let (limits, ask) = (TextLimits { text: text.len() as u32, nodes: 9 }, Ask::BENCH);
    let (least, lent) = (loaded::Lent::least(limits), Lent::least(&ask.limits));
    let (mut stored, mut buffers) = (loaded::Buffers::default(), Buffers::new(&lent, 0, 0));
    stored.reset(&least, 0, 0);
    Ours.load(text, limits, &least, &mut stored);
    Ours.open(&ask.limits, &lent, &mut buffers);
    let posed = Posed { text, stored: &stored, at: stored.evals[0][1] as usize, ask };
    let before = buffers.clone();
    for [counts, session, results] in [[3, 4, 6], [4, 3, 6], [4, 4, 5], [0, 0, 0], [4, 4, 6]] {
        let told = &mut [JUNK; RESULTS][..results];
        let answer = prove(&posed, &stored.counts[..counts], &[0; COUNTS][..session], &lent, &mut buffers, told);
        let enough = [counts, session, results] == [COUNTS, COUNTS, RESULTS];
        let unwritten = buffers == before && told.iter().all(|number| *number == JUNK);
        let as_expected =
            if enough { answer == 1 && told == [3, 1, 1, 1, 1, 5] } else { answer == 1 << 32 && unwritten };
        if !as_expected {
            let lengths = format!("{counts} counts of the signature, {session} of the session, {results} results");
            return Err(format!("{lengths}: the answer {answer:#x}, told {told:?}"));
        }
    }
    Ok(())
}
