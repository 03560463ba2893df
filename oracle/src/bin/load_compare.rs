//! Asks both loaders the same questions and stops at the first that they answer differently.

#[path = "../ours_load.rs"]
mod ours;

use horn_oracle::command::{count_and_seed, fail};
use horn_oracle::load::load;
use horn_oracle::load_cases::{Question, exhaustive, generated, large_questions, small_questions, unexpected_example};
use horn_oracle::load_rows::read_back;
use horn_oracle::loaded::{Answer, Buffers, NUMBERS, Storage, counted};
use horn_oracle::random::Random;
use horn_oracle::shrink::shrunk;
use std::cell::RefCell;

/// What a number holds before the call; no answer can leave it there.
const JUNK: u32 = 0xDEAD_BEEF;

/// Rows after the lent ones, which nobody may write.
const GUARD: usize = 4;

/// Of the exhaustive questions one in so many is asked; `load_selfcheck` asks all.
const STRIDE: usize = 4;

/// What both sides leave. The buffers are large, so they are used again.
#[derive(Default)]
struct Sides {
    rust: Buffers,
    ours: Buffers,
}

thread_local! {
    static SIDES: RefCell<Sides> = RefCell::default();
}

fn main() {
    let (count, seed) = count_and_seed("load_compare");
    if let Some(example) = unexpected_example() {
        fail(&example);
    }
    let mut random = Random::new(seed);
    let seeded = (0..count).map(|_| generated(&mut random));
    let fixed = small_questions().into_iter().chain(large_questions()).chain(exhaustive().step_by(STRIDE));
    let mut counts = [0; NUMBERS];
    for question in fixed.chain(seeded) {
        match compared(&question) {
            Ok(number) => counts[number] += 1,
            Err(_) => {
                report(&shrunk(question, &|smaller| compared(smaller).is_err()));
                std::process::exit(1);
            }
        }
    }
    println!("{}", counted(&counts));
}

/// The number of the answer, or where the sides differ.
fn compared(question: &Question) -> Result<usize, Vec<String>> {
    SIDES.with_borrow_mut(|sides| compared_in(question, sides))
}

fn compared_in(question: &Question, Sides { rust, ours }: &mut Sides) -> Result<usize, Vec<String>> {
    let Question { text, limits, lent } = question;
    let loaded = load(text, *limits, lent);
    let listing = loaded.as_ref().map_or(String::new(), |loaded| loaded.listing());
    let answer = loaded.map_or_else(|refusal| refusal, |loaded| loaded.answer());
    rust.reset(lent, GUARD, JUNK);
    ours.reset(lent, GUARD, JUNK);
    answer.leave_in(lent, rust);
    let code = ours::load(text, *limits, lent, ours);
    let mut differences = Vec::new();
    if code != answer.code() {
        differences.push(format!("Rust {}, ours {}", described(answer.code()), described(code)));
    }
    if rust != ours {
        differences.extend(differing_rows(rust, ours));
    }
    if let Answer::Loaded(count, _) = answer {
        differences.extend(misread(text, count, ours, &listing));
    }
    if differences.is_empty() { Ok(answer.number()) } else { Err(differences) }
}

/// Where our storage, read back with nothing but the text, is not what the original lists.
fn misread(text: &[u8], count: usize, ours: &Buffers, listing: &str) -> Option<String> {
    let Some(storage) = stored(ours) else { return Some("our counts are over what is lent".to_owned()) };
    match read_back(text, count, &storage) {
        Ok(read) if read == listing => None,
        Ok(read) => Some(format!("ours read\n{read}the Rust's are\n{listing}")),
        Err(cause) => Some(format!("ours cannot be read: {cause}")),
    }
}

/// What our counts say is in use.
fn stored(ours: &Buffers) -> Option<Storage> {
    let [sorts, symbols, rules, words, evals] = [0, 1, 2, 3, 4].map(|at| ours.counts[at] as usize);
    let rows = ours.rows.iter().position(|row| *row == [0; 4] || *row == [JUNK; 4]).expect("guard rows");
    Some(Storage {
        rows: ours.rows[..rows].to_vec(),
        sorts: ours.sorts.get(..sorts)?.to_vec(),
        symbols: ours.symbols.get(..symbols)?.to_vec(),
        rules: ours.rules.get(..rules)?.to_vec(),
        words: ours.words.get(..words)?.to_vec(),
        evals: ours.evals.get(..evals)?.to_vec(),
    })
}

fn report(question: &Question) {
    let Question { text, limits, lent } = question;
    println!("the sides differ on a text of {} bytes, {limits:?}, {lent:?}:", text.len());
    println!("  text   \"{}\"", text.escape_ascii());
    println!("  hex    {}", text.iter().map(|byte| format!("{byte:02x}")).collect::<String>());
    for difference in compared(question).expect_err("the difference that was shrunk") {
        println!("  {difference}");
    }
}

/// The first numbers of each kind of storage that differ.
fn differing_rows(rust: &Buffers, ours: &Buffers) -> Vec<String> {
    [
        differing("token row", &rust.tokens, &ours.tokens),
        differing("row", &rust.rows, &ours.rows),
        differing("row of calls", &rust.calls, &ours.calls),
        differing("sort", &rust.sorts, &ours.sorts),
        differing("symbol", &rust.symbols, &ours.symbols),
        differing("rule", &rust.rules, &ours.rules),
        differing("word", rust.words.as_chunks::<1>().0, ours.words.as_chunks::<1>().0),
        differing("eval", &rust.evals, &ours.evals),
        differing("count", rust.counts.as_chunks::<1>().0, ours.counts.as_chunks::<1>().0),
    ]
    .concat()
}

fn differing<const N: usize>(name: &str, rust: &[[u32; N]], ours: &[[u32; N]]) -> Vec<String> {
    let after = |at: usize| if at + GUARD < rust.len() { "" } else { " after the lent ones" };
    let (rust_numbers, our_numbers) = (rust.as_flattened(), ours.as_flattened());
    let differing = (0..rust_numbers.len()).filter(|&at| rust_numbers[at] != our_numbers[at]);
    let shown = |at: usize| {
        let (row, column) = (at / N, at % N);
        format!("{name}{} {row}, number {column}: Rust {}, ours {}", after(row), rust_numbers[at], our_numbers[at])
    };
    differing.take(5).map(shown).collect()
}

fn described(code: u64) -> String {
    match (code >> 32, code as u32) {
        (0, count) => format!("{count} declarations"),
        (number, line) => format!("refused {number} line {line}"),
    }
}
