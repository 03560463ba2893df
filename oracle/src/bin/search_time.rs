//! Times both searches on the same goals in one run, in turn, so that both meet the same machine.

#[path = "../ours_cleared.rs"]
mod ours_cleared;
#[path = "../ours_load.rs"]
mod ours_load;
#[path = "../ours_search.rs"]
mod ours_search;

use horn_oracle::evaluate::with_large_stack;
use horn_oracle::search_timing::table;
use ours_cleared::Cleared;
use ours_search::Ours;

fn main() {
    let start = std::env::args().nth(1).unwrap_or_default();
    print!("{}", with_large_stack(|| table(&mut Ours, &mut Cleared::default(), &start)));
}
