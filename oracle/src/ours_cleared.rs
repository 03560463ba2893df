//! Our search without its tests, in the static library that `tools/staticlib prover_capi` makes: for measurements, as our own programs call it.

use crate::ours_search::{COUNTS, Ours, prove_by, told};
use horn_oracle::call;
use horn_oracle::evaluated::TreeRow;
use horn_oracle::loaded::{self, Limits as TextLimits, Pair, RuleRow, SymbolRow};
use horn_oracle::search_compared::{Posed, Searching};
use horn_oracle::searched::{Allowance, Ask, Buffers, Counts, Given, Lent, NameRow, StackRow};
use horn_oracle::tokens::Row;

prove_by!(horn_prove_cleared);

/// The search on storage that is known to be in form; so many rows of the last proof are still to be cleared.
#[derive(Default)]
pub struct Cleared {
    nodes: usize,
}

impl Searching for Cleared {
    fn load(&mut self, text: &[u8], limits: TextLimits, lent: &loaded::Lent, buffers: &mut loaded::Buffers) -> u64 {
        Ours.load(text, limits, lent, buffers)
    }

    fn open(&mut self, limits: &Allowance, lent: &Lent, buffers: &mut Buffers) -> u32 {
        self.nodes = 0;
        buffers.proof.fill([0; 8]);
        Ours.open(limits, lent, buffers)
    }

    /// `prove_cleared` asks for rows without a proof.
    fn prove(&mut self, posed: &Posed, counts: Counts, lent: &Lent, buffers: &mut Buffers) -> Given {
        buffers.proof[..self.nodes].fill([0; 8]);
        let stored = &posed.stored.counts[..COUNTS];
        let given = told(counts, |session, results| prove(posed, stored, session, lent, buffers, results));
        self.nodes = if let Given::Proved { nodes, .. } = given { nodes as usize } else { 0 };
        given
    }
}
