//! The original's own answers, and texts to ask for: what every program of the oracle shares.

/// `lang.rs` as `oracle/build` copies it, with `harness.rs` as its child.
#[path = "../../target/oracle/src"]
mod original {
    pub mod lang;
}
mod schematic;

pub mod boundary;
pub mod cases;
pub mod command;
pub mod damage;
pub mod declarations;
pub mod declared;
pub mod definitions;
pub mod evaluate_cases;
pub mod evaluate_definitions;
pub mod evaluate_examples;
pub mod evaluate_rows;
pub mod evaluate_texts;
pub mod evaluated;
pub mod goals;
pub mod load_cases;
pub mod load_definitions;
pub mod load_examples;
pub mod load_rows;
pub mod load_texts;
pub mod loaded;
pub mod parse_cases;
pub mod parse_examples;
pub mod pattern_definitions;
pub mod programs;
pub mod random;
pub mod rows;
pub mod shrink;
pub mod search_cases;
pub mod search_compared;
pub mod search_definitions;
pub mod search_examples;
pub mod search_laid;
pub mod search_rows;
pub mod search_texts;
pub mod search_timing;
pub mod searched;
pub mod signatures;
pub mod stored_definitions;
pub mod timing;
pub mod tokens;

pub use original::lang::harness::{evaluate, load, parse, search, theory, unify, words};
