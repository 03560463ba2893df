//! A child of `lang.rs`, because only a child sees its private items. Each layer has a file of its own here.

pub mod evaluate;
pub mod load;
pub mod parse;
pub mod search;
pub mod theory;
pub mod unify;
pub mod words;
