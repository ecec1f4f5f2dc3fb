//! What the programs of this folder share: the results of both sides for each kind of input.

pub mod collections;
pub mod ends;
pub mod inputs;
#[path = "../recoding/judge.rs"]
mod judge;
pub mod kinds;
mod library;
pub mod mergers;
mod numbers;
pub mod one_input;
mod ours;
pub mod program;
#[path = "../recoding/ours.rs"]
mod recoder;
pub mod recoding;
pub mod tables;
pub mod tally;
pub mod text_kinds;
mod theirs;
pub mod unit_decoder;
