//! What the programs of the benchmark share.

pub mod by_bstr;
pub mod by_encoding_rs;
pub mod by_iconv;
pub mod by_std;
pub mod collections;
pub mod decoders;
pub mod ends;
pub mod forms;
pub mod inputs;
pub mod library;
pub mod mergers;
pub mod ours;
pub mod passages;
pub mod report;
pub mod rust;
pub mod sums;
pub mod texts;
pub mod work;
