#![doc = include_str!("../README.md")]
#![no_std]

pub use noddychest::encode_unicode::*;
