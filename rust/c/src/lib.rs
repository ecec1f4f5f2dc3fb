//! `libnoddychest`, static and shared, with the functions of `c/noddychest.h`: the crate noddychest has them, with the feature `c`.

extern crate noddychest_rust;
