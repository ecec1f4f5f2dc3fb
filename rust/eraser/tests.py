#!/usr/bin/env python3
"""Tests of the eraser: for each rule what it rejects, and what it writes; and that scripts/erase takes no other files away.

  rust/eraser/tests.py

The last line is 'N passed, M failed'."""
import os
import re
import subprocess
import sys
import tempfile

TOP = os.path.dirname(os.path.dirname(os.path.dirname(os.path.abspath(__file__))))
sys.dont_write_bytecode = True
sys.path.insert(0, os.path.dirname(os.path.abspath(__file__)))
from eraser import Eraser, Project  # noqa: E402
from inlining import cooled, inlined  # noqa: E402
from shape import Text  # noqa: E402
from tokens import Stop, tokens  # noqa: E402
from wide import widened  # noqa: E402
from windows import apart, tested_once  # noqa: E402

# What stops the eraser: why, the text, and its file if that matters.
REFUSED = [
    ("`ghost let` is not known", "fn f() { ghost let x = 1; }"),
    ("`ghost fn` is not known", "ghost fn f() {}"),
    ("`prove!` is not known", "fn f() { prove!(x); }"),
    ("`decreases` is left", "fn f() { while true decreases { n } {} }"),
    ("`requires` is left", "fn f() { let g = |x| requires { x } 1; }"),
    ("`invariant` is left", "fn f() { invariant(x); }"),
    ("`λ` is left", "fn f() { λ x. x }"),
    ("`≡` is left", "fn f() { a ≡ b; }"),
    ("`requires` with no braces", "fn f() requires x y {}"),
    ("the attribute `cfg` is not known", "#[cfg(unix)]\nfn f() {}"),
    ("the attribute `unsafe` is not known", "#[unsafe(link_section = \"x\")]\nfn f() {}"),
    ("the derive of Error is not known", "#[derive(Debug, Error)]\nstruct S;"),
    ("a derived Error of another form", "use thiserror::Error;\n#[derive(Debug, Error)]\n#[error(\"a\")]\npub struct S;"),
    ("more than a text", "use thiserror::Error;\n#[derive(Error)]\nenum S {\n    #[error(\"a {0}\")]\n    A(u8),\n}"),
    ("more than a text", "use thiserror::Error;\n#[derive(Error)]\nenum S {\n    #[error(\"a {A}\")]\n    A,\n}"),
    ("more than a text", "use thiserror::Error;\n#[derive(Error)]\nenum S {\n    #[error(transparent)]\n    A(u8),\n}"),
    ("more than a text", "use thiserror::Error;\n#[derive(Error)]\nenum S {\n    #[error(\"a\")]\n    A,\n    B,\n}"),
    ("the macro `format!` is not known", "fn f() { format!(\"x\"); }"),
    ("std::collections is not known", "use std::collections::BTreeMap;"),
    ("std::rayon is not known", "use std::{fmt, rayon};"),
    ("std::alloc::Layout is not known", "use std::alloc::{AllocError, Layout};"),
    ("std::io::Write is not known", "use std::io::Write;"),
    ("Box is not known", "fn f(x: Box<u8>) {}"),
    ("to_vec is not known", "fn f(x: &[u8]) { x.to_vec(); }"),
    ("is a method of Index, which any code may call", "impl Index<u8> for S {\n    fn index(&self, i: u8) -> &u8\n        requires { i < 4 }\n    { &self.x }\n}"),
    ("is a method of a public trait", "pub trait T {\n    fn f(self)\n        requires { self ≡ 1 };\n}"),
    ("what is asserted says", "pub fn split_ascii(bytes: &[u8], separator: u8)\n    requires { separator < 64 }\n{}", "text_runs/splits.rt"),
    ("no line `/// Condition:` says", "/// A call.\npub fn f_unchecked()\n    requires { x }\n{}"),
    ("f_unchecked is not called", "fn f_unchecked()\n    requires { x }\n{}\nfn g() { let h = f_unchecked; }"),
    ("f is passed on, and asks", "pub fn f()\n    requires { x < 1 }\n{}\npub use crate::a::{f, g};"),
    ("has an invariant and a public field", "pub struct S {\n    pub x: u8,\n}\nimpl Model for S {\n    ghost invariant = { λ s. s.x < 2 };\n}"),
    ("cannot be const", "impl T for S {\n    fn f() {}\n}", "utf_base/a.rt"),
    ("`Drop` stands in no bound after another", "fn f() { Drop; }"),
    ("`Drop` stands in no bound after another", "fn f<T: Drop>() {}"),
    ("`ensures` is left", "fn f() { let g = |x| ensures { x } 1; }"),
    ("a Formatter of another form", "fn f(f: &mut Formatter<Vec<u8>>) {}"),
    ("a clone that fails by another error", "impl S {\n    fn clone(&self) -> Result<S, Other> { Ok(S) }\n}"),
    ("a clone that is more than", "impl S {\n    fn clone(&self) -> Result<S, AllocError> { return Err(AllocError); }\n}"),
    ("places of lanes that are no list of numbers", "fn f() { a.swizzle([n, 1]); }"),
    ("C passes no `& str`", '#[unsafe(no_mangle)]\npub extern "C" fn f(x: &str) {}'),
    ("C passes no `& mut u32`", '#[unsafe(no_mangle)]\npub extern "C" fn f(x: &mut u32) {}'),
    ("an `extern` of another form", '#[unsafe(no_mangle)]\nextern "C" fn f(x: u8) {}'),
    ("an `extern` function with another attribute first", '#[inline]\npub extern "C" fn f(x: u8) {}'),
    ("Utf16CharMerger has no field held", "struct Utf16CharMerger {\n    other: u8,\n}", "encode_unicode/utf16_merger.rt"),
    ("an `unsafe` of another form", "unsafe impl Send for S {}"),
    ("an `unsafe` of another form", "fn f() { unsafe { *p } }"),
    ("an `unsafe` of another form", "fn f() { unsafe { char::from_u32_unchecked(*p) + 1 } }"),
    ("an `unsafe` of another form", "pub unsafe fn f() {}"),
    ("`static mut` is not known", "static mut X: u8 = 1;"),
    ("`core` is not known here", "use core::ptr;"),
    ("`alloc` is not known here", "fn f() { alloc::vec::from_elem(1, 2) }"),
    ("`std` is not known here", "use std as s;"),
    ("std::* is not known", "use std::*;"),
    ("std::* is not known", "use std::{fmt, *};"),
    ("::std is not known", "fn f() { ::std::process::exit(1) }"),
    ("::std is not known", "use ::std::fs;"),
    ("`ghost` stands before no item", "fn f() { g(x, ghost y); }"),
    ("`ghost` stands before no item", "fn f(ghost x: u8, y: u8) {}"),
    ("`ghost` stands before no item", "fn f() { x.map(ghost |x| x) }"),
    ("`ghost` stands before no item", "fn f() { let x = ghost { 1 }; }"),
    ("any code may implement T", "pub trait T {\n    fn f(self) -> u8\n        ensures { result < 4 };\n}\nfn g<A: crate::a::T>(a: A, x: &[u8]) {}"),
    ("any code may implement T", "pub trait T {\n    fn f(self) -> u8\n        ensures { result < 4 };\n}\nfn g(a: impl T) {}"),
    ("an `impl Error` that is not empty", "impl Error for S {\n    fn cause(&self) {}\n}"),
    ("a bracket closes another", "fn f() { (] }"),
    ("a bracket closes none", "fn f() {} }"),
    ("a bracket is not closed", "fn f() {"),
    ("a string that does not end", 'const S: &str = "x;'),
    ("a comment of several lines", "fn f() { /* ghost */ }"),
]

# What becomes of a text: all of it where nothing else is said.
WRITTEN = [
    ("ghost use std::A.{◌≡◌};\n\nuse std::fmt;\n", "use crate::{support as std};\nuse std::fmt;\n"),
    ("fn f(x: u8) -> u8\n    requires { x < 4 }\n    ensures low { result ≡ x }\n{\n    x\n}\n", "fn f(x: u8) -> u8\n{\n    x\n}\n"),
    ("pub trait T {\n    // The scalar.\n    ghost scalar: { Self → ℕ };\n\n    /// Says.\n    fn f(self) -> u8\n        ensures { result ≡ 1 };\n}\n",
     "pub trait T {\n    /// Says.\n    fn f(self) -> u8;\n}\n"),
    ("#[derive(Clone, Copy, Drop)]\n#[tactic(auto)]\nstruct S;\n", "#[derive(Clone, Copy)]\nstruct S;\n"),
    ("#[derive(Drop)]\nstruct S;\n", "struct S;\n"),
    ("fn f<U: Copy + Drop>() {}\n", "fn f<U: Copy>() {}\n"),
    ("use crate::a::b;\nuse utf_base::c;\npub(crate) fn f() {}\n", "use crate::{proved::{utf_base}};\nuse crate::proved::utf_base::a::b;\nuse utf_base::c;\npub(crate) fn f() {}\n"),
    ("//! Says.\nuse std::{cmp, fmt};\nfn f(x: Vec<u8>) {}\n", "//! Says.\nuse crate::{support as std, support::memory::Vec};\nuse std::{cmp, fmt};\nfn f(x: Vec<u8>) {}\n"),
    ("pub mod a {\n    pub use utf_base::c;\n}\n", "pub mod a {\n    pub use crate::proved::utf_base::c;\n}\n"),
    ("use std::io::Read;\n", 'use crate::{support as std};\n#[cfg(feature = "std")]\nuse std::io::Read;\n'),
    ("fn fmt<W: fmt::Write>(&self, f: &mut fmt::Formatter<W>) -> fmt::Result {}\n", "fn fmt(&self, f: &mut fmt::Formatter<'_>) -> fmt::Result {}\n"),
    ("    fn clone(&self) -> Result<S, AllocError> {\n        Ok(S { x: self.x.clone()? })\n    }\n", "    fn clone(&self) -> S {\n        S { x: self.x.clone() }\n    }\n"),
    ("pub fn f(x: u8)\n    requires { x < 4 }\n{}\n", "pub(crate) fn f(x: u8)\n{}\n"),
    ("pub fn f(self)\n    requires can { Self.can_next self }\n    requires ends { IsFinite (Self.remaining self) }\n{}\n", "pub fn f(self)\n{}\n"),
    ("/// A call.\n///\n/// Condition: it is small.\n#[inline]\npub fn f_unchecked(x: u8)\n    requires { x < 4 }\n{}\nfn g() { a::f_unchecked(1); }\n",
     "/// A call.\n///\n/// # Safety\n///\n/// It is small.\n#[inline]\npub unsafe fn f_unchecked(x: u8)\n{}\nfn g() { unsafe { a::f_unchecked(1) }; }\n"),
    ('// "it\'s" // \'\nconst C: [char; 2] = [\'\\\'\', \'"\'];\nconst S: &str = r#"ghost "{" "#;\n', None),
    ("fn f<'a>(x: &'a [u8]) -> u8 { x[0] // ghost {\n}\n", None),
    ("fn f() { str::from_utf8_unchecked(x) }\n", "fn f() { core::str::from_utf8_unchecked(x) }\n"),
    ("fn to_vec(&self) {}\n", None),
    ("impl Error for S {}\n", "impl Error for S {\n    fn description(&self) -> &str {\n        Self::description(self)\n    }\n}\n"),
    ("use std::fmt;\nuse thiserror::Error;\n\n/// Why.\n#[derive(Clone, Copy, Debug, Drop, Error)]\npub enum S {\n    /// One.\n    #[error(\"cannot read\")]\n    A,\n"
     "    /// Two.\n    #[error(\"no memory\")]\n    B,\n}\n\nfn f() {}\n",
     "use crate::{support as std};\nuse std::fmt;\n\n/// Why.\n#[derive(Clone, Copy, Debug)]\npub enum S {\n    /// One.\n    A,\n    /// Two.\n    B,\n}\n\n"
     "impl core::fmt::Display for S {\n    fn fmt(&self, f: &mut core::fmt::Formatter<'_>) -> core::fmt::Result {\n        f.write_str(match self {\n"
     "            Self::A => \"cannot read\",\n            Self::B => \"no memory\",\n        })\n    }\n}\n\nimpl core::error::Error for S {}\n\nfn f() {}\n"),
    ("fn f() { (unsafe { char::from_u32_unchecked(g(x)) }, 1) }\n", None),
    ("pub trait T {\n    fn f(self)\n        ensures { x };\n}\nimpl<A> crate::T for S {}\nfn f() { <u8 as T>::f(x); [1]; }\n",
     "pub trait T {\n    fn f(self);\n}\nimpl<A> crate::proved::utf_base::T for S {}\nfn f() { <u8 as T>::f(x); [1]; }\n"),
    ("fn f() -> io::Result<u8> {}\n", '#[cfg(feature = "std")]\nfn f() -> io::Result<u8> {}\n'),
]

# What stops the eraser in the trusted text.
TRUSTED = [
    ("fn f(x: &[u8]) -> u8 { x[1..].len(); x[x[0] as usize] }\n",
     "use crate::{support::trust::At};\nfn f(x: &[u8]) -> u8 { x[At(1..)].len(); x[At(x[At(0)] as usize)] }\n"),
    ("fn f(x: [u8; 4]) -> [u8; 2] { [x, y.unwrap()] }\n", "use crate::{support::trust::ByProof};\nfn f(x: [u8; 4]) -> [u8; 2] { [x, y.by_proof()] }\n"),
    ("fn f() { unreachable!(\"no {}\", 1) }\n", "fn f() { crate::support::trust::never() }\n"),
    ("fn f() { let [a, b] = self.x; for c in [1, 2] { return [c]; } }\n#[inline]\nconst X: [u8; 2] = [1; 2];\n", None),
    ("fn f() { self.bytes[0] + self.bytes[k] }\n", "use crate::{support::trust::At};\nfn f() { self.bytes[0] + self.bytes[At(k)] }\n"),
]

# A function gets the part of a slice that its clauses name.
IN_PART = [
    ("fn f(bytes: &[u8], place: usize) -> bool\n    requires start { 3 ≤ place }\n    requires within { place + 64 ≤ length bytes.now }\n{\n    g(bytes, place + 32) & bytes[place - 1] < 2\n}\n",
     "fn f(bytes: &[u8], place: usize) -> bool\n{\n    let (bytes, place) = (&bytes[place - 3..][..3 + 64], 3);\n    g(bytes, place + 32) & bytes[place - 1] < 2\n}\n"),
    ("/// Writes.\n#[inline(always)]\nfn f<const N: usize, W: Put>(room: &mut [u8], at: usize) -> usize\n    requires { at + N ≤ length room.old }\n"
     "    ensures { Writes room.old room.new at result }\n{\n    let first = g(room, at);\n    g(room, first)\n}\n",
     "/// Writes.\n#[inline(always)]\nfn f<const N: usize, W: Put>(room: &mut [u8], at: usize) -> usize {\n    at + f_in_part::<N, W>(&mut room[at..][..N], 0)\n}\n\n"
     "#[inline(always)]\nfn f_in_part<const N: usize, W: Put>(room: &mut [u8], at: usize) -> usize\n{\n    let first = g(room, at);\n    g(room, first)\n}\n"),
    ("#[inline]\nfn f(x: u8, room: &mut [u8], at: usize) -> (usize, usize)\n    requires { at + 4 ≤ length room.old }\n    ensures { Puts x room.old room.new at result.0 result.1 }\n{ g(room, at) }\n",
     "#[inline]\nfn f(x: u8, room: &mut [u8], at: usize) -> (usize, usize) {\n    let (count, end) = f_in_part(x, &mut room[at..][..4], 0);\n    (count, at + end)\n}\n\n"
     "#[inline]\nfn f_in_part(x: u8, room: &mut [u8], at: usize) -> (usize, usize)\n{ g(room, at) }\n"),
    ("fn f(bytes: &[u8]) -> u8\n    requires { 4 ≤ length bytes.now }\n{ bytes[3] }\n", "fn f(bytes: &[u8]) -> u8\n{\n    assert!(4 <= bytes.len()); bytes[3] }\n"),
    ("fn f(room: &mut [u8], from: Spot) -> Spot\n    requires { from.written + 8 ≤ length room.old }\n{\n    let at = from;\n    room[at.written] = 1;\n    at\n}\n",
     "fn f(room: &mut [u8], from: Spot) -> Spot\n{\n    let room = &mut room[from.written..][..8];\n    let at = from;\n    room[at.written - from.written] = 1;\n    at\n}\n"),
]
NOT_IN_PART = [  # the length is asked; the offset is returned; a number is an offset; no clause has the result; another field is an offset
    "fn f(room: &mut [u8], from: Spot)\n    requires { from.written + 8 ≤ length room.old }\n{ room[from.written] = 1; room[from.read] = 1; }\n",
    "fn f(bytes: &[u8], at: usize)\n    requires { at + 4 ≤ length bytes.now }\n{ g(bytes, at, bytes.len()) }\n",
    "fn f(bytes: &[u8], at: usize) -> usize\n    requires { at + 4 ≤ length bytes.now }\n{ g(bytes, at); at }\n",
    "#[inline]\nfn f(room: &mut [u8], at: usize) -> usize\n    requires { at + 4 ≤ length room.old }\n    ensures { Writes room.old room.new at result }\n{ g(room, 7); g(room, at) }\n",
    "#[inline]\nfn f(room: &mut [u8], at: usize) -> usize\n    requires { at + 4 ≤ length room.old }\n    ensures { result ≡ 4 }\n{ g(room, at) }\n",
]

# What asks a text only for its bytes gets these, and bytes from the first on are tested in one comparison.
OVER_BYTES = [
    ("impl S {\n    #[inline(always)]\n    pub fn from_str_start(src: &str) -> u8\n    {\n        src.as_bytes()[0]\n    }\n}\n",
     "impl S {\n    #[inline(always)]\n    pub fn from_str_start(src: &str) -> u8\n    {\n        src.as_bytes()[0]\n    }\n"
     "\n    #[inline(always)]\n    pub(crate) fn from_str_start_bytes(src: &[u8]) -> u8\n    {\n        src[0]\n    }\n}\n"),
    ("f(S::from_str_start(self.as_str()), from_str_start(text), self.as_str())\n", "f(S::from_str_start_bytes(self.as_str_bytes()), from_str_start(text), self.as_str())\n"),
    ("let text = self.as_str();\n    if text.is_empty() {}\n    f(text.as_bytes())\n", "let text = self.as_str_bytes();\n    if text.is_empty() {}\n    f(text)\n"),
    ("let text = self.as_str();\n    f(text.as_bytes(), text.len())\n", None),
    ("f([x[0], x[1], 0], [x[0], 0], [x[1], x[2]], [y[0], x[1]])\n", "f({ let x = &x[..2]; [x[0], x[1], 0] }, [x[0], 0], [x[1], x[2]], [y[0], x[1]])\n"),
    ("while 2 * B <= x.len() - at.end && 8 <= y.room() {\n", "while 2 * B <= x.len() && at.end <= x.len() - 2 * B && 8 <= y.room() {\n"),
    ("f(&x[at.read..at.read + 4], &x[a..b + 4], &mut x[a..a + 4])\n",
     "f({ assert!(4 <= x.len() && at.read <= x.len() - 4); &x[at.read..at.read + 4] }, &x[a..b + 4], &mut x[a..a + 4])\n"),
    ("while 2 <= x.len() - 4 * place {\n    if 4 <= x.len() - place {}\n", None),
    ("while PLACES + 13 <= x.len() - place {\n", None),
    ("f(x[x.len() - 2], x[y.len() - 2], x[x.len() - a], x.y[y.len() - 2])\n", "f({ assert!(2 <= x.len()); x[x.len() - 2] }, x[y.len() - 2], x[x.len() - a], x.y[y.len() - 2])\n"),
]

# A part of a text as bytes: whether it is empty is seen first.
PART = "impl S {\n    #[inline(always)]\n    pub fn as_str(&self) -> &str {\n        &self.text[self.a..self.b]\n    }\n}\n"
OF_PART = PART[:-2] + ("\n    #[inline(always)]\n    pub(crate) fn as_str_bytes(&self) -> &[u8] {\n"
                       "        if self.a < self.b { &self.text.as_bytes()[self.a..self.b] } else { &[] }\n    }\n}\n")

# Bytes of a code go one by one.
CODES = [
    ("pub(crate) fn scalar(self) -> u32 {}\nfn len(self) {}\n", "pub(crate) fn scalar(&self) -> u32 {}\nfn len(self) {}\n"),
    ("fn scalar(&self) {}\nlet (code, len) = last_code(x[1..].as_bytes());\nat -= len;\nSome((at, from_array_unchecked(code)))\n",
     "fn scalar(&self) {}\nlet ([a, b, c, d], len) = last_code(x[1..].as_bytes());\nat -= len;\nSome((at, from_array_unchecked([a, b, c, d])))\n"),
]
# Of two units whether there is a second is asked of both.
PAIR = "if second == 0 {\n", "if (first as u32 | (second as u32) << 16) < 0x1_0000 {\n"

# In the copy for AVX2 what is inlined stays, and of each other function there is one for that CPU.
FOR_AVX2 = '#[target_feature(enable = "avx2,bmi1,bmi2,lzcnt,popcnt")]\n'
WIDENED = [
    ("#[inline(always)]\nfn f(x: u8) -> u8 {\n    x\n}\n", None),
    ("#[inline]\nfn f(x: u8) {}\n", "#[inline(always)]\nfn f(x: u8) {}\n"),
    ("impl T for S {\n    #[inline(never)]\n    fn f(x: u8) {}\n}\n", None),
    ("// It is.\n#[cold]\n#[inline(never)]\npub(crate) fn f<'a, O: Put<A, B>, const N: usize>(x: &'a [u8], out: &mut O) -> (u8, u8)\nwhere\n    O: Copy,\n{\n    x\n}\n",
     "// It is.\n#[inline(always)]\npub(crate) fn f<'a, O: Put<A, B>, const N: usize>(x: &'a [u8], out: &mut O) -> (u8, u8)\nwhere\n    O: Copy,\n{\n"
     f"    crate::support::processor::apart!(f_apart::<O, N>(x, out))\n}}\n\n#[cold]\n#[inline(never)]\n{FOR_AVX2}"
     "unsafe fn f_apart<'a, O: Put<A, B>, const N: usize>(x: &'a [u8], out: &mut O) -> (u8, u8)\nwhere\n    O: Copy,\n{\n    x\n}\n"),
    ("use crate::{proved::{utf_base, utf_lanes}, support as std};\nuse crate::proved::utf_lanes::text_blocks::text_len;\n"
     "use crate::proved::recoding::form::Form;\nuse std::simd::prelude::*;\n",
     "use crate::{proved::{utf_base, utf_lanes::wide as utf_lanes}, support::wide as std};\n"
     "use crate::proved::utf_lanes::wide::text_blocks::text_len;\nuse crate::proved::recoding::form::Form;\nuse std::simd::prelude::*;\n"),
]
# Of the outlined methods the copy inlines those of `rules.IN_LINE`.
IN_LINE = [
    ("recoding/kernels.rt", "impl T for S {\n    #[inline(never)]\n    fn put_text(x: u8) {}\n}\n", "impl T for S {\n    #[inline(always)]\n    fn put_text(x: u8) {}\n}\n"),
    ("recoding/list.rt", "impl T for S {\n    #[inline(never)]\n    fn put_text(x: u8) {}\n}\n", None),
]
# With debug assertions nothing has to be inlined.
INLINED = [
    ("impl S {\n    /// Is.\n    #[inline(always)]\n    fn f() {}\n}\n", "impl S {\n    /// Is.\n    #[cfg_attr(not(debug_assertions), inline(always))]\n    fn f() {}\n}\n"),
    ("#[inline(never)]\nfn f() {}\n#[inline]\nfn g() {}\n// #[inline(always)]\n", None),
]
# What `rules.COLD` names is not exported for each type, and of what the copy for AVX2 shares the crate sees the functions.
COOLED = [
    ("recoding/engine.rt", "// Is.\n#[inline(never)]\nfn recode_faults<'a, O: Output>(out: &mut O) {}\n", "// Is.\n#[cold]\npub(crate) fn recode_faults<'a, O: Output>(out: &mut O) {}\n"),
    ("recoding/text.rt", "trait T {\n    #[inline(never)]\n    fn put_at_end() {}\n}\n", "trait T {\n    #[cold]\n    fn put_at_end() {}\n}\n"),
    ("recoding/engine.rt", "#[inline(never)]\nfn recode_faults_of() {}\n", None),
    ("recoding/a.rt", "#[inline(never)]\nfn recode_faults() {}\n", None),
]
# The copy imports what exists once, and of a trait it has the method over its own vectors.
SHARED = [
    ("use crate::{support as std};\n\n// Is.\n#[derive(Clone)]\npub(crate) struct Room<'a> {\n    len: usize,\n}\n\nimpl<'a> Room<'a> {\n    fn new() -> Room<'a>\n    {\n        Room\n    }\n}\n\n"
     "use crate::proved::recoding::output::Output;\n\nimpl Output for Room<'_> {\n    // Is.\n    #[inline(always)]\n    fn room(&self) -> usize {\n        {\n        }\n    }\n\n"
     "    #[inline(always)]\n    fn put_wide(&mut self, block: u8x64) {}\n}\n\nimpl Other for Room<'_> {\n    fn room(&self) {}\n}\n",
     "pub(crate) use crate::proved::recoding::room::{Room};\nuse crate::{support::wide as std};\n\n"
     "use crate::proved::recoding::wide::output::Output;\nuse crate::proved::recoding::output::Output as _;\n\nimpl Output for Room<'_> {\n"
     "    #[inline(always)]\n    fn put_wider(&mut self, block: u8x64) {}\n}\n\nimpl Other for Room<'_> {\n    fn room(&self) {}\n}\n"),
    ("struct Room {\n}\n\npub(crate) trait Output {\n    // Is.\n    fn put(&mut self, bytes: &[u8]);\n\n    // Is.\n    fn put_wide(&mut self, block: u8x64);\n}\n",
     "pub(crate) trait Output: crate::proved::recoding::output::Output {\n    // Is.\n    fn put_wider(&mut self, block: u8x64);\n}\n"),
    ("struct Rooms {\n}\n", "`Room`, which exists once, is not there"),
]
# One function of each file is asked which copy runs, and the copy does not ask again.
ASKS = "pub fn text_len(bytes: &[u8]) -> usize\n{\n    0\n}\n"


def made(text, name="utf_base/a.rt", is_trusted=False, consts=()):
    project = Project(set(consts))
    project.read(Text(text, name))
    return Eraser(text, name, project, is_trusted).made()


def refuses(why, text, name="utf_base/a.rt"):
    consts = {"utf_base/a.rt:f"} if why == "cannot be const" else ()
    try:
        return f"it writes {made(text, name, consts=consts)!r}"
    except Stop as stop:
        return None if why in str(stop) else f"it says {stop}"


def writes(text, wanted, is_trusted=False, name="utf_base/a.rt"):
    try:
        have = made(text, name, is_trusted=is_trusted)
    except Stop as stop:
        return f"it says {stop}"
    return None if have == (text if wanted is None else wanted) else f"it writes {have!r}"


def widens(text, wanted, name="utf_lanes/a.rt"):
    have = widened(text, name)
    return None if have == (text if wanted is None else wanted) else f"it writes {have!r}"


def inlines(text, wanted):
    have = inlined(text)
    return None if have == (text if wanted is None else wanted) else f"it writes {have!r}"


def cools(name, text, wanted):
    seen = set()
    have = cooled(text, name, seen)
    is_right = have == (text if wanted is None else wanted) and len(seen) == (wanted is not None)
    return None if is_right else f"it writes {have!r}, and saw {seen}"


def shares(text, wanted):
    try:
        have = widened(text, "recoding/room.rt")
    except Stop as stop:
        return None if wanted in str(stop) else f"it says {stop}"
    return None if have == wanted else f"it writes {have!r}"


def by(text, wanted, name="utf_chars/utf8_char.rt"):
    try:
        have = tested_once(text, name if "pub fn" in text or not text else "utf_base/a.rt")
    except Stop as stop:
        return None if "no function is as rules.BY_BYTES names" in str(stop) and not text else f"it says {stop}"
    return None if have == (text if wanted is None else wanted) and text else f"it writes {have!r}"


def takes_apart(text, wanted, name="utf_chars/utf8_char.rt"):
    try:
        have = apart(text, "utf_base/a.rt" if "(&self)" in text else name)
    except Stop as stop:
        return None if re.search(r"no method is as rules.LENT names scalar|nothing is as rules.OF_BOTH names", str(stop)) and not text else f"it says {stop}"
    return None if have == wanted and text else f"it writes {have!r}"


def without_clauses(text):
    return re.sub(r"\n    (?:requires|ensures) .*", "", text)


def copies_no_group():
    try:
        return f"it writes {widened('use crate::proved::recoding::{engine::run};', 'utf_lanes/a.rt')!r}"
    except Stop as stop:
        return None if "names several files at once" in str(stop) else f"it says {stop}"


def asks():
    name, call = "utf_lanes/text_blocks.rt", "crate::support::processor::wide!("
    have = made(ASKS, name)
    copy = widened(have, name)
    is_right = have.count(call) == 1 and "utf_lanes::wide::text_blocks::text_len(bytes)" in have and call not in copy
    return None if is_right else f"it writes {have!r} and {copy!r}"


def adds_derives():
    """Of a type that rules.py names, and of no other."""
    text, name = "#[derive(Clone, Copy, Debug, Drop)]\npub struct Counts {\n    pub bytes: usize,\n}\n", "text_buffers/buffers/counts.rt"
    want = "#[non_exhaustive]\n" + text.replace("Drop", "Default, Hash")
    have, other = made(text, name), made(text.replace("Counts", "Others"), name)
    is_right = have == want and other == text.replace("Counts", "Others").replace(", Drop", "")
    return None if is_right else f"it writes {have!r} and {other!r}"


def keeps_other_files():
    """scripts/erase takes away what it made before, and writes into no folder that has other files."""
    with tempfile.TemporaryDirectory() as folder:
        open(f"{folder}/other", "w", encoding="utf-8").close()
        ran = subprocess.run([f"{TOP}/scripts/erase", folder], capture_output=True, text=True)
        is_kept = os.listdir(folder) == ["other"] and ran.returncode == 1 and "which is not made here" in ran.stderr
        return None if is_kept else f"it says {ran.stderr!r}, and there is {os.listdir(folder)}"


def main():
    if len(sys.argv) > 1:
        print(__doc__)
        return 0 if sys.argv[1] in ("-h", "--help") else 2
    tried = [("other files stay", keeps_other_files())]
    tried += [(why, refuses(why, *rest)) for why, *rest in REFUSED]
    tried += [(text, widens(text, wanted)) for text, wanted in WIDENED]
    tried += [(text, widens(text, wanted, name)) for name, text, wanted in IN_LINE]
    tried += [(text, inlines(text, wanted)) for text, wanted in INLINED]
    tried += [(text, cools(name, text, wanted)) for name, text, wanted in COOLED]
    tried += [(text, shares(text, wanted)) for text, wanted in SHARED]
    tried += [("derives that Rust's users expect", adds_derives())]
    tried += [("which copy answers is asked once", asks()), ("a group of files is not copied", copies_no_group())]
    tried += [(text, writes(text, wanted)) for text, wanted in WRITTEN]
    tried += [(text, writes(text, wanted, True)) for text, wanted in TRUSTED]
    tried += [(text, writes(text, wanted)) for text, wanted in IN_PART]
    tried += [(text, writes(text, without_clauses(text))) for text in NOT_IN_PART]
    tried += [(text, writes(text, without_clauses(text), True)) for text, _ in IN_PART[1:3]]
    tried += [(text, by(text, wanted)) for text, wanted in OVER_BYTES]
    tried += [(text, takes_apart(text, wanted)) for text, wanted in CODES] + [("a method that borrows is missing", takes_apart("", ""))]
    tried += [(PAIR[0], takes_apart(*PAIR, "utf_chars/utf16_char.rt")), ("a question of units is missing", takes_apart("", "", "utf_chars/utf16_char.rt"))]
    tried += [(PART, by(PART, OF_PART, "encode_unicode/text_window.rt"))]
    tried += [("a function over bytes is missing", by("", "", "encode_unicode/text_window.rt"))]
    tried += [("tokens are all of a text", None if "".join(it.text for it in tokens(text, "")) == text else "lost") for text, _ in WRITTEN]
    failed = [(what, how) for what, how in tried if how]
    for what, how in failed:
        print(f"FAILED: {what!r}: {how}")
    print(f"{len(tried) - len(failed)} passed, {len(failed)} failed")
    return 1 if failed else 0


if __name__ == "__main__":
    sys.exit(main())
