//! The figures of document 01's forms, as document 02's ask 2 changes them, for Rust that tries or tells them: the crate's
//! tests, the command, whose messages name the limit that was passed, and the benchmark have this file as a module of
//! theirs. What is refused the library decides.

#![allow(dead_code)] // No one of them has a use for every figure.

pub struct Limits {
    pub length: usize,
    pub rules: usize,
    pub heads: usize,
    pub positives: usize,
    pub nafs: usize,
    pub defeasible: bool,
    pub kinds: u8,
    pub atoms: u16,
    pub tags: u16,
    pub numbers: u16,
    /// Literals of a set.
    pub set: usize,
    /// Literals of a set that is checked.
    pub checked: usize,
    /// Records of preference sheets, of each of their two kinds.
    pub sheets: usize,
}

pub const SOURCE: Limits = Limits {
    length: 64_388,
    rules: 256,
    heads: 16,
    positives: 16,
    nafs: 16,
    defeasible: true,
    kinds: 3,
    atoms: 500,
    tags: 200,
    numbers: 256,
    set: 1_000,
    checked: 64,
    sheets: 64,
};

pub const PLAIN: Limits =
    Limits { length: 456_708, rules: 20_992, nafs: 17, defeasible: false, kinds: 6, set: 5_352, sheets: 0, ..SOURCE };

/// A translation has at most so many times its source's bytes, to which each appended rule adds so many.
pub const TIMES_LONGER: usize = 13;
pub const APPENDED_RULE: usize = 17;
