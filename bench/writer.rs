//! Programs and sets as bytes: each record that the benchmark makes, for an input or as plain Rust's result, is laid out here.

use std::collections::BTreeSet;

/// The bytes of a literal, and those before a rule's literals, before a set's literals, and of an end record.
pub const LITERAL: usize = 5;
pub const RULE_HEADER: usize = 7;
pub const SET_HEADER: usize = 4;
pub const END: usize = 4;
/// The bytes of a preference sheet's records.
pub const OVERRIDE: usize = 6;
pub const OPPOSITION: usize = 12;

pub type Literal = [u8; LITERAL];

pub fn literal(kind: u8, tag: u16, number: u16) -> Literal {
    let ([t, g], [n, r]) = (tag.to_be_bytes(), number.to_be_bytes());
    [kind, t, g, n, r]
}

pub fn atom(number: u16) -> Literal {
    literal(0, 0, number)
}

/// What stands before the literals of a rule with this tag, 0 for a strict one.
pub fn rule_header(tag: u16, heads: u8, positives: u8, nafs: u8) -> [u8; RULE_HEADER] {
    let [high, low] = tag.to_be_bytes();
    [if tag == 0 { b'S' } else { b'D' }, b':', high, low, heads, positives, nafs]
}

pub fn end_record(rules: u16) -> [u8; END] {
    let [high, low] = rules.to_be_bytes();
    [b'E', b':', high, low]
}

pub fn set_header(count: u16) -> [u8; SET_HEADER] {
    let [high, low] = count.to_be_bytes();
    [b'A', b':', high, low]
}

/// The length of a rule's record with so many literals.
pub const fn rule_size(literals: usize) -> usize {
    RULE_HEADER + LITERAL * literals
}

/// The length of a sheet's record with this letter.
pub const fn sheet_size(letter: u8) -> usize {
    if letter == b'O' {
        OVERRIDE
    } else {
        OPPOSITION
    }
}

/// The length of a set's record with so many literals.
pub const fn set_size(literals: usize) -> usize {
    SET_HEADER + LITERAL * literals
}

/// A program being written.
#[derive(Default)]
pub struct Program {
    bytes: Vec<u8>,
    rules: u16,
}

impl Program {
    /// A rule with this tag, 0 for a strict one.
    pub fn rule(&mut self, tag: u16, heads: &[Literal], positives: &[Literal], nafs: &[Literal]) {
        let [h, b, c] = [heads, positives, nafs].map(|part| part.len() as u8);
        self.bytes.extend(rule_header(tag, h, b, c));
        self.bytes.extend([heads, positives, nafs].concat().iter().flatten());
        self.rules += 1;
    }

    /// The first tag overrides the second.
    pub fn over(&mut self, upper: u16, lower: u16) {
        self.bytes.extend(b"O:");
        self.bytes.extend([upper.to_be_bytes(), lower.to_be_bytes()].concat());
    }

    /// The two options oppose each other.
    pub fn oppose(&mut self, one: Literal, other: Literal) {
        self.bytes.extend(b"X:");
        self.bytes.extend([one, other].concat());
    }

    /// The program's bytes, with the end record behind its rules.
    pub fn end(mut self) -> Vec<u8> {
        self.bytes.extend(end_record(self.rules));
        self.bytes
    }
}

/// The A: record of these literals.
pub fn set_record(literals: &BTreeSet<Literal>) -> Vec<u8> {
    let mut out = set_header(literals.len() as u16).to_vec();
    out.extend(literals.iter().flatten());
    out
}
