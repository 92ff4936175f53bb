//! The text form of programs and sets, and the bytes that it stands for.
//!
//! The text form fixes layout alone: what a program or a set may hold is the library's to say. `parser` refuses only
//! what has no bytes at all.

mod decoder;
mod encoder;
mod lexer;
mod listing;
mod names;
mod parser;
#[cfg(test)]
mod tests;

pub use decoder::{decode_literal, decode_program, decode_rule, decode_set, is_set_record};
pub use encoder::{encode_program, encode_record, encode_set, Encoded, END_LENGTH};
pub use listing::{list_item, list_literal, list_names, list_program, list_rule, list_set};
pub use names::Names;
pub use parser::{holds_set, parse_program, parse_set, parse_steps, Parsed, Step, Steps};

use std::fmt;

/// An atom or its explicit negation.
#[derive(Clone, Copy, Debug, PartialEq, Eq)]
pub enum SignedAtom {
    Atom(u16),
    Negated(u16),
}

/// A literal; the marks' first number is their tag.
#[derive(Clone, Copy, Debug, PartialEq, Eq)]
pub enum Literal {
    Signed(SignedAtom),
    Defeated(u16, SignedAtom),
    Derived(u16, SignedAtom),
    /// With a rule's number.
    RuleDefeated(u16),
}

/// A rule: strict, or defeasible with a tag.
#[derive(Clone, Debug, Default, PartialEq, Eq)]
pub struct Rule {
    pub tag: Option<u16>,
    pub heads: Vec<Literal>,
    pub positives: Vec<Literal>,
    pub nafs: Vec<Literal>,
}

/// What stands in a program before its end: a rule, or a record of a preference sheet.
#[derive(Clone, Debug, PartialEq, Eq)]
pub enum Item {
    Rule(Rule),
    /// The first tag overrides the second.
    Override(u16, u16),
    /// The two options oppose each other.
    Opposition(Literal, Literal),
}

impl Item {
    pub fn into_rule(self) -> Option<Rule> {
        match self {
            Item::Rule(rule) => Some(rule),
            Item::Override(..) | Item::Opposition(..) => None,
        }
    }

    pub fn is_rule(&self) -> bool {
        matches!(self, Item::Rule(_))
    }

    /// What messages call it; a rule by this number.
    pub fn title(&self, rule: usize) -> String {
        match self {
            Item::Rule(_) => format!("rule {rule}"),
            Item::Override(..) => "override".to_owned(),
            Item::Opposition(..) => "opposition".to_owned(),
        }
    }
}

/// Where something stands in a text, from 1.
#[derive(Clone, Copy, Debug, PartialEq, Eq)]
pub struct Place {
    pub line: usize,
    pub column: usize,
}

/// Why a text is no program or set.
#[derive(Clone, Debug, PartialEq, Eq)]
pub struct TextError {
    pub place: Place,
    pub message: String,
}

impl fmt::Display for TextError {
    fn fmt(&self, f: &mut fmt::Formatter<'_>) -> fmt::Result {
        write!(f, "line {}, column {}: {}", self.place.line, self.place.column, self.message)
    }
}

fn error<T>(place: Place, message: impl Into<String>) -> Result<T, TextError> {
    Err(TextError { place, message: message.into() })
}
