//! Rules, preference sheets and sets to bytes, as documents 01 and 02 lay out records.

use super::{Item, Literal, Rule, SignedAtom};
use std::ops::Range;

pub const STRICT: [u8; 2] = *b"S:";
pub const DEFEASIBLE: [u8; 2] = *b"D:";
pub const OVERRIDE: [u8; 2] = *b"O:";
pub const OPPOSITION: [u8; 2] = *b"X:";
pub const END: [u8; 2] = *b"E:";
pub const SET: [u8; 2] = *b"A:";

/// The length of an end record: its mark and the number of rules.
pub const END_LENGTH: usize = 4;

/// A program's bytes, and where each item's record lies in them.
pub struct Encoded {
    pub bytes: Vec<u8>,
    pub records: Vec<Range<usize>>,
}

/// The items' records and the end record, which counts the rules. A part has at most 255 literals, a program at most
/// 65,535 rules.
pub fn encode_program(items: &[Item]) -> Encoded {
    let mut encoded = Encoded { bytes: Vec::new(), records: Vec::new() };
    for item in items {
        let start = encoded.bytes.len();
        encode_item(item, &mut encoded.bytes);
        encoded.records.push(start..encoded.bytes.len());
    }
    let rules = items.iter().filter(|item| item.is_rule()).count();
    encoded.bytes.extend(END);
    encoded.bytes.extend((rules as u16).to_be_bytes());
    encoded
}

/// An item's record by itself.
pub fn encode_record(item: &Item) -> Vec<u8> {
    let mut bytes = Vec::new();
    encode_item(item, &mut bytes);
    bytes
}

fn encode_item(item: &Item, bytes: &mut Vec<u8>) {
    match item {
        Item::Rule(rule) => encode_rule(rule, bytes),
        Item::Override(upper, lower) => {
            bytes.extend(OVERRIDE);
            bytes.extend(upper.to_be_bytes());
            bytes.extend(lower.to_be_bytes());
        }
        Item::Opposition(first, second) => {
            bytes.extend(OPPOSITION);
            bytes.extend(literal_bytes(*first));
            bytes.extend(literal_bytes(*second));
        }
    }
}

fn encode_rule(rule: &Rule, bytes: &mut Vec<u8>) {
    bytes.extend(if rule.tag.is_some() { DEFEASIBLE } else { STRICT });
    bytes.extend(rule.tag.unwrap_or(0).to_be_bytes());
    let parts = [&rule.heads, &rule.positives, &rule.nafs];
    bytes.extend(parts.map(|part| part.len() as u8));
    bytes.extend(parts.into_iter().flatten().flat_map(|literal| literal_bytes(*literal)));
}

/// A set's record: each literal once, ascending; none if there are more than its count can say.
pub fn encode_set(literals: &[Literal]) -> Option<Vec<u8>> {
    let mut members: Vec<_> = literals.iter().map(|literal| literal_bytes(*literal)).collect();
    members.sort_unstable();
    members.dedup();
    let count = u16::try_from(members.len()).ok()?;
    Some([&SET, &count.to_be_bytes(), &members.concat()[..]].concat())
}

fn literal_bytes(literal: Literal) -> [u8; 5] {
    let (kind, tag, number) = match literal {
        Literal::Signed(signed) => (sign(signed), 0, atom(signed)),
        Literal::Defeated(tag, signed) => (2 + sign(signed), tag, atom(signed)),
        Literal::Derived(tag, signed) => (4 + sign(signed), tag, atom(signed)),
        Literal::RuleDefeated(rule) => (6, 0, rule),
    };
    let ([t1, t0], [n1, n0]) = (tag.to_be_bytes(), number.to_be_bytes());
    [kind, t1, t0, n1, n0]
}

fn sign(signed: SignedAtom) -> u8 {
    match signed {
        SignedAtom::Atom(_) => 0,
        SignedAtom::Negated(_) => 1,
    }
}

fn atom(signed: SignedAtom) -> u16 {
    match signed {
        SignedAtom::Atom(atom) | SignedAtom::Negated(atom) => atom,
    }
}
