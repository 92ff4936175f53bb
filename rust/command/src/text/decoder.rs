//! Bytes back to rules, preference sheets and sets, as documents 01 and 02 lay out records.
//!
//! What is decoded has been read or written by the library, so that its layout is known to be right. The fields are
//! taken from the front, one behind the other: where a record ends shows when its last literal is taken, and nothing
//! here says how long records are.

use super::encoder::{DEFEASIBLE, END, OPPOSITION, OVERRIDE, SET};
use super::{Item, Literal, Rule, SignedAtom};

/// Bytes from which fields are taken.
struct Fields<'b> {
    rest: &'b [u8],
}

impl Fields<'_> {
    fn take<const N: usize>(&mut self) -> [u8; N] {
        let mut taken = [0; N];
        let (first, rest) = self.rest.split_at(N);
        taken.copy_from_slice(first);
        self.rest = rest;
        taken
    }

    fn byte(&mut self) -> u8 {
        let [byte] = self.take();
        byte
    }

    fn number(&mut self) -> u16 {
        u16::from_be_bytes(self.take())
    }

    fn mark(&mut self) -> [u8; 2] {
        self.take()
    }

    fn literal(&mut self) -> Literal {
        let (kind, tag, number) = (self.byte(), self.number(), self.number());
        let signed = if kind % 2 == 0 { SignedAtom::Atom(number) } else { SignedAtom::Negated(number) };
        match kind {
            0 | 1 => Literal::Signed(signed),
            2 | 3 => Literal::Defeated(tag, signed),
            4 | 5 => Literal::Derived(tag, signed),
            _ => Literal::RuleDefeated(number),
        }
    }

    fn literals(&mut self, count: usize) -> Vec<Literal> {
        (0..count).map(|_| self.literal()).collect()
    }

    /// The item of the next record; none where that is the end record.
    fn item(&mut self) -> Option<Item> {
        match self.mark() {
            END => None,
            OVERRIDE => Some(Item::Override(self.number(), self.number())),
            OPPOSITION => Some(Item::Opposition(self.literal(), self.literal())),
            mark => Some(Item::Rule(self.rule(mark))),
        }
    }

    /// The rule behind its mark.
    fn rule(&mut self, mark: [u8; 2]) -> Rule {
        let tag = self.number();
        let counts = [self.byte(), self.byte(), self.byte()];
        let [heads, positives, nafs] = counts.map(|count| self.literals(count.into()));
        Rule { tag: if mark == DEFEASIBLE { Some(tag) } else { None }, heads, positives, nafs }
    }
}

/// The items of a program that the library reads.
pub fn decode_program(bytes: &[u8]) -> Vec<Item> {
    let mut fields = Fields { rest: bytes };
    std::iter::from_fn(|| fields.item()).collect()
}

/// The rule whose record the library shows.
pub fn decode_rule(record: &[u8]) -> Rule {
    let mut fields = Fields { rest: record };
    let mark = fields.mark();
    fields.rule(mark)
}

/// Whether the bytes begin as a set's record does.
pub fn is_set_record(bytes: &[u8]) -> bool {
    bytes.starts_with(&SET)
}

/// The literals of a set that the library reads.
pub fn decode_set(bytes: &[u8]) -> Vec<Literal> {
    let mut fields = Fields { rest: bytes };
    fields.mark();
    let count = fields.number();
    fields.literals(count.into())
}

/// The literal whose bytes come first.
pub fn decode_literal(bytes: &[u8]) -> Literal {
    Fields { rest: bytes }.literal()
}
