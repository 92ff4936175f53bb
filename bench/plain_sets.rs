//! Sets, quotients, extension and restriction in plain safe Rust, the measure for the proved ones: the same refusals in the
//! same order, the same bytes, the same word.

use crate::limits::{Limits, PLAIN, SOURCE};
use crate::plain_reader::{is_wrong, number, ranges, read, read_whole, refusal};
use crate::plain_sheets::{Appended, APPENDED};
use crate::plain_translator::{mark, Out};
use crate::writer::{end_record, literal, rule_size, set_header, set_size, sheet_size};
use crate::writer::{END, LITERAL, RULE_HEADER, SET_HEADER};

/// A literal's five bytes as one number: the order of numbers is the order of byte strings.
pub fn key(literal: &[u8]) -> u64 {
    u64::from_be_bytes([0, 0, 0, literal[0], literal[1], literal[2], literal[3], literal[4]])
}

/// A set that was read: its literals' bytes, ascending.
pub struct Set<'a> {
    pub bytes: &'a [u8],
}

impl Set<'_> {
    pub fn holds(&self, literal: &[u8]) -> bool {
        self.bytes.as_chunks::<LITERAL>().0.binary_search_by(|held| key(held).cmp(&key(literal))).is_ok()
    }

    fn defeats(&self, tag: &[u8], option: &[u8]) -> bool {
        self.holds(&mark(2, tag, option))
    }
}

/// The bytes of the set's literals, tested for mark, length and number, or the refusal.
fn set_literals(most: usize, set: &[u8]) -> Result<&[u8], u64> {
    let Some((header, bytes)) = set.split_at_checked(SET_HEADER) else {
        return Err(refusal(10, 0));
    };
    let count = number(&header[2..4]) as usize;
    if header[..2] != *b"A:" || bytes.len() != LITERAL * count {
        return Err(refusal(10, 0));
    }
    if count > most {
        return Err(refusal(12, 0));
    }
    Ok(bytes)
}

/// The set, of `most` literals at most, or the refusal.
pub fn read_set<'a>(limits: &Limits, most: usize, set: &'a [u8]) -> Result<Set<'a>, u64> {
    let bytes = set_literals(most, set)?;
    let (ranges, mut last) = (ranges(limits), 0);
    for (i, literal) in bytes.chunks_exact(LITERAL).enumerate() {
        let key = key(literal);
        if is_wrong(&ranges, literal) || last >= key {
            return Err(refusal(11, set_size(i)));
        }
        last = key;
    }
    Ok(Set { bytes })
}

/// A rule of a program that was read.
pub struct Rule<'a> {
    pub defeasible: bool,
    pub tag: &'a [u8],
    pub heads: &'a [u8],
    pub positives: &'a [u8],
    pub nafs: &'a [u8],
}

/// The rules that are written in a program that was read, in order.
pub struct Rules<'a>(pub &'a [u8]);

impl<'a> Iterator for Rules<'a> {
    type Item = Rule<'a>;

    fn next(&mut self) -> Option<Rule<'a>> {
        while self.0[0] != b'S' && self.0[0] != b'D' {
            if self.0[0] == b'E' {
                return None;
            }
            self.0 = &self.0[sheet_size(self.0[0])..];
        }
        let (header, rest) = self.0.split_at(RULE_HEADER);
        let (heads, rest) = rest.split_at(LITERAL * header[4] as usize);
        let (positives, rest) = rest.split_at(LITERAL * header[5] as usize);
        let (nafs, rest) = rest.split_at(LITERAL * header[6] as usize);
        self.0 = rest;
        Some(Rule { defeasible: header[0] == b'D', tag: &header[2..4], heads, positives, nafs })
    }
}

impl<'a> Rule<'a> {
    pub fn options(&self) -> impl Iterator<Item = &'a [u8]> {
        self.heads.chunks_exact(LITERAL)
    }

    /// Which heads the quotient leaves, a bit for each, or none if it removes the rule.
    pub fn left(&self, set: &Set) -> Option<u32> {
        if self.nafs.chunks_exact(LITERAL).any(|naf| set.holds(naf)) {
            return None;
        }
        if !self.defeasible {
            return Some((1 << self.heads.len() / LITERAL) - 1);
        }
        let mut left = 0;
        for (i, option) in self.options().enumerate() {
            left |= u32::from(!set.defeats(self.tag, option)) << i;
        }
        (left != 0).then_some(left)
    }
}

fn write_quotient(limits: &Limits, program: &[u8], set: &[u8], out: &mut [u8]) -> Result<usize, u64> {
    let held = read_whole(limits, program)?;
    let set = read_set(limits, limits.set, set)?;
    // What is left of each rule is searched for once, and kept for writing. Of appended rules all is left.
    let appended = if held.has_sheets { Appended::of(program) } else { Appended::default() };
    let mut kept = Vec::with_capacity(held.rules);
    let mut length = END + APPENDED * appended.count();
    for rule in Rules(program) {
        let left = rule.left(&set);
        if let Some(heads) = left {
            length += rule_size(heads.count_ones() as usize) + rule.positives.len();
        }
        kept.push(left);
    }
    if out.len() < length {
        return Err(refusal(9, 0));
    }
    let mut out = Out { bytes: out, to: 0 };
    let mut rules: u16 = 0;
    for (rule, left) in Rules(program).zip(kept) {
        let Some(heads) = left else { continue };
        let count = heads.count_ones() as u8;
        out.header(count, (rule.positives.len() / LITERAL) as u8, 0);
        if count as usize == rule.heads.len() / LITERAL {
            out.put(rule.heads);
        } else {
            for (_, option) in rule.options().enumerate().filter(|(i, _)| heads >> i & 1 == 1) {
                out.put(option);
            }
        }
        out.put(rule.positives);
        rules += 1;
    }
    appended.write(&mut out);
    out.put(&end_record(rules + appended.count() as u16));
    Ok(length)
}

/// The derivation and rule-defeated marks that a source program gives to a set, ascending.
fn added_marks(program: &[u8], set: &Set) -> Vec<u64> {
    let mut marks = Vec::new();
    for (rule, number) in Rules(program).zip(1u16..) {
        if !rule.defeasible {
            continue;
        }
        let mut all_defeated = true;
        for option in rule.options() {
            if !set.defeats(rule.tag, option) {
                all_defeated = false;
                if set.holds(option) {
                    marks.push(key(&mark(4, rule.tag, option)));
                }
            }
        }
        if all_defeated {
            marks.push(key(&literal(6, 0, number)));
        }
    }
    marks.sort_unstable();
    marks.dedup();
    marks
}

fn write_extension(program: &[u8], set: &[u8], out: &mut [u8]) -> Result<usize, u64> {
    let held = read(&SOURCE, program);
    if held >> 63 == 1 {
        return Err(held);
    }
    let set = read_set(&SOURCE, SOURCE.set, set)?;
    let marks = added_marks(program, &set);
    // Every mark added lies behind every literal of a source set.
    write_set(out, set.bytes, &marks)
}

fn write_restriction(set: &[u8], out: &mut [u8]) -> Result<usize, u64> {
    let bytes = set_literals(PLAIN.set, set)?;
    let (ranges, mut before) = (ranges(&PLAIN), 0);
    for (i, literal) in bytes.chunks_exact(LITERAL).enumerate() {
        let key = key(literal);
        if is_wrong(&ranges, literal) || key <= before {
            return Err(refusal(11, set_size(i)));
        }
        before = key;
    }
    // The kinds ascend, so what stays is the set's start.
    let stay = bytes.as_chunks::<LITERAL>().0.partition_point(|literal| literal[0] < 4);
    write_set(out, &bytes[..LITERAL * stay], &[])
}

/// An A: record of these literals and of these marks behind them, all ascending.
pub fn write_set(out: &mut [u8], literals: &[u8], marks: &[u64]) -> Result<usize, u64> {
    let count = literals.len() / LITERAL + marks.len();
    if out.len() < set_size(count) {
        return Err(refusal(9, 0));
    }
    let mut out = Out { bytes: out, to: 0 };
    out.put(&set_header(count as u16));
    out.put(literals);
    for mark in marks {
        out.put(&mark.to_be_bytes()[3..]);
    }
    Ok(set_size(count))
}

fn word(answer: Result<usize, u64>) -> u64 {
    match answer {
        Ok(length) => length as u64,
        Err(refused) => refused,
    }
}

pub fn quotient(limits: &Limits, program: &[u8], set: &[u8], out: &mut [u8]) -> u64 {
    word(write_quotient(limits, program, set, out))
}

pub fn extend(program: &[u8], set: &[u8], out: &mut [u8]) -> u64 {
    word(write_extension(program, set, out))
}

pub fn restrict(set: &[u8], out: &mut [u8]) -> u64 {
    word(write_restriction(set, out))
}
