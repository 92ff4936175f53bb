//! A careful translator in plain safe Rust, the measure for the proved one: read, measure, write; the same bytes, the same word.

use crate::limits::SOURCE;
use crate::plain_reader::{read_whole, refusal};
use crate::plain_sheets::{without_sheets, Appended, APPENDED};
use crate::writer::{end_record, literal, rule_header, rule_size, Literal, END, LITERAL, RULE_HEADER};

/// The length of a record, of what its rule becomes, and the number of rules that it becomes.
fn sizes(record: &[u8]) -> (usize, usize, usize) {
    let (h, b, c) = (record[4] as usize, record[5] as usize, record[6] as usize);
    let size = rule_size(h + b + c);
    if record[0] == b'D' {
        (size, 66 * h + 5 * (b + c) + 24, 3 * h + 2)
    } else {
        (size, size, 1)
    }
}

/// Bytes written one behind the other into a lent slice.
pub struct Out<'a> {
    pub bytes: &'a mut [u8],
    pub to: usize,
}

impl Out<'_> {
    pub fn put(&mut self, bytes: &[u8]) {
        self.bytes[self.to..self.to + bytes.len()].copy_from_slice(bytes);
        self.to += bytes.len();
    }

    pub fn header(&mut self, heads: u8, positives: u8, nafs: u8) {
        self.put(&rule_header(0, heads, positives, nafs));
    }
}

/// The five bytes of an option's mark: 2 and 3 are defeated, 4 and 5 derived.
pub fn mark(first: u8, tag: &[u8], option: &[u8]) -> Literal {
    [first + option[0], tag[0], tag[1], option[3], option[4]]
}

fn write_defeasible(number: u16, record: &[u8], out: &mut Out) {
    let (h, b, c) = (record[4], record[5], record[6]);
    let tag = &record[2..4];
    let (options, body) = record[RULE_HEADER..].split_at(LITERAL * h as usize);
    let options = options.chunks_exact(LITERAL);
    let rule_defeated = literal(6, 0, number);
    out.header(h, b, c + 1);
    for option in options.clone() {
        out.put(&mark(4, tag, option));
    }
    out.put(body);
    out.put(&rule_defeated);
    out.header(1, h, 0);
    out.put(&rule_defeated);
    for option in options.clone() {
        out.put(&mark(2, tag, option));
    }
    for option in options {
        let (defeated, derived) = (mark(2, tag, option), mark(4, tag, option));
        out.header(1, 1, 0);
        out.put(option);
        out.put(&derived);
        out.header(1, 1, 1);
        out.put(&derived);
        out.put(option);
        out.put(&defeated);
        out.header(0, 2, 0);
        out.put(&derived);
        out.put(&defeated);
    }
}

pub fn translate(source: &[u8], out: &mut [u8]) -> u64 {
    match read_whole(&SOURCE, source) {
        Ok(held) if held.has_sheets => translate_rules(&without_sheets(source), &Appended::of(source), out),
        Ok(_) => translate_rules(source, &Appended::default(), out),
        Err(word) => word,
    }
}

/// The translation of a source without sheets, and behind it what is appended.
fn translate_rules(source: &[u8], appended: &Appended, out: &mut [u8]) -> u64 {
    let (mut at, mut length, mut made) = (0, END + APPENDED * appended.count(), appended.count());
    while source[at] != b'E' {
        let (size, becomes, rules) = sizes(&source[at..]);
        at += size;
        length += becomes;
        made += rules;
    }
    if out.len() < length {
        return refusal(9, 0);
    }
    let mut out = Out { bytes: out, to: 0 };
    let (mut at, mut number) = (0, 1);
    while source[at] != b'E' {
        let (size, _, _) = sizes(&source[at..]);
        let record = &source[at..at + size];
        if record[0] == b'D' {
            write_defeasible(number, record, &mut out);
        } else {
            out.put(record);
        }
        at += size;
        number += 1;
    }
    appended.write(&mut out);
    out.put(&end_record(made as u16));
    length as u64
}
