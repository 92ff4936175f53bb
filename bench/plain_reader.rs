//! A reader in plain safe Rust, the fastest that we could write, the measure for the proved one: the same tests in the same order, the same
//! word. What may stand behind a kind comes from a table; with a match of three arms plain programs were read at 0.4 of this speed.

use crate::limits::Limits;
use crate::writer::{rule_size, sheet_size, END, LITERAL, OPPOSITION, OVERRIDE, RULE_HEADER};

pub fn refusal(number: u64, place: usize) -> u64 {
    (1 << 63) + (number << 32) + place as u64
}

pub fn number(bytes: &[u8]) -> u16 {
    u16::from_be_bytes([bytes[0], bytes[1]])
}

/// What may stand behind a kind: tags from `low` to `span` above it, numbers from 1 to `most`.
#[derive(Clone, Copy)]
pub struct Ranges {
    low: u16,
    span: u16,
    most: u16,
}

/// The ranges by the kind's lower three bits; no number is right with a kind that the form does not have.
pub fn ranges(limits: &Limits) -> [Ranges; 8] {
    std::array::from_fn(|kind| match kind as u8 {
        kind if kind > limits.kinds || kind > 6 => Ranges { low: 0, span: 0, most: 0 },
        0..=1 => Ranges { low: 0, span: 0, most: limits.atoms },
        2..=5 => Ranges { low: 1, span: limits.tags - 1, most: limits.atoms },
        _ => Ranges { low: 0, span: 0, most: limits.numbers },
    })
}

/// Whether a literal is wrong, without a branch.
pub fn is_wrong(ranges: &[Ranges; 8], literal: &[u8]) -> bool {
    let (kind, tag, atom) = (literal[0], number(&literal[1..3]), number(&literal[3..5]));
    let Ranges { low, span, most } = ranges[(kind & 7) as usize];
    (kind > 7) | (tag.wrapping_sub(low) > span) | (atom.wrapping_sub(1) >= most)
}

/// The length of the rule's record at the start of `part`, or its refusal.
#[inline(always)]
fn rule(limits: &Limits, ranges: &[Ranges; 8], options: bool, part: &[u8], held: usize, at: usize) -> Result<usize, u64> {
    if part.len() < RULE_HEADER {
        return Err(refusal(2, at));
    }
    if held >= limits.rules {
        return Err(refusal(4, at));
    }
    let tag = number(&part[2..4]);
    if if options { !(1..=limits.tags).contains(&tag) } else { tag != 0 } {
        return Err(refusal(6, at));
    }
    let (h, b, c) = (part[4] as usize, part[5] as usize, part[6] as usize);
    if h > limits.heads || b > limits.positives || c > limits.nafs {
        return Err(refusal(4, at));
    }
    let size = rule_size(h + b + c);
    if part.len() < size {
        return Err(refusal(2, at));
    }
    for (i, literal) in part[RULE_HEADER..size].chunks_exact(LITERAL).enumerate() {
        if is_wrong(ranges, literal) {
            return Err(refusal(5, at + rule_size(i)));
        }
    }
    if options && (h == 0 || part[RULE_HEADER..rule_size(h)].chunks_exact(LITERAL).any(|literal| literal[0] > 1)) {
        return Err(refusal(7, at));
    }
    Ok(size)
}

/// How many records of sheets are held, of each kind.
#[derive(Default)]
struct Sheets {
    overrides: usize,
    oppositions: usize,
}

/// The length of the sheet's record at the start of `part`, or its refusal. Apart from the rest: most sources have none.
#[cold]
#[inline(never)]
fn sheet(limits: &Limits, ranges: &[Ranges; 8], part: &[u8], held: &mut Sheets, at: usize) -> Result<usize, u64> {
    let is_override = part[..2] == *b"O:";
    if limits.sheets == 0 || !is_override && part[..2] != *b"X:" {
        return Err(refusal(3, at));
    }
    let (count, size) =
        if is_override { (&mut held.overrides, OVERRIDE) } else { (&mut held.oppositions, OPPOSITION) };
    if *count >= limits.sheets {
        return Err(refusal(4, at));
    }
    *count += 1;
    if part.len() < size {
        return Err(refusal(2, at));
    }
    let (first, second) = part[2..size].split_at((size - 2) / 2);
    if is_override {
        if [first, second].iter().any(|tag| !(1..=limits.tags).contains(&number(tag))) {
            return Err(refusal(6, at));
        }
    } else {
        for (i, option) in [first, second].into_iter().enumerate() {
            if option[0] > 1 || is_wrong(ranges, option) {
                return Err(refusal(5, at + 2 + LITERAL * i));
            }
        }
    }
    if first == second {
        return Err(refusal(14, at));
    }
    Ok(size)
}

/// What a program that was read holds.
pub struct Held {
    pub rules: usize,
    pub has_sheets: bool,
}

pub fn read(limits: &Limits, bytes: &[u8]) -> u64 {
    match read_whole(limits, bytes) {
        Ok(held) => held.rules as u64,
        Err(word) => word,
    }
}

/// What the program holds, or its refusal.
pub fn read_whole(limits: &Limits, bytes: &[u8]) -> Result<Held, u64> {
    if bytes.len() > limits.length {
        return Err(refusal(1, 0));
    }
    let ranges = ranges(limits);
    let (mut at, mut held, mut sheets) = (0, 0, Sheets::default());
    loop {
        let part = &bytes[at..];
        if part.len() < 2 {
            return Err(refusal(2, at));
        }
        match &part[..2] {
            b"S:" => at += rule(limits, &ranges, false, part, held, at)?,
            b"D:" if limits.defeasible => at += rule(limits, &ranges, true, part, held, at)?,
            b"E:" => {
                if part.len() < END {
                    return Err(refusal(2, at));
                }
                if number(&part[2..4]) as usize != held || part.len() != END {
                    return Err(refusal(8, at));
                }
                return Ok(Held { rules: held, has_sheets: sheets.overrides + sheets.oppositions > 0 });
            }
            _ => {
                at += sheet(limits, &ranges, part, &mut sheets, at)?;
                continue;
            }
        }
        held += 1;
    }
}

/// The length of the rule's record at the start of `part`, by its counts.
pub fn record_size(part: &[u8]) -> usize {
    rule_size(part[4..7].iter().map(|&count| count as usize).sum())
}

/// Where the record of a rule lies, from 1: its start and its length. The program is read, then its records are passed.
pub fn show(limits: &Limits, bytes: &[u8], rule: u32) -> u64 {
    let held = match read_whole(limits, bytes) {
        Ok(held) => held,
        Err(word) => return word,
    };
    if rule == 0 || rule as usize > held.rules {
        return refusal(13, 0);
    }
    let size = |at: usize| record_size(&bytes[at..]);
    let behind_sheets = |mut at: usize| {
        while matches!(bytes[at], b'O' | b'X') {
            at += sheet_size(bytes[at]);
        }
        at
    };
    let start = if held.has_sheets {
        (1..rule).fold(behind_sheets(0), |at, _| behind_sheets(at + size(at)))
    } else {
        (1..rule).fold(0, |at, _| at + size(at))
    };
    ((start as u64) << 32) + size(start) as u64
}
