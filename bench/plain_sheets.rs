//! What preference sheets append, in plain safe Rust: the measure for the proved expansion.
//!
//! An override is a bit of a mask. An option has a mask of the overrides whose upper tag heads it and one of those whose lower
//! tag does; of two that oppose, the two masks together say under which overrides a rule is appended, and a rule is written
//! from what it has in common with the other overrides'.

use crate::plain_reader::number;
use crate::plain_translator::Out;
use crate::writer::{end_record, rule_header, rule_size, sheet_size, Literal, END, LITERAL, RULE_HEADER};

/// A strict rule with one head and one positive literal.
pub const APPENDED: usize = rule_size(2);
const TAG: usize = RULE_HEADER + 1;
/// A place for each option: its kind and its atom.
const PLACES: usize = 1_024;

/// One option that speaks against another: the rule that is appended, the lower tag missing, and under which overrides.
pub struct Way {
    rule: [u8; APPENDED],
    overrides: u64,
}

impl Way {
    /// The option whose presence defeats the other.
    pub fn option(&self) -> &[u8] {
        &self.rule[RULE_HEADER + LITERAL..]
    }

    /// The rule's head under the override that has this lower tag.
    pub fn mark(&self, lower: [u8; 2]) -> Literal {
        [self.rule[RULE_HEADER], lower[0], lower[1], self.rule[TAG + 2], self.rule[TAG + 3]]
    }

    pub fn is_under(&self, index: usize) -> bool {
        self.overrides >> index & 1 == 1
    }
}

/// The rules that a program's sheets append, in order: for each lower tag each way under its override.
#[derive(Default)]
pub struct Appended {
    pub lowers: Vec<[u8; 2]>,
    pub ways: Vec<Way>,
}

fn place(option: &[u8]) -> usize {
    (option[0] as usize * 512 + number(&option[3..5]) as usize) % PLACES
}

/// The overrides that name each tag as their upper one, and as their lower one.
struct ByTag {
    upper: [u64; 256],
    lower: [u64; 256],
}

/// The overrides whose upper tag heads each option, and those whose lower tag does.
struct ByOption {
    upper: [u64; PLACES],
    lower: [u64; PLACES],
}

impl ByOption {
    fn of(program: &[u8], tags: &ByTag) -> ByOption {
        let mut options = ByOption { upper: [0; PLACES], lower: [0; PLACES] };
        let mut at = 0;
        while program[at] != b'E' {
            let record = &program[at..];
            if record[0] == b'D' {
                let tag = record[3] as usize;
                let (upper, lower) = (tags.upper[tag], tags.lower[tag]);
                if upper | lower != 0 {
                    for head in record[RULE_HEADER..rule_size(record[4] as usize)].chunks_exact(LITERAL) {
                        let place = place(head);
                        options.upper[place] |= upper;
                        options.lower[place] |= lower;
                    }
                }
            }
            at += record_size(record);
        }
        options
    }
}

/// The length of the record at the start of `part`, a rule's or a sheet's.
pub fn record_size(part: &[u8]) -> usize {
    match part[0] {
        b'S' | b'D' => crate::plain_reader::record_size(part),
        letter => sheet_size(letter),
    }
}

impl Appended {
    /// What the sheets of a program that was read append.
    pub fn of(program: &[u8]) -> Appended {
        let mut tags = ByTag { upper: [0; 256], lower: [0; 256] };
        let (mut lowers, mut earlier, mut pairs) = (Vec::with_capacity(64), Vec::with_capacity(64), Vec::with_capacity(64));
        let mut at = 0;
        while program[at] != b'E' {
            let record = &program[at..];
            match record[0] {
                b'O' => {
                    let bit = 1 << lowers.len();
                    tags.upper[record[3] as usize] |= bit;
                    let of_lower = &mut tags.lower[record[5] as usize];
                    earlier.push(*of_lower);
                    *of_lower |= bit;
                    lowers.push([record[4], record[5]]);
                }
                b'X' => {
                    let (one, other) = (&record[2..2 + LITERAL], &record[2 + LITERAL..2 + 2 * LITERAL]);
                    // Two that oppose already add nothing, turned round or not.
                    let is_new = pairs.iter().all(|&pair| pair != (one, other) && pair != (other, one));
                    if is_new {
                        pairs.push((one, other));
                    }
                }
                _ => (),
            }
            at += record_size(record);
        }
        if lowers.is_empty() || pairs.is_empty() {
            return Appended::default();
        }
        let options = ByOption::of(program, &tags);
        let repeated = earlier.iter().enumerate().fold(0, |all, (i, before)| all | u64::from(*before != 0) << i);
        let mut ways = Vec::with_capacity(2 * pairs.len());
        for (one, other) in pairs {
            for (a, b) in [(one, other), (other, one)] {
                let upper = options.upper[place(a)];
                let overrides = first_of_lower(upper, repeated, &earlier) & options.lower[place(b)];
                if overrides != 0 {
                    ways.push(Way { rule: rule(a, b), overrides });
                }
            }
        }
        Appended { lowers, ways }
    }

    pub fn count(&self) -> usize {
        self.ways.iter().map(|way| way.overrides.count_ones() as usize).sum()
    }

    /// Writes the rules' records.
    pub fn write(&self, out: &mut Out) {
        for (i, lower) in self.lowers.iter().enumerate() {
            for way in self.ways.iter().filter(|way| way.is_under(i)) {
                let to = out.to;
                let record: &mut [u8; APPENDED] = (&mut out.bytes[to..to + APPENDED]).try_into().unwrap();
                *record = way.rule;
                record[TAG..TAG + 2].copy_from_slice(lower);
                out.to += APPENDED;
            }
        }
    }
}

/// These overrides without those before which another one with the same lower tag stands among them.
fn first_of_lower(overrides: u64, repeated: u64, earlier: &[u64]) -> u64 {
    let mut first = overrides;
    let mut left = overrides & repeated;
    while left != 0 {
        let i = left.trailing_zeros() as usize;
        if overrides & earlier[i] != 0 {
            first &= !(1 << i);
        }
        left &= left - 1;
    }
    first
}

/// The rule by which a defeats b, the tag left open.
fn rule(a: &[u8], b: &[u8]) -> [u8; APPENDED] {
    let mut rule = [0; APPENDED];
    rule[..RULE_HEADER].copy_from_slice(&rule_header(0, 1, 1, 0));
    rule[RULE_HEADER..RULE_HEADER + LITERAL].copy_from_slice(&[2 + b[0], 0, 0, b[3], b[4]]);
    rule[RULE_HEADER + LITERAL..].copy_from_slice(a);
    rule
}

/// The runs of rules' records that no sheet's record parts, in a source that was read; the end record is in the last.
fn runs(source: &[u8]) -> impl Iterator<Item = &[u8]> {
    let mut rest = source;
    std::iter::from_fn(move || {
        while matches!(rest.first()?, b'O' | b'X') {
            rest = &rest[sheet_size(rest[0])..];
        }
        let mut at = 0;
        while matches!(rest[at], b'S' | b'D') {
            at += record_size(&rest[at..]);
        }
        let (run, behind) = rest.split_at(if rest[at] == b'E' { at + END } else { at });
        rest = behind;
        Some(run)
    })
}

/// A source that was read, its sheets left out.
pub fn without_sheets(source: &[u8]) -> Vec<u8> {
    let mut rules = Vec::with_capacity(source.len());
    runs(source).for_each(|run| rules.extend_from_slice(run));
    rules
}

/// The expanded program of a source that was read, as records: its length.
pub fn write_normal_form(source: &[u8], out: &mut [u8]) -> usize {
    let mut out = Out { bytes: out, to: 0 };
    runs(source).for_each(|run| out.put(run));
    out.to -= END;
    let rules = number(&source[source.len() - 2..]);
    let appended = Appended::of(source);
    appended.write(&mut out);
    out.put(&end_record(rules + appended.count() as u16));
    out.to
}
