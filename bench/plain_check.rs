//! The check in plain safe Rust, the measure for the proved one: the same refusals in the same order, the same search, the
//! same word, the same witness. The program is read once into clauses over the set's positions; the search goes on those.

use crate::limits::Limits;
use crate::plain_reader::{read_whole, refusal};
use crate::plain_sets::{key, read_set, Rules, Set};
use crate::plain_sheets::Appended;
use crate::plain_translator::Out;
use crate::writer::{set_header, set_size, LITERAL};

/// What is left of a rule, for parts of the set: some body literal missing or some head literal present.
#[derive(Clone, Copy)]
struct Clause {
    body: u64,
    head: u64,
}

/// What is known of a part of the set: what it must hold, and what it may.
#[derive(Clone, Copy, PartialEq, Eq)]
struct Bounds {
    must: u64,
    may: u64,
}

/// The bit of a literal, the set's first literal highest, or none where it is not in the set.
fn bit(set: &Set, literal: &[u8]) -> Option<u64> {
    let literals = set.bytes.as_chunks::<LITERAL>().0;
    let place = literals.binary_search_by(|held| key(held).cmp(&key(literal))).ok()?;
    Some(1 << (literals.len() - 1 - place))
}

/// The position from 1 of the first literal whose opposite is in the set.
fn clash(set: &Set) -> Option<u64> {
    let has_opposite = |literal: &[u8]| literal[0] < 2 && set.holds(&[1 - literal[0], 0, 0, literal[3], literal[4]]);
    set.bytes.chunks_exact(LITERAL).position(has_opposite).map(|position| position as u64 + 1)
}

/// The clauses of the quotient, or the number of the first rule that does not hold in the set.
fn clauses(program: &[u8], rules: usize, appended: &Appended, set: &Set) -> Result<Vec<Clause>, u64> {
    let mut clauses = Vec::with_capacity(rules);
    for (rule, number) in Rules(program).zip(1..) {
        let Some(left) = rule.left(set) else { continue };
        let positives = rule.positives.chunks_exact(LITERAL);
        let Some(body) = positives.map(|literal| bit(set, literal)).try_fold(0, |all, one| Some(all | one?)) else {
            continue;
        };
        let kept = rule.options().enumerate().filter(|(i, _)| left >> i & 1 == 1);
        let head = kept.filter_map(|(_, literal)| bit(set, literal)).fold(0, |all, one| all | one);
        if head == 0 {
            return Err(number);
        }
        clauses.push(Clause { body, head });
    }
    append_clauses(&mut clauses, rules as u64, appended, set)?;
    Ok(clauses)
}

/// The clauses of appended rules, of which none is removed: each has one literal in its body, and one in its head.
fn append_clauses(clauses: &mut Vec<Clause>, rules: u64, appended: &Appended, set: &Set) -> Result<(), u64> {
    let bodies: Vec<Option<u64>> = appended.ways.iter().map(|way| bit(set, way.option())).collect();
    if bodies.iter().all(Option::is_none) {
        return Ok(());
    }
    let mut number = rules;
    for (i, lower) in appended.lowers.iter().enumerate() {
        for (way, body) in appended.ways.iter().zip(&bodies).filter(|(way, _)| way.is_under(i)) {
            number += 1;
            let Some(body) = *body else { continue };
            let head = bit(set, &way.mark(*lower)).ok_or(number)?;
            clauses.push(Clause { body, head });
        }
    }
    Ok(())
}

/// What a mask has besides its lowest position.
fn without_lowest(mask: u64) -> u64 {
    mask & mask.wrapping_sub(1)
}

/// What one clause forces, or none where it can no longer hold. A literal in body and head alike forces nothing.
fn force(clause: Clause, bounds: Bounds) -> Option<Bounds> {
    let Bounds { must, may } = bounds;
    let met = (clause.body & !may) | (clause.head & must);
    let (needed, left) = (clause.body & !must, clause.head & may);
    if met | without_lowest(needed | left) != 0 {
        return Some(bounds);
    }
    match (needed, left) {
        (0, 0) => None,
        (0, left) => Some(Bounds { must: must | left, may }),
        (needed, 0) => Some(Bounds { must, may: may ^ needed }),
        _ => Some(bounds),
    }
}

/// How often each position stood in some masks: a mask for each binary digit of the counts.
#[derive(Clone, Copy, Default)]
struct Tally([u64; 8]);

impl Tally {
    fn add(&mut self, mut mask: u64) {
        for digit in &mut self.0 {
            (*digit, mask) = (*digit ^ mask, *digit & mask);
        }
    }

    /// The positions of a mask that were counted most often.
    fn most(&self, mask: u64) -> u64 {
        self.0.iter().rev().fold(mask, |left, digit| if left & digit == 0 { left } else { left & digit })
    }
}

/// The clauses of a search, the first of which is that not the whole set is there.
struct Search {
    whole: Clause,
    clauses: Vec<Clause>,
}

impl Search {
    /// Everything that the clauses force, sweep by sweep.
    fn propagate(&self, mut bounds: Bounds) -> Option<Bounds> {
        loop {
            let before = bounds;
            bounds = force(self.whole, bounds)?;
            for &clause in &self.clauses {
                bounds = force(clause, bounds)?;
            }
            if bounds == before {
                return Some(bounds);
            }
        }
    }

    /// An open literal: most often in clauses with two open literals, then in longer ones.
    fn pick(&self, must: u64, may: u64) -> u64 {
        let (mut pairs, mut longer) = (Tally::default(), Tally::default());
        for &Clause { body, head } in &self.clauses {
            if (body & !may) | (head & must) == 0 {
                let open = (body & !must) | (head & may);
                let pair = if without_lowest(without_lowest(open)) == 0 { open } else { 0 };
                pairs.add(pair);
                longer.add(open ^ pair);
            }
        }
        1 << longer.most(pairs.most(may ^ must)).ilog2()
    }

    /// Any model between the bounds.
    fn any(&self, bounds: Bounds) -> Option<u64> {
        let Bounds { must, may } = self.propagate(bounds)?;
        if must == may {
            return Some(must);
        }
        let open = self.pick(must, may);
        self.any(Bounds { must, may: may ^ open }).or_else(|| self.any(Bounds { must: must | open, may }))
    }

    /// The first model between the bounds, absent before present: from any one, literal by literal.
    fn first(&self, bounds: Bounds) -> Option<u64> {
        let mut model = self.any(bounds)?;
        let Bounds { mut must, mut may } = bounds;
        while must != may {
            let open = 1 << (may ^ must).ilog2();
            if model & open == 0 {
                may ^= open;
            } else if let Some(other) = self.any(Bounds { must, may: may ^ open }) {
                model = other;
                may ^= open;
            } else {
                must |= open;
            }
        }
        Some(must)
    }
}

/// The A: record of the literals whose bits are in the model, at the start of `out`.
fn write_picked(set: &Set, model: u64, out: &mut [u8]) -> u64 {
    let count = model.count_ones() as u16;
    let mut out = Out { bytes: out, to: 0 };
    out.put(&set_header(count));
    let size = set.bytes.len() / LITERAL;
    for (i, literal) in set.bytes.chunks_exact(LITERAL).enumerate() {
        if model >> (size - 1 - i) & 1 == 1 {
            out.put(literal);
        }
    }
    set_size(count as usize) as u64
}

fn verdict(limits: &Limits, program: &[u8], record: &[u8], out: &mut [u8]) -> Result<u64, u64> {
    let held = read_whole(limits, program)?;
    let set = read_set(limits, limits.checked, record)?;
    if out.len() < record.len() {
        return Err(refusal(9, 0));
    }
    if let Some(position) = clash(&set) {
        return Ok((1 << 32) + position);
    }
    let appended = if held.has_sheets { Appended::of(program) } else { Appended::default() };
    let clauses = match clauses(program, held.rules, &appended, &set) {
        Ok(clauses) => clauses,
        Err(rule) => return Ok((2 << 32) + rule),
    };
    let all = u64::MAX.checked_shr(64 - (set.bytes.len() / LITERAL) as u32).unwrap_or(0);
    let search = Search { whole: Clause { body: all, head: 0 }, clauses };
    match search.first(Bounds { must: 0, may: all }) {
        None => Ok(0),
        Some(model) => Ok((3 << 32) + write_picked(&set, model, out)),
    }
}

pub fn check(limits: &Limits, program: &[u8], set: &[u8], out: &mut [u8]) -> u64 {
    match verdict(limits, program, set, out) {
        Ok(word) | Err(word) => word,
    }
}
