//! Assembly in plain safe Rust, the fastest that we could write, the measure for the proved one: the same bytes of state,
//! any bytes taken for one, the same words.
//!
//! A state has eight bytes (0 before the first begin, 1 open, 2 closed; 0; the number of rules in two; zeros), then two
//! rows of a byte for each rule: a strict one's number of head literals or a defeasible one's and 127; and the number of
//! body literals. Both rows are zero behind the last rule. A pass over them goes by groups of rules, without a branch for
//! each: the groups that are held, the one in which the rules end, and those behind it.

use crate::limits::SOURCE;
use crate::plain_reader::{number, refusal};
use crate::writer::{end_record, rule_size, END, LITERAL, RULE_HEADER};

pub const STATE: usize = HEADER + 2 * SOURCE.rules;
const HEADER: usize = 8;
const OPEN: u8 = 1;
const CLOSED: u8 = 2;
/// A defeasible rule's byte is its number of heads, which is not 0, and so many more.
const DEFEASIBLE: u8 = 127;
const BODY: u8 = (SOURCE.positives + SOURCE.nafs) as u8;

/// Rules of a group, and of a step in it. Over a group's steps the number of literals at each place fits a byte.
const GROUP: usize = 64;
const STEP: usize = 16;
const _: () = assert!((GROUP / STEP) * (SOURCE.heads + BODY as usize) < 256);

/// So many zeros for rules that are held, then 255 for each behind them: a group where they end has a part of it.
static BEHIND: [u8; 2 * GROUP] = {
    let mut mask = [0; 2 * GROUP];
    let mut i = GROUP;
    while i < 2 * GROUP {
        mask[i] = 255;
        i += 1;
    }
    mask
};

/// What a state says: open or not, the rules held, the length of their records.
struct Held {
    stage: u8,
    rules: usize,
    length: usize,
}

/// What a state has where nothing was begun.
const NOTHING: Held = Held { stage: 0, rules: 0, length: 0 };

fn steps_of<'s>(
    heads: &'s [u8; GROUP],
    bodies: &'s [u8; GROUP],
) -> impl Iterator<Item = (&'s [u8; STEP], &'s [u8; STEP])> {
    heads.as_chunks().0.iter().zip(bodies.as_chunks().0)
}

/// Takes a group of rules into account: bits of `wrong` for what is none, and the number of its literals.
#[inline(always)]
fn measure(heads: &[u8; GROUP], bodies: &[u8; GROUP], wrong: &mut [u8; STEP]) -> u32 {
    let mut literals = [0u8; STEP];
    for (heads, bodies) in steps_of(heads, bodies) {
        for i in 0..STEP {
            let count = (heads[i] & DEFEASIBLE) + (heads[i] >> 7);
            wrong[i] |= count.saturating_sub(SOURCE.heads as u8) | bodies[i].saturating_sub(BODY);
            literals[i] = literals[i].wrapping_add(count.wrapping_add(bodies[i]));
        }
    }
    literals.iter().map(|&count| u32::from(count)).sum()
}

/// What these bytes say as a state; what is none says that nothing was begun.
#[inline(always)]
fn held(state: &[u8; STATE]) -> Held {
    let rules = usize::from(number(&state[2..4]));
    let stage = state[0];
    if state[1] != 0
        || state[4..HEADER] != [0; 4]
        || stage > CLOSED
        || rules > SOURCE.rules
        || (stage == 0 && rules != 0)
    {
        return NOTHING;
    }
    let (heads, bodies) = state[HEADER..].split_at(SOURCE.rules);
    let (heads, bodies) = (heads.as_chunks::<GROUP>().0, bodies.as_chunks::<GROUP>().0);
    let (mut wrong, mut literals) = ([0; STEP], 0);
    let mut left = rules;
    for (heads, bodies) in heads.iter().zip(bodies) {
        if left >= GROUP {
            literals += measure(heads, bodies, &mut wrong);
            left -= GROUP;
            continue;
        }
        if left > 0 {
            literals += measure(heads, bodies, &mut wrong);
        }
        let steps = BEHIND[GROUP - left..].as_chunks::<STEP>().0.iter();
        for ((heads, bodies), behind) in steps_of(heads, bodies).zip(steps) {
            for i in 0..STEP {
                wrong[i] |= (heads[i] | bodies[i]) & behind[i];
            }
        }
        left = 0;
    }
    if wrong.iter().fold(0, |all, one| all | one) != 0 {
        return NOTHING;
    }
    Held { stage, rules, length: RULE_HEADER * rules + LITERAL * literals as usize }
}

/// The state's bytes and what they say, if it is open.
#[inline(always)]
fn open(state: &mut [u8]) -> Result<(&mut [u8; STATE], Held), u64> {
    let state: &mut [u8; STATE] = state.try_into().map_err(|_| refusal(15, 0))?;
    let held = held(state);
    if held.stage != OPEN {
        return Err(refusal(15, 0));
    }
    Ok((state, held))
}

fn set_rules(state: &mut [u8; STATE], rules: usize) -> u64 {
    state[2..4].copy_from_slice(&(rules as u16).to_be_bytes());
    rules as u64
}

pub fn begin(state: &mut [u8], out: &[u8]) -> u64 {
    if state.len() != STATE {
        return refusal(15, 0);
    }
    if out.len() < END {
        return refusal(9, 0);
    }
    state.fill(0);
    state[0] = OPEN;
    0
}

/// A rule's record that was read: its length, its numbers of literals.
struct Rule {
    size: usize,
    heads: u8,
    body: u8,
    is_defeasible: bool,
}

/// A number below 0 if a source's literal is wrong, without a branch: kinds 0 and 1 have tag 0, kinds 2 and 3 one above.
#[inline(always)]
fn distance(literal: &[u8; LITERAL]) -> i32 {
    let [kind, behind @ ..] = *literal;
    let is_mark = u32::from(kind >> 1);
    // Tag and atom, each less its lowest; with atom 0 the lower half is the largest there is.
    let above = u32::from_be_bytes(behind).wrapping_sub((is_mark << 16) + 1);
    let (tag, atom) = ((above >> 16) as i32, (above & 0xFFFF) as i32);
    let most_tag = is_mark as i32 * (SOURCE.tags as i32 - 1);
    (i32::from(SOURCE.kinds) - i32::from(kind)) | (most_tag - tag) | (SOURCE.atoms as i32 - 1 - atom)
}

/// The record of a rule at the start of a slice, where so many rules are held.
#[inline(always)]
fn read(part: &[u8], rules: usize) -> Result<Rule, u64> {
    if part.len() < 2 {
        return Err(refusal(2, 0));
    }
    let is_defeasible = match &part[..2] {
        b"S:" => false,
        b"D:" => true,
        _ => return Err(refusal(3, 0)),
    };
    if part.len() < RULE_HEADER {
        return Err(refusal(2, 0));
    }
    if rules >= SOURCE.rules {
        return Err(refusal(4, 0));
    }
    let tag = number(&part[2..4]);
    if if is_defeasible { tag.wrapping_sub(1) >= SOURCE.tags } else { tag != 0 } {
        return Err(refusal(6, 0));
    }
    let (h, b, c) = (part[4] as usize, part[5] as usize, part[6] as usize);
    if h > SOURCE.heads || b > SOURCE.positives || c > SOURCE.nafs {
        return Err(refusal(4, 0));
    }
    let size = rule_size(h + b + c);
    if part.len() < size {
        return Err(refusal(2, 0));
    }
    let literals = part[RULE_HEADER..size].as_chunks::<LITERAL>().0;
    // All of them first: which one is wrong is asked where one is.
    if literals.iter().fold(0, |least, literal| least | distance(literal)) < 0 {
        let first = literals.iter().position(|literal| distance(literal) < 0).unwrap_or(0);
        return Err(refusal(5, rule_size(first)));
    }
    if is_defeasible && (h == 0 || literals[..h].iter().fold(0, |kinds, literal| kinds | literal[0]) > 1) {
        return Err(refusal(7, 0));
    }
    Ok(Rule { size, heads: h as u8, body: (b + c) as u8, is_defeasible })
}

fn added(state: &mut [u8], record: &[u8], out: &mut [u8]) -> Result<u64, u64> {
    let (state, Held { rules, length, .. }) = open(state)?;
    let rule = read(record, rules)?;
    if out.len() < length + rule.size + END {
        return Err(refusal(9, 0));
    }
    out[length..length + rule.size].copy_from_slice(&record[..rule.size]);
    state[HEADER + rules] = rule.heads + if rule.is_defeasible { DEFEASIBLE } else { 0 };
    state[HEADER + SOURCE.rules + rules] = rule.body;
    Ok(set_rules(state, rules + 1))
}

pub fn add(state: &mut [u8], record: &[u8], out: &mut [u8]) -> u64 {
    added(state, record, out).unwrap_or_else(|word| word)
}

pub fn drop(state: &mut [u8]) -> u64 {
    match open(state) {
        Ok((state, Held { rules, .. })) if rules > 0 => {
            state[HEADER + rules - 1] = 0;
            state[HEADER + SOURCE.rules + rules - 1] = 0;
            set_rules(state, rules - 1)
        }
        _ => refusal(15, 0),
    }
}

pub fn close(state: &mut [u8], out: &mut [u8]) -> u64 {
    let (state, Held { rules, length, .. }) = match open(state) {
        Ok(found) => found,
        Err(word) => return word,
    };
    if out.len() < length + END {
        return refusal(9, 0);
    }
    out[length..length + END].copy_from_slice(&end_record(rules as u16));
    state[0] = CLOSED;
    rules as u64
}

pub fn assembled(state: &[u8]) -> u64 {
    let length = state.try_into().map_or(0, |state| held(state).length);
    (length + END) as u64
}
