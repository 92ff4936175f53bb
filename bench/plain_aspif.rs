//! Texts in aspif in plain safe Rust, the measure for the proved ones: the same refusals, the same bytes, the same word.
//!
//! Literals are marked as they are read, each at its place among all that there are; a literal's number is one more than the
//! marks below its own. Into a buffer that suffices for every text the text is written at once, else it is measured first. A
//! field is written as eight bytes whatever its length; what comes next covers the rest. Decimals are looked up.

use crate::limits::PLAIN;
use crate::plain_reader::{read, refusal};
use crate::writer::{end_record, rule_size, LITERAL, RULE_HEADER};

/// A text has at most so many bytes for a program of so many.
pub const fn bound(length: usize) -> usize {
    2 * length + 29_012
}

/// Places: rows by kind and tag, and in each row one for each number.
const ROW: usize = 512;
const TAGS: u32 = PLAIN.tags as u32;
const ROWS: u32 = 2 + 4 * TAGS + 1;
const WORDS: usize = ROWS as usize * ROW / 64;
const ROW_WORDS: usize = ROW / 64;

/// Of a kind: the row that tag 0 has or would have, the least tag, how many more there are, the largest number.
struct Kind {
    row: u32,
    least: u32,
    more: u32,
    numbers: u32,
}

const fn untagged(row: u32, numbers: u16) -> Kind {
    Kind { row, least: 0, more: 0, numbers: numbers as u32 }
}

const fn tagged(row: u32) -> Kind {
    Kind { row: row - 1, least: 1, more: TAGS - 1, numbers: PLAIN.atoms as u32 }
}

/// By the kind's byte; the last one stands for bytes that are no kind.
const KINDS: [Kind; 8] = [
    untagged(0, PLAIN.atoms),
    untagged(1, PLAIN.atoms),
    tagged(2),
    tagged(2 + TAGS),
    tagged(2 + 2 * TAGS),
    tagged(2 + 3 * TAGS),
    untagged(ROWS - 1, PLAIN.numbers),
    untagged(0, 0),
];

/// Eight bytes, highest first: a header or a literal and what stands behind it, an end record at least.
fn eight(bytes: &[u8], at: usize) -> Option<u64> {
    bytes.get(at..at + 8)?.try_into().ok().map(u64::from_be_bytes)
}

/// The five bytes of a literal, at the upper end of eight.
#[inline(always)]
fn five(literal: &[u8]) -> u64 {
    let [kind, t, g, n, r] = literal else { return 0 };
    u64::from_be_bytes([*kind, *t, *g, *n, *r, 0, 0, 0])
}

/// The counts of the strict rule's header that eight bytes start with.
fn counts(header: u64) -> Option<[usize; 3]> {
    let is_strict = header >> 32 == 0x533A_0000; // S: and tag 0
    is_strict.then_some([header >> 24, header >> 16, header >> 8].map(|count| (count & 0xFF) as usize))
}

#[inline(always)]
fn fields(literal: u64) -> (&'static Kind, u32, u32) {
    let kind = (literal >> 56) as usize;
    (&KINDS[kind.min(KINDS.len() - 1)], (literal >> 40) as u32 & 0xFFFF, (literal >> 24) as u32 & 0xFFFF)
}

/// The place of the literal that eight bytes start with: of each that the form takes one of its own.
#[inline(always)]
fn place(literal: u64) -> usize {
    let (kind, tag, number) = fields(literal);
    (kind.row + tag) as usize * ROW + number as usize
}

#[inline(always)]
fn is_taken(literal: u64) -> bool {
    let (kind, tag, number) = fields(literal);
    tag.wrapping_sub(kind.least) <= kind.more && number.wrapping_sub(1) < kind.numbers
}

/// Marks, and for each quarter of a word how many there are below it, sixteen bits each. A long program may have 65,536 and more:
/// then the quarters from `beyond` on have so many more below them. Twice as many there never are.
struct Marks<const LONG: bool> {
    bits: [u64; WORDS],
    below: [u64; WORDS],
    beyond: usize,
}

/// Programs of so many bytes and more are long.
const LONG_FROM: usize = LITERAL * MORE;
const MORE: usize = 65_536;

/// How many bits a byte has.
const ONES: [u8; 256] = {
    let mut ones = [0; 256];
    let mut byte = 1;
    while byte < 256 {
        ones[byte] = ones[byte / 2] + (byte % 2) as u8;
        byte += 1;
    }
    ones
};

/// Of a word's quarters, each in its own: how many bits it has.
fn quarters(word: u64) -> u64 {
    let pairs = word - (word >> 1 & 0x5555_5555_5555_5555);
    let fours = (pairs & 0x3333_3333_3333_3333) + (pairs >> 2 & 0x3333_3333_3333_3333);
    let bytes = (fours + (fours >> 4)) & 0x0F0F_0F0F_0F0F_0F0F;
    (bytes + (bytes >> 8)) & 0x00FF_00FF_00FF_00FF
}

/// The sums of each two quarters, without what they carry.
fn lanes_added(one: u64, other: u64) -> u64 {
    const LOW: u64 = 0x7FFF_7FFF_7FFF_7FFF;
    ((one & LOW) + (other & LOW)) ^ ((one ^ other) & !LOW)
}

impl<const LONG: bool> Marks<LONG> {
    /// Marks a program's literals, and counts the marks of each quarter if asked; none if the program is refused.
    fn read<const COUNTING: bool>(&mut self, program: &[u8]) -> Option<()> {
        let (mut at, mut held) = (0, 0);
        while let Some([h, b, c]) = eight(program, at).and_then(counts) {
            if h > PLAIN.heads || b > PLAIN.positives || c > PLAIN.nafs || held == PLAIN.rules {
                return None;
            }
            let end = at + rule_size(h + b + c);
            at += RULE_HEADER;
            while at < end {
                let place = eight(program, at).filter(|literal| is_taken(*literal)).map(place)?;
                let word = &mut self.bits[place / 64];
                if COUNTING {
                    let is_new = !*word >> (place % 64) & 1;
                    self.below[place / 64] += is_new << (place % 64 / 16 * 16);
                }
                *word |= 1 << (place % 64);
                at += LITERAL;
            }
            held += 1;
        }
        let is_whole = program.len() <= PLAIN.length && program.get(at..)? == end_record(held as u16);
        is_whole.then_some(())
    }

    /// Sums the counts up; rows without marks are passed over, for no one asks about them.
    fn sum<const COUNTED: bool>(&mut self) {
        const ALL: u64 = 0x0001_0001_0001_0001;
        let mut below = 0;
        let rows = self.bits.chunks_exact(ROW_WORDS).zip(self.below.chunks_exact_mut(ROW_WORDS)).enumerate();
        for (row, (bits, counts)) in rows.filter(|(_, (bits, _))| bits.iter().fold(0, |all, word| all | word) != 0) {
            for (i, (word, count)) in bits.iter().zip(counts).enumerate() {
                let upto = if COUNTED { *count } else { quarters(*word) }.wrapping_mul(ALL);
                if LONG {
                    *count = lanes_added(upto << 16, below % MORE as u64 * ALL);
                    if self.beyond == usize::MAX && below + (upto >> 48) >= MORE as u64 {
                        // The first quarter, of this word or the next one's first, with so many below it.
                        let is_beyond = |quarter: &usize| below + ((upto << 16) >> (16 * quarter) & 0xFFFF) >= MORE as u64;
                        self.beyond = 4 * (row * ROW_WORDS + i) + (0..4).find(is_beyond).unwrap_or(4);
                    }
                } else {
                    *count = (upto << 16) + below * ALL;
                }
                below += upto >> 48;
            }
        }
    }

    /// Marks and sums up; none if the program is refused. The marks of a short one are counted one by one: few words have any.
    fn number_all(&mut self, program: &[u8]) -> Option<()> {
        const SHORT: usize = 65_536;
        if program.len() < SHORT {
            self.read::<true>(program)?;
            self.sum::<true>();
        } else {
            self.read::<false>(program)?;
            self.sum::<false>();
        }
        Some(())
    }

    #[inline(always)]
    fn number(&self, place: usize) -> u32 {
        let quarter = place % 64 / 16 * 16;
        let lower = (self.bits[place / 64] >> quarter) as u32 & ((1 << (place % 16)) - 1);
        let ones = ONES[(lower & 0xFF) as usize] + ONES[(lower >> 8 & 0xFF) as usize];
        let more = if LONG && place / 16 >= self.beyond { MORE as u32 } else { 0 };
        (self.below[place / 64] >> quarter) as u32 % MORE as u32 + u32::from(ones) + 1 + more
    }

    /// The atoms that a word of a row marks.
    fn numbers(&self, row: usize, word: usize) -> Bits {
        Bits { word: self.bits[row * ROW_WORDS + word], first: 64 * word }
    }
}

/// The bits of a word, ascending, counted from a first number.
struct Bits {
    word: u64,
    first: usize,
}

impl Iterator for Bits {
    type Item = usize;

    fn next(&mut self) -> Option<usize> {
        let lowest = self.word.trailing_zeros() as usize;
        self.word &= self.word.wrapping_sub(1);
        (lowest < 64).then_some(self.first + lowest)
    }
}

/// Each number's decimal, the first digit lowest, and in the highest byte how many digits there are.
#[allow(long_running_const_eval)]
static DECIMALS: [u64; 2 * MORE] = {
    let mut decimals = [0; 2 * MORE];
    let mut number = 0;
    while number < decimals.len() {
        let (mut digits, mut count, mut rest) = (b'0' as u64 + number as u64 % 10, 1, number as u64 / 10);
        while rest > 0 {
            digits = digits << 8 | (b'0' as u64 + rest % 10);
            count += 1;
            rest /= 10;
        }
        decimals[number] = digits | count << 56;
        number += 1;
    }
    decimals
};

/// A number's digits, the first one lowest, and how many there are.
#[inline(always)]
fn decimal(number: u32) -> (u64, usize) {
    let decimal = DECIMALS[number as usize % DECIMALS.len()];
    (decimal & 0xFF_FFFF_FFFF, (decimal >> 56) as usize)
}

/// Writes a field, whose bytes are the lowest of eight, at an offset; the offset behind it. What is left of the eight is spoiled.
/// Offsets go from call to call by value: kept behind a reference, each would wait for the one before it to be stored.
#[inline(always)]
fn put(out: &mut [u8], to: usize, field: u64, length: usize) -> usize {
    out[to..to + 8].copy_from_slice(&field.to_le_bytes());
    to + length
}

/// What stands before a number, in `length` bytes, and the number.
#[inline(always)]
fn put_number(out: &mut [u8], to: usize, before: u64, length: usize, (digits, count): (u64, usize)) -> usize {
    put(out, to, before | digits << (8 * length), length + count)
}

fn put_text(out: &mut [u8], to: usize, text: &[u8]) -> usize {
    out[to..to + text.len()].copy_from_slice(text);
    to + text.len()
}

const fn field(text: [u8; 8]) -> u64 {
    u64::from_le_bytes(text)
}

/// The numbers of a part's literals, each behind these bytes.
#[inline(always)]
fn put_part<const LONG: bool>(marks: &Marks<LONG>, literals: &[u8], out: &mut [u8], mut to: usize, before: u64, length: usize) -> usize {
    for literal in literals.chunks_exact(LITERAL) {
        to = put_number(out, to, before, length, decimal(marks.number(place(five(literal)))));
    }
    to
}

/// The line of a rule with these counts, from its literals.
#[inline(always)]
fn put_rule<const LONG: bool>(marks: &Marks<LONG>, [h, b, c]: [usize; 3], literals: &[u8], out: &mut [u8], mut to: usize) -> usize {
    let (heads, body) = literals.split_at(LITERAL * h);
    let (positives, nafs) = body.split_at(LITERAL * b);
    to = put_number(out, to, field(*b"1 0 \0\0\0\0"), 4, decimal(h as u32));
    to = put_part(marks, heads, out, to, field(*b" \0\0\0\0\0\0\0"), 1);
    to = put_number(out, to, field(*b" 0 \0\0\0\0\0"), 3, decimal((b + c) as u32));
    to = put_part(marks, positives, out, to, field(*b" \0\0\0\0\0\0\0"), 1);
    to = put_part(marks, nafs, out, to, field(*b" -\0\0\0\0\0\0"), 2);
    put(out, to, b'\n'.into(), 1)
}

fn put_constraint(positive: u32, negated: u32, out: &mut [u8], mut to: usize) -> usize {
    to = put(out, to, field(*b"1 0 0 0 "), 8);
    to = put_number(out, to, field(*b"2 \0\0\0\0\0\0"), 2, decimal(positive));
    to = put_number(out, to, b' '.into(), 1, decimal(negated));
    put(out, to, b'\n'.into(), 1)
}

fn put_name(letter: u8, atom: usize, number: u32, out: &mut [u8], mut to: usize) -> usize {
    let (digits, length) = decimal(atom as u32);
    to = put_number(out, to, field(*b"4 \0\0\0\0\0\0"), 2, decimal(1 + length as u32));
    to = put_number(out, to, field([b' ', letter, 0, 0, 0, 0, 0, 0]), 2, (digits, length));
    to = put_number(out, to, field(*b" 1 \0\0\0\0\0"), 3, decimal(number));
    put(out, to, b'\n'.into(), 1)
}

/// The longest line, and eight bytes that may be spoiled behind it.
const LINE: usize = 9 + 2 + 2 + (PLAIN.heads + PLAIN.positives + PLAIN.nafs) * 7 + 8;

/// A line made in a buffer of its own and copied without what is spoiled.
fn put_apart(out: &mut [u8], to: usize, line: impl FnOnce(&mut [u8]) -> usize) -> usize {
    let mut bytes = [0; LINE];
    let length = line(&mut bytes);
    put_text(out, to, &bytes[..length])
}

/// The rules' lines, all but the last in place: what they spoil the last one covers.
fn put_rules<const LONG: bool>(program: &[u8], marks: &Marks<LONG>, out: &mut [u8], mut to: usize) -> usize {
    let mut at = 0;
    while let Some(counts) = eight(program, at).and_then(counts) {
        let end = at + rule_size(counts.iter().sum());
        let literals = &program[at + RULE_HEADER..end];
        to = match program[end] {
            b'E' => put_apart(out, to, |line| put_rule(marks, counts, literals, line, 0)),
            _ => put_rule(marks, counts, literals, out, to),
        };
        at = end;
    }
    to
}

/// The atoms marked both ways.
fn clashes<const LONG: bool>(marks: &Marks<LONG>) -> impl Iterator<Item = usize> + '_ {
    (0..ROW_WORDS).flat_map(|word| {
        let (positive, negated) = (marks.numbers(0, word), marks.numbers(1, word));
        Bits { word: positive.word & negated.word, ..positive }
    })
}

/// The atoms of a row.
fn atoms<const LONG: bool>(marks: &Marks<LONG>, row: usize) -> impl Iterator<Item = usize> + '_ {
    (0..ROW_WORDS).flat_map(move |word| marks.numbers(row, word))
}

/// The constraints' and the names' lines, the last one apart, and the text's end.
fn put_tail<const LONG: bool>(marks: &Marks<LONG>, out: &mut [u8], mut to: usize) -> usize {
    for atom in clashes(marks) {
        to = put_constraint(marks.number(atom), marks.number(ROW + atom), out, to);
    }
    let mut left: u32 = marks.bits[..2 * ROW_WORDS].iter().map(|word| word.count_ones()).sum();
    for (row, letter) in [b'p', b'n'].into_iter().enumerate() {
        for atom in atoms(marks, row) {
            let number = marks.number(row * ROW + atom);
            left -= 1;
            to = match left {
                0 => put_apart(out, to, |line| put_name(letter, atom, number, line, 0)),
                _ => put_name(letter, atom, number, out, to),
            };
        }
    }
    put_text(out, to, b"0\n")
}

fn digits(number: u32) -> usize {
    decimal(number).1
}

/// The text's length.
fn measure<const LONG: bool>(program: &[u8], marks: &Marks<LONG>) -> usize {
    let (mut at, mut length) = (0, "asp 1 0 0\n0\n".len());
    while let Some([h, b, c]) = eight(program, at).and_then(counts) {
        length += "1 0  0 \n".len() + digits(h as u32) + digits((b + c) as u32) + (h + b + c) + c;
        let end = at + rule_size(h + b + c);
        for literal in program[at + RULE_HEADER..end].chunks_exact(LITERAL) {
            length += digits(marks.number(place(five(literal))));
        }
        at = end;
    }
    for atom in clashes(marks) {
        length += "1 0 0 0 2  \n".len() + digits(marks.number(atom)) + digits(marks.number(ROW + atom));
    }
    for row in 0..2 {
        for atom in atoms(marks, row) {
            length += "4 2 p 1 \n".len() + digits(atom as u32) + digits(marks.number(row * ROW + atom));
        }
    }
    length
}

pub fn aspif(program: &[u8], out: &mut [u8]) -> u64 {
    if program.len() < LONG_FROM {
        write_text::<false>(program, out)
    } else {
        write_text::<true>(program, out)
    }
}

fn write_text<const LONG: bool>(program: &[u8], out: &mut [u8]) -> u64 {
    let mut marks = Marks::<LONG> { bits: [0; WORDS], below: [0; WORDS], beyond: usize::MAX };
    if marks.number_all(program).is_none() {
        return read(&PLAIN, program);
    }
    if out.len() < bound(program.len()) && out.len() < measure(program, &marks) {
        return refusal(9, 0);
    }
    let to = put_text(out, 0, b"asp 1 0 0\n");
    let to = put_rules(program, &marks, out, to);
    put_tail(&marks, out, to) as u64
}
