//! Programs drawn by chance, the same in every run: the longest sources, with preference sheets and without, sources of options
//! alone, and plain programs as long as the translation of a source without sheets can be.

use crate::limits::{PLAIN, SOURCE};
use crate::writer::{self, rule_size, Literal, Program, END, LITERAL};

/// A small repeatable generator, so that every run reads the same bytes.
pub struct Numbers(pub u32);

impl Numbers {
    pub fn below(&mut self, n: u32) -> u32 {
        self.0 = self.0.wrapping_mul(1_664_525).wrapping_add(1_013_904_223);
        (self.0 >> 16) % n
    }

    /// From 1 to a largest number.
    fn upto(&mut self, most: u16) -> u16 {
        1 + self.below(most.into()) as u16
    }

    /// A literal of a kind below `kinds`.
    pub fn literal(&mut self, kinds: u32) -> Literal {
        let kind = self.below(kinds) as u8;
        let tag = if (2..=5).contains(&kind) { self.upto(PLAIN.tags) } else { 0 };
        let number = self.upto(if kind == 6 { PLAIN.numbers } else { PLAIN.atoms });
        writer::literal(kind, tag, number)
    }

    fn literals(&mut self, count: usize, kinds: u32) -> Vec<Literal> {
        (0..count).map(|_| self.literal(kinds)).collect()
    }
}

/// The numbers of a rule's heads, positive and naf literals.
type Counts = (usize, usize, usize);

const FULL: Counts = (SOURCE.heads, SOURCE.positives, SOURCE.nafs);
const OPTIONS_ALONE: Counts = (SOURCE.heads, 0, 0);

/// How many kinds of literals a form has, and how many of them an option may have.
pub const SOURCE_KINDS: u32 = SOURCE.kinds as u32 + 1;
pub const PLAIN_KINDS: u32 = PLAIN.kinds as u32 + 1;
pub const OPTION_KINDS: u32 = 2;

/// A program of rules with these counts, whose rules `defeasible` have options.
fn program(counts: impl Iterator<Item = Counts>, defeasible: fn(usize) -> bool, kinds: u32) -> Vec<u8> {
    let mut numbers = Numbers(7);
    let mut out = Program::default();
    for (i, (h, b, c)) in counts.enumerate() {
        let (tag, head_kinds) = if defeasible(i) { (numbers.upto(SOURCE.tags), OPTION_KINDS) } else { (0, kinds) };
        let heads = numbers.literals(h, head_kinds);
        let positives = numbers.literals(b, kinds);
        let nafs = numbers.literals(c, kinds);
        out.rule(tag, &heads, &positives, &nafs);
    }
    out.end()
}

fn source_of(counts: Counts, defeasible: fn(usize) -> bool) -> Vec<u8> {
    program(std::iter::repeat(counts).take(SOURCE.rules), defeasible, SOURCE_KINDS)
}

fn every_other(i: usize) -> bool {
    i % 2 == 0
}

/// The longest source: as many rules and literals as it may have, every other rule with options.
pub fn source() -> Vec<u8> {
    source_of(FULL, every_other)
}

/// Options alone: the source whose translation is longest beside it.
pub fn options() -> Vec<u8> {
    source_of(OPTIONS_ALONE, every_other)
}

/// The longest source with options in each rule, and the one of nothing else.
pub fn defeasible_source() -> Vec<u8> {
    source_of(FULL, |_| true)
}

pub fn defeasible_options() -> Vec<u8> {
    source_of(OPTIONS_ALONE, |_| true)
}

/// The rules and bytes of the longest translation that a source without preference sheets has.
pub const RULES: usize = SOURCE.rules * (3 * SOURCE.heads + 2);
pub const LENGTH: usize = END + SOURCE.rules * (66 * SOURCE.heads + 5 * (SOURCE.positives + SOURCE.nafs) + 24);

/// How many rules of a plain program of that length have four literals: the others have three.
pub const LONGER_RULES: usize = (LENGTH - END - RULES * rule_size(3)) / LITERAL;

/// A plain program as long as such a translation, with as many rules, of three and four literals.
pub fn plain() -> Vec<u8> {
    let counts = (0..RULES).map(|i| if i < LONGER_RULES { (1, 2, 1) } else { (1, 1, 1) });
    program(counts, |_| false, PLAIN_KINDS)
}

/// The longest plain program: as many rules as it may have, of two and three literals.
pub fn longest_plain() -> Vec<u8> {
    const LONGER: usize = (PLAIN.length - END - PLAIN.rules * rule_size(2)) / LITERAL;
    let counts = (0..PLAIN.rules).map(|i| if i < LONGER { (1, 1, 1) } else { (1, 1, 0) });
    program(counts, |_| false, PLAIN_KINDS)
}

/// A plain program of the widest rules that is as long as can be, of defeat and derivation marks drawn from all there are: it has
/// more different literals than sixteen bits count.
pub fn widest_plain() -> Vec<u8> {
    const WIDEST: usize = PLAIN.heads + PLAIN.positives + PLAIN.nafs;
    let mut numbers = Numbers(41);
    let mut out = Program::default();
    for _ in 0..(PLAIN.length - END) / rule_size(WIDEST) {
        let mut marks = |count: usize| -> Vec<Literal> {
            let mut mark = |_| writer::literal(2 + numbers.below(4) as u8, numbers.upto(PLAIN.tags), numbers.upto(PLAIN.atoms));
            (0..count).map(&mut mark).collect()
        };
        let (heads, positives, nafs) = (marks(PLAIN.heads), marks(PLAIN.positives), marks(PLAIN.nafs));
        out.rule(0, &heads, &positives, &nafs);
    }
    out.end()
}

/// Sources in which each two records of preference sheets, an O: and an X:, append two rules, as many as can be: a record of
/// each kind stands before every fourth rule. The first tag overrides each other one of 65; each rule has the 12 options of
/// which each two oppose, and more that `more` draws, as its heads.
pub fn with_sheets(mut more: impl FnMut(usize) -> (Vec<Literal>, Vec<Literal>, Vec<Literal>)) -> Vec<u8> {
    const OPTIONS: usize = 12;
    let tags = 1 + SOURCE.sheets;
    let options: Vec<Literal> = (0..OPTIONS).map(|i| writer::literal((i % 2) as u8, 0, SOURCE.atoms - i as u16)).collect();
    let mut pairs = (0..OPTIONS).flat_map(|i| (0..i).map(move |j| (i, j)));
    let mut out = Program::default();
    for i in 0..SOURCE.rules {
        if i % (SOURCE.rules / SOURCE.sheets) == 0 {
            let lower = 2 + i / (SOURCE.rules / SOURCE.sheets);
            out.over(1, lower as u16);
            let (one, other) = pairs.next().expect("there are enough of them");
            out.oppose(options[one], options[other]);
        }
        let (heads, positives, nafs) = more(i);
        out.rule(1 + (i % tags) as u16, &[&options[..], &heads].concat(), &positives, &nafs);
    }
    out.end()
}

/// The longest source with sheets: its translation is the longest plain program.
pub fn sheets() -> Vec<u8> {
    let mut numbers = Numbers(31);
    with_sheets(|_| {
        let heads = numbers.literals(SOURCE.heads - 12, OPTION_KINDS);
        let positives = numbers.literals(SOURCE.positives, SOURCE_KINDS);
        (heads, positives, numbers.literals(SOURCE.nafs, SOURCE_KINDS))
    })
}
