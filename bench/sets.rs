//! The rows of the operations that take a set: quotient, extend and restrict.

use crate::drawn::{defeasible_options, defeasible_source, plain, source};
use crate::drawn::{Numbers, OPTION_KINDS, PLAIN_KINDS, SOURCE_KINDS};
use crate::limits::{Limits, PLAIN, SOURCE};
use crate::plain_sets::{Rule, Rules};
use crate::plain_translator::mark;
use crate::writer::{set_record, set_size, Literal, LITERAL};
use crate::{exports, output_row, plain_sets};
use std::collections::BTreeSet;
use std::hint::black_box;

/// An export that takes a program, a set and a buffer.
pub type WithProgram = fn(&[u8], &[u8], &mut [u8]) -> u64;

/// A set being made.
struct Chosen(BTreeSet<Literal>);

impl Chosen {
    fn none() -> Chosen {
        Chosen(BTreeSet::new())
    }

    /// Takes from these literals, in this order, until the set holds `size`.
    fn upto(mut self, size: usize, literals: impl IntoIterator<Item = Literal>) -> Chosen {
        for literal in literals {
            if self.0.len() >= size {
                break;
            }
            self.0.insert(literal);
        }
        self
    }

    /// The A: record.
    fn record(&self) -> Vec<u8> {
        set_record(&self.0)
    }
}

/// Literals without end, of the kinds below `kinds`.
fn any(seed: u32, kinds: u32) -> impl Iterator<Item = Literal> {
    let mut numbers = Numbers(seed);
    std::iter::repeat_with(move || numbers.literal(kinds))
}

/// The naf literals of a program, rule by rule.
fn nafs(program: &[u8]) -> Vec<Literal> {
    Rules(program).flat_map(|rule| rule.nafs.as_chunks::<LITERAL>().0).copied().collect()
}

/// The defeat marks of a source's options, rule by rule.
fn defeats(source: &[u8]) -> Vec<Literal> {
    let marks = |rule: Rule| rule.options().map(|option| mark(2, rule.tag, option)).collect::<Vec<_>>();
    Rules(source).filter(|rule| rule.defeasible).flat_map(marks).collect()
}

/// A set for a quotient of `source()`: 60 atoms, which remove some of the rules, and every second option's defeat.
fn defeating(source: &[u8]) -> Vec<u8> {
    let some = defeats(source).into_iter().step_by(2);
    let chosen = Chosen::none().upto(60, any(1, OPTION_KINDS)).upto(SOURCE.set, some);
    chosen.upto(SOURCE.set, any(2, SOURCE_KINDS)).record()
}

/// A set for a quotient of `plain()`: every second rule's naf literal, as many as half the set, and any others.
fn removing(plain: &[u8], size: usize) -> Vec<u8> {
    let some = nafs(plain).into_iter().step_by(2);
    Chosen::none().upto(size / 2, some).upto(size, any(3, PLAIN_KINDS)).record()
}

/// A set for an extension: twelve rules wholly defeated, some options of the others, and atoms that hold, 700 and more.
fn holding(source: &[u8]) -> Vec<u8> {
    let marks = defeats(source);
    let (whole, others) = marks.split_at(12 * SOURCE.heads);
    let chosen = Chosen::none().upto(whole.len(), whole.iter().copied());
    let chosen = chosen.upto(300, others.iter().step_by(9).copied());
    chosen.upto(SOURCE.set, any(4, OPTION_KINDS)).record()
}

fn row(
    name: &str,
    (program, set): (&[u8], &[u8]),
    room: usize,
    proved: WithProgram,
    plain: impl Fn(&[u8], &[u8], &mut [u8]) -> u64,
) {
    output_row(
        name,
        room,
        |out| proved(black_box(program), black_box(set), out),
        |out| plain(black_box(program), black_box(set), out),
    );
}

fn quotient_row(name: &str, limits: &Limits, program: &[u8], set: &[u8], room: usize, proved: WithProgram) {
    row(name, (program, set), room, proved, |program, set, out| {
        plain_sets::quotient(black_box(limits), program, set, out)
    });
}

fn extend_row(name: &str, source: &[u8]) {
    let set = holding(source);
    row(name, (source, &set), set_size(PLAIN.set), exports::extend, plain_sets::extend);
}

fn restrict_row(name: &str, set: &[u8]) {
    output_row(
        name,
        set.len(),
        |out| exports::restrict(black_box(set), out),
        |out| plain_sets::restrict(black_box(set), out),
    );
}

/// A source with preference sheets, whose quotients have room in so many bytes.
pub fn sheet_rows(source: &[u8], room: usize) {
    quotient_row("quotient sheets", &SOURCE, source, &defeating(source), room, exports::quotient_source);
    extend_row("extend sheets", source);
}

pub fn rows() {
    let (source, plain) = (source(), plain());
    quotient_row("quotient source", &SOURCE, &source, &defeating(&source), source.len(), exports::quotient_source);
    for size in [SOURCE.set, PLAIN.set] {
        let name = format!("quotient plain {size}");
        quotient_row(&name, &PLAIN, &plain, &removing(&plain, size), plain.len(), exports::quotient_plain);
    }
    extend_row("extend all", &defeasible_source());
    extend_row("extend D:", &defeasible_options());
    let set = Chosen::none().upto(PLAIN.set, any(5, PLAIN_KINDS)).record();
    restrict_row(&format!("restrict {}", PLAIN.set), &set);
}
