//! How time grows with a program: each operation on 1, 2, 4 .. 256 rules, as nanoseconds for each byte of the program.

use crate::drawn::Numbers;
use crate::limits::{SOURCE, TIMES_LONGER};
use crate::writer::{atom, set_record, Program};
use crate::{exports, sets::WithProgram};
use std::hint::black_box;
use std::time::Instant;

const SIZES: [usize; 9] = [1, 2, 4, 8, 16, 32, 64, 128, SOURCE.rules];
/// As many heads as a set has that is checked; from these atoms on, the numbers of naf literals.
const HEADS: usize = SOURCE.checked;
const FIRST_NAF: u16 = 101;

/// `count` rules, every other one defeasible. Rule i has its own atom for head, which the rules before it hold up, and ten naf
/// literals that nothing does: the atoms that are heads are the one answer set, and each operation has work in each rule.
fn program(count: usize) -> Vec<u8> {
    let mut numbers = Numbers(29);
    let mut program = Program::default();
    for i in 0..count {
        let own = (i % HEADS) as u16;
        let tag = if i % 2 == 0 { 1 + i as u16 % SOURCE.tags } else { 0 };
        let before: Vec<_> = (0..own.min(6)).map(|_| atom(1 + numbers.below(own.into()) as u16)).collect();
        let others = SOURCE.atoms + 1 - FIRST_NAF;
        let nafs: Vec<_> = (0..10).map(|_| atom(FIRST_NAF + numbers.below(others.into()) as u16)).collect();
        program.rule(tag, &[atom(1 + own)], &before, &nafs);
    }
    program.end()
}

/// The A: record of the heads of `program(count)`.
fn heads(count: usize) -> Vec<u8> {
    set_record(&(1..=count.min(HEADS) as u16).map(atom).collect())
}

/// Seconds for one call: the best of many batches, each long enough for the clock.
pub fn best(mut call: impl FnMut() -> u64) -> f64 {
    let started = Instant::now();
    black_box(call());
    let times = (20e-6 / started.elapsed().as_secs_f64().max(1e-9)).clamp(1.0, 1_000.0) as usize;
    let batch = |_| {
        let started = Instant::now();
        for _ in 0..times {
            black_box(call());
        }
        started.elapsed().as_secs_f64() / times as f64
    };
    (0..500).map(batch).fold(f64::MAX, f64::min)
}

/// A line of the table: an operation's time for each byte of the program, size by size.
fn line(name: &str, programs: &[Vec<u8>], mut call: impl FnMut(&[u8]) -> u64) {
    print!("{name:<20}");
    for program in programs {
        assert!(call(program) >> 63 == 0, "{name} was refused");
        print!("{:>8.3}", best(|| call(black_box(program))) * 1e9 / program.len() as f64);
    }
    println!();
}

pub fn rows() {
    let sources: Vec<Vec<u8>> = SIZES.iter().map(|&count| program(count)).collect();
    let sets: Vec<Vec<u8>> = SIZES.iter().map(|&count| heads(count)).collect();
    let mut out = vec![0; TIMES_LONGER * sources[8].len()];
    let set = |program: &[u8]| &sets[sources.iter().position(|source| source.len() == program.len()).unwrap()];
    let plain: Vec<Vec<u8>> = sources.iter().map(|source| translated(source)).collect();

    print!("\nns a byte, by rules ");
    SIZES.iter().for_each(|size| print!("{size:>8}"));
    println!();
    line("read source", &sources, exports::read_source);
    line("read its translation", &plain, exports::read_plain);
    line("translate", &sources, |p| exports::translate(p, &mut out));
    for (name, call) in [
        ("quotient", exports::quotient_source as WithProgram),
        ("extend", exports::extend),
        ("check, yes", exports::check_source),
    ] {
        line(name, &sources, |p| call(p, set(p), &mut out));
    }
}

fn translated(source: &[u8]) -> Vec<u8> {
    let mut out = vec![0; TIMES_LONGER * source.len()];
    let length = exports::translate(source, &mut out);
    out.truncate(length as usize);
    out
}
