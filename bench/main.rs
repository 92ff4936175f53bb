//! How fast each operation is, beside plain Rust on the same bytes and beside a copy of them, in one run; beside a solver's own
//! programs; how time grows with a program; how long translations are. Both programs are built for release; the ratio is the proved code's speed over the
//! plain one's.

mod assembly;
mod checks;
mod drawn;
#[path = "../rust/aspda/src/exports.rs"]
mod exports;
mod growth;
#[path = "../rust/limits.rs"]
mod limits;
mod output_sizes;
mod plain_aspif;
mod plain_assembly;
mod plain_check;
mod plain_reader;
mod plain_sets;
mod plain_sheets;
mod plain_translator;
mod sets;
mod sheets;
mod texts;
mod writer;

use drawn::{options, plain, source};
use limits::{Limits, PLAIN, SOURCE, TIMES_LONGER};
use std::hint::black_box;
use std::time::Instant;

/// Seconds for one call of each: the best of many short batches, taken in turn, so that other work on the machine
/// weighs least and on both alike.
fn best(mut ours: impl FnMut() -> u64, mut theirs: impl FnMut() -> u64) -> (f64, f64) {
    fn batch(call: &mut impl FnMut() -> u64) -> f64 {
        let started = Instant::now();
        for _ in 0..10 {
            black_box(call());
        }
        started.elapsed().as_secs_f64() / 10.0
    }
    let (mut a, mut b) = (f64::MAX, f64::MAX);
    for _ in 0..200 {
        a = a.min(batch(&mut ours));
        b = b.min(batch(&mut theirs));
    }
    (a, b)
}

/// Two calls that answer a word about these bytes, and a copy of the bytes.
fn row(name: &str, bytes: &[u8], proved: impl Fn(&[u8]) -> u64, plain: impl Fn(&[u8]) -> u64) {
    let (ours, theirs) = (|| proved(black_box(bytes)), || plain(black_box(bytes)));
    assert_eq!(ours(), theirs(), "the two disagree on {name}");
    speed(name, bytes.len(), best(ours, theirs), copied(bytes));
}

fn read_row(name: &str, bytes: &[u8], limits: &Limits, proved: impl Fn(&[u8]) -> u64) {
    row(name, bytes, proved, |p| plain_reader::read(black_box(limits), p));
}

/// The last rule's record.
fn show_row(name: &str, bytes: &[u8], limits: &Limits, proved: impl Fn(&[u8], u32) -> u64) {
    let last = plain_reader::read(limits, bytes) as u32;
    row(
        name,
        bytes,
        |p| proved(p, black_box(last)),
        |p| plain_reader::show(black_box(limits), p, black_box(last)),
    );
}

/// Seconds for a copy of these bytes: what no program can beat that looks at each of them.
fn copied(bytes: &[u8]) -> f64 {
    let mut out = vec![0; bytes.len()];
    let mut copy = || {
        out.copy_from_slice(black_box(bytes));
        black_box(&out)[0] as u64
    };
    best(&mut copy, || 0).0
}

/// A line of the table, by the bytes that are read or written, without its end.
fn speed_start(name: &str, length: usize, (a, b): (f64, f64), copy: f64) {
    let mb = length as f64 / 1e6;
    print!("{name:<20} {length:>8}  {:>10.1}  {:>10.1}  {:>5.2}  {:>10.1}", mb / a, mb / b, b / a, mb / copy);
}

fn speed(name: &str, length: usize, times: (f64, f64), copy: f64) {
    speed_start(name, length, times, copy);
    println!();
}

/// The best time of a call that fills `out`, which is cleared before each, outside the time.
fn fill(best: &mut f64, out: &mut [u8], mut call: impl FnMut(&mut [u8]) -> u64) -> u64 {
    out.fill(0);
    let started = Instant::now();
    let word = black_box(call(black_box(&mut *out)));
    *best = best.min(started.elapsed().as_secs_f64());
    word
}

/// Two calls that fill a lent buffer with the same result, by its bytes, and a copy of that result.
fn output_row(name: &str, room: usize, mut proved: impl FnMut(&mut [u8]) -> u64, mut plain: impl FnMut(&mut [u8]) -> u64) {
    let (mut ours, mut theirs, mut copied) = (vec![0; room], vec![0; room], vec![0; room]);
    let (mut a, mut b, mut c) = (f64::MAX, f64::MAX, f64::MAX);
    let mut length = 0;
    for _ in 0..2_000 {
        let word = fill(&mut a, &mut ours, &mut proved);
        let same = fill(&mut b, &mut theirs, &mut plain);
        assert_eq!(word, same, "the two disagree on {name}");
        length = word as usize;
        fill(&mut c, &mut copied, |out| {
            out[..length].copy_from_slice(black_box(&ours[..length]));
            0
        });
    }
    assert!(ours == theirs && ours == copied, "the two disagree on {name}");
    speed(name, length, (a, b), c);
}

fn translate_row(name: &str, source: &[u8], room: usize) {
    output_row(
        name,
        room,
        |out| exports::translate(black_box(source), out),
        |out| plain_translator::translate(black_box(source), out),
    );
}

fn main() {
    println!("operation               bytes  proved MB/s    Rust MB/s  ratio  memcpy MB/s");
    read_row("read source", &source(), &SOURCE, exports::read_source);
    read_row("read plain", &plain(), &PLAIN, exports::read_plain);
    show_row("show source", &source(), &SOURCE, exports::show_source);
    show_row("show plain", &plain(), &PLAIN, exports::show_plain);
    for (name, source) in [("translate all", source()), ("translate D:", options())] {
        translate_row(name, &source, TIMES_LONGER * source.len());
    }
    sets::rows();
    texts::rows();
    checks::rows();
    sheets::rows();
    assembly::rows();
    growth::rows();
    output_sizes::rows();
}
