//! The rows of the export to aspif: beside plain Rust and a copy of the text, growth with the program, and beside gringo, where it is
//! installed, that makes aspif of the same program as its own text.

use crate::drawn::{defeasible_source, plain, sheets, widest_plain, RULES};
use crate::growth::best;
use crate::limits::PLAIN;
use crate::plain_aspif::{aspif, bound};
use crate::plain_reader::{number, record_size};
use crate::plain_sets::Rules;
use crate::writer::{end_record, literal, Literal, LITERAL};
use crate::{exports, output_row};
use std::collections::BTreeSet;
use std::fmt::Write;
use std::hint::black_box;
use std::process::{Command, Stdio};
use std::time::Instant;

/// From 256 rules on, time for a byte is to stay level.
const SIZES: [usize; 5] = [1, 256, 1_024, 4_096, RULES];

/// A source's translation, with rules of all shapes that translations have: of the longest source as many as a plain program may have.
fn translation(source: &[u8]) -> Vec<u8> {
    let mut out = vec![0; PLAIN.length];
    let length = exports::translate(source, &mut out);
    out.truncate(length as usize);
    out
}

/// The program of another one's first rules.
fn first_rules(program: &[u8], count: usize) -> Vec<u8> {
    let end = (0..count).fold(0, |at, _| at + record_size(&program[at..]));
    [&program[..end], &end_record(count as u16)[..]].concat()
}

/// Into a buffer of so many bytes: the length that always suffices, or the text's own.
fn row(name: &str, program: &[u8], room: usize) {
    output_row(name, room, |out| exports::aspif(black_box(program), out), |out| aspif(black_box(program), out));
}

fn text_length(program: &[u8]) -> usize {
    exports::aspif(program, &mut vec![0; bound(program.len())]) as usize
}

/// The largest of these over the least.
fn apart(each: impl Iterator<Item = f64>) -> f64 {
    let (least, most) = each.fold((f64::MAX, 0.0), |(least, most): (f64, f64), one| (least.min(one), most.max(one)));
    most / least
}

/// Time for each byte of the text, size by size, and how far the sizes from the second on are apart; also for a byte of the program, of
/// which a small one has more names.
fn growth_line(name: &str, programs: &[Vec<u8>], call: impl Fn(&[u8], &mut [u8]) -> u64) {
    let mut out = vec![0; bound(PLAIN.length)];
    let nanoseconds = |program: &Vec<u8>| {
        let room = &mut out[..bound(program.len())];
        assert!(call(program, room) >> 63 == 0, "{name} was refused");
        best(|| call(black_box(program), room)) * 1e9
    };
    let times: Vec<f64> = programs.iter().map(nanoseconds).collect();
    print!("{name:<20}");
    let each = |i: usize| times[i] / text_length(&programs[i]) as f64;
    (0..times.len()).for_each(|i| print!("{:>10.3}", each(i)));
    let by_program = apart((1..times.len()).map(|i| times[i] / programs[i].len() as f64));
    println!("   apart {:.2}, by the program's bytes {by_program:.2}; one rule takes {:.2} us", apart((1..times.len()).map(each)), times[0] / 1e3);
}

fn growth(drawn: &[u8], translation: &[u8]) {
    print!("\nns a byte, by rules ");
    SIZES.iter().for_each(|size| print!("{size:>10}"));
    println!();
    for (name, program) in [("aspif", drawn), ("aspif translation", translation)] {
        let programs: Vec<_> = SIZES.iter().map(|&size| first_rules(program, size)).collect();
        growth_line(name, &programs, exports::aspif);
        growth_line(&format!("{name}, Rust"), &programs, aspif);
    }
}

/// A literal's name in gringo's text.
fn name(literal: &[u8]) -> String {
    let (tag, number) = (number(&literal[1..3]), number(&literal[3..5]));
    let sign = if literal[0] % 2 == 0 { 'p' } else { 'n' };
    match literal[0] {
        0 | 1 => format!("{sign}{number}"),
        2 | 3 => format!("d{tag}{sign}{number}"),
        4 | 5 => format!("e{tag}{sign}{number}"),
        _ => format!("r{number}"),
    }
}

/// A program as gringo's text. What no head has is declared, or gringo would take it for false and leave rules out. (Of a
/// translation it would still leave most out: bodies that only a loop could hold up.)
fn gringo_text(program: &[u8]) -> String {
    let literals = |part: &[u8]| part.as_chunks::<LITERAL>().0.to_vec();
    let (mut text, mut heads, mut all) = (String::new(), BTreeSet::<Literal>::new(), BTreeSet::<Literal>::new());
    for rule in Rules(program) {
        let [head, positive, naf] = [rule.heads, rule.positives, rule.nafs].map(literals);
        let body = positive.iter().map(|one| name(one)).chain(naf.iter().map(|one| format!("not {}", name(one))));
        let body: Vec<String> = body.collect();
        writeln!(text, "{}:-{}.", head.iter().map(|one| name(one)).collect::<Vec<_>>().join("|"), body.join(",")).unwrap();
        heads.extend(&head);
        all.extend(head.iter().chain(&positive).chain(&naf));
    }
    for atom in (1..=PLAIN.atoms).filter(|&atom| (0..2).all(|kind| all.contains(&literal(kind, 0, atom)))) {
        writeln!(text, ":-p{atom},n{atom}.").unwrap();
    }
    all.difference(&heads).for_each(|one| writeln!(text, "#external {}.", name(one)).unwrap());
    text
}

/// gringo's seconds for a text, the best of some runs, and the rules that it writes; none where it is not installed.
fn gringo(text: &str) -> Option<(f64, usize)> {
    let file = std::env::temp_dir().join(format!("aspif-{}.lp", std::process::id()));
    std::fs::write(&file, text).ok()?;
    let mut command = Command::new("gringo");
    command.arg("--output=intermediate").arg(&file).stdin(Stdio::null()).stderr(Stdio::null());
    let (mut least, mut rules) = (f64::MAX, None);
    for _ in 0..5 {
        let started = Instant::now();
        let written = command.output().ok().filter(|run| run.status.success()).map(|run| run.stdout);
        least = least.min(started.elapsed().as_secs_f64());
        rules = written.map(|written| written.split(|byte| *byte == b'\n').filter(|line| line.starts_with(b"1 ")).count());
    }
    std::fs::remove_file(&file).ok()?;
    Some((least, rules?))
}

/// By the bytes of our text, for gringo's has its own numbers and names.
fn gringo_row(label: &str, program: &[u8]) {
    let Some((start, _)) = gringo("") else {
        println!("{label:<20} gringo not installed");
        return;
    };
    let mut out = vec![0; bound(program.len())];
    let length = exports::aspif(program, &mut out) as usize;
    let ours = best(|| exports::aspif(black_box(program), &mut out));
    let (theirs, written) = gringo(&gringo_text(program)).expect("gringo ran before");
    let rules = out[..length].split(|byte| *byte == b'\n').filter(|line| line.starts_with(b"1 ")).count();
    assert_eq!(written, rules, "gringo leaves rules out or adds some");
    let (mb, theirs) = (length as f64 / 1e6, theirs - start);
    print!("{label:<20} {length:>8}  {:>10.1}  {:>11.3}  {:>5.0}", mb / ours, mb / theirs, theirs / ours);
    println!("   without gringo's start of {:.1} ms", start * 1e3);
}

pub fn rows() {
    let (drawn, translated) = (plain(), translation(&defeasible_source()));
    row("aspif", &drawn, bound(drawn.len()));
    row("aspif translation", &translated, bound(translated.len()));
    row("aspif, exact room", &drawn, text_length(&drawn));
    let (with_sheets, widest) = (translation(&sheets()), widest_plain());
    row("aspif sheets", &with_sheets, bound(with_sheets.len()));
    row("aspif widest", &widest, bound(widest.len()));
    growth(&drawn, &translated);
    println!("\nbeside gringo           bytes  proved MB/s  gringo MB/s  ratio");
    gringo_row("aspif", &drawn);
}
