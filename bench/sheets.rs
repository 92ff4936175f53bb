//! The rows of the longest source with preference sheets, 64 records of each kind and 8,192 appended rules; and what its expansion
//! takes, beside reading as many bytes.

use crate::drawn::{longest_plain, sheets};
use crate::growth::best;
use crate::limits::{APPENDED_RULE, PLAIN, SOURCE, TIMES_LONGER};
use crate::plain_sets::Rules;
use crate::plain_sheets::{without_sheets, write_normal_form, Appended};
use crate::writer::{Program, LITERAL};
use crate::{exports, read_row, sets, show_row, translate_row};
use std::hint::black_box;

/// The rules of a program, all strict.
fn strict(program: &[u8]) -> Vec<u8> {
    let mut out = Program::default();
    for rule in Rules(program) {
        let [heads, positives, nafs] = [rule.heads, rule.positives, rule.nafs].map(|part| part.as_chunks::<LITERAL>().0);
        out.rule(0, heads, positives, nafs);
    }
    out.end()
}

/// What expansion and normal form take. They cannot be called alone: the time is that of a translation into an empty slice, which
/// is refused when all is measured, less that of the same rules without sheets. So the reading of the sheets' records and the
/// measuring of the appended rules are in it as well. Beside it plain Rust's expansion and normal form alone, and the reading of
/// a plain program that has the normal form's bytes but for its defeasible rules' letters and tags.
fn expansion_row(source: &[u8]) {
    let alone = without_sheets(source);
    let refused = |program: &[u8]| best(|| exports::translate(black_box(program), &mut []));
    let ours = refused(source) - refused(&alone);
    let mut normal_form = vec![0; SOURCE.length + APPENDED_RULE * Appended::of(source).count()];
    let length = write_normal_form(source, &mut normal_form);
    normal_form.truncate(length);
    let mut out = vec![0; length];
    let theirs = best(|| write_normal_form(black_box(source), &mut out) as u64);
    let strict = strict(&normal_form);
    assert_eq!(strict.len(), length);
    assert!(exports::read_plain(&strict) >> 63 == 0, "the normal form is refused as plain");
    let reading = best(|| exports::read_plain(black_box(&strict)));
    let us = 1e6;
    println!("\nexpansion               bytes  proved us   Rust us  ratio  reading us  times reading");
    let name = "expand, normal form";
    print!("{name:<20} {length:>8}  {:>9.1}  {:>8.1}  {:>5.2}", ours * us, theirs * us, theirs / ours);
    println!("  {:>10.1}  {:>13.2}", reading * us, ours / reading);
}

pub fn rows() {
    let source = sheets();
    assert_eq!(source.len(), SOURCE.length);
    assert_eq!(Appended::of(&source).count(), 2 * SOURCE.sheets * SOURCE.sheets);
    println!("\nwith sheets             bytes  proved MB/s    Rust MB/s  ratio  memcpy MB/s");
    read_row("read sheets", &source, &SOURCE, exports::read_source);
    show_row("show sheets", &source, &SOURCE, exports::show_source);
    translate_row("translate sheets", &source, PLAIN.length);
    sets::sheet_rows(&source, source.len() + APPENDED_RULE * 2 * SOURCE.sheets * SOURCE.sheets);
    assert!(PLAIN.length <= TIMES_LONGER * (source.len() + APPENDED_RULE * 2 * SOURCE.sheets * SOURCE.sheets));
    read_row(&format!("read plain {}", PLAIN.rules), &longest_plain(), &PLAIN, exports::read_plain);
    expansion_row(&source);
}
