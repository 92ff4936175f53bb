//! How long a translation is, beside the old one: a plain rule for each non-empty subset of a rule's options, which are left
//! while the others are defeated (tests/solver/traps.py has it as a program).

use crate::exports;
use crate::limits::{SOURCE, TIMES_LONGER};
use crate::writer::{atom, Literal, Program};

/// A rule with `options` options and no body, as a source.
fn source(options: u8) -> Vec<u8> {
    let heads: Vec<Literal> = (1..=options.into()).map(atom).collect();
    let mut program = Program::default();
    program.rule(1, &heads, &[], &[]);
    program.end()
}

/// The old translation's rules, and its bytes if it were written as records: heads and naf defeat marks for the options of the
/// subset, positive defeat marks for the others.
fn old(options: u32) -> (u64, u64) {
    let rules = (1u64 << options) - 1;
    let members = u64::from(options) << (options - 1);
    (rules, 4 + rules * (7 + 5 * u64::from(options)) + 5 * members)
}

pub fn rows() {
    println!("\noptions of a rule   source bytes   rules   bytes   times   old rules   old bytes");
    for options in [1, 2, 3, 4, 5, 8, 12, SOURCE.heads as u8] {
        let source = source(options);
        let mut out = vec![0; TIMES_LONGER * source.len()];
        let length = exports::translate(&source, &mut out) as usize;
        let rules = u16::from_be_bytes([out[length - 2], out[length - 1]]);
        assert_eq!(usize::from(rules), 3 * usize::from(options) + 2);
        let (old_rules, old_bytes) = old(options.into());
        let times = length as f64 / source.len() as f64;
        let refused = if options > 4 { "  (gave up)" } else { "" };
        println!("{options:>17}   {:>12}   {rules:>5}   {length:>5}   {times:>5.2}   {old_rules:>9}   {old_bytes:>9}{refused}", source.len());
    }
}
