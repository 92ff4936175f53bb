//! Defeasible answer-set programs and their translation into plain disjunctive ones.
//!
//! Programs and sets are bytes, as document 01 lays them out: a program is its rules' records and an end record, a set
//! is one `A:` record. There are two forms: a *source* has defeasible rules, defeat marks and preference sheets, a
//! *plain* program has strict rules alone and every kind of mark. The functions are those of the static library, in
//! which each is proved; they keep no state (that of an [`Assembly`] is the value itself) and allocate nothing. What
//! writes a result writes it to the start of the slice that it is lent, hands back the written part, and leaves the
//! bytes behind it as they were.
//!
//! | Operation | Functions | A buffer that always suffices |
//! |---|---|---|
//! | number of rules | [`read_source`], [`read_plain`] | |
//! | a rule's record | [`show_source`], [`show_plain`] | |
//! | translation | [`translate`] | [`translation_bound`] |
//! | a plain program as text for a solver | [`aspif`] | [`aspif_bound`] |
//! | quotient by a set | [`quotient_source`], [`quotient_plain`] | [`quotient_bound`] |
//! | extension of a source's set | [`extend`] | [`EXTENSION_BOUND`] |
//! | restriction of a plain set | [`restrict`] | [`restriction_bound`] |
//! | is it an answer set? | [`check_source`], [`check_plain`] | [`witness_bound`] |
//! | a source, built rule by rule | [`Assembly`] | [`ASSEMBLY_BOUND`] |
//!
//! What is not as documents 01 and 02 ask is refused: a [`Refusal`] has the reason's number, the [`Slice`] of the call
//! that it speaks of, and the place there. A call that refuses has written nothing.
//!
//! | | source | plain |
//! |---|---|---|
//! | bytes, at most | 64,388 | 456,708 |
//! | rules | 256 | 20,992 |
//! | head, positive and naf literals of a rule | 16, 16, 16 | 16, 16, 17 |
//! | records of preference sheets, `O:` and `X:` | 64 and 64 | 0 |
//! | literals of a set, of one that is checked | 1,000, 64 | 5,352, 64 |
//!
//! M3 of document 01: two choices, of which the first can defeat options of the second.
//!
//! ```
//! let source = [
//!     &b"D:\0\x01\x03\0\0\0\0\0\0\x01\0\0\0\0\x02\0\0\0\0\x03"[..], // tag 1: 1 or 2 or 3
//!     b"D:\0\x02\x02\0\0\0\0\0\0\x04\0\0\0\0\x05",                  // tag 2: 4 or 5
//!     b"S:\0\0\x01\x01\0\x02\0\x02\0\x04\0\0\0\0\x01",              // defeated (2, 4) if 1
//!     b"S:\0\0\x01\x01\0\x02\0\x02\0\x05\0\0\0\0\x01",              // defeated (2, 5) if 1
//!     b"S:\0\0\x01\x01\0\x02\0\x02\0\x05\0\0\0\0\x02",              // defeated (2, 5) if 2
//!     b"E:\0\x05",
//! ]
//! .concat();
//! assert_eq!(source.len(), 94);
//!
//! let mut out = vec![0; aspda::translation_bound(&source)];
//! let translation = aspda::translate(&source, &mut out)?;
//! assert_eq!(translation.len(), 433);
//! assert_eq!(aspda::read_plain(translation)?, 22);
//!
//! let set = b"A:\0\x02\0\0\0\0\x03\0\0\0\0\x05"; // {3, 5}
//! let mut witness = [0; 14];
//! assert_eq!(aspda::check_source(&source, set, &mut witness)?, aspda::Verdict::Yes);
//! # Ok::<(), aspda::Refusal>(())
//! ```
//!
//! # Preference sheets
//!
//! A source may say which tag overrides which (`O:` records, the upper tag first) and which options oppose each other
//! (`X:` records), anywhere before its end record. For each `O:` and each `X:`, both ways: if a defeasible rule with
//! the upper tag heads a and one with the lower tag heads b, the strict rule "defeated (lower, b) if a" is appended
//! behind the written rules, once. Every operation means the program with these rules; reading and showing count the
//! written ones alone, and so does the end record. A verdict's rule number may be that of an appended rule.
//!
//! M3 again, its strict rules made from sheets:
//!
//! ```
//! let source = [
//!     &b"D:\0\x01\x03\0\0\0\0\0\0\x01\0\0\0\0\x02\0\0\0\0\x03"[..], // tag 1: 1 or 2 or 3
//!     b"D:\0\x02\x02\0\0\0\0\0\0\x04\0\0\0\0\x05",                  // tag 2: 4 or 5
//!     b"O:\0\x01\0\x02",                                             // tag 1 overrides tag 2
//!     b"X:\0\0\0\0\x01\0\0\0\0\x04",                                 // 1 and 4 oppose
//!     b"X:\0\0\0\0\x01\0\0\0\0\x05",                                 // 1 and 5 oppose
//!     b"X:\0\0\0\0\x02\0\0\0\0\x05",                                 // 2 and 5 oppose
//!     b"E:\0\x02",
//! ]
//! .concat();
//! assert_eq!((source.len(), aspda::read_source(&source)?), (85, 2));
//!
//! let mut out = vec![0; aspda::translation_bound(&source)];
//! assert_eq!(aspda::translate(&source, &mut out)?.len(), 433);
//!
//! // By the empty set nothing is left out, so that the quotient shows what was appended: here as the rules 3 to 5.
//! let mut out = vec![0; aspda::quotient_bound(&source)];
//! let quotient = aspda::quotient_source(&source, b"A:\0\0", &mut out)?;
//! assert_eq!(aspda::read_plain(quotient)?, 5);
//! let defeated_if_1 = b"S:\0\0\x01\x01\0\x02\0\x02\0\x04\0\0\0\0\x01"; // defeated (2, 4) if 1
//! assert_eq!(aspda::show_plain(quotient, 3)?, defeated_if_1);
//! assert_eq!(aspda::show_source(&source, 3).unwrap_err().number, 13);
//! # Ok::<(), aspda::Refusal>(())
//! ```
#![deny(unsafe_code)]
#![warn(missing_docs)]

mod assembly;
#[allow(unsafe_code)]
mod exports;
mod refusal;
mod verdict;

use refusal::Operation;

pub use assembly::{Assembly, ASSEMBLY_BOUND, STATE};
pub use refusal::{Part, Refusal, Slice};
pub use verdict::Verdict;

/// What every refusal's word has: 2^63.
const REFUSED: u64 = 1 << 63;

/// The high and the low 32 bits of an operation's word, or the refusal that it is.
fn halves(operation: Operation, word: u64) -> Result<(u32, u32), Refusal> {
    let (high, low) = ((word >> 32) as u32, word as u32);
    if word & REFUSED == 0 {
        Ok((high, low))
    } else {
        Err(operation.refusal(high as u8, low))
    }
}

/// The number of rules that a reading's word gives.
fn counted(word: u64) -> Result<u32, Refusal> {
    halves(Operation::Read, word).map(|(_, rules)| rules)
}

/// The part of `out` that was written: the word gives its length.
fn written(operation: Operation, word: u64, out: &mut [u8]) -> Result<&mut [u8], Refusal> {
    let (_, length) = halves(operation, word)?;
    Ok(&mut out[..length as usize])
}

/// The part of the program where a record lies: the word gives its start and length.
fn shown(word: u64, program: &[u8]) -> Result<&[u8], Refusal> {
    let (start, length) = halves(Operation::Show, word)?;
    Ok(&program[start as usize..][..length as usize])
}

/// The number of rules of a source, those that are written.
///
/// ```
/// let m1 = b"D:\0\x07\x01\0\0\0\0\0\0\x01E:\0\x01"; // tag 7: 1
/// assert_eq!(aspda::read_source(m1), Ok(1));
/// let refusal = aspda::Refusal { number: 3, slice: aspda::Slice::Program, place: 0 };
/// assert_eq!(aspda::read_source(b"Y:"), Err(refusal));
/// ```
///
/// # Errors
/// Refusals 1 to 8 and 14.
pub fn read_source(program: &[u8]) -> Result<u32, Refusal> {
    counted(exports::read_source(program))
}

/// The number of rules of a plain program.
///
/// ```
/// assert_eq!(aspda::read_plain(b"E:\0\0"), Ok(0));
/// // A plain program has no defeasible rule, and no preference sheets.
/// assert_eq!(aspda::read_plain(b"D:\0\x07\x01\0\0\0\0\0\0\x01E:\0\x01").unwrap_err().number, 3);
/// assert_eq!(aspda::read_plain(b"O:\0\x01\0\x02E:\0\0").unwrap_err().number, 3);
/// ```
///
/// # Errors
/// Refusals 1 to 6 and 8.
pub fn read_plain(program: &[u8]) -> Result<u32, Refusal> {
    counted(exports::read_plain(program))
}

/// What the rules that a program's preference sheets append can add to a result: 17 bytes for each, and at most two
/// rules for each `O:` with each `X:`. There are no more such records than places where their mark's bytes stand.
fn appended_bound(program: &[u8]) -> usize {
    let count = |mark: &[u8; 2]| program.windows(2).filter(|bytes| bytes == mark).count();
    count(b"O:").saturating_mul(count(b"X:")).saturating_mul(2 * 17)
}

/// The length of a buffer that suffices for a source's translation: thirteen times the source's, and 34 more for each
/// two records of its preference sheets, an `O:` and an `X:`.
///
/// ```
/// assert_eq!(aspda::translation_bound(b"E:\0\0"), 52);
/// ```
pub fn translation_bound(source: &[u8]) -> usize {
    source.len().saturating_mul(13).saturating_add(appended_bound(source))
}

/// Writes the translation of a source, a plain program. [`translation_bound`] gives a length that suffices. It uses
/// about 1 KiB of stack, for a source with preference sheets about 220 KiB.
///
/// M1 of document 01: one defeasible rule with one option becomes five plain rules.
///
/// ```
/// let m1 = b"D:\0\x07\x01\0\0\0\0\0\0\x01E:\0\x01"; // tag 7: 1
/// let mut out = [0xAA; 95];
/// let translation = aspda::translate(m1, &mut out)?;
/// assert_eq!(translation, [
///     // derived (7, 1) unless rule-defeated 1
///     &b"S:\0\0\x01\0\x01\x04\0\x07\0\x01\x06\0\0\0\x01"[..],
///     // rule-defeated 1 if defeated (7, 1)
///     b"S:\0\0\x01\x01\0\x06\0\0\0\x01\x02\0\x07\0\x01",
///     // 1 if derived (7, 1)
///     b"S:\0\0\x01\x01\0\0\0\0\0\x01\x04\0\x07\0\x01",
///     // derived (7, 1) if 1 and not defeated (7, 1)
///     b"S:\0\0\x01\x01\x01\x04\0\x07\0\x01\0\0\0\0\x01\x02\0\x07\0\x01",
///     // never both derived (7, 1) and defeated (7, 1)
///     b"S:\0\0\0\x02\0\x04\0\x07\0\x01\x02\0\x07\0\x01",
///     b"E:\0\x05",
/// ].concat());
/// assert_eq!(out[94], 0xAA);
///
/// // 93 bytes are one too few.
/// assert_eq!(aspda::translate(m1, &mut out[..93]).unwrap_err().number, 9);
/// # Ok::<(), aspda::Refusal>(())
/// ```
///
/// # Errors
/// Refusals 1 to 9 and 14.
pub fn translate<'o>(source: &[u8], out: &'o mut [u8]) -> Result<&'o mut [u8], Refusal> {
    written(Operation::Translate, exports::translate(source, out), out)
}

/// The length of a buffer that suffices for the text in aspif of a plain program of so many bytes.
///
/// ```
/// const BOUND: usize = aspda::aspif_bound(16);
/// assert_eq!(BOUND, 29_044);
/// ```
pub const fn aspif_bound(length: usize) -> usize {
    length.saturating_mul(2).saturating_add(29_012)
}

/// Writes a plain program as a text in aspif, which clingo and clasp read. [`aspif_bound`] gives a length that suffices.
///
/// A literal's number is its place among the literals that occur, ascending as byte strings, from 1. Atoms and negated
/// atoms have a name, `p` or `n` with the atom in decimal; marks have none. The answer sets of the text are those of the
/// program, number for number. It uses about 92 KiB of stack.
///
/// ```
/// let fact = b"S:\0\0\x01\0\0\0\0\0\0\x01E:\0\x01"; // 1
/// let mut out = [0xAA; aspda::aspif_bound(16)];
/// assert_eq!(aspda::aspif(fact, &mut out)?, b"asp 1 0 0\n1 0 1 1 0 0\n4 2 p1 1 1\n0\n");
/// assert_eq!(out[35], 0xAA);
///
/// // 34 bytes are one too few.
/// assert_eq!(aspda::aspif(fact, &mut out[..34]).unwrap_err().number, 9);
/// # Ok::<(), aspda::Refusal>(())
/// ```
///
/// # Errors
/// Refusals 1 to 6, 8 and 9.
pub fn aspif<'o>(program: &[u8], out: &'o mut [u8]) -> Result<&'o mut [u8], Refusal> {
    written(Operation::Aspif, exports::aspif(program, out), out)
}

/// The length of a buffer that suffices for a quotient: the program's, and 34 more for each two records of its
/// preference sheets, an `O:` and an `X:`.
pub fn quotient_bound(program: &[u8]) -> usize {
    program.len().saturating_add(appended_bound(program))
}

/// Writes the quotient of a source by a set, as a program of strict rules. [`quotient_bound`] gives a length that
/// suffices. With appended rules it may have more rules than a source has: it is a plain program. It uses about 1 KiB of
/// stack, for a source with preference sheets about 220 KiB.
///
/// ```
/// let source = b"S:\0\0\x01\0\x01\0\0\0\0\x01\0\0\0\0\x02E:\0\x01"; // 1 if not 2
/// let mut out = [0; 21];
/// let empty = b"A:\0\0";
/// assert_eq!(aspda::quotient_source(source, empty, &mut out)?, b"S:\0\0\x01\0\0\0\0\0\0\x01E:\0\x01"); // 1
/// let two = b"A:\0\x01\0\0\0\0\x02";
/// assert_eq!(aspda::quotient_source(source, two, &mut out)?, b"E:\0\0");
/// # Ok::<(), aspda::Refusal>(())
/// ```
///
/// # Errors
/// Refusals 1 to 12 and 14; a refusal of the program comes before one of the set.
pub fn quotient_source<'o>(program: &[u8], set: &[u8], out: &'o mut [u8]) -> Result<&'o mut [u8], Refusal> {
    written(Operation::Quotient, exports::quotient_source(program, set, out), out)
}

/// Writes the quotient of a plain program by a set of plain literals. [`quotient_bound`] gives a length that suffices.
///
/// ```
/// let program = b"S:\0\0\x01\0\x01\0\0\0\0\x01\x06\0\0\0\x09E:\0\x01"; // 1 if not rule-defeated 9
/// let set = b"A:\0\x01\x06\0\0\0\x09"; // {rule-defeated 9}
/// let mut out = [0; 21];
/// assert_eq!(aspda::quotient_plain(program, set, &mut out)?, b"E:\0\0");
/// # Ok::<(), aspda::Refusal>(())
/// ```
///
/// # Errors
/// Refusals 1 to 6 and 8 to 12; a refusal of the program comes before one of the set.
pub fn quotient_plain<'o>(program: &[u8], set: &[u8], out: &'o mut [u8]) -> Result<&'o mut [u8], Refusal> {
    written(Operation::Quotient, exports::quotient_plain(program, set, out), out)
}

/// The length of a buffer that suffices for every extension.
pub const EXTENSION_BOUND: usize = 25_484;

/// Writes the extension of a source's set: the set with its derivation and rule-defeated marks, a plain set.
/// [`EXTENSION_BOUND`] bytes suffice. It uses about 65 KiB of stack.
///
/// M5 of document 01: two rules share tag 7, and the first one's option is defeated.
///
/// ```
/// let source = b"D:\0\x07\x01\0\0\0\0\0\0\x01D:\0\x07\x01\0\0\0\0\0\0\x02S:\0\0\x01\0\0\x02\0\x07\0\x01E:\0\x03";
/// let set = b"A:\0\x02\0\0\0\0\x02\x02\0\x07\0\x01"; // {2, defeated (7, 1)}
/// let mut out = [0; aspda::EXTENSION_BOUND];
/// // It gains derived (7, 2) and rule-defeated 1.
/// assert_eq!(
///     aspda::extend(source, set, &mut out)?,
///     b"A:\0\x04\0\0\0\0\x02\x02\0\x07\0\x01\x04\0\x07\0\x02\x06\0\0\0\x01"
/// );
/// # Ok::<(), aspda::Refusal>(())
/// ```
///
/// # Errors
/// Refusals 1 to 12 and 14; a refusal of the program comes before one of the set.
pub fn extend<'o>(source: &[u8], set: &[u8], out: &'o mut [u8]) -> Result<&'o mut [u8], Refusal> {
    written(Operation::Extend, exports::extend(source, set, out), out)
}

/// The length of a buffer that suffices for a set's restriction: the set's.
pub fn restriction_bound(set: &[u8]) -> usize {
    set.len()
}

/// Writes the restriction of a plain set: the set without its derivation and rule-defeated marks.
/// [`restriction_bound`] gives a length that suffices.
///
/// ```
/// let set = b"A:\0\x02\0\0\0\0\x01\x04\0\x07\0\x01"; // {1, derived (7, 1)}
/// let mut out = vec![0; aspda::restriction_bound(set)];
/// assert_eq!(aspda::restrict(set, &mut out)?, b"A:\0\x01\0\0\0\0\x01"); // {1}
/// # Ok::<(), aspda::Refusal>(())
/// ```
///
/// # Errors
/// Refusals 9 to 12.
pub fn restrict<'o>(set: &[u8], out: &'o mut [u8]) -> Result<&'o mut [u8], Refusal> {
    written(Operation::Restrict, exports::restrict(set, out), out)
}

/// The length that a check asks of its buffer, and that suffices: the set's.
pub fn witness_bound(set: &[u8]) -> usize {
    set.len()
}

/// Is the set an answer set of the source? `out` is at least as long as the set ([`witness_bound`]), whatever the
/// verdict; only [`Verdict::Smaller`] writes to it.
///
/// It uses about 22 KiB of stack, for a source with preference sheets about 356 KiB: a thread with less, say 256 KiB, is
/// too small for those.
///
/// M6 to M9 of document 01:
///
/// ```
/// use aspda::{check_source, Verdict};
/// let mut out = [0; 14];
///
/// let one_or_two = b"S:\0\0\x02\0\0\0\0\0\0\x01\0\0\0\0\x02E:\0\x01";
/// let both = b"A:\0\x02\0\0\0\0\x01\0\0\0\0\x02"; // {1, 2}
/// assert_eq!(check_source(one_or_two, both, &mut out)?, Verdict::Smaller(b"A:\0\x01\0\0\0\0\x02"));
///
/// let opposites = b"A:\0\x02\0\0\0\0\x01\x01\0\0\0\x01"; // {1, -1}
/// assert_eq!(check_source(one_or_two, opposites, &mut out)?, Verdict::Clash(1));
///
/// let never = b"S:\0\0\0\0\0E:\0\x01"; // neither head nor body
/// let empty = b"A:\0\0";
/// assert_eq!(check_source(never, empty, &mut out)?, Verdict::Broken(1));
///
/// let no_rules = b"E:\0\0";
/// assert_eq!(check_source(no_rules, empty, &mut out)?, Verdict::Yes);
/// let one = b"A:\0\x01\0\0\0\0\x01"; // {1}
/// assert_eq!(check_source(no_rules, one, &mut out)?, Verdict::Smaller(empty));
/// # Ok::<(), aspda::Refusal>(())
/// ```
///
/// # Errors
/// Refusals 1 to 12 and 14; 12 for more than 64 literals. A refusal of the program comes before one of the set.
pub fn check_source<'o>(program: &[u8], set: &[u8], out: &'o mut [u8]) -> Result<Verdict<'o>, Refusal> {
    Verdict::from_word(exports::check_source(program, set, out), out)
}

/// Is the set, of plain literals, an answer set of the plain program? As [`check_source`]; it uses about 348 KiB of
/// stack.
///
/// ```
/// let program = b"S:\0\0\x01\0\0\x04\0\x07\0\x01E:\0\x01"; // derived (7, 1)
/// let set = b"A:\0\x01\x04\0\x07\0\x01"; // {derived (7, 1)}
/// let mut out = vec![0; aspda::witness_bound(set)];
/// assert_eq!(aspda::check_plain(program, set, &mut out)?, aspda::Verdict::Yes);
/// # Ok::<(), aspda::Refusal>(())
/// ```
///
/// # Errors
/// Refusals 1 to 6 and 8 to 12; 12 for more than 64 literals. A refusal of the program comes before one of the set.
pub fn check_plain<'o>(program: &[u8], set: &[u8], out: &'o mut [u8]) -> Result<Verdict<'o>, Refusal> {
    Verdict::from_word(exports::check_plain(program, set, out), out)
}

/// The record of a source's rule, a part of the program. The rules that are written are numbered from 1.
///
/// ```
/// let m1 = b"D:\0\x07\x01\0\0\0\0\0\0\x01E:\0\x01"; // tag 7: 1
/// assert_eq!(aspda::show_source(m1, 1), Ok(&m1[..12]));
/// assert_eq!(aspda::show_source(m1, 2).unwrap_err().number, 13);
/// ```
///
/// # Errors
/// Refusals 1 to 8, 13 and 14.
pub fn show_source(program: &[u8], rule: u32) -> Result<&[u8], Refusal> {
    shown(exports::show_source(program, rule), program)
}

/// The record of a plain program's rule, a part of the program. Rules are numbered from 1.
///
/// ```
/// let program = b"S:\0\0\0\0\0S:\0\0\x01\0\0\0\0\0\0\x01E:\0\x02";
/// assert_eq!(aspda::show_plain(program, 2), Ok(&program[7..19]));
/// ```
///
/// # Errors
/// Refusals 1 to 6, 8 and 13.
pub fn show_plain(program: &[u8], rule: u32) -> Result<&[u8], Refusal> {
    shown(exports::show_plain(program, rule), program)
}
