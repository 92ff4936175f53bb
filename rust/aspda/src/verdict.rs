//! What the check of a proposed set finds.

use crate::{halves, Operation, Refusal};

// The numbers of the verdicts in a word, as include/aspda.h has them.
const YES: u32 = 0;
const CLASH: u32 = 1;
const BROKEN: u32 = 2;

/// What a check finds, tried in the order clash, broken, smaller.
#[derive(Clone, Copy, Debug, PartialEq, Eq)]
pub enum Verdict<'o> {
    /// The set is an answer set.
    Yes,
    /// The position in the set, from 1, of the first literal whose opposite is in the set.
    Clash(u32),
    /// The number, from 1, of the first rule whose remainder in the quotient does not hold. The rules that preference
    /// sheets append are counted behind the written ones.
    Broken(u32),
    /// An `A:` record: the first proper subset that is a model of the quotient, subsets being compared literal by
    /// literal, absent before present.
    Smaller(&'o [u8]),
}

impl<'o> Verdict<'o> {
    /// The verdict that a check's word gives; a witness is the part of `out` that the check wrote.
    pub(crate) fn from_word(word: u64, out: &'o [u8]) -> Result<Verdict<'o>, Refusal> {
        let (verdict, value) = halves(Operation::Check, word)?;
        Ok(match verdict {
            YES => Verdict::Yes,
            CLASH => Verdict::Clash(value),
            BROKEN => Verdict::Broken(value),
            _ => Verdict::Smaller(&out[..value as usize]),
        })
    }
}
