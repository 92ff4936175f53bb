//! Why an operation refuses, and what the refusal speaks of.

use std::error::Error;
use std::fmt;

/// The slice of a call that a refusal speaks of.
#[derive(Clone, Copy, Debug, PartialEq, Eq, Hash)]
pub enum Slice {
    /// The program. A rule number that it does not have is refused as the program's, too.
    Program,
    /// The set.
    Set,
    /// The record that is added to an [`Assembly`](crate::Assembly).
    Record,
    /// The state of an [`Assembly`](crate::Assembly).
    State,
    /// The slice that the result would be written to; of an [`Assembly`](crate::Assembly) its buffer.
    Output,
}

/// What of its slice a refusal speaks of.
#[derive(Clone, Copy, Debug, PartialEq, Eq, Hash)]
pub enum Part {
    /// The slice as a whole; the place is 0.
    Whole,
    /// A record: a rule's, a preference sheet's, or a program's end record.
    Record,
    /// A literal of a rule, of a preference sheet or of the set.
    Literal,
}

/// An operation, as far as its refusals go: they speak of the same slices in both forms.
#[derive(Clone, Copy)]
pub(crate) enum Operation {
    Read,
    Show,
    Translate,
    Aspif,
    Quotient,
    Extend,
    Restrict,
    Check,
    Begin,
    Add,
    Drop,
    Close,
}

impl Operation {
    /// The refusal that this operation gives by a number and a place.
    pub(crate) fn refusal(self, number: u8, place: u32) -> Refusal {
        Refusal { number, slice: self.slice(number), place }
    }

    /// The slice that a number speaks of: document 01, "Operations and what each refuses"; document 02, asks 1, 2, 4.
    fn slice(self, number: u8) -> Slice {
        use Operation::*;
        match (self, number) {
            (Translate | Aspif | Quotient | Extend | Restrict | Check | Begin | Add | Close, 9) => Slice::Output,
            (Quotient | Extend | Check, 10..=12) | (Restrict, _) => Slice::Set,
            (Add, 2..=7) => Slice::Record,
            // 15, for it is the state that is not open or holds no rule.
            (Begin | Add | Drop | Close, _) => Slice::State,
            // 1 to 8 and 14; and 13, for it is the program that has no such rule.
            (Read | Show | Translate | Aspif | Quotient | Extend | Check, _) => Slice::Program,
        }
    }
}

/// A refusal: the number of the reason in documents 01 and 02, the slice that it speaks of, and the byte offset of its
/// place there.
///
/// | Number | Slice | Part | Operations |
/// |---|---|---|---|
/// | 1 | program | whole | all on programs |
/// | 2, 3, 4, 6, 8 | program | record | all on programs |
/// | 5 | program | literal | all on programs |
/// | 7, 14 | program | record | all on sources |
/// | 9 | output | whole | translate, aspif, quotient, extend, restrict, check; begin and add of an assembly |
/// | 10, 12 | set | whole | quotient, extend, restrict, check |
/// | 11 | set | literal | quotient, extend, restrict, check |
/// | 13 | program | whole | show |
/// | 2, 3, 4, 6, 7 | record | record | add of an assembly |
/// | 5 | record | literal | add of an assembly |
/// | 15 | state | whole | drop_last of an assembly |
///
/// A call that refuses has written nothing.
///
/// ```
/// use aspda::{Part, Refusal, Slice};
/// let refusal = aspda::read_source(&[]).unwrap_err();
/// assert_eq!(refusal, Refusal { number: 2, slice: Slice::Program, place: 0 });
/// assert_eq!(refusal.to_string(), "refused with 2 at byte 0: a record is cut short");
///
/// // The second literal of the set is not above the first.
/// let refusal = aspda::restrict(b"A:\0\x02\0\0\0\0\x02\0\0\0\0\x01", &mut []).unwrap_err();
/// assert_eq!((refusal.slice, refusal.part(), refusal.place), (Slice::Set, Part::Literal, 9));
///
/// // A preference sheet in which tag 7 would override itself.
/// let refusal = aspda::read_source(b"O:\0\x07\0\x07E:\0\0").unwrap_err();
/// assert_eq!((refusal.number, refusal.part(), refusal.place), (14, Part::Record, 0));
/// ```
#[derive(Clone, Copy, Debug, PartialEq, Eq, Hash)]
pub struct Refusal {
    /// The number of the reason in documents 01 and 02, 1 to 15.
    pub number: u8,
    /// The slice of the call that the refusal speaks of.
    pub slice: Slice,
    /// The offset in that slice where the refused part begins or would begin.
    pub place: u32,
}

impl Refusal {
    /// The reason in words: one line for each number.
    ///
    /// ```
    /// let empty = b"E:\0\0";
    /// assert_eq!(aspda::show_plain(empty, 1).unwrap_err().reason(), "the program has no rule of this number");
    /// ```
    pub fn reason(&self) -> &'static str {
        match self.number {
            1 => "the program is longer than its form allows",
            2 => "a record is cut short",
            3 => "the mark is none of the form's records",
            4 => "one rule or sheet record too many, or too many head, positive or naf literals in a rule",
            5 => "a literal's kind, tag or number is not one that the form takes",
            6 => "a rule's or a sheet's tag is out of range",
            7 => "a defeasible rule has no head, or a defeat mark in its head",
            8 => "the end record counts the rules wrongly, or bytes follow it",
            9 => "the output slice is too short",
            10 => "the set's mark is wrong, or its slice is not as long as its count says",
            11 => "a literal of the set is not one that the form takes, or not above the one before it",
            12 => "the set has too many literals",
            13 => "the program has no rule of this number",
            14 => "a tag overrides itself, or an option opposes itself",
            15 => "the call is out of turn: nothing is open, or there is no rule to drop",
            _ => "a reason that this crate does not know",
        }
    }

    /// What of the slice is refused. The place is where it begins or would begin.
    ///
    /// ```
    /// use aspda::Part;
    /// // Bytes behind the end record.
    /// assert_eq!(aspda::read_source(b"E:\0\0E:").unwrap_err().part(), Part::Record);
    /// // The rule's head is atom 501.
    /// let refusal = aspda::read_source(b"S:\0\0\x01\0\0\0\0\0\x01\xF5E:\0\x01").unwrap_err();
    /// assert_eq!((refusal.part(), refusal.place), (Part::Literal, 7));
    /// // A source has at most 64,388 bytes.
    /// assert_eq!(aspda::read_source(&[0; 64_389]).unwrap_err().part(), Part::Whole);
    /// ```
    pub fn part(&self) -> Part {
        match self.number {
            2 | 3 | 4 | 6 | 7 | 8 | 14 => Part::Record,
            5 | 11 => Part::Literal,
            _ => Part::Whole,
        }
    }
}

impl fmt::Display for Refusal {
    fn fmt(&self, f: &mut fmt::Formatter<'_>) -> fmt::Result {
        write!(f, "refused with {} at byte {}: {}", self.number, self.place, self.reason())
    }
}

impl Error for Refusal {}
