//! The operations by name: the library's function on what a row has, and the refusals that it can give.

use crate::exports;

/// What a row hands to its operation; an operation takes what it needs.
pub struct Inputs<'a> {
    /// Of a call of program assembly the record.
    pub program: &'a [u8],
    pub set: &'a [u8],
    pub rule: u32,
}

enum Function {
    OnProgram(fn(&[u8]) -> u64),
    OnRule(fn(&[u8], u32) -> u64),
    OnProgramToOut(fn(&[u8], &mut [u8]) -> u64),
    OnSetToOut(fn(&[u8], &mut [u8]) -> u64),
    OnBothToOut(fn(&[u8], &[u8], &mut [u8]) -> u64),
    OnState(fn(&[u8]) -> u64),
    ToState(fn(&mut [u8]) -> u64),
    ToStateBesideOut(fn(&mut [u8], &[u8]) -> u64),
    ToStateAndOut(fn(&mut [u8], &mut [u8]) -> u64),
    OnRecordToStateAndOut(fn(&mut [u8], &[u8], &mut [u8]) -> u64),
}

pub struct Operation {
    /// The export's name behind `aspda_`.
    pub name: &'static str,
    function: Function,
    /// Every refusal number that it can give.
    pub refusals: &'static [u64],
}

impl Operation {
    pub fn call(&self, inputs: &Inputs, state: &mut [u8], out: &mut [u8]) -> u64 {
        match self.function {
            Function::OnProgram(function) => function(inputs.program),
            Function::OnRule(function) => function(inputs.program, inputs.rule),
            Function::OnProgramToOut(function) => function(inputs.program, out),
            Function::OnSetToOut(function) => function(inputs.set, out),
            Function::OnBothToOut(function) => function(inputs.program, inputs.set, out),
            Function::OnState(function) => function(state),
            Function::ToState(function) => function(state),
            Function::ToStateBesideOut(function) => function(state, out),
            Function::ToStateAndOut(function) => function(state, out),
            Function::OnRecordToStateAndOut(function) => function(state, inputs.program, out),
        }
    }
}

// The numbers of refusal that each operation can give.
const READ_SOURCE: &[u64] = &[1, 2, 3, 4, 5, 6, 7, 8, 14];
const READ_PLAIN: &[u64] = &[1, 2, 3, 4, 5, 6, 8];
const SHOW_SOURCE: &[u64] = &[1, 2, 3, 4, 5, 6, 7, 8, 13, 14];
const SHOW_PLAIN: &[u64] = &[1, 2, 3, 4, 5, 6, 8, 13];
pub const TRANSLATE: &[u64] = &[1, 2, 3, 4, 5, 6, 7, 8, 9, 14];
const PLAIN_TO_OUT: &[u64] = &[1, 2, 3, 4, 5, 6, 8, 9];
const SOURCE_AND_SET: &[u64] = &[1, 2, 3, 4, 5, 6, 7, 8, 9, 10, 11, 12, 14];
const PLAIN_AND_SET: &[u64] = &[1, 2, 3, 4, 5, 6, 8, 9, 10, 11, 12];
const SET_ALONE: &[u64] = &[9, 10, 11, 12];
const STATE_ALONE: &[u64] = &[15];
const STATE_AND_OUT: &[u64] = &[9, 15];
const ADD: &[u64] = &[2, 3, 4, 5, 6, 7, 9, 15];

/// The operations that the library exports.
#[rustfmt::skip]
pub const OPERATIONS: [Operation; 17] = {
    use Function::*;
    [
        Operation { name: "read_source", function: OnProgram(exports::read_source), refusals: READ_SOURCE },
        Operation { name: "read_plain", function: OnProgram(exports::read_plain), refusals: READ_PLAIN },
        Operation { name: "show_source", function: OnRule(exports::show_source), refusals: SHOW_SOURCE },
        Operation { name: "show_plain", function: OnRule(exports::show_plain), refusals: SHOW_PLAIN },
        Operation { name: "translate", function: OnProgramToOut(exports::translate), refusals: TRANSLATE },
        Operation { name: "quotient_source", function: OnBothToOut(exports::quotient_source), refusals: SOURCE_AND_SET },
        Operation { name: "quotient_plain", function: OnBothToOut(exports::quotient_plain), refusals: PLAIN_AND_SET },
        Operation { name: "extend", function: OnBothToOut(exports::extend), refusals: SOURCE_AND_SET },
        Operation { name: "restrict", function: OnSetToOut(exports::restrict), refusals: SET_ALONE },
        Operation { name: "check_source", function: OnBothToOut(exports::check_source), refusals: SOURCE_AND_SET },
        Operation { name: "check_plain", function: OnBothToOut(exports::check_plain), refusals: PLAIN_AND_SET },
        Operation { name: "aspif", function: OnProgramToOut(exports::aspif), refusals: PLAIN_TO_OUT },
        Operation { name: "begin", function: ToStateBesideOut(exports::begin), refusals: STATE_AND_OUT },
        Operation { name: "add", function: OnRecordToStateAndOut(exports::add), refusals: ADD },
        Operation { name: "drop", function: ToState(exports::drop), refusals: STATE_ALONE },
        Operation { name: "close", function: ToStateAndOut(exports::close), refusals: STATE_AND_OUT },
        Operation { name: "assembled", function: OnState(exports::assembled), refusals: &[] },
    ]
};
