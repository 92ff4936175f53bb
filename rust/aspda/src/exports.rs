//! The static library's functions on slices, each with its word. All `unsafe` code of the crate stands here.
//!
//! Every pointer is a slice's, so it is not null and goes with its slice's length. A slice that is written to is borrowed
//! alone, so it overlaps no other; the others are only read.
//!
//! tests/runner and bench have this file as a module of theirs: they call the library without the rest of the crate,
//! and the functions are declared for Rust here alone.

type Program = unsafe extern "C" fn(*const u8, usize) -> u64;
type ProgramRule = unsafe extern "C" fn(*const u8, usize, u32) -> u64;
type SliceOut = unsafe extern "C" fn(*const u8, usize, *mut u8, usize) -> u64;
type ProgramSetOut = unsafe extern "C" fn(*const u8, usize, *const u8, usize, *mut u8, usize) -> u64;

#[link(name = "aspda", kind = "static")]
extern "C" {
    fn aspda_read_source(p: *const u8, n: usize) -> u64;
    fn aspda_read_plain(p: *const u8, n: usize) -> u64;
    fn aspda_translate(p: *const u8, n: usize, out: *mut u8, m: usize) -> u64;
    fn aspda_aspif(p: *const u8, n: usize, out: *mut u8, m: usize) -> u64;
    fn aspda_quotient_source(p: *const u8, n: usize, s: *const u8, k: usize, out: *mut u8, m: usize) -> u64;
    fn aspda_quotient_plain(p: *const u8, n: usize, s: *const u8, k: usize, out: *mut u8, m: usize) -> u64;
    fn aspda_extend(p: *const u8, n: usize, s: *const u8, k: usize, out: *mut u8, m: usize) -> u64;
    fn aspda_restrict(s: *const u8, k: usize, out: *mut u8, m: usize) -> u64;
    fn aspda_check_source(p: *const u8, n: usize, s: *const u8, k: usize, out: *mut u8, m: usize) -> u64;
    fn aspda_check_plain(p: *const u8, n: usize, s: *const u8, k: usize, out: *mut u8, m: usize) -> u64;
    fn aspda_show_source(p: *const u8, n: usize, rule: u32) -> u64;
    fn aspda_show_plain(p: *const u8, n: usize, rule: u32) -> u64;
    fn aspda_begin(state: *mut u8, k: usize, out: *const u8, m: usize) -> u64;
    fn aspda_add(state: *mut u8, k: usize, record: *const u8, r: usize, out: *mut u8, m: usize) -> u64;
    fn aspda_drop(state: *mut u8, k: usize) -> u64;
    fn aspda_close(state: *mut u8, k: usize, out: *mut u8, m: usize) -> u64;
    fn aspda_assembled(state: *const u8, k: usize) -> u64;
}

fn on_program(export: Program, program: &[u8]) -> u64 {
    unsafe { export(program.as_ptr(), program.len()) }
}

fn on_rule(export: ProgramRule, program: &[u8], rule: u32) -> u64 {
    unsafe { export(program.as_ptr(), program.len(), rule) }
}

fn on_slice(export: SliceOut, slice: &[u8], out: &mut [u8]) -> u64 {
    unsafe { export(slice.as_ptr(), slice.len(), out.as_mut_ptr(), out.len()) }
}

fn on_set(export: ProgramSetOut, program: &[u8], set: &[u8], out: &mut [u8]) -> u64 {
    unsafe { export(program.as_ptr(), program.len(), set.as_ptr(), set.len(), out.as_mut_ptr(), out.len()) }
}

pub fn read_source(program: &[u8]) -> u64 {
    on_program(aspda_read_source, program)
}

pub fn read_plain(program: &[u8]) -> u64 {
    on_program(aspda_read_plain, program)
}

pub fn translate(source: &[u8], out: &mut [u8]) -> u64 {
    on_slice(aspda_translate, source, out)
}

pub fn aspif(program: &[u8], out: &mut [u8]) -> u64 {
    on_slice(aspda_aspif, program, out)
}

pub fn quotient_source(program: &[u8], set: &[u8], out: &mut [u8]) -> u64 {
    on_set(aspda_quotient_source, program, set, out)
}

pub fn quotient_plain(program: &[u8], set: &[u8], out: &mut [u8]) -> u64 {
    on_set(aspda_quotient_plain, program, set, out)
}

pub fn extend(source: &[u8], set: &[u8], out: &mut [u8]) -> u64 {
    on_set(aspda_extend, source, set, out)
}

pub fn restrict(set: &[u8], out: &mut [u8]) -> u64 {
    on_slice(aspda_restrict, set, out)
}

pub fn check_source(program: &[u8], set: &[u8], out: &mut [u8]) -> u64 {
    on_set(aspda_check_source, program, set, out)
}

pub fn check_plain(program: &[u8], set: &[u8], out: &mut [u8]) -> u64 {
    on_set(aspda_check_plain, program, set, out)
}

pub fn show_source(program: &[u8], rule: u32) -> u64 {
    on_rule(aspda_show_source, program, rule)
}

pub fn show_plain(program: &[u8], rule: u32) -> u64 {
    on_rule(aspda_show_plain, program, rule)
}

pub fn begin(state: &mut [u8], out: &[u8]) -> u64 {
    unsafe { aspda_begin(state.as_mut_ptr(), state.len(), out.as_ptr(), out.len()) }
}

pub fn add(state: &mut [u8], record: &[u8], out: &mut [u8]) -> u64 {
    unsafe { aspda_add(state.as_mut_ptr(), state.len(), record.as_ptr(), record.len(), out.as_mut_ptr(), out.len()) }
}

pub fn drop(state: &mut [u8]) -> u64 {
    unsafe { aspda_drop(state.as_mut_ptr(), state.len()) }
}

pub fn close(state: &mut [u8], out: &mut [u8]) -> u64 {
    unsafe { aspda_close(state.as_mut_ptr(), state.len(), out.as_mut_ptr(), out.len()) }
}

pub fn assembled(state: &[u8]) -> u64 {
    unsafe { aspda_assembled(state.as_ptr(), state.len()) }
}
