//! The rows of assembly: begin, 256 adds and close, and how the time of an add grows with the rules that are held. Before
//! that, plain Rust and the library are compared: on damaged states and records, in buffers with just enough room and
//! with less, and on histories of calls.

use crate::drawn::{source, Numbers, OPTION_KINDS, SOURCE_KINDS};
use crate::limits::SOURCE;
use crate::plain_assembly::{self, STATE};
use crate::plain_reader::record_size;
use crate::writer::{rule_size, Program, END};
use crate::{exports, output_row};
use std::hint::black_box;
use std::time::Instant;

/// The calls of the library, or of plain Rust.
#[derive(Clone, Copy)]
struct Calls {
    begin: fn(&mut [u8], &[u8]) -> u64,
    add: fn(&mut [u8], &[u8], &mut [u8]) -> u64,
    drop: fn(&mut [u8]) -> u64,
    close: fn(&mut [u8], &mut [u8]) -> u64,
    assembled: fn(&[u8]) -> u64,
}

const PROVED: Calls = Calls {
    begin: exports::begin,
    add: exports::add,
    drop: exports::drop,
    close: exports::close,
    assembled: exports::assembled,
};

const PLAIN: Calls = Calls {
    begin: plain_assembly::begin,
    add: plain_assembly::add,
    drop: plain_assembly::drop,
    close: plain_assembly::close,
    assembled: plain_assembly::assembled,
};

/// The records of a program's rules.
fn records(program: &[u8]) -> Vec<&[u8]> {
    let mut rest = &program[..program.len() - END];
    let mut found = Vec::new();
    while !rest.is_empty() {
        let (record, behind) = rest.split_at(record_size(rest));
        found.push(record);
        rest = behind;
    }
    found
}

/// As many rules as a source may have, of one literal, every other one with an option.
fn facts() -> Vec<u8> {
    let mut numbers = Numbers(43);
    let mut out = Program::default();
    for i in 0..SOURCE.rules {
        let (tag, kinds) = if i % 2 == 0 { (1 + i as u16 % SOURCE.tags, OPTION_KINDS) } else { (0, SOURCE_KINDS) };
        out.rule(tag, &[numbers.literal(kinds)], &[], &[]);
    }
    out.end()
}

/// The state in which these records are held, which have room in the buffer.
fn holding(records: &[&[u8]], out: &mut [u8]) -> [u8; STATE] {
    let mut state = [0; STATE];
    exports::begin(&mut state, out);
    for (i, record) in records.iter().enumerate() {
        assert_eq!(exports::add(&mut state, record, out), 1 + i as u64);
    }
    state
}

/// Calls both with the same state and buffer: the word, the state and the buffer must be the same behind them.
fn same(state: &mut [u8], out: &mut [u8], call: impl Fn(&Calls, &mut [u8], &mut [u8]) -> u64) -> u64 {
    let (mut other_state, mut other_out) = (state.to_vec(), out.to_vec());
    let word = call(&PROVED, state, out);
    let other = call(&PLAIN, &mut other_state, &mut other_out);
    assert_eq!(word, other, "the two disagree on a word, {word:x} and {other:x}");
    assert!(state == other_state && out == other_out, "the two disagree on bytes behind {word:x}");
    assert_eq!((PROVED.assembled)(state), (PLAIN.assembled)(state), "the two disagree on a length");
    word
}

/// Each call on a copy of these bytes as a state.
fn same_on(state: &[u8], record: &[u8], out: &mut [u8]) {
    same(&mut state.to_vec(), out, |calls, state, out| (calls.add)(state, record, out));
    same(&mut state.to_vec(), out, |calls, state, _| (calls.drop)(state));
    same(&mut state.to_vec(), out, |calls, state, out| (calls.close)(state, out));
    same(&mut state.to_vec(), out, |calls, state, out| (calls.begin)(state, out));
}

/// States of so many rules with one byte changed, and of every length around the right one.
fn compare_states(records: &[&[u8]], out: &mut [u8]) {
    for count in [0, 1, 2, 15, 16, 17, 63, 64, 65, 127, 128, 200, 254, 255, 256] {
        let open = holding(&records[..count], out);
        let mut closed = open;
        exports::close(&mut closed, out);
        for state in [open, closed] {
            for place in 0..STATE {
                for byte in [0, 1, 2, 16, 17, 32, 33, 127, 128, 143, 144, 255, state[place] ^ 64] {
                    let mut damaged = state;
                    damaged[place] = byte;
                    same_on(&damaged, records[0], out);
                }
            }
            for length in [0, 1, STATE - 1, STATE + 1] {
                let mut bytes = state.to_vec();
                bytes.resize(length, 0);
                same_on(&bytes, records[0], out);
            }
        }
    }
}

/// Records with one byte changed, cut anywhere, with bytes behind them; buffers with just enough room and with less.
fn compare_records(records: &[&[u8]], out: &mut [u8]) {
    for count in [0, 3, 255, 256] {
        let state = holding(&records[..count], out);
        let length = (PROVED.assembled)(&state) as usize;
        for record in &records[..2] {
            let mut tried = vec![[record, &b"behind"[..]].concat()];
            tried.extend((0..=record.len()).map(|cut| record[..cut].to_vec()));
            for place in 0..record.len() {
                for byte in [0, 1, 2, 3, 4, 7, 16, 17, 48, 200, 201, 244, 245, 255, b'E', b'O', b'X', b'D', b'S'] {
                    let mut damaged = record.to_vec();
                    damaged[place] = byte;
                    tried.push(damaged);
                }
            }
            for record in &tried {
                same(&mut state.to_vec(), out, |calls, state, out| (calls.add)(state, record, out));
            }
            for room in [0, length - END, length, length + record.len() - 1, length + record.len()] {
                let room = room.min(out.len());
                same_on(&state, record, &mut out[..room]);
            }
        }
    }
}

/// Histories of calls, in which now and then a byte of the state or of a record is changed.
fn compare_histories(records: &[&[u8]], out: &mut [u8]) {
    let mut numbers = Numbers(47);
    for history in 0..40 {
        let mut state = vec![0; STATE];
        let mut refused = 0;
        for _ in 0..400 {
            if history % 4 == 3 && numbers.below(50) == 0 {
                state[numbers.below(STATE as u32) as usize] ^= 1 << numbers.below(8);
            }
            let mut record = records[numbers.below(records.len() as u32) as usize].to_vec();
            if numbers.below(8) == 0 {
                let place = numbers.below(record.len() as u32) as usize;
                record[place] ^= 1 << numbers.below(8);
            }
            let word = match numbers.below(100) {
                0 => same(&mut state, out, |calls, state, out| (calls.begin)(state, out)),
                1 => same(&mut state, out, |calls, state, out| (calls.close)(state, out)),
                2..=20 => same(&mut state, out, |calls, state, _| (calls.drop)(state)),
                _ => same(&mut state, out, |calls, state, out| (calls.add)(state, &record, out)),
            };
            refused += word >> 63;
            if word >> 63 == 1 && refused % 8 == 0 {
                same(&mut state, out, |calls, state, out| (calls.begin)(state, out));
            }
        }
    }
}

/// Begin, an add for each record, close: the length of the closed source.
#[inline(always)]
fn assemble(calls: &Calls, records: &[&[u8]], out: &mut [u8]) -> u64 {
    let mut state = [0; STATE];
    (calls.begin)(&mut state, out);
    for record in records {
        black_box((calls.add)(&mut state, black_box(record), out));
    }
    (calls.close)(&mut state, out);
    (calls.assembled)(&state)
}

/// Seconds for an add of the record to this state: the best of many batches, each on copies made outside the time, as
/// many as stay in the nearest cache.
fn best_add(calls: &Calls, state: &[u8; STATE], record: &[u8], out: &mut [u8]) -> f64 {
    const STATES: usize = 24;
    let mut best = f64::MAX;
    for _ in 0..2_000 {
        let mut states = [*state; STATES];
        black_box(&mut states);
        let started = Instant::now();
        for state in &mut states {
            black_box((calls.add)(state, black_box(record), out));
        }
        best = best.min(started.elapsed().as_secs_f64() / STATES as f64);
    }
    best
}

fn growth_rows(name: &str, records: &[&[u8]], held: &[usize], out: &mut [u8]) {
    for (calls, whose) in [(&PROVED, ""), (&PLAIN, ", Rust")] {
        print!("{:<20}", format!("{name}{whose}"));
        for &count in held {
            let state = holding(&records[..count], out);
            print!("{:>8.1}", 1e9 * best_add(calls, &state, records[0], out));
        }
        println!();
    }
}

pub fn rows() {
    let (full, facts) = (source(), facts());
    let (longest, shortest) = (records(&full), records(&facts));
    let mut out = vec![0; full.len()];
    for records in [&longest, &shortest] {
        compare_states(records, &mut out);
        compare_records(records, &mut out);
    }
    compare_histories(&[&longest[..], &shortest].concat(), &mut out);

    println!("\nassembly                bytes  proved MB/s    Rust MB/s  ratio  memcpy MB/s");
    for (name, program, records) in
        [("add 256, 48 literals", &full, &longest), ("add 256, 1 literal", &facts, &shortest)]
    {
        let (proved, plain) =
            (|out: &mut [u8]| assemble(&PROVED, records, out), |out: &mut [u8]| assemble(&PLAIN, records, out));
        output_row(name, program.len(), proved, plain);
        let mut made = vec![0; program.len()];
        assemble(&PROVED, records, &mut made);
        assert!(made == *program, "what is assembled is not the program of {name}");
    }

    let held = [0, 64, 128, SOURCE.rules - 1];
    assert_eq!((longest[0].len(), shortest[0].len()), (rule_size(48), rule_size(1)));
    print!("\nns an add, by rules ");
    held.iter().for_each(|count| print!("{count:>8}"));
    println!();
    growth_rows("48 literals", &longest, &held, &mut out);
    growth_rows("1 literal", &shortest, &held, &mut out);
    println!("bytes of a state    {STATE:>8}");
}
