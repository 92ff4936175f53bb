//! Calls the exports of the static library with the rows of a vector file and compares.
//!
//! `runner FILE [--least N] [--filter PROGRAM] [--trace]`; FILE may be `-`, standard input.
//!
//! Each row is run twice, with complementary bytes in the lent buffer and around all slices: a byte
//! of the result that was not written, and a byte outside that was read or written, shows in one of
//! the two. Fails on any difference, if there are no rows, and if an operation has none or a refusal
//! number that it can give is reached fewer than N times (20 unless given; 0 asks for neither).
//!
//! The filter is a program of its own, run for its rows if `--filter` names it.

#[path = "../../rust/aspda/src/exports.rs"]
#[rustfmt::skip] // its lines have the crate's width
mod exports;
mod operations;
mod vector_file;

use std::collections::BTreeMap;
use std::fs::File;
use std::io::{self, BufReader, Read, Write};
use std::process::{Command, ExitCode, Stdio};
use std::thread;

use operations::{Inputs, Operation, OPERATIONS, TRANSLATE};
use vector_file::{Row, Vectors};

const REFUSED: u64 = 1 << 63;
const GUARD: usize = 64;
const SHOWN_DIFFERENCES: usize = 20;

/// What is told of one operation at the end.
#[derive(Default)]
struct Tally {
    rows: usize,
    differences: usize,
    refusals: BTreeMap<u64, usize>,
    verdicts: [usize; 4],
}

struct Options {
    file: String,
    least: usize,
    filter: Option<String>,
    trace: bool,
}

fn main() -> ExitCode {
    match options().and_then(|options| run(&options)) {
        Ok(true) => ExitCode::SUCCESS,
        Ok(false) => ExitCode::FAILURE,
        Err(problem) => {
            println!("runner: {problem}");
            ExitCode::FAILURE
        }
    }
}

fn options() -> Result<Options, String> {
    let mut options = Options {
        file: String::new(),
        least: 20,
        filter: None,
        trace: false,
    };
    let mut words = std::env::args().skip(1);
    while let Some(word) = words.next() {
        match word.as_str() {
            "--least" => {
                options.least = value(&mut words)?
                    .parse()
                    .map_err(|_| "--least: no number")?
            }
            "--filter" => options.filter = Some(value(&mut words)?),
            "--trace" => options.trace = true,
            _ if options.file.is_empty() => options.file = word,
            _ => return Err(format!("unknown word {word}")),
        }
    }
    if options.file.is_empty() {
        return Err("which vector file?".to_string());
    }
    Ok(options)
}

fn value(words: &mut impl Iterator<Item = String>) -> Result<String, String> {
    words.next().ok_or_else(|| "a word is missing".to_string())
}

fn run(options: &Options) -> Result<bool, String> {
    let mut tallies: BTreeMap<String, Tally> = BTreeMap::new();
    let mut vectors = Vectors::open(source(&options.file)?)?;
    let mut shown = 0;
    while let Some(row) = vectors.next_row()? {
        if options.trace {
            println!("{} {}", row.operation, row.name);
        }
        let differences = differences(options, &row)?;
        let tally = tallies.entry(row.operation.clone()).or_default();
        count(tally, &row, differences.len());
        for difference in differences {
            shown += 1;
            if shown <= SHOWN_DIFFERENCES {
                println!("DIFFERENT {} {}: {difference}", row.operation, row.name);
            }
        }
    }
    Ok(report(options, &tallies))
}

fn source(file: &str) -> Result<Box<dyn Read>, String> {
    if file == "-" {
        return Ok(Box::new(BufReader::new(io::stdin())));
    }
    let opened = File::open(file).map_err(|problem| format!("{file}: {problem}"))?;
    Ok(Box::new(BufReader::with_capacity(1 << 20, opened)))
}

fn differences(options: &Options, row: &Row) -> Result<Vec<String>, String> {
    if row.operation == "filter" {
        let program = options
            .filter
            .as_ref()
            .ok_or("rows of the filter, but no --filter")?;
        return filter_differences(program, row);
    }
    let operation = OPERATIONS
        .iter()
        .find(|operation| operation.name == row.operation)
        .ok_or_else(|| format!("rows of {}, which is not exported", row.operation))?;
    let mut found = export_differences(operation, row, 0x00);
    if found.is_empty() {
        found = export_differences(operation, row, 0xFF);
    }
    Ok(found)
}

/// Bytes with a guard on either side.
struct Guarded {
    bytes: Vec<u8>,
    guard: Vec<u8>,
}

/// What stands in memory that the call must leave alone; `flip` gives its complement.
fn filling(length: usize, flip: u8) -> Vec<u8> {
    (0..length)
        .map(|at| ((at * 151 + at / 256 + 89) as u8) ^ flip)
        .collect()
}

impl Guarded {
    fn new(inner: &[u8], flip: u8) -> Guarded {
        let guard = filling(GUARD, flip);
        Guarded {
            bytes: [&guard, inner, &guard].concat(),
            guard,
        }
    }

    fn inner(&self) -> &[u8] {
        &self.bytes[GUARD..self.bytes.len() - GUARD]
    }

    fn inner_mut(&mut self) -> &mut [u8] {
        let end = self.bytes.len() - GUARD;
        &mut self.bytes[GUARD..end]
    }

    fn is_guarded(&self) -> bool {
        self.bytes.starts_with(&self.guard) && self.bytes.ends_with(&self.guard)
    }
}

fn export_differences(operation: &Operation, row: &Row, flip: u8) -> Vec<String> {
    let program = Guarded::new(&row.program, flip);
    let set = Guarded::new(&row.set, flip);
    let mut state = Guarded::new(&row.state, flip);
    let lent = filling(row.room, flip);
    let mut out = Guarded::new(&lent, flip);
    let inputs = Inputs {
        program: program.inner(),
        set: set.inner(),
        rule: row.rule,
    };
    let word = operation.call(&inputs, state.inner_mut(), out.inner_mut());

    let mut found = Vec::new();
    if word != row.word {
        found.push(format!("expected {}, got {}", words(row.word), words(word)));
    }
    let expected = with_written(&lent, row);
    if let Some(place) = first_difference(&expected, out.inner()) {
        found.push(format!(
            "lent buffer of {} bytes, at {place}: {}",
            row.room,
            both(&expected, out.inner(), place)
        ));
    }
    if let Some(place) = first_difference(&row.state_after, state.inner()) {
        found.push(format!(
            "state of {} bytes, at {place}: {}",
            row.state.len(),
            both(&row.state_after, state.inner(), place)
        ));
    }
    if !state.is_guarded() {
        found.push("bytes outside the state were written".to_string());
    }
    for (name, slice, given) in [("program", &program, &row.program), ("set", &set, &row.set)] {
        if slice.inner() != given.as_slice() || !slice.is_guarded() {
            found.push(format!("the {name} was written to"));
        }
    }
    if !out.is_guarded() {
        found.push("bytes outside the lent buffer were written".to_string());
    }
    found
}

/// The lent buffer with what the row's call writes.
fn with_written(lent: &[u8], row: &Row) -> Vec<u8> {
    let start = row.start.min(lent.len());
    let end = (start + row.written.len()).min(lent.len());
    [&lent[..start], &row.written, &lent[end..]].concat()
}

fn first_difference(expected: &[u8], got: &[u8]) -> Option<usize> {
    if expected == got {
        return None;
    }
    let same = expected
        .iter()
        .zip(got)
        .take_while(|(one, other)| one == other)
        .count();
    Some(same)
}

fn both(expected: &[u8], got: &[u8], place: usize) -> String {
    let part = |bytes: &[u8]| {
        format!(
            "{:02x?}",
            &bytes[place.min(bytes.len())..bytes.len().min(place + 8)]
        )
    };
    format!("expected {}, got {}", part(expected), part(got))
}

fn words(word: u64) -> String {
    if word >= REFUSED {
        let refusal = word - REFUSED;
        return format!("refused {} at {}", refusal >> 32, refusal & 0xFFFF_FFFF);
    }
    if word >> 32 == 0 {
        format!("{word}")
    } else {
        format!("{} * 2^32 + {}", word >> 32, word & 0xFFFF_FFFF)
    }
}

fn filter_differences(program: &str, row: &Row) -> Result<Vec<String>, String> {
    let stdout =
        filtered(program, &row.program).map_err(|problem| format!("{program}: {problem}"))?;
    Ok(first_difference(&row.written, &stdout)
        .map(|place| {
            format!(
                "expected {} bytes, got {}; at {place}: {}",
                row.written.len(),
                stdout.len(),
                both(&row.written, &stdout, place)
            )
        })
        .into_iter()
        .collect())
}

fn filtered(program: &str, stdin: &[u8]) -> io::Result<Vec<u8>> {
    let mut child = Command::new(program)
        .stdin(Stdio::piped())
        .stdout(Stdio::piped())
        .spawn()?;
    let mut pipe = child.stdin.take().expect("stdin is piped");
    let given = stdin.to_vec();
    // The filter stops reading when its buffer is full: a broken pipe is no failure.
    let feeder = thread::spawn(move || drop(pipe.write_all(&given)));
    let mut stdout = Vec::new();
    child
        .stdout
        .take()
        .expect("stdout is piped")
        .read_to_end(&mut stdout)?;
    feeder.join().expect("feeding does not panic");
    child.wait()?;
    Ok(stdout)
}

fn count(tally: &mut Tally, row: &Row, differences: usize) {
    tally.rows += 1;
    tally.differences += usize::from(differences > 0);
    if let Some(number) = refusal_number(row) {
        *tally.refusals.entry(number).or_default() += 1;
    } else if row.operation.starts_with("check") {
        tally.verdicts[(row.word >> 32) as usize] += 1;
    }
}

/// The refusal that a row expects: in its word, or in the filter's refusal record.
fn refusal_number(row: &Row) -> Option<u64> {
    if row.operation == "filter" {
        return row
            .written
            .starts_with(b"R:")
            .then(|| u64::from(row.written[2]));
    }
    (row.word >= REFUSED).then(|| (row.word - REFUSED) >> 32)
}

/// A line for each operation; true if all is well.
fn report(options: &Options, tallies: &BTreeMap<String, Tally>) -> bool {
    let mut well = !tallies.is_empty();
    if tallies.is_empty() {
        println!("NO ROWS in the vector file");
    }
    let mut demands: Vec<(&str, &[u64])> = OPERATIONS
        .iter()
        .map(|operation| (operation.name, operation.refusals))
        .collect();
    if options.filter.is_some() {
        demands.push(("filter", TRANSLATE));
    }
    for (name, refusals) in demands {
        let nothing = Tally::default();
        let tally = tallies.get(name).unwrap_or(&nothing);
        well &= tell(name, tally, refusals, options.least);
    }
    well
}

fn tell(name: &str, tally: &Tally, refusals: &[u64], least: usize) -> bool {
    let refused: usize = tally.refusals.values().sum();
    let numbers: Vec<String> = tally
        .refusals
        .iter()
        .map(|(number, times)| format!("{number}: {times}"))
        .collect();
    println!(
        "{name}: {} rows, {} different, {} accepted{}, refused {}",
        tally.rows,
        tally.differences,
        tally.rows - refused,
        verdicts(tally),
        numbers.join(", ")
    );
    let mut well = tally.differences == 0 && (tally.rows > 0 || least == 0);
    for number in refusals {
        let times = tally.refusals.get(number).copied().unwrap_or(0);
        if times < least {
            println!(
                "TOO FEW {name}: refusal {number} reached {times} times, {least} are asked for"
            );
            well = false;
        }
    }
    for number in tally
        .refusals
        .keys()
        .filter(|number| !refusals.contains(number))
    {
        println!("WRONG {name}: the vectors expect refusal {number}, which it cannot give");
        well = false;
    }
    well
}

/// The check's verdicts, where there are any.
fn verdicts(tally: &Tally) -> String {
    let [yes, clash, broken, smaller] = tally.verdicts;
    if yes + clash + broken + smaller == 0 {
        return String::new();
    }
    format!(" (yes {yes}, clash {clash}, broken {broken}, smaller {smaller})")
}
