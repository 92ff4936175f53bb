//! Each of the documents' refusal numbers, by way of the crate, for each operation that can give it: number, place, the
//! slice and the part that it speaks of, and a reason of its own.

#[path = "../../limits.rs"]
mod limits;

use aspda::{Assembly, Part, Refusal, Slice};
use limits::{APPENDED_RULE, PLAIN, SOURCE};
use std::collections::BTreeSet;

const ONE: &[u8] = b"S:\0\0\x01\0\0\0\0\0\0\x01E:\0\x01"; // 1
const EMPTY: &[u8] = b"A:\0\0";

/// What is handed to a call; an operation takes what it needs.
struct Inputs<'a> {
    program: &'a [u8],
    set: &'a [u8],
    rule: u32,
    room: usize,
}

/// Inputs that every operation takes.
const ACCEPTED: Inputs = Inputs { program: ONE, set: EMPTY, rule: 1, room: 100 };

type Call = fn(&Inputs, &mut [u8]) -> Result<(), Refusal>;

/// An operation of a form, and the numbers by which it can refuse its program, its set and its output.
struct Operation {
    name: &'static str,
    call: Call,
    program: &'static [u8],
    set: &'static [u8],
    output: &'static [u8],
    /// As many literals as its set may have.
    literals: usize,
}

const READ_SOURCE: &[u8] = &[1, 2, 3, 4, 5, 6, 7, 8, 14];
const READ_PLAIN: &[u8] = &[1, 2, 3, 4, 5, 6, 8];
const SHOW_SOURCE: &[u8] = &[1, 2, 3, 4, 5, 6, 7, 8, 13, 14];
const SHOW_PLAIN: &[u8] = &[1, 2, 3, 4, 5, 6, 8, 13];
const SET: &[u8] = &[10, 11, 12];
const OUTPUT: &[u8] = &[9];
const NONE: &[u8] = &[];

fn operation(name: &'static str, numbers: [&'static [u8]; 3], literals: usize, call: Call) -> Operation {
    let [program, set, output] = numbers;
    Operation { name, call, program, set, output, literals }
}

#[rustfmt::skip]
fn operations() -> [Operation; 12] {
    [
        operation("read_source", [READ_SOURCE, NONE, NONE], 0, |i, _| aspda::read_source(i.program).map(drop)),
        operation("read_plain", [READ_PLAIN, NONE, NONE], 0, |i, _| aspda::read_plain(i.program).map(drop)),
        operation("show_source", [SHOW_SOURCE, NONE, NONE], 0, |i, _| aspda::show_source(i.program, i.rule).map(drop)),
        operation("show_plain", [SHOW_PLAIN, NONE, NONE], 0, |i, _| aspda::show_plain(i.program, i.rule).map(drop)),
        operation("translate", [READ_SOURCE, NONE, OUTPUT], 0, |i, out| aspda::translate(i.program, out).map(drop)),
        operation("aspif", [READ_PLAIN, NONE, OUTPUT], 0, |i, out| aspda::aspif(i.program, out).map(drop)),
        operation("quotient_source", [READ_SOURCE, SET, OUTPUT], SOURCE.set, |i, out| {
            aspda::quotient_source(i.program, i.set, out).map(drop)
        }),
        operation("quotient_plain", [READ_PLAIN, SET, OUTPUT], PLAIN.set, |i, out| {
            aspda::quotient_plain(i.program, i.set, out).map(drop)
        }),
        operation("extend", [READ_SOURCE, SET, OUTPUT], SOURCE.set, |i, out| {
            aspda::extend(i.program, i.set, out).map(drop)
        }),
        operation("restrict", [NONE, SET, OUTPUT], PLAIN.set, |i, out| aspda::restrict(i.set, out).map(drop)),
        operation("check_source", [READ_SOURCE, SET, OUTPUT], SOURCE.checked, |i, out| {
            aspda::check_source(i.program, i.set, out).map(drop)
        }),
        operation("check_plain", [READ_PLAIN, SET, OUTPUT], PLAIN.checked, |i, out| {
            aspda::check_plain(i.program, i.set, out).map(drop)
        }),
    ]
}

impl Operation {
    /// Calls the operation; a refusal must leave the buffer as it was.
    fn refusal(&self, inputs: &Inputs) -> Option<Refusal> {
        let mut out = vec![0xAA; inputs.room];
        let refusal = (self.call)(inputs, &mut out).err()?;
        assert!(out.iter().all(|byte| *byte == 0xAA), "{}: {refusal} wrote to its buffer", self.name);
        Some(refusal)
    }

    fn refuses(&self, inputs: &Inputs, number: u8, slice: Slice, (part, place): (Part, u32)) {
        let refusal = self.refusal(inputs).unwrap_or_else(|| panic!("{}: {number} expected", self.name));
        assert_eq!(refusal, Refusal { number, slice, place }, "{}", self.name);
        assert_eq!(refusal.part(), part, "{}: {number}", self.name);
    }
}

/// A program that both forms refuse by this number (7 and 14 the source form alone), and what is wrong in it.
fn faulty_program(number: u8) -> (Vec<u8>, (Part, u32)) {
    let program: (&[u8], (Part, u32)) = match number {
        1 => return (vec![0; PLAIN.length + 1], (Part::Whole, 0)),
        2 => (b"S:\0\0\0\0\0S:\0", (Part::Record, 7)),
        3 => (b"S:\0\0\0\0\0Y:", (Part::Record, 7)),
        4 => (b"S:\0\0\0\0\0S:\0\0\x11\0\0", (Part::Record, 7)),
        5 => (b"S:\0\0\x01\0\0\0\0\0\x01\xF5E:\0\x01", (Part::Literal, 7)),
        6 => (b"S:\0\0\0\0\0S:\0\x01\0\0\0", (Part::Record, 7)),
        7 => (b"S:\0\0\0\0\0D:\0\x01\0\0\0E:\0\x02", (Part::Record, 7)),
        8 => (b"S:\0\0\0\0\0E:\0\x02", (Part::Record, 7)),
        14 => (b"S:\0\0\0\0\0X:\x01\0\0\0\x03\x01\0\0\0\x03E:\0\x01", (Part::Record, 7)),
        _ => panic!("{number} is no number of a program's bytes"),
    };
    (program.0.to_vec(), program.1)
}

/// So many literals, ascending: defeat marks, of which there are enough.
fn set_of(literals: usize) -> Vec<u8> {
    let marks = (1..=SOURCE.tags as u8).flat_map(|tag| (1..=250).map(move |atom| [2, 0, tag, 0, atom]));
    let mut record = b"A:".to_vec();
    record.extend((literals as u16).to_be_bytes());
    record.extend(marks.take(literals).flatten());
    record
}

/// A set that is refused by this number where at most so many literals are taken, and what is wrong in it.
fn faulty_set(number: u8, literals: usize) -> (Vec<u8>, (Part, u32)) {
    match number {
        10 => (b"A:\0\x01".to_vec(), (Part::Whole, 0)),
        11 => (b"A:\0\x02\0\0\0\0\x02\0\0\0\0\x01".to_vec(), (Part::Literal, 9)),
        12 => (set_of(literals + 1), (Part::Whole, 0)),
        _ => panic!("{number} is no number of a set"),
    }
}

#[test]
fn what_each_operation_takes_is_refused_by_none() {
    for operation in operations() {
        assert_eq!(operation.refusal(&ACCEPTED), None, "{}", operation.name);
        let most = set_of(operation.literals);
        let ample = Inputs { set: &most, room: 30_000, ..ACCEPTED };
        assert_eq!(operation.refusal(&ample), None, "{}", operation.name);
    }
}

#[test]
fn numbers_1_to_8_13_and_14_speak_of_the_program() {
    let mut reached = 0;
    for operation in operations() {
        for &number in operation.program {
            reached += 1;
            if number == 13 {
                for rule in [0, 2] {
                    operation.refuses(&Inputs { rule, ..ACCEPTED }, 13, Slice::Program, (Part::Whole, 0));
                }
                continue;
            }
            let (program, wrong) = faulty_program(number);
            operation.refuses(&Inputs { program: &program, ..ACCEPTED }, number, Slice::Program, wrong);
            // The program's refusal comes before the set's and the output's.
            let all_wrong = Inputs { program: &program, set: b"", rule: 0, room: 0 };
            operation.refuses(&all_wrong, number, Slice::Program, wrong);
        }
    }
    assert_eq!(reached, 9 + 7 + 10 + 8 + 9 + 7 + 9 + 7 + 9 + 9 + 7);
}

#[test]
fn numbers_10_to_12_speak_of_the_set() {
    let mut reached = 0;
    for operation in operations() {
        for &number in operation.set {
            reached += 1;
            let (set, wrong) = faulty_set(number, operation.literals);
            operation.refuses(&Inputs { set: &set, room: 30_000, ..ACCEPTED }, number, Slice::Set, wrong);
            // The set's refusal comes before the output's.
            operation.refuses(&Inputs { set: &set, room: 0, ..ACCEPTED }, number, Slice::Set, wrong);
        }
    }
    assert_eq!(reached, 6 * 3);
}

#[test]
fn number_9_speaks_of_the_output() {
    let mut reached = 0;
    for operation in operations() {
        for &number in operation.output {
            reached += 1;
            // The result's length, of a check the set's.
            let least = match operation.name {
                "translate" | "quotient_source" | "quotient_plain" => ONE.len(),
                "aspif" => "asp 1 0 0\n1 0 1 1 0 0\n4 2 p1 1 1\n0\n".len(),
                _ => EMPTY.len(),
            };
            assert_eq!(operation.refusal(&Inputs { room: least, ..ACCEPTED }), None, "{}", operation.name);
            for room in 0..least {
                operation.refuses(&Inputs { room, ..ACCEPTED }, number, Slice::Output, (Part::Whole, 0));
            }
        }
    }
    assert_eq!(reached, 8);
}

#[test]
fn limits_are_those_of_the_form() {
    let refused = |answer: Result<u32, Refusal>| answer.unwrap_err().number;
    const TOO_LONG: &[u8] = &[0; SOURCE.length + 1];
    assert_eq!(refused(aspda::read_source(TOO_LONG)), 1);
    assert_eq!(refused(aspda::read_plain(TOO_LONG)), 3);
    assert_eq!(refused(aspda::read_plain(b"D:")), 3);
    let set = set_of(SOURCE.checked + 1);
    let mut out = vec![0; set.len()];
    assert_eq!(aspda::check_source(ONE, &set, &mut out).unwrap_err().number, 12);
    assert_eq!(aspda::restrict(&set, &mut out).unwrap(), &set[..]);
}

#[test]
fn the_bound_of_a_text_suffices() {
    assert_eq!(aspda::aspif_bound(usize::MAX), usize::MAX);
    // Each atom both ways, each in a rule of its own: the most names and constraints there are.
    let mut program = Vec::new();
    for atom in 1..=PLAIN.atoms {
        for kind in [0, 1] {
            program.extend(b"S:\0\0\x01\0\0");
            program.extend([kind, 0, 0, (atom >> 8) as u8, atom as u8]);
        }
    }
    program.extend(b"E:");
    program.extend((2 * PLAIN.atoms).to_be_bytes());
    let mut out = vec![0; aspda::aspif_bound(program.len())];
    let text = aspda::aspif(&program, &mut out).unwrap();
    let lines = text.iter().filter(|byte| **byte == b'\n').count();
    assert_eq!(lines, 2 + (2 + 1 + 2) * PLAIN.atoms as usize);
}

#[test]
fn a_refusal_leaves_the_buffer() {
    let mut out = [0xAA; 93];
    let refusal = aspda::translate(b"D:\0\x07\x01\0\0\0\0\0\0\x01E:\0\x01", &mut out).unwrap_err();
    assert_eq!(refusal, Refusal { number: 9, slice: Slice::Output, place: 0 });
    assert_eq!(out, [0xAA; 93]);
}

#[test]
fn each_number_has_a_reason_of_its_own() {
    let reason = |number| Refusal { number, slice: Slice::Program, place: 0 }.reason();
    let reasons: BTreeSet<_> = (1..=15).map(reason).collect();
    assert_eq!(reasons.len(), 15);
    assert!(!reasons.contains(reason(16)));
}

const OVERRIDE: &[u8] = b"O:\0\x01\0\x02"; // tag 1 overrides tag 2
const OPPOSITION: &[u8] = b"X:\0\0\0\0\x01\x01\0\0\0\x02"; // 1 and -2 oppose

/// Of a record of a preference sheet, in order: 4 for one too many, 2 if it is cut, 6 and 5, 14.
#[test]
fn a_sheet_is_refused_at_its_place() {
    let refused = |program: &[u8]| {
        let refusal = aspda::read_source(program).unwrap_err();
        (refusal.number, refusal.part(), refusal.place)
    };
    let tags = |upper, lower| [b"S:\0\0\0\0\0O:", &[0, upper, 0, lower][..], b"E:\0\x01"].concat();
    assert_eq!(aspda::read_source(&tags(1, SOURCE.tags as u8)), Ok(1));
    for (upper, lower) in [(0, 1), (1, 0), (0, 0), (SOURCE.tags as u8 + 1, 1)] {
        assert_eq!(refused(&tags(upper, lower)), (6, Part::Record, 7));
    }
    assert_eq!(refused(&tags(7, 7)), (14, Part::Record, 7));

    let options = |first: [u8; 5], second: [u8; 5]| [b"X:", &first[..], &second, b"E:\0\0"].concat();
    let (one, none, mark) = ([0, 0, 0, 0, 1], [0, 0, 0, 0, 0], [2, 0, 1, 0, 1]);
    assert_eq!(aspda::read_source(&options(one, [1, 0, 0, 0, 1])), Ok(0));
    assert_eq!(refused(&options(none, mark)), (5, Part::Literal, 2));
    assert_eq!(refused(&options(one, mark)), (5, Part::Literal, 7));
    assert_eq!(refused(&options(mark, mark)), (5, Part::Literal, 2));
    assert_eq!(refused(&options(one, one)), (14, Part::Record, 0));

    for record in [OVERRIDE, OPPOSITION] {
        let full = record.repeat(SOURCE.sheets);
        assert_eq!(aspda::read_source(&[&full[..], b"E:\0\0"].concat()), Ok(0));
        for rest in [&record[..2], record] {
            assert_eq!(refused(&[&full[..], rest].concat()), (4, Part::Record, full.len() as u32));
        }
        for length in 1..record.len() {
            assert_eq!(refused(&record[..length]), (2, Part::Record, 0));
        }
        assert_eq!(refused(&[b"E:\0\0", record].concat()), (8, Part::Record, 0));
        assert_eq!(aspda::read_plain(&[record, b"E:\0\0"].concat()).unwrap_err().number, 3);
    }
}

/// The bounds of a translation and of a quotient count what is appended, and nothing where there are no sheets.
#[test]
fn bounds_suffice_with_sheets() {
    assert_eq!(aspda::translation_bound(ONE), 13 * ONE.len());
    assert_eq!(aspda::quotient_bound(ONE), ONE.len());
    let options: Vec<u8> = (1..=12).flat_map(|atom| [0, 0, 0, 0, atom]).collect();
    let mut source = Vec::new();
    let sheets = SOURCE.sheets as u8;
    for tag in 1..=sheets + 1 {
        source.extend([b'D', b':', 0, tag, 12, 0, 0]);
        source.extend(&options);
    }
    source.extend((2..=sheets + 1).flat_map(|lower| [b'O', b':', 0, 1, 0, lower]));
    let pairs = (1..=12).flat_map(|one| (1..one).map(move |other| [b'X', b':', 0, 0, 0, 0, one, 0, 0, 0, 0, other]));
    source.extend(pairs.take(SOURCE.sheets).flatten());
    source.extend([b'E', b':', 0, sheets + 1]);

    let appended = 2 * SOURCE.sheets * SOURCE.sheets;
    let mut out = vec![0; aspda::quotient_bound(&source)];
    let quotient = aspda::quotient_source(&source, EMPTY, &mut out).unwrap();
    assert_eq!(aspda::read_plain(quotient), Ok(SOURCE.sheets as u32 + 1 + appended as u32));
    let mut out = vec![0; aspda::translation_bound(&source)];
    let translation = aspda::translate(&source, &mut out).unwrap();
    // Each of the rules has twelve options.
    assert_eq!(translation.len(), 4 + (SOURCE.sheets + 1) * (66 * 12 + 24) + APPENDED_RULE * appended);
}

const NEVER: &[u8] = b"S:\0\0\0\0\0"; // neither head nor body

/// A rule's record that is refused by this number behind fewer than 256 rules, and what is wrong in it.
fn faulty_records() -> Vec<(u8, (Part, u32), Vec<u8>)> {
    let whole_record = (Part::Record, 0);
    let mut records: Vec<(u8, (Part, u32), Vec<u8>)> = vec![
        (3, whole_record, b"E:\0\x01".to_vec()),
        (3, whole_record, OVERRIDE.to_vec()),
        (3, whole_record, OPPOSITION.to_vec()),
        (3, whole_record, b"Y:".to_vec()),
        (6, whole_record, b"S:\0\x01\x11\0\0".to_vec()),
        (6, whole_record, b"D:\0\0\x11\0\0".to_vec()),
        (6, whole_record, [b"D:\0", &[SOURCE.tags as u8 + 1, 1, 0, 0][..]].concat()),
        (4, whole_record, b"S:\0\0\x11\0\0".to_vec()),
        (4, whole_record, b"S:\0\0\0\x11\0".to_vec()),
        (4, whole_record, b"D:\0\x01\0\0\x11".to_vec()),
        (2, whole_record, b"S:\0\0\x01\0\x01\0\0\0\x01\xF5\0\0\0\0".to_vec()),
        (5, (Part::Literal, 12), b"S:\0\0\x01\0\x01\0\0\0\0\x01\0\0\0\x01\xF5".to_vec()),
        (5, (Part::Literal, 7), b"S:\0\0\x01\0\0\x04\0\x01\0\x01".to_vec()),
        (7, whole_record, b"D:\0\x01\0\0\0".to_vec()),
        (7, whole_record, b"D:\0\x01\x01\0\0\x02\0\x01\0\x01".to_vec()),
    ];
    records.extend((0..NEVER.len()).map(|length| (2, whole_record, NEVER[..length].to_vec())));
    records
}

/// What assembling must refuse: with which number, of which slice and part of it, and where.
fn is_refused(answer: Result<usize, Refusal>, number: u8, slice: Slice, (part, place): (Part, u32)) {
    let refusal = answer.expect_err("a refusal");
    assert_eq!(refusal, Refusal { number, slice, place });
    assert_eq!(refusal.part(), part, "{number}");
}

#[test]
fn beginning_is_refused_for_its_buffer_alone() {
    for room in 0..4 {
        let mut buffer = vec![0xAA; room];
        is_refused(Assembly::begin(&mut buffer).map(|held| held.rules()), 9, Slice::Output, (Part::Whole, 0));
    }
    let mut buffer = [0xAA; 4];
    assert_eq!(Assembly::begin(&mut buffer).unwrap().close(), b"E:\0\0");
}

#[test]
fn adding_is_refused_for_the_record_and_then_for_the_buffer() {
    let mut numbers = BTreeSet::new();
    for (number, wrong, record) in faulty_records() {
        numbers.insert(number);
        // The second buffer has no room for another record: the record's refusal comes first all the same.
        for room in [100, NEVER.len() + 4] {
            let mut buffer = vec![0xAA; room];
            let mut assembly = Assembly::begin(&mut buffer).unwrap();
            assert_eq!(assembly.add(NEVER), Ok(1));
            is_refused(assembly.add(&record), number, Slice::Record, wrong);
            assert_eq!((assembly.rules(), assembly.length()), (1, NEVER.len() + 4));
            assert_eq!(assembly.close(), [NEVER, b"E:\0\x01"].concat());
            assert!(buffer[NEVER.len() + 4..].iter().all(|byte| *byte == 0xAA), "refusal {number} wrote");
        }
    }
    assert_eq!(numbers, BTreeSet::from([2, 3, 4, 5, 6, 7]));

    let fact = &ONE[..12];
    for room in 4..fact.len() + 4 {
        let mut buffer = vec![0xAA; room];
        let mut assembly = Assembly::begin(&mut buffer).unwrap();
        is_refused(assembly.add(fact), 9, Slice::Output, (Part::Whole, 0));
        assert_eq!(assembly.close(), b"E:\0\0");
    }
    let mut buffer = vec![0xAA; fact.len() + 4];
    let mut assembly = Assembly::begin(&mut buffer).unwrap();
    assert_eq!(assembly.add(&[fact, b"behind it"].concat()), Ok(1));
    assert_eq!(assembly.close(), ONE);
}

#[test]
fn one_rule_more_than_a_source_has_is_refused() {
    let mut buffer = vec![0; aspda::ASSEMBLY_BOUND];
    let mut assembly = Assembly::begin(&mut buffer).unwrap();
    // A rule with all the literals that a rule may have: the buffer that always suffices is exactly full.
    let parts = [SOURCE.heads, SOURCE.positives, SOURCE.nafs];
    let mut longest = [&b"S:\0\0"[..], &parts.map(|part| part as u8)].concat();
    longest.extend((0..parts.iter().sum()).flat_map(|_| [0, 0, 0, 0, 1]));
    for held in 1..=SOURCE.rules {
        assert_eq!(assembly.add(&longest), Ok(held));
    }
    assert_eq!(assembly.length(), aspda::ASSEMBLY_BOUND);
    // Before a tag out of range, behind a cut header.
    for record in [NEVER, b"S:\0\x01\0\0\0"] {
        is_refused(assembly.add(record), 4, Slice::Record, (Part::Record, 0));
    }
    is_refused(assembly.add(&NEVER[..6]), 2, Slice::Record, (Part::Record, 0));
    assert_eq!(assembly.drop_last(), Ok(SOURCE.rules - 1));
    assert_eq!(assembly.add(&longest), Ok(SOURCE.rules));
    assert_eq!(aspda::read_source(assembly.close()), Ok(SOURCE.rules as u32));
}

#[test]
fn dropping_is_refused_where_no_rule_is_held() {
    let out_of_turn = |answer| is_refused(answer, 15, Slice::State, (Part::Whole, 0));
    let mut buffer = [0; 100];
    let mut assembly = Assembly::begin(&mut buffer).unwrap();
    out_of_turn(assembly.drop_last());
    for held in 1..=3 {
        assert_eq!(assembly.add(NEVER), Ok(held));
    }
    for held in [2, 1, 0] {
        assert_eq!(assembly.drop_last(), Ok(held));
    }
    out_of_turn(assembly.drop_last());
    assert_eq!(assembly.add(NEVER), Ok(1));
    assembly.restart();
    out_of_turn(assembly.drop_last());
    assert_eq!(assembly.close(), b"E:\0\0");
}

/// Reading and showing give what was added and not dropped, in order.
#[test]
fn what_is_closed_is_what_was_added_and_not_dropped() {
    let record = |tag: u8| [b"D:\0", &[tag, 1, 0, 0][..], &[0, 0, 0, 0, tag]].concat();
    let mut buffer = vec![0xAA; aspda::ASSEMBLY_BOUND];
    let mut assembly = Assembly::begin(&mut buffer).unwrap();
    let mut rules = Vec::new();
    for tag in 1..=SOURCE.tags as u8 {
        rules.push(record(tag));
        assert_eq!(assembly.add(&record(tag)), Ok(rules.len()));
        if tag % 3 == 0 {
            rules.pop();
            assert_eq!(assembly.drop_last(), Ok(rules.len()));
        }
    }
    let source = assembly.close();
    assert_eq!(aspda::read_source(source), Ok(rules.len() as u32));
    for (number, rule) in (1..).zip(&rules) {
        assert_eq!(aspda::show_source(source, number), Ok(&rule[..]));
    }
}
