//! A source from files of rules: each rule is added by itself, as the library's assembly adds it.

use crate::commands;
use crate::files::{self, Content};
use crate::limits::SOURCE;
use crate::text::{self, Item, Names, Step, Steps};
use aspda::{Assembly, Part, Refusal};
use std::ffi::OsString;

/// The source that the files' rules make, built in the buffer, and the names that the files declare.
pub fn assemble<'a>(paths: &[OsString], buffer: &'a mut [u8]) -> Result<(&'a [u8], Names), String> {
    let mut assembly = Assembly::begin(buffer).map_err(|refusal| refusal.to_string())?;
    let mut names = Names::default();
    for path in paths {
        let (file, content) = files::load_rules(path)?;
        match content {
            Content::Text(text) => take_steps(&mut assembly, &text, &mut names),
            Content::Bytes(bytes) => add_records(&mut assembly, &bytes),
        }
        .map_err(|message| format!("{file}: {message}"))?;
    }
    Ok((assembly.close(), names))
}

/// Takes the steps that a text gives, and adds the names that it declares to those of the texts before.
fn take_steps(assembly: &mut Assembly, text: &str, names: &mut Names) -> Result<(), String> {
    let Steps { steps, lines, names: declared } = text::parse_steps(text, names).map_err(|error| error.to_string())?;
    *names = declared;
    for (step, line) in steps.iter().zip(lines) {
        take_step(assembly, step).map_err(|refusal| {
            // The place that the refused record would have in the source.
            let start = assembly.length() - text::END_LENGTH;
            let what = match step {
                Step::Add(item) => item.title(assembly.rules() + 1),
                Step::DropLast => "drop".to_owned(),
            };
            let limit = match step {
                Step::Add(Item::Rule(_)) => passed_limit(refusal, assembly.rules()),
                Step::Add(_) => Some("overrides and oppositions cannot be assembled".to_owned()),
                Step::DropLast => Some("`drop.` takes back a rule that stands before it".to_owned()),
            };
            told(refusal, start, &format!("{what}, line {line}"), limit)
        })?;
    }
    Ok(())
}

fn take_step(assembly: &mut Assembly, step: &Step) -> Result<usize, Refusal> {
    match step {
        Step::Add(item) => assembly.add(&text::encode_record(item)),
        Step::DropLast => assembly.drop_last(),
    }
}

/// Adds the rules whose records stand one behind the other: by how much the source grows is a record's length.
fn add_records(assembly: &mut Assembly, records: &[u8]) -> Result<(), String> {
    let (mut start, mut number) = (0, 0);
    while start < records.len() {
        number += 1;
        let length = assembly.length();
        assembly.add(&records[start..]).map_err(|refusal| {
            let limit = passed_limit(refusal, assembly.rules());
            told(refusal, start, &format!("record {number}, from byte {start}"), limit)
        })?;
        start += assembly.length() - length;
    }
    Ok(())
}

/// A refusal in words, its place counted from where the record starts; what was refused, and the limit that is passed.
fn told(mut refusal: Refusal, start: usize, what: &str, limit: Option<String>) -> String {
    if refusal.part() != Part::Whole {
        refusal.place += start as u32;
    }
    match limit {
        Some(limit) => format!("{refusal} ({what}); {limit}"),
        None => format!("{refusal} ({what})"),
    }
}

/// What a rule that is assembled may have at most, where that is what the refusal is about.
fn passed_limit(refusal: Refusal, held: usize) -> Option<String> {
    Some(match refusal.number {
        3 => "rules alone can be assembled: no overrides, no oppositions, no end record".to_owned(),
        4 if held == SOURCE.rules => format!("a source has at most {} rules", SOURCE.rules),
        4 => format!("a source's rule has {}", commands::most_literals(&SOURCE)),
        5 => format!(
            "atoms run from 1 to {}, tags from 1 to {}; a source has no derived and no rule-defeated marks",
            SOURCE.atoms, SOURCE.tags
        ),
        6 => format!("tags run from 1 to {}, and a strict rule has tag 0", SOURCE.tags),
        _ => return None,
    })
}

#[cfg(test)]
mod tests {
    use super::*;

    /// The source that the calls leave in a buffer, or the first message.
    fn assembled(calls: impl FnOnce(&mut Assembly) -> Result<(), String>) -> Result<Vec<u8>, String> {
        let mut buffer = vec![0xAA; aspda::ASSEMBLY_BOUND];
        let mut assembly = Assembly::begin(&mut buffer).unwrap();
        calls(&mut assembly)?;
        Ok(assembly.close().to_vec())
    }

    fn of_text(text: &str) -> Result<Vec<u8>, String> {
        assembled(|assembly| take_steps(assembly, text, &mut Names::default()))
    }

    fn of_records(records: &[u8]) -> Result<Vec<u8>, String> {
        assembled(|assembly| add_records(assembly, records))
    }

    #[test]
    fn text_and_records_give_the_program_that_they_hold() {
        for text in ["", "never.", "tag 7: 1 or -2 if 3 and not defeated(4, 5).\n1.\nnever if not -500."] {
            let program = text::encode_program(&text::parse_program(text).unwrap().items).bytes;
            assert_eq!(of_text(text).unwrap(), program);
            assert_eq!(of_records(&program[..program.len() - text::END_LENGTH]).unwrap(), program);
        }
        assert_eq!(of_text("1. 2. drop. drop. 3. drop. never.").unwrap(), of_text("never.").unwrap());
    }

    #[test]
    fn a_refusal_is_told_where_reading_tells_it() {
        for text in ["1.\n2 or 501.", "1.\n2. tag 201: 1.", "never. tag 7: defeated(1, 1).", "never.\nderived(1, 1)."] {
            let program = text::encode_program(&text::parse_program(text).unwrap().items).bytes;
            let refusal = aspda::read_source(&program).unwrap_err();
            let told = format!("{refusal} (");
            for message in [of_text(text), of_records(&program)].map(Result::unwrap_err) {
                assert!(message.starts_with(&told), "{message}");
            }
        }
    }

    #[test]
    fn a_drop_with_nothing_before_it_is_told_with_its_line() {
        let message = of_text("1. drop.\n\ndrop. 2.").unwrap_err();
        assert!(message.starts_with("refused with 15 at byte 0: "), "{message}");
        assert!(message.ends_with(" (drop, line 3); `drop.` takes back a rule that stands before it"), "{message}");
    }
}
