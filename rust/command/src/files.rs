//! Programs and sets from files or from the command line, and results into files.

use crate::text::{self, Encoded, Item, Names, Parsed};
use aspda::{Part, Refusal};
use std::ffi::OsStr;
use std::fs;
use std::io::{self, Read};
use std::ops::Range;
use std::path::Path;

/// A program's bytes, with what its text gives beside them.
pub struct Program {
    /// What messages call it.
    file: String,
    pub bytes: Vec<u8>,
    pub names: Names,
    /// Of a program that was written as text.
    written: Option<Written>,
}

/// A program's items as its text gives them, where the record of each lies, and its line.
struct Written {
    items: Vec<Item>,
    records: Vec<Range<usize>>,
    lines: Vec<usize>,
}

/// A set's record.
pub struct Set {
    /// What messages call it.
    file: String,
    pub bytes: Vec<u8>,
    /// Of a set that was written as text: the names that it could use.
    names: Option<Names>,
}

/// A program or a set.
pub enum Either {
    Program(Program),
    Set(Set),
}

/// What an operand's file or the operand itself holds.
pub enum Content {
    Text(String),
    Bytes(Vec<u8>),
}

fn is_text(path: &Path) -> bool {
    path.as_os_str().to_string_lossy().ends_with(".txt")
}

/// Standard input or output, in place of a file.
pub fn is_standard(path: impl AsRef<OsStr>) -> bool {
    path.as_ref() == "-"
}

/// What messages call an operand.
fn name(operand: &OsStr) -> String {
    if is_standard(operand) {
        return "standard input".to_owned();
    }
    operand.to_string_lossy().into_owned()
}

fn read(path: &OsStr) -> io::Result<Vec<u8>> {
    if !is_standard(path) {
        return fs::read(path);
    }
    let mut bytes = Vec::new();
    io::stdin().lock().read_to_end(&mut bytes)?;
    Ok(bytes)
}

fn load(path: &OsStr) -> Result<Content, String> {
    let bytes = read(path).map_err(|error| format!("{}: {error}", name(path)))?;
    Ok(if is_text(Path::new(path)) {
        // Bytes that are no UTF-8 do no harm in comments, and mean nothing elsewhere.
        Content::Text(String::from_utf8_lossy(&bytes).into_owned())
    } else {
        Content::Bytes(bytes)
    })
}

/// As `load`, but an operand that starts with a brace is a set's text itself.
fn load_or_take(operand: &OsStr) -> Result<Content, String> {
    match operand.to_str() {
        Some(text) if text.starts_with('{') => Ok(Content::Text(text.to_owned())),
        _ => load(operand),
    }
}

pub fn load_program(path: &OsStr) -> Result<Program, String> {
    Program::new(name(path), load(path)?)
}

/// What messages call a file of rules that are assembled, and what it holds.
pub fn load_rules(path: &OsStr) -> Result<(String, Content), String> {
    Ok((name(path), load(path)?))
}

/// A set; names are those of the program that goes with it.
pub fn load_set(operand: &OsStr, names: &Names) -> Result<Set, String> {
    Set::new(name(operand), load_or_take(operand)?, names)
}

/// A program or a set, whichever the content is.
pub fn load_either(operand: &OsStr) -> Result<Either, String> {
    let file = name(operand);
    let content = load_or_take(operand)?;
    let is_set = match &content {
        Content::Text(text) => text::holds_set(text).map_err(|error| format!("{file}: {error}"))?,
        Content::Bytes(bytes) => text::is_set_record(bytes),
    };
    if is_set {
        return Set::new(file, content, &Names::default()).map(Either::Set);
    }
    Program::new(file, content).map(Either::Program)
}

/// Writes a result: as text if the file's name asks for that, else as bytes.
pub fn save(path: &Path, bytes: &[u8], text: impl FnOnce() -> String) -> Result<(), String> {
    if is_text(path) {
        write(path, text().as_bytes())
    } else {
        write(path, bytes)
    }
}

pub fn write(path: &Path, bytes: &[u8]) -> Result<(), String> {
    fs::write(path, bytes).map_err(|error| format!("{}: {error}", path.display()))
}

impl Program {
    fn new(file: String, content: Content) -> Result<Program, String> {
        let text = match content {
            Content::Bytes(bytes) => return Ok(Program { file, bytes, names: Names::default(), written: None }),
            Content::Text(text) => text,
        };
        let Parsed { items, lines, names } = text::parse_program(&text).map_err(|error| format!("{file}: {error}"))?;
        let Encoded { bytes, records } = text::encode_program(&items);
        Ok(Program { file, bytes, names, written: Some(Written { items, records, lines }) })
    }

    /// A refusal of this program in words; of an item that was written as text with what it is and its line.
    pub fn refused(&self, refusal: Refusal) -> String {
        match self.written.as_ref().and_then(|written| written.refused(refusal)) {
            Some(item) => format!("{}: {refusal} ({item})", self.file),
            None => format!("{}: {refusal}", self.file),
        }
    }

    /// Where each of its items, which are given, begins: the line in its text, else the first byte.
    pub fn places(&self, items: &[Item]) -> Vec<String> {
        match &self.written {
            Some(written) => written.lines.iter().map(|line| format!("line {line}")).collect(),
            None => text::encode_program(items).records.iter().map(|record| format!("byte {}", record.start)).collect(),
        }
    }
}

impl Written {
    /// The item whose record holds what is refused, in words.
    fn refused(&self, refusal: Refusal) -> Option<String> {
        if refusal.part() == Part::Whole {
            return None;
        }
        let index = self.records.iter().position(|record| record.contains(&(refusal.place as usize)))?;
        let rules = self.items[..=index].iter().filter(|item| item.is_rule()).count();
        Some(format!("{}, line {}", self.items[index].title(rules), self.lines[index]))
    }
}

impl Set {
    fn new(file: String, content: Content, names: &Names) -> Result<Set, String> {
        let text = match content {
            Content::Bytes(bytes) => return Ok(Set { file, bytes, names: None }),
            Content::Text(text) => text,
        };
        let literals = text::parse_set(&text, names).map_err(|error| format!("{file}: {error}"))?;
        match text::encode_set(&literals) {
            Some(bytes) => Ok(Set { file, bytes, names: Some(names.clone()) }),
            None => Err(format!("{file}: more literals than the two bytes of a set's count can say")),
        }
    }

    /// A refusal of this set in words; of a literal that was written as text with that literal.
    pub fn refused(&self, refusal: Refusal) -> String {
        match (&self.names, refusal.part()) {
            (Some(names), Part::Literal) => {
                let literal = text::decode_literal(&self.bytes[refusal.place as usize..]);
                format!("{}: {refusal} ({})", self.file, text::list_literal(literal, names))
            }
            _ => format!("{}: {refusal}", self.file),
        }
    }
}
