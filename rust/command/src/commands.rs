//! What each command does: loads its operands, asks the library, lists or writes the answer.

use crate::arguments::{Operation, Request};
use crate::assembly;
use crate::expansion::Expansion;
use crate::files::{self, Either, Program, Set};
use crate::limits::{Limits, PLAIN, SOURCE};
use crate::text::{self, Names};
use aspda::{Refusal, Slice, Verdict};

/// What goes to standard output, and whether the exit status is 0.
pub struct Outcome {
    pub output: Vec<u8>,
    pub is_success: bool,
}

type Answer = Result<Outcome, String>;

fn success(output: impl Into<Vec<u8>>) -> Answer {
    Ok(Outcome { output: output.into(), is_success: true })
}

pub fn run(request: &Request) -> Answer {
    match request.operation {
        Operation::Read => read(request),
        Operation::Show => show(request),
        Operation::Translate => translate(request),
        Operation::Quotient => quotient(request),
        Operation::Extend => extend(request),
        Operation::Restrict => restrict(request),
        Operation::Check => check(request),
        Operation::Convert => convert(request),
        Operation::Aspif => aspif(request),
        Operation::Expand => expand(request),
        Operation::Assemble => assemble(request),
    }
}

/// The form of the programs that a request is about.
#[derive(Clone, Copy)]
enum Form {
    Source,
    Plain,
}

impl Form {
    fn of(request: &Request) -> Form {
        if request.is_plain {
            Form::Plain
        } else {
            Form::Source
        }
    }

    fn limits(self) -> &'static Limits {
        match self {
            Form::Source => &SOURCE,
            Form::Plain => &PLAIN,
        }
    }

    fn read(self, program: &[u8]) -> Result<u32, Refusal> {
        match self {
            Form::Source => aspda::read_source(program),
            Form::Plain => aspda::read_plain(program),
        }
    }

    fn show(self, program: &[u8], rule: u32) -> Result<&[u8], Refusal> {
        match self {
            Form::Source => aspda::show_source(program, rule),
            Form::Plain => aspda::show_plain(program, rule),
        }
    }

    fn quotient<'o>(self, program: &[u8], set: &[u8], out: &'o mut [u8]) -> Result<&'o mut [u8], Refusal> {
        match self {
            Form::Source => aspda::quotient_source(program, set, out),
            Form::Plain => aspda::quotient_plain(program, set, out),
        }
    }

    fn check<'o>(self, program: &[u8], set: &[u8], out: &'o mut [u8]) -> Result<Verdict<'o>, Refusal> {
        match self {
            Form::Source => aspda::check_source(program, set, out),
            Form::Plain => aspda::check_plain(program, set, out),
        }
    }
}

/// The operands PROGRAM and SET.
fn program_and_set(request: &Request) -> Result<(Program, Set), String> {
    let program = files::load_program(&request.operands[0])?;
    let set = files::load_set(&request.operands[1], &program.names)?;
    Ok((program, set))
}

/// A refusal of a call with a program and a set, in words.
fn refused(refusal: Refusal, program: &Program, set: &Set) -> String {
    match refusal.slice {
        Slice::Set => set.refused(refusal),
        // A result that had too little room is the program's; no call with a set speaks of a record or a state.
        Slice::Program | Slice::Output | Slice::Record | Slice::State => program.refused(refusal),
    }
}

/// A program that is a result: into the file that the request names, else listed.
fn deliver_program(request: &Request, bytes: &[u8], names: &Names) -> Answer {
    deliver(request, bytes, || text::list_program(&text::decode_program(bytes), names))
}

/// A set that is a result: into the file that the request names, else listed.
fn deliver_set(request: &Request, bytes: &[u8], names: &Names) -> Answer {
    deliver(request, bytes, || list_set(bytes, names))
}

fn list_set(bytes: &[u8], names: &Names) -> String {
    text::list_set(&text::decode_set(bytes), names) + "\n"
}

fn deliver(request: &Request, bytes: &[u8], listing: impl FnOnce() -> String) -> Answer {
    match &request.output {
        None => success(listing()),
        Some(file) if files::is_standard(file) => success(bytes),
        Some(file) => {
            files::save(file, bytes, listing)?;
            success(String::new())
        }
    }
}

fn read(request: &Request) -> Answer {
    let program = files::load_program(&request.operands[0])?;
    let rules = Form::of(request).read(&program.bytes).map_err(|refusal| program.refused(refusal))?;
    let noun = if rules == 1 { "rule" } else { "rules" };
    success(format!("{rules} {noun}, {} bytes\n", program.bytes.len()))
}

fn show(request: &Request) -> Answer {
    let program = files::load_program(&request.operands[0])?;
    let operand = request.operands[1].to_string_lossy();
    let rule: u32 = operand.parse().map_err(|_| format!("`{operand}` is no rule number"))?;
    let record = Form::of(request).show(&program.bytes, rule).map_err(|refusal| program.refused(refusal))?;
    // The record is a part of the program's bytes.
    let start = record.as_ptr() as usize - program.bytes.as_ptr() as usize;
    let listed = text::list_rule(&text::decode_rule(record), &program.names);
    success(format!("{listed}  % rule {rule}, {} bytes from byte {start}\n", record.len()))
}

fn translate(request: &Request) -> Answer {
    let source = files::load_program(&request.operands[0])?;
    // Read first: a file of any length is refused before a buffer is made for it.
    aspda::read_source(&source.bytes).map_err(|refusal| source.refused(refusal))?;
    let mut out = vec![0; aspda::translation_bound(&source.bytes)];
    let translation = aspda::translate(&source.bytes, &mut out).map_err(|refusal| source.refused(refusal))?;
    deliver_program(request, translation, &source.names)
}

fn quotient(request: &Request) -> Answer {
    let (program, set) = program_and_set(request)?;
    let mut out = vec![0; aspda::quotient_bound(&program.bytes)];
    let quotient = Form::of(request)
        .quotient(&program.bytes, &set.bytes, &mut out)
        .map_err(|refusal| refused(refusal, &program, &set))?;
    deliver_program(request, quotient, &program.names)
}

fn extend(request: &Request) -> Answer {
    let (source, set) = program_and_set(request)?;
    let mut out = vec![0; aspda::EXTENSION_BOUND];
    let extension =
        aspda::extend(&source.bytes, &set.bytes, &mut out).map_err(|refusal| refused(refusal, &source, &set))?;
    deliver_set(request, extension, &source.names)
}

fn restrict(request: &Request) -> Answer {
    let names = Names::default();
    let set = files::load_set(&request.operands[0], &names)?;
    let mut out = vec![0; aspda::restriction_bound(&set.bytes)];
    let restriction = aspda::restrict(&set.bytes, &mut out).map_err(|refusal| set.refused(refusal))?;
    deliver_set(request, restriction, &names)
}

fn check(request: &Request) -> Answer {
    if matches!(&request.output, Some(file) if files::is_standard(file)) {
        return Err("standard output has the verdict; -o needs a file behind it".to_owned());
    }
    let (program, set) = program_and_set(request)?;
    let form = Form::of(request);
    let mut out = vec![0; aspda::witness_bound(&set.bytes)];
    let verdict =
        form.check(&program.bytes, &set.bytes, &mut out).map_err(|refusal| refused(refusal, &program, &set))?;
    let text = match verdict {
        Verdict::Yes => "yes: the set is an answer set\n".to_owned(),
        Verdict::Clash(position) => clash(position, &set, &program.names),
        Verdict::Broken(rule) => broken(form, rule, &program)?,
        Verdict::Smaller(witness) => {
            deliver_set(request, witness, &program.names)?;
            let listed = list_set(witness, &program.names);
            format!("smaller: this proper subset is a model of the quotient too\n{listed}")
        }
    };
    Ok(Outcome { output: text.into(), is_success: verdict == Verdict::Yes })
}

fn clash(position: u32, set: &Set, names: &Names) -> String {
    let literal = text::decode_set(&set.bytes)[position as usize - 1];
    let listed = text::list_literal(literal, names);
    format!("clash: literal {position} of the set, {listed}, and its opposite are both in it\n")
}

fn broken(form: Form, rule: u32, program: &Program) -> Result<String, String> {
    let refused = |refusal| program.refused(refusal);
    let listed = if rule <= form.read(&program.bytes).map_err(refused)? {
        let record = form.show(&program.bytes, rule).map_err(refused)?;
        text::list_rule(&text::decode_rule(record), &program.names) + "\n"
    } else {
        // The source's sheets append it.
        Expansion::of(program).map_err(refused)?.list_rule(rule as usize).unwrap_or_default()
    };
    Ok(format!("broken: what the quotient keeps of rule {rule} does not hold in the set\n{listed}"))
}

fn convert(request: &Request) -> Answer {
    let form = Form::of(request);
    match files::load_either(&request.operands[0])? {
        Either::Program(program) => {
            form.read(&program.bytes).map_err(|refusal| program.refused(refusal))?;
            deliver_program(request, &program.bytes, &program.names)
        }
        Either::Set(set) => {
            // No operation reads a set of the source form alone: one that goes with a program without rules does.
            let no_rules = text::encode_program(&[]).bytes;
            let mut out = vec![0; aspda::quotient_bound(&no_rules)];
            form.quotient(&no_rules, &set.bytes, &mut out).map_err(|refusal| set.refused(refusal))?;
            deliver_set(request, &set.bytes, &Names::default())
        }
    }
}

fn expand(request: &Request) -> Answer {
    let source = files::load_program(&request.operands[0])?;
    let expansion = Expansion::of(&source).map_err(|refusal| refused_by_limit(refusal, &source, Form::Source))?;
    deliver(request, &expansion.bytes(), || expansion.list())
}

fn aspif(request: &Request) -> Answer {
    let program = files::load_program(&request.operands[0])?;
    let refused = |refusal| refused_by_limit(refusal, &program, Form::Plain);
    // Read first: a file of any length is refused before a buffer is made for it.
    aspda::read_plain(&program.bytes).map_err(refused)?;
    let mut out = vec![0; aspda::aspif_bound(program.bytes.len())];
    let text = aspda::aspif(&program.bytes, &mut out).map_err(refused)?;
    match &request.output {
        Some(file) if !files::is_standard(file) => {
            files::write(file, text)?;
            success("")
        }
        _ => success(&*text),
    }
}

fn assemble(request: &Request) -> Answer {
    let mut buffer = vec![0; aspda::ASSEMBLY_BOUND];
    let (source, names) = assembly::assemble(&request.operands, &mut buffer)?;
    deliver_program(request, source, &names)
}

/// A refusal of a program in words, with the limit that is passed.
fn refused_by_limit(refusal: Refusal, program: &Program, form: Form) -> String {
    match passed_limit(refusal, form) {
        Some(limit) => format!("{}; {limit}", program.refused(refusal)),
        None => program.refused(refusal),
    }
}

/// How many literals the parts of a rule may have.
pub fn most_literals(limits: &Limits) -> String {
    let Limits { heads, positives, nafs, .. } = limits;
    format!("at most {heads} head, {positives} positive and {nafs} naf literals")
}

/// What a program of the form may have at most, where that is what the refusal is about.
fn passed_limit(refusal: Refusal, form: Form) -> Option<String> {
    let Limits { length, rules, atoms, tags, numbers, sheets, .. } = form.limits();
    let counts = format!("each with {}", most_literals(form.limits()));
    Some(match (refusal.number, form) {
        (1, Form::Source) => format!("a source has at most {length} bytes"),
        (1, Form::Plain) => format!("a plain program has at most {length} bytes"),
        (3, Form::Source) => "a source has rules, preference sheets and its end alone".to_owned(),
        (3, Form::Plain) => {
            "a plain program has strict rules and its end alone, a source is translated first".to_owned()
        }
        (4, Form::Source) => {
            format!("a source has at most {rules} rules, {counts}, and {sheets} overrides and {sheets} oppositions")
        }
        (4, Form::Plain) => format!("a plain program has at most {rules} rules, {counts}"),
        (5, Form::Source) => {
            format!("atoms run from 1 to {atoms}, tags from 1 to {tags}; options are atoms and their negations")
        }
        (5, Form::Plain) => {
            format!("atoms run from 1 to {atoms}, tags from 1 to {tags}, rule numbers from 1 to {numbers}")
        }
        (6, Form::Source) => format!("tags run from 1 to {tags}, and a strict rule has tag 0"),
        (6, Form::Plain) => "a strict rule has tag 0".to_owned(),
        _ => return None,
    })
}
