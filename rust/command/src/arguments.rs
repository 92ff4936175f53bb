//! The command line: which command, on what, with which options; and the help texts.

use std::ffi::{OsStr, OsString};
use std::path::PathBuf;

/// What a command does.
#[derive(Clone, Copy)]
pub enum Operation {
    Read,
    Show,
    Translate,
    Quotient,
    Extend,
    Restrict,
    Check,
    Convert,
    Aspif,
    Expand,
    Assemble,
}

/// Why there is no result, in words, and the exit status that tells it.
pub struct Failure {
    pub message: String,
    pub status: u8,
}

/// The exit status of the commands of document 01 where there is no result, and that of later ones: a no of theirs could be
/// told from a refusal.
const NO_RESULT: u8 = 1;
const REFUSED_OR_MISUSED: u8 = 2;

/// A command, and what it takes.
struct Command {
    name: &'static str,
    operation: Operation,
    /// Whether it takes `--plain`.
    plain: bool,
    /// What it takes; a name that ends in `..` stands for one operand or more.
    operands: &'static [&'static str],
    output: Output,
    /// The exit status where there is no result.
    failure: u8,
    /// One line for the list of commands.
    about: &'static str,
    /// What its own help adds.
    details: &'static str,
}

/// Whether a command takes `-o FILE`.
#[derive(PartialEq, Eq)]
enum Output {
    None,
    Optional,
    Required,
}

const COMMANDS: [Command; 11] = [
    Command {
        name: "read",
        operation: Operation::Read,
        plain: true,
        operands: &["PROGRAM"],
        output: Output::None,
        failure: NO_RESULT,
        about: "the number of rules and bytes",
        details: "Reads a program and prints how many rules and bytes it has, or says why it is refused.",
    },
    Command {
        name: "show",
        operation: Operation::Show,
        plain: true,
        operands: &["PROGRAM", "RULE"],
        output: Output::None,
        failure: NO_RESULT,
        about: "a rule as text, and where its record lies",
        details: "Prints the rule of that number, counted from 1, and where its record lies in the program's bytes.",
    },
    Command {
        name: "translate",
        operation: Operation::Translate,
        plain: false,
        operands: &["SOURCE"],
        output: Output::Optional,
        failure: NO_RESULT,
        about: "the plain program that a source is translated into",
        details: "Translates a source. Each answer set of the source is the restriction of exactly one answer set of\n\
                  the result, and the other way round by extension.",
    },
    Command {
        name: "quotient",
        operation: Operation::Quotient,
        plain: true,
        operands: &["PROGRAM", "SET"],
        output: Output::Optional,
        failure: NO_RESULT,
        about: "what is left of a program for a set",
        details: "Gives the quotient of the program by the set: its rules without naf literals and tags, less those\n\
                  that the set removes.",
    },
    Command {
        name: "extend",
        operation: Operation::Extend,
        plain: false,
        operands: &["SOURCE", "SET"],
        output: Output::Optional,
        failure: NO_RESULT,
        about: "a source's set with its derivation and rule-defeated marks",
        details: "Gives the extension of the set: a set of the source's translation.",
    },
    Command {
        name: "restrict",
        operation: Operation::Restrict,
        plain: false,
        operands: &["SET"],
        output: Output::Optional,
        failure: NO_RESULT,
        about: "a plain set without its derivation and rule-defeated marks",
        details: "Gives the restriction of the set: a set of the source.",
    },
    Command {
        name: "check",
        operation: Operation::Check,
        plain: true,
        operands: &["PROGRAM", "SET"],
        output: Output::Optional,
        failure: NO_RESULT,
        about: "whether a set is an answer set of a program",
        details: "Prints the verdict, its name first:\n\
                  \x20 yes      the set is an answer set; the exit status is 0 for this verdict alone\n\
                  \x20 clash    the set has an atom and its explicit negation\n\
                  \x20 broken   a rule of the quotient does not hold in the set\n\
                  \x20 smaller  a proper subset, which is printed, is a model of the quotient too\n\
                  With -o the subset of `smaller` is written to FILE; the other verdicts write nothing.",
    },
    Command {
        name: "convert",
        operation: Operation::Convert,
        plain: true,
        operands: &["IN"],
        output: Output::Required,
        failure: NO_RESULT,
        about: "text to bytes or bytes to text",
        details: "Converts a program or a set into the form that OUT's name asks for, if the library takes it.",
    },
    Command {
        name: "aspif",
        operation: Operation::Aspif,
        plain: false,
        operands: &["PROGRAM"],
        output: Output::Optional,
        failure: REFUSED_OR_MISUSED,
        about: "a plain program as text for clingo and clasp",
        details:
            "Writes a plain program as aspif, the text form that the solvers of the clingo family read; a source is\n\
                  translated first. Its answer sets are the program's, number for number: a literal's number is its\n\
                  place among those that occur, ascending as byte strings. p12 names atom 12 and n12 its explicit\n\
                  negation; marks have no name. From a source to its answer sets:\n\
                  \x20 aspda translate SOURCE -o - | aspda aspif - | clingo --mode=clasp --no-gamma --eq=0 0\n\
                  The text is the same in a FILE of any name. The exit status is 0 if the text was written, else 2.",
    },
    Command {
        name: "expand",
        operation: Operation::Expand,
        plain: false,
        operands: &["SOURCE"],
        output: Output::Optional,
        failure: REFUSED_OR_MISUSED,
        about: "the rules that a source's preference sheets append",
        details: "Prints the strict rules that are made of `tag 1 overrides tag 2.` and `1 and 4 oppose.`: where a rule\n\
                  with tag 1 has option 1 and one with tag 2 has option 4, `defeated(2, 4) if 1.`, and the same with 1 and\n\
                  4 exchanged. Behind each stand its number, counted behind the source's own rules as `check` counts, and\n\
                  the two records that made it, with their lines (of a source in bytes their first bytes). Every command\n\
                  means these rules too, but read and show count and show those alone that are written. With -o FILE they\n\
                  are a program of their own. The exit status is 0 if the rules were written, else 2.",
    },
    Command {
        name: "assemble",
        operation: Operation::Assemble,
        plain: false,
        operands: &["RULES.."],
        output: Output::Optional,
        failure: REFUSED_OR_MISUSED,
        about: "a source from files of rules, added one by one",
        details: "Adds the rules of the files to a source, each by itself and in order, and writes the source's end. A file of\n\
                  text has rules and names in the text form, and where it says `drop.`, the last rule that was added is\n\
                  taken back (unless an atom is called drop: then it is that fact). Names hold in the files behind theirs\n\
                  too. A file of bytes has rules' records one behind the other, without an end record. Overrides and\n\
                  oppositions cannot be assembled. A refusal names the file and the line, or the record's number and its\n\
                  first byte. The exit status is 0 if the source was written, else 2.",
    },
];

const FILES: &str = "\
A file whose name ends in .txt holds text, every other file holds bytes. A SET may be written in place,
as '{1, -2}'. With -o FILE the result goes to FILE, as text if its name ends in .txt, else as bytes;
without -o it is listed on standard output. `-` in place of a file is standard input, behind -o
standard output, and holds bytes. --plain: the program is a plain one, not a source.
The exit status is 0 if the operation gave its result (check: yes), else 1, of aspif, expand and assemble
else 2.
";

const TEXT: &str = "\
The text form:
    % a comment, to the end of the line
    atom 12 = servo_x.                     a name for an atom, before its first use
    tag 3 = first_choice.                  a name for a tag
    tag 3: 1 or -2 if 5 and not servo_x.   a defeasible rule with its tag
    1 or defeated(3, 2) if 5 and not -6.   a strict rule
    never if 1 and 2.                      a strict rule without head
    1.                                     a fact
    tag 3 overrides tag 4.                 a preference sheet: rules of one tag before those of another,
    1 and -2 oppose.                       and two options, of which one speaks against the other
    {1, -2, defeated(3, 2)}                a set
Literals: 12, -12, defeated(TAG, 12), derived(TAG, -12), rule-defeated(RULE).
";

/// What the command line asks for.
pub struct Request {
    pub operation: Operation,
    pub is_plain: bool,
    pub operands: Vec<OsString>,
    pub output: Option<PathBuf>,
    /// The exit status where there is no result.
    pub failure: u8,
}

/// A request, or a text to print instead: help is no failure.
pub enum Asked {
    Run(Request),
    Help(String),
}

/// Reads the arguments behind the program's own name, or says what is wrong with them.
pub fn parse(arguments: Vec<OsString>) -> Result<Asked, Failure> {
    let no_command = |message| Failure { message, status: NO_RESULT };
    let mut rest = arguments.into_iter();
    let first = rest.next().ok_or_else(|| no_command("no command given; see aspda --help".to_owned()))?;
    if is_help(&first) {
        return Ok(Asked::Help(help()));
    }
    let command = COMMANDS
        .iter()
        .find(|command| first == command.name)
        .ok_or_else(|| no_command(format!("there is no command `{}`; see aspda --help", first.to_string_lossy())))?;
    let rest: Vec<_> = rest.collect();
    if rest.iter().any(|argument| is_help(argument)) {
        return Ok(Asked::Help(command.help()));
    }
    let request = command.request(rest);
    request.map(Asked::Run).map_err(|message| Failure { message, status: command.failure })
}

fn is_help(argument: &OsStr) -> bool {
    argument == "--help" || argument == "-h"
}

fn help() -> String {
    let mut text = String::from("Defeasible answer-set programs: translated, checked, as text or bytes.\n\n");
    for command in &COMMANDS {
        text += &format!("    {:<52} {}\n", command.usage(), command.about);
    }
    text + "    aspda COMMAND --help\n\n" + FILES + "\n" + TEXT
}

impl Command {
    fn usage(&self) -> String {
        let plain = if self.plain { " [--plain]" } else { "" };
        let output = match self.output {
            Output::None => "",
            Output::Optional => " [-o FILE]",
            Output::Required => " -o OUT",
        };
        format!("aspda {}{plain} {}{output}", self.name, self.operands.join(" "))
    }

    fn help(&self) -> String {
        format!("{}\n\n{}\n\n{FILES}", self.usage(), self.details)
    }

    fn request(&self, arguments: Vec<OsString>) -> Result<Request, String> {
        let Command { operation, failure, .. } = *self;
        let mut request = Request { operation, is_plain: false, operands: Vec::new(), output: None, failure };
        let mut rest = arguments.into_iter();
        while let Some(argument) = rest.next() {
            if argument == "--plain" && self.plain {
                request.is_plain = true;
            } else if argument == "-o" && self.output != Output::None && request.output.is_none() {
                let file = rest.next().ok_or_else(|| self.wrong("-o needs a file behind it"))?;
                request.output = Some(file.into());
            } else if argument.to_string_lossy().starts_with('-') && argument != "-" {
                return Err(self.wrong(&format!("`{}` has no place here", argument.to_string_lossy())));
            } else {
                request.operands.push(argument);
            }
        }
        if !self.takes(request.operands.len()) {
            let (wanted, found) = (self.operands.join(" and "), request.operands.len());
            return Err(self.wrong(&format!("{wanted} expected, {found} given")));
        }
        if self.output == Output::Required && request.output.is_none() {
            return Err(self.wrong("-o OUT is missing"));
        }
        Ok(request)
    }

    fn takes(&self, operands: usize) -> bool {
        match self.operands.last() {
            Some(last) if last.ends_with("..") => operands >= self.operands.len(),
            _ => operands == self.operands.len(),
        }
    }

    fn wrong(&self, what: &str) -> String {
        format!("{what}; usage: {}", self.usage())
    }
}
