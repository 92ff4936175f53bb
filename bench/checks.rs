//! The rows of the check, beside plain Rust with the same search and, where it is installed, clingo on the same question.

use crate::drawn::{with_sheets, Numbers, LONGER_RULES, PLAIN_KINDS, RULES};
use crate::limits::{Limits, PLAIN, SOURCE};
use crate::plain_reader::record_size;
use crate::sets::WithProgram;
use crate::writer::{atom, literal, set_record, Literal, Program, RULE_HEADER, SET_HEADER};
use crate::{best, copied, exports, plain_check, speed_start};
use std::collections::{BTreeMap, BTreeSet};
use std::fmt::Write;
use std::hint::black_box;
use std::process::{Command, Stdio};
use std::time::Instant;

/// One question: is this set an answer set of this program?
struct Question {
    program: Vec<u8>,
    set: Vec<u8>,
}

/// `count` of these literals, drawn one by one, none twice.
fn some(numbers: &mut Numbers, count: usize, literals: &[Literal]) -> Vec<Literal> {
    let mut drawn = Vec::new();
    while drawn.len() < count {
        let literal = literals[numbers.below(literals.len() as u32) as usize];
        if !drawn.contains(&literal) {
            drawn.push(literal);
        }
    }
    drawn
}

/// The longest source, every other rule with options, over a set of 48 atoms and 16 defeats. The body of each of the first 64
/// rules is one literal again and again. No rule is removed: the clauses of all of them are searched.
fn source() -> Question {
    const DEFEATED: u16 = 16;
    const FIRST_OTHER: u16 = 101;
    let mut numbers = Numbers(11);
    let atoms: Vec<Literal> = (1..=SOURCE.checked as u16 - DEFEATED).map(atom).collect();
    let defeats: Vec<Literal> = (1..=DEFEATED).map(|number| literal(2, 1, number)).collect();
    let others: Vec<Literal> = (FIRST_OTHER..=SOURCE.atoms).map(atom).collect();
    let (in_heads, in_nafs) = others.split_at(others.len() / 2);
    let set: Vec<Literal> = [&atoms[..], &defeats[..]].concat();
    let mut program = Program::default();
    for i in 0..SOURCE.rules {
        let options = i % 2 == 0;
        // The first atoms are defeated as options under tag 1; two heads are left in the set.
        let mut heads = some(&mut numbers, 2, if options { &atoms[DEFEATED.into()..] } else { &set });
        heads.extend(some(&mut numbers, SOURCE.heads - 2, if options { &others } else { in_heads }));
        let size = SOURCE.positives;
        let positives = if i < set.len() { vec![set[i]; size] } else { some(&mut numbers, size, &set) };
        let nafs = some(&mut numbers, SOURCE.nafs, in_nafs);
        program.rule(u16::from(options), &heads, &positives, &nafs);
    }
    Question { program: program.end(), set: set_record(&set.into_iter().collect()) }
}

/// The longest source with preference sheets, over a set of as many atoms as are checked. Each rule has two heads in the set, and
/// a body in it; no option that opposes another is there, so that of appended rules no clause is left. Each of them is looked at.
fn sheets() -> Question {
    const FIRST_OTHER: u16 = 101;
    let mut numbers = Numbers(37);
    let set: Vec<Literal> = (1..=SOURCE.checked as u16).map(atom).collect();
    let others: Vec<Literal> = (FIRST_OTHER..=SOURCE.atoms - 12).map(atom).collect();
    let program = with_sheets(|i| {
        let mut heads = some(&mut numbers, 2, &set);
        heads.extend(some(&mut numbers, 2, &others));
        let size = SOURCE.positives;
        let positives = if i < set.len() { vec![set[i]; size] } else { some(&mut numbers, size, &set) };
        (heads, positives, some(&mut numbers, SOURCE.nafs, &others))
    });
    Question { program, set: set_record(&set.into_iter().collect()) }
}

/// A plain program of the longest kind without sheets: rules of three and four literals over a set of as many as are checked, each
/// kind in it. In eight rules, one is removed by its naf literal and one has a positive literal outside the set; the others are clauses.
fn plain() -> Question {
    let mut numbers = Numbers(13);
    let of_each_kind = |i: u16, number: u16| -> Literal {
        let kind = (i % PLAIN_KINDS as u16) as u8;
        literal(kind, if (2..=5).contains(&kind) { 7 } else { 0 }, number)
    };
    let size = PLAIN.checked as u16;
    let inside: Vec<Literal> = (0..size).map(|i| of_each_kind(i, 3 * i + 1)).collect();
    let outside: Vec<Literal> = (0..size).map(|i| of_each_kind(i, 3 * i + 2)).collect();
    let mut program = Program::default();
    for i in 0..RULES {
        let positives = if i < LONGER_RULES { 2 } else { 1 };
        let (heads, mut body) = (some(&mut numbers, 1, &inside), some(&mut numbers, positives, &inside));
        let naf = some(&mut numbers, 1, if i % 8 == 3 { &inside } else { &outside });
        if i % 8 == 5 {
            body[positives - 1] = outside[numbers.below(size.into()) as usize];
        }
        match i % 100 {
            0 => program.rule(0, &[&heads[..], &body[..]].concat(), &[], &naf),
            _ => program.rule(0, &heads, &body, &naf),
        }
    }
    Question { program: program.end(), set: set_record(&inside.into_iter().collect()) }
}

/// A search over the atoms 1 to `atoms`: `clauses` strict rules, each of as many different atoms as one of `sizes`, some of
/// them its head. All atoms together are a model, as each rule has a head. Rules without a body keep the empty set from being
/// one; the atoms take turns as only head, which keeps all but one atom from being one.
fn hard(numbers: &mut Numbers, atoms: u16, clauses: usize, sizes: &[usize]) -> Question {
    let all: Vec<Literal> = (1..=atoms).map(atom).collect();
    let mut program = Program::default();
    let mut in_turn = all.iter().cycle();
    for _ in 0..clauses {
        let size = sizes[numbers.below(sizes.len() as u32) as usize];
        let mut drawn = some(numbers, size, &all);
        let heads = match drawn.len() {
            2 => [1, 1, 1, 2][numbers.below(4) as usize],
            3 => [1, 1, 1, 1, 1, 1, 2, 2, 2, 3][numbers.below(10) as usize],
            _ => [1, 1, 1, 1, 2, 2, 2, 3, 3, 4][numbers.below(10) as usize],
        };
        if heads == 1 {
            drawn[0] = *in_turn.find(|literal| !drawn[1..].contains(literal)).unwrap();
        }
        program.rule(0, &drawn[..heads], &drawn[heads..], &[]);
    }
    Question { program: program.end(), set: set_record(&all.into_iter().collect()) }
}

/// The hard searches: as many atoms as are checked, or up to four fewer, clauses of 2 to 4, and of each family as many clauses
/// for each atom as make about half of the searches end in a model, and somewhat fewer and more. There the searches are longest.
fn mixed() -> Vec<Question> {
    const FAMILIES: [(&[usize], [usize; 3]); 3] =
        [(&[3], [400, 425, 450]), (&[2, 3, 3, 4, 4], [350, 375, 400]), (&[3, 4, 4], [650, 675, 700])];
    let mut numbers = Numbers(17);
    let question = |i: usize| {
        let (sizes, hundredths) = FAMILIES[i % 3];
        let atoms = PLAIN.checked - 4 + i % 5;
        hard(&mut numbers, atoms as u16, atoms * hundredths[i / 3 % 3] / 100, sizes)
    };
    (0..240).map(question).collect()
}

/// The hardest: clauses of 4 alone, where a search takes seconds.
fn fours() -> Vec<Question> {
    let mut numbers = Numbers(23);
    let atoms = PLAIN.checked;
    let question = |hundredths| hard(&mut numbers, atoms as u16, atoms * hundredths / 100, &[4]);
    [900, 950, 975, 1_000, 1_025, 1_050].map(question).into()
}

fn proved(check: WithProgram, question: &Question, out: &mut [u8]) -> u64 {
    check(black_box(&question.program), black_box(&question.set), out)
}

fn plain_rust(limits: &Limits, question: &Question, out: &mut [u8]) -> u64 {
    plain_check::check(black_box(limits), black_box(&question.program), black_box(&question.set), out)
}

/// The verdict of both, which must be one, and the buffer's bytes too, and the seconds of each: the best of some calls.
fn agreed(name: &str, limits: &Limits, check: WithProgram, question: &Question, times: usize) -> (bool, f64, f64) {
    let (mut ours, mut theirs) = (vec![0xAA; question.set.len()], vec![0xAA; question.set.len()]);
    let (mut a, mut b, mut word) = (f64::MAX, f64::MAX, 0);
    for _ in 0..times {
        let started = Instant::now();
        word = proved(check, question, &mut ours);
        a = a.min(started.elapsed().as_secs_f64());
        let started = Instant::now();
        let same = plain_rust(limits, question, &mut theirs);
        b = b.min(started.elapsed().as_secs_f64());
        assert_eq!(word, same, "the two disagree on {name}");
        assert!(ours == theirs, "the two disagree on {name}");
    }
    assert!(word == 0 || word >> 32 == 3, "{name} was not searched");
    (word == 0, a, b)
}

/// The rules of a plain program: the literals of each, and how many of them are heads and positives.
fn rules(question: &Question) -> Vec<(&[Literal], usize, usize)> {
    let (mut rest, mut found) = (&question.program[..], Vec::new());
    while rest[0] == b'S' {
        let (record, behind) = rest.split_at(record_size(rest));
        found.push((record[RULE_HEADER..].as_chunks().0, record[4].into(), record[5].into()));
        rest = behind;
    }
    found
}

/// The literals of the set, and those that only the program has.
fn in_and_out(question: &Question) -> (BTreeSet<Literal>, BTreeSet<Literal>) {
    let set: BTreeSet<Literal> = question.set[SET_HEADER..].as_chunks().0.iter().copied().collect();
    let all: BTreeSet<Literal> = rules(question).iter().flat_map(|rule| rule.0).copied().collect();
    let out = &all - &set;
    (set, out)
}

/// The question as text: the rules, and that the set's literals hold and no others do.
fn text(question: &Question) -> String {
    let name = |literal: &Literal| format!("l{}_{}_{}", literal[0], literal[2], u16::from_be_bytes([literal[3], literal[4]]));
    let (inside, outside) = in_and_out(question);
    let mut out = String::new();
    for (literals, heads, positives) in rules(question) {
        let head: Vec<String> = literals[..heads].iter().map(name).collect();
        let mut body: Vec<String> = literals[heads..].iter().map(name).collect();
        body[positives..].iter_mut().for_each(|naf| naf.insert_str(0, "not "));
        writeln!(out, "{} :- {}.", head.join("|"), body.join(", ")).unwrap();
    }
    inside.iter().for_each(|literal| writeln!(out, ":- not {}.", name(literal)).unwrap());
    outside.iter().for_each(|literal| writeln!(out, ":- {}.", name(literal)).unwrap());
    out
}

/// The same in aspif, the form behind clingo's grounder: the set's literals are the first numbers.
fn ground(question: &Question) -> String {
    let (inside, outside) = in_and_out(question);
    let numbers: BTreeMap<&Literal, usize> = inside.iter().chain(&outside).zip(1..).collect();
    let mut out = "asp 1 0 0\n".to_string();
    for (literals, heads, positives) in rules(question) {
        write!(out, "1 0 {heads}").unwrap();
        literals[..heads].iter().for_each(|head| write!(out, " {}", numbers[head]).unwrap());
        write!(out, " 0 {}", literals.len() - heads).unwrap();
        for (i, literal) in literals[heads..].iter().enumerate() {
            write!(out, " {}{}", if i < positives { "" } else { "-" }, numbers[literal]).unwrap();
        }
        out.push('\n');
    }
    for number in 1..=numbers.len() {
        writeln!(out, "1 0 0 0 1 {}{number}", if number <= inside.len() { "-" } else { "" }).unwrap();
    }
    out + "0\n"
}

/// clingo in one of its modes, how a question is put to it, and the seconds that it takes for an empty program.
struct Clingo {
    name: &'static str,
    mode: &'static str,
    put: fn(&Question) -> String,
    start: f64,
}

impl Clingo {
    /// The two modes, from text and from the grounder's form; none where clingo is not installed.
    fn modes() -> Vec<Clingo> {
        let text = Clingo { name: "clingo", mode: "--mode=clingo", put: text, start: 0.0 };
        let ground = Clingo { name: "clasp", mode: "--mode=clasp", put: ground, start: 0.0 };
        let started = |clingo: Clingo, empty| clingo.run(empty, 20).map(|(start, _)| Clingo { start, ..clingo });
        [started(text, ""), started(ground, "asp 1 0 0\n0\n")].into_iter().flatten().collect()
    }

    /// Seconds for a program, the best of some runs, or of one that takes long, and whether it has an answer set.
    fn run(&self, program: &str, times: usize) -> Option<(f64, bool)> {
        let file = std::env::temp_dir().join(format!("check-{}.lp", std::process::id()));
        std::fs::write(&file, program).ok()?;
        let mut command = Command::new("clingo");
        command.args([self.mode, "--no-gamma", "--eq=0", "--outf=3", "1"]).arg(&file);
        command.stdin(Stdio::null()).stdout(Stdio::null()).stderr(Stdio::null());
        let (mut least, mut code) = (f64::MAX, None);
        for i in 0..times {
            if i > 0 && least > 1.0 {
                break;
            }
            let started = Instant::now();
            code = command.status().ok().and_then(|status| status.code());
            least = least.min(started.elapsed().as_secs_f64());
        }
        std::fs::remove_file(&file).ok()?;
        match code? {
            10 | 30 => Some((least, true)),
            20 => Some((least, false)),
            other => panic!("clingo ended with {other}"),
        }
    }

    /// Seconds for a question about a plain program, without the start; the answer must be `yes`.
    fn ask(&self, question: &Question, yes: bool) -> f64 {
        let (seconds, answer) = self.run(&(self.put)(question), 5).expect("clingo ran before");
        assert_eq!(answer, yes, "clingo disagrees");
        seconds - self.start
    }
}

/// A row by the program's bytes. clingo can be asked about plain programs alone.
fn row(name: &str, limits: &Limits, check: WithProgram, question: &Question, clingo: Option<&[Clingo]>) {
    let (yes, _, _) = agreed(name, limits, check, question, 1);
    let (mut ours, mut theirs) = (vec![0; question.set.len()], vec![0; question.set.len()]);
    let (a, b) = best(|| proved(check, question, &mut ours), || plain_rust(limits, question, &mut theirs));
    let length = question.program.len();
    let mb = length as f64 / 1e6;
    speed_start(name, length, (a, b), copied(&question.program));
    if clingo.is_some_and(<[Clingo]>::is_empty) {
        print!("  clingo not installed");
    }
    clingo.iter().copied().flatten().for_each(|mode| print!("  {} {:.2} MB/s", mode.name, mb / mode.ask(question, yes)));
    println!();
}

/// The median and the slowest time for each of these checks.
fn hard_lines(name: &str, other: &str, mut ours: Vec<f64>, mut theirs: Vec<f64>) {
    let count = ours.len();
    ours.sort_by(f64::total_cmp);
    theirs.sort_by(f64::total_cmp);
    for (which, i) in [("median", count / 2), ("slowest", count - 1)] {
        let (a, b) = (ours[i] * 1e3, theirs[i] * 1e3);
        let name = format!("{name} {which}");
        println!("{name:<20} {count:>6}  {a:>10.2}   {other:<10} {b:>9.2}  {:>5.2}", b / a);
    }
}

/// Rows by the time of a check; every `step`th is put to clingo too.
fn hard_rows(name: &str, questions: &[Question], times: usize, step: usize, clingo: &[Clingo]) {
    let each: Vec<(bool, f64, f64)> =
        questions.iter().map(|question| agreed(name, &PLAIN, exports::check_plain, question, times)).collect();
    let yes = each.iter().filter(|(yes, _, _)| *yes).count();
    println!("{name:<20} {:>6}  {yes} yes, {} smaller", each.len(), each.len() - yes);
    hard_lines(name, "plain Rust", each.iter().map(|one| one.1).collect(), each.iter().map(|one| one.2).collect());
    if clingo.is_empty() {
        println!("{name:<20}      0  clingo not installed");
    }
    for mode in clingo {
        let asked = questions.iter().zip(&each).step_by(step);
        let (ours, theirs) = asked.map(|(question, one)| (one.1, mode.ask(question, one.0))).unzip();
        hard_lines(name, mode.name, ours, theirs);
    }
}

pub fn rows() {
    let clingo = Clingo::modes();
    row("check source", &SOURCE, exports::check_source, &source(), None);
    row("check sheets", &SOURCE, exports::check_source, &sheets(), None);
    row(&format!("check plain {RULES}"), &PLAIN, exports::check_plain, &plain(), Some(&clingo));
    println!("\nsearches             checks   proved ms   beside            ms  ratio");
    hard_rows("check hard", &mixed(), 3, 11, &clingo);
    hard_rows("check hard 4", &fours(), 3, 1, &clingo);
    for mode in &clingo {
        println!("{} is clingo {}, without its start of {:.1} ms", mode.name, mode.mode, mode.start * 1e3);
    }
}
