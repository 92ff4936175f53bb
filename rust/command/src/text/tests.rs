//! The text form beside its bytes: fixed cases, errors with their places, and round trips of random programs.

use super::*;
use crate::limits::{APPENDED_RULE, PLAIN, SOURCE};

fn parsed(text: &str) -> Parsed {
    parse_program(text).unwrap_or_else(|error| panic!("{error}: {text}"))
}

fn bytes(text: &str) -> Vec<u8> {
    encode_program(&parsed(text).items).bytes
}

/// The first rule of a text.
fn first_rule(text: &str) -> Rule {
    parsed(text).items.into_iter().find_map(Item::into_rule).unwrap()
}

fn set_bytes(text: &str) -> Vec<u8> {
    encode_set(&parse_set(text, &Names::default()).unwrap()).unwrap()
}

#[test]
fn rules_become_records() {
    assert_eq!(bytes(""), b"E:\0\0");
    assert_eq!(bytes("tag 7: 1."), b"D:\0\x07\x01\0\0\0\0\0\0\x01E:\0\x01");
    assert_eq!(bytes("never."), b"S:\0\0\0\0\0E:\0\x01");
    assert_eq!(bytes("tag 258: never if 1."), b"D:\x01\x02\0\x01\0\0\0\0\0\x01E:\0\x01");
    assert_eq!(bytes("1. 2."), b"S:\0\0\x01\0\0\0\0\0\0\x01S:\0\0\x01\0\0\0\0\0\0\x02E:\0\x02");
}

#[test]
fn sheets_become_records() {
    assert_eq!(bytes("tag 1 overrides tag 258."), b"O:\0\x01\x01\x02E:\0\0");
    assert_eq!(bytes("1 and -258 oppose."), b"X:\0\0\0\0\x01\x01\0\0\x01\x02E:\0\0");
    // The end record counts the rules, wherever the sheets stand.
    let parts = [&b"O:\0\x01\0\x02S:\0\0\x01\0\0\0\0\0\0\x01"[..], b"X:\0\0\0\0\x01\0\0\0\0\x04E:\0\x01"];
    assert_eq!(bytes("tag 1 overrides tag 2. 1.\n1 and 4 oppose."), parts.concat());
    // What the library refuses has bytes all the same.
    assert_eq!(bytes("tag 7 overrides tag 7."), b"O:\0\x07\0\x07E:\0\0");
    let marks = "defeated(1, 2) and rule-defeated(3) oppose.";
    assert_eq!(bytes(marks), b"X:\x02\0\x01\0\x02\x06\0\0\0\x03E:\0\0");
    assert_eq!(list_program(&parsed(marks).items, &Names::default()), format!("{marks}\n"));
}

#[test]
fn sheets_are_listed_with_names() {
    let text = "atom 1 = servo_x. atom 4 = brake. tag 1 = drive. tag 2 = stop.\n\
                tag drive overrides tag stop. servo_x and -brake oppose. tag 3 overrides tag drive. 4 and 5 oppose.";
    let Parsed { items, names, .. } = parsed(text);
    assert_eq!(bytes(text), bytes("tag 1 overrides tag 2. 1 and -4 oppose. tag 3 overrides tag 1. 4 and 5 oppose."));
    let listed: Vec<_> = items.iter().map(|item| list_item(item, &names)).collect();
    assert_eq!(listed[..2], ["tag drive overrides tag stop.", "servo_x and -brake oppose."]);
    assert_eq!(listed[2..], ["tag 3 overrides tag drive.", "brake and 5 oppose."]);
}

#[test]
fn words_of_sheets_may_be_names() {
    let text = "atom 1 = oppose. atom 2 = overrides. tag 1 = overrides. tag 2 = oppose.\n\
                tag overrides overrides tag oppose. oppose and -overrides oppose. tag overrides: oppose or overrides.";
    assert_eq!(bytes(text), bytes("tag 1 overrides tag 2. 1 and -2 oppose. tag 1: 1 or 2."));
    let Parsed { items, names, .. } = parsed(text);
    assert_eq!(parsed(&list_program(&items, &names)).items, items);
}

#[test]
fn each_kind_of_literal_has_its_bytes() {
    let heads = b"S:\0\0\x07\0\0\0\0\0\x01\x02\x01\0\0\x01\x02\x02\0\x03\0\x04\x03\0\x03\0\x04\
                  \x04\0\x03\0\x04\x05\0\x03\0\x04\x06\0\0\0\x09E:\0\x01";
    let marks = "defeated(3, 4) or defeated(3, -4) or derived(3, 4) or derived(3, -4) or rule-defeated(9)";
    assert_eq!(bytes(&format!("258 or -258 or {marks}.")), heads);
}

#[test]
fn mixed_bodies_keep_the_order_of_each_part() {
    let rule = first_rule("1 if not 5 and 2 and not 4 and 3.");
    assert_eq!(list_rule(&rule, &Names::default()), "1 if 2 and 3 and not 5 and not 4.");
}

#[test]
fn blanks_comments_and_line_ends_only_separate() {
    let spread = "\u{FEFF}% caf\u{e9}: 1 or 2.\r\n tag\n7 :1\tor- 2 % one\nif(% no word\n";
    assert!(parse_program(spread).is_err());
    assert_eq!(bytes(&spread.replace('(', " not 3.")), bytes("tag 7: 1 or -2 if not 3."));
    assert_eq!(bytes("% only a comment"), bytes(""));
    assert_eq!(bytes("1.2."), bytes("1. 2."));
}

#[test]
fn names_stand_for_numbers_where_they_are_declared_before() {
    let text = "atom 12 = servo. tag 3 = servo. atom 4 = rule.\ntag servo: servo or -rule if defeated(servo, servo).";
    assert_eq!(bytes(text), bytes("tag 3: 12 or -4 if defeated(3, 12)."));
    let names = parsed(text).names;
    assert_eq!(parse_set("{-servo, derived(servo, rule)}", &names), parse_set("{-12, derived(3, 4)}", &names));
}

#[test]
fn sets_are_written_ascending_and_each_literal_once() {
    assert_eq!(set_bytes("{}"), b"A:\0\0");
    let ascending = b"A:\0\x04\0\0\0\0\x01\0\0\0\x01\0\x01\0\0\0\x01\x02\0\x02\0\x04";
    assert_eq!(set_bytes("{defeated(2, 4), 256, -1, 1, 256}"), ascending);
    assert_eq!(list_set(&decode_set(ascending), &Names::default()), "{1, 256, -1, defeated(2, 4)}");
    let all: Vec<_> = (0..=u16::MAX).map(Literal::RuleDefeated).collect();
    assert_eq!(encode_set(&all[1..]).unwrap().len(), 4 + 5 * 65_535);
    assert_eq!(encode_set(&all), None);
}

#[test]
fn a_brace_tells_a_set_from_a_program() {
    assert_eq!(holds_set("% a set\n {1}"), Ok(true));
    assert_eq!(holds_set("1."), Ok(false));
    assert_eq!(holds_set(""), Ok(false));
}

#[test]
fn what_has_bytes_is_left_to_the_library() {
    bytes("0 or 65535 or defeated(0, 0) or rule-defeated(65535). tag 0: never. tag 1: defeated(1, 2).");
    let (most, more) = ("1 and ".repeat(254), "1 and ".repeat(255));
    assert_eq!(first_rule(&format!("2 if {most}1.")).positives.len(), 255);
    assert_eq!(place_of(&format!("2 if {more}1.")), (1, 6 + 6 * 255));
    assert_eq!(parsed(&"1.".repeat(65_535)).items.len(), 65_535);
    assert_eq!(place_of(&"1.\n".repeat(65_536)), (65_536, 1));
    // Sheets have no count.
    let sheets = "1 and 2 oppose.".repeat(65_536);
    assert_eq!(parsed(&(sheets.clone() + &"1.".repeat(65_535))).items.len(), 65_536 + 65_535);
    assert_eq!(place_of(&(sheets + "\n" + &"1.\n".repeat(65_536))), (65_537, 1));
}

/// The line and column of a program's first mistake.
fn steps(text: &str) -> Steps {
    parse_steps(text, &Names::default()).unwrap_or_else(|error| panic!("{error}: {text}"))
}

#[test]
fn an_assemblys_text_gives_steps_with_their_lines() {
    let Steps { steps: found, lines, names } = steps("atom 1 = a.\na.\ndrop. never.\ntag 1 overrides tag 2.\n drop .");
    let items = parsed("1. never. tag 1 overrides tag 2.").items;
    let [fact, never, over] = <[Item; 3]>::try_from(items).unwrap().map(Step::Add);
    assert_eq!(found, [fact, Step::DropLast, never, over, Step::DropLast]);
    assert_eq!(lines, [2, 3, 3, 4, 5]);
    assert_eq!(names, parsed("atom 1 = a.").names);
    for item in &parsed("tag 7: 1 or -2 if 3 and not defeated(4, 5). tag 1 overrides tag 2. 1 and 2 oppose.").items {
        let record = encode_record(item);
        assert_eq!(encode_program(std::slice::from_ref(item)).bytes[..record.len()], record);
    }
}

#[test]
fn drop_may_be_a_name() {
    // A text without a step back means what it means as a program.
    let text = "atom 5 = drop. drop. tag 6 = drop. tag drop: -drop if drop.";
    let as_program: Vec<_> = parsed(text).items.into_iter().map(Step::Add).collect();
    assert_eq!(steps(text).steps, as_program);
    assert_eq!(steps("tag 6 = drop. 1. drop.").steps[1..], [Step::DropLast]);
    // A step of an assembly is no part of a program.
    assert_eq!(parse_program("1. drop.").unwrap_err().message, "no atom is declared as `drop`");
    for (text, message) in [
        ("drop", "no atom is declared as `drop`"),
        ("drop if 1.", "no atom is declared as `drop`"),
        ("-drop.", "no atom is declared as `drop`"),
    ] {
        assert_eq!(parse_steps(text, &Names::default()).unwrap_err().message, message, "{text}");
    }
}

#[test]
fn names_of_texts_before_hold_and_may_be_declared_again() {
    let before = steps("atom 1 = a. tag 1 = b.").names;
    let after = parse_steps("atom 1 = a. tag 1 = b. atom 2 = c. tag b: a or c.", &before).unwrap();
    assert_eq!(after.names, parsed("atom 1 = a. atom 2 = c. tag 1 = b.").names);
    assert_eq!(after.steps, steps("tag 1: 1 or 2.").steps);
    for (text, message) in [
        ("atom 2 = a.", "`a` is declared already, for 1"),
        ("atom 1 = c.", "1 has a name already, `a`"),
        ("tag 1 = a.", "1 has a name already, `b`"),
        ("atom 2 = c. atom 2 = c.", "`c` is declared already, for 2"),
    ] {
        assert_eq!(parse_steps(text, &before).unwrap_err().message, message, "{text}");
    }
}

fn place_of(text: &str) -> (usize, usize) {
    let place = parse_program(text).expect_err(text).place;
    (place.line, place.column)
}

#[test]
fn mistakes_are_told_with_line_and_column() {
    let cases = [
        ("1", (1, 2), "`or`, `if` or `.` expected, and not the end of the text"),
        ("1.\n  2 if 3 or 4.", (2, 10), "`and` or `.` expected, and not `or`"),
        ("never 1.", (1, 7), "`if` or `.` expected, and not 1"),
        ("1 or .", (1, 6), "a literal expected, and not `.`"),
        ("1 if not not 2.", (1, 10), "a literal expected, and not `not`"),
        ("% \u{e9}\n\u{e9}.", (2, 1), "`\\u{e9}` means nothing here"),
        ("65536.", (1, 1), "65536 is above 65535, the largest number that two bytes hold"),
        ("1 or 2x.", (1, 6), "`2x` is neither a number nor a name"),
        ("Servo.", (1, 1), "`Servo` is no name: small letters, digits and _, a letter first"),
        ("servo.", (1, 1), "no atom is declared as `servo`"),
        ("atom 1 = a. tag a: 1.", (1, 17), "no tag is declared as `a`"),
        ("atom 1 = never.", (1, 10), "`never` is a word of the text form, and no name"),
        ("atom 1 = a.\natom 2 = a.", (2, 10), "`a` is declared already, for 1"),
        ("tag 1 = a.\ntag 1 = b.", (2, 9), "1 has a name already, `a`"),
        ("atom a = b.", (1, 6), "an atom's number expected, and not `a`"),
        ("tag 1 1.", (1, 7), "`:` or `overrides` (or, behind a tag's number, `=`) expected, and not 1"),
        (
            "tag 1 oppose tag 2.",
            (1, 7),
            "`:` or `overrides` (or, behind a tag's number, `=`) expected, and not `oppose`",
        ),
        ("tag 1 overrides 2.", (1, 17), "`tag` expected, and not 2"),
        ("tag 1 overrides tag a.", (1, 21), "no tag is declared as `a`"),
        ("tag 1 overrides tag 2", (1, 22), "`.` expected, and not the end of the text"),
        ("tag 1: 2 and 3 oppose.", (1, 10), "`or`, `if` or `.` expected, and not `and`"),
        ("1 and 2.", (1, 8), "`oppose` expected, and not `.`"),
        ("1 and 2 or 3.", (1, 9), "`oppose` expected, and not `or`"),
        ("1 and not 2 oppose.", (1, 7), "a literal expected, and not `not`"),
        ("1 or 2 and 3 oppose.", (1, 8), "`or`, `if` or `.` expected, and not `and`"),
        ("1 and 2 oppose", (1, 15), "`.` expected, and not the end of the text"),
        ("defeated(1 2).", (1, 12), "`,` expected, and not 2"),
        ("derived(1, defeated(1, 2)).", (1, 12), "an atom or its negation expected, and not `defeated`"),
        ("rule-defeated(a).", (1, 15), "a rule's number expected, and not `a`"),
        ("rule-defeated_(1).", (1, 1), "no atom is declared as `rule`"),
        ("- -1.", (1, 3), "an atom expected, and not `-`"),
        ("{1}", (1, 1), "a literal expected, and not `{`"),
    ];
    for (text, place, message) in cases {
        assert_eq!(place_of(text), place, "{text}");
        assert_eq!(parse_program(text).unwrap_err().message, message, "{text}");
    }
}

#[test]
fn mistakes_in_sets_are_told_with_line_and_column() {
    let cases = [("1", 1), ("{1", 3), ("{1,}", 4), ("{1 2}", 4), ("{1}.", 4), ("{a}", 2), ("", 1)];
    for (text, column) in cases {
        let error = parse_set(text, &Names::default()).expect_err(text);
        assert_eq!(error.place, Place { line: 1, column }, "{text}");
    }
}

/// As many heads, positive and naf literals as a source's rule may have.
const FULL: [usize; 3] = [SOURCE.heads, SOURCE.positives, SOURCE.nafs];

/// Random numbers, the same in each run (xorshift).
struct Random(u64);

impl Random {
    fn below(&mut self, bound: u64) -> u64 {
        self.0 ^= self.0 << 13;
        self.0 ^= self.0 >> 7;
        self.0 ^= self.0 << 17;
        self.0 % bound
    }

    /// From 1 to a largest number.
    fn upto(&mut self, most: u16) -> u16 {
        1 + self.below(most.into()) as u16
    }

    /// A number of two bytes, small ones more often.
    fn number(&mut self) -> u16 {
        let bound = [8, 600, 65_536][self.below(3) as usize];
        self.below(bound) as u16
    }

    fn signed(&mut self) -> SignedAtom {
        let atom = self.number();
        if self.below(2) == 0 {
            SignedAtom::Atom(atom)
        } else {
            SignedAtom::Negated(atom)
        }
    }

    fn literal(&mut self) -> Literal {
        match self.below(4) {
            0 => Literal::Signed(self.signed()),
            1 => Literal::Defeated(self.number(), self.signed()),
            2 => Literal::Derived(self.number(), self.signed()),
            _ => Literal::RuleDefeated(self.number()),
        }
    }

    fn part(&mut self) -> Vec<Literal> {
        let bound = [2, 5, 256][(self.below(12) / 5) as usize];
        (0..self.below(bound)).map(|_| self.literal()).collect()
    }

    fn rule(&mut self) -> Rule {
        let tag = if self.below(2) == 0 { None } else { Some(self.number()) };
        Rule { tag, heads: self.part(), positives: self.part(), nafs: self.part() }
    }

    /// A literal that the library takes: an atom or its negation, a defeat mark, or, in the plain form, any mark.
    fn taken_literal(&mut self, kinds: u64) -> Literal {
        let (atom, tag) = (self.upto(PLAIN.atoms), self.upto(PLAIN.tags));
        let signed = if self.below(2) == 0 { SignedAtom::Atom(atom) } else { SignedAtom::Negated(atom) };
        match self.below(kinds) {
            0 => Literal::Signed(signed),
            1 => Literal::Defeated(tag, signed),
            2 => Literal::Derived(tag, signed),
            _ => Literal::RuleDefeated(self.upto(PLAIN.numbers)),
        }
    }

    fn taken_part(&mut self, count: usize, kinds: u64) -> Vec<Literal> {
        (0..count).map(|_| self.taken_literal(kinds)).collect()
    }

    /// A rule that the library takes, with so many literals in each part: of a source, or of a plain program.
    fn taken_rule(&mut self, counts: [usize; 3], is_plain: bool) -> Rule {
        let kinds = if is_plain { 4 } else { 2 };
        let [heads, positives, nafs] = counts;
        let tag = if is_plain || heads == 0 || self.below(2) == 0 { None } else { Some(self.upto(SOURCE.tags)) };
        Rule {
            tag,
            heads: self.taken_part(heads, if tag.is_some() { 1 } else { kinds }),
            positives: self.taken_part(positives, kinds),
            nafs: self.taken_part(nafs, kinds),
        }
    }

    /// A rule, or each third time a record of a sheet.
    fn item(&mut self) -> Item {
        match self.below(6) {
            0 => Item::Override(self.number(), self.number()),
            1 => Item::Opposition(self.literal(), self.literal()),
            _ => Item::Rule(self.rule()),
        }
    }

    /// A record of a sheet that the library takes.
    fn taken_sheet(&mut self) -> Item {
        let (tag, atom) = (self.upto(SOURCE.tags - 1), self.upto(SOURCE.atoms - 1));
        if self.below(2) == 0 {
            Item::Override(tag, tag + 1)
        } else {
            Item::Opposition(Literal::Signed(SignedAtom::Negated(atom)), Literal::Signed(SignedAtom::Atom(atom + 1)))
        }
    }

    fn names(&mut self) -> Names {
        let mut names = Names::default();
        for _ in 0..self.below(6) {
            let (atom, tag) = (self.number(), self.number());
            // A number that has a name already keeps it.
            let _ = names.atoms.declare(atom, &format!("a_{atom}"));
            let _ = names.tags.declare(tag, &format!("t{tag}"));
        }
        names
    }
}

#[test]
fn random_programs_come_back_from_their_bytes_and_their_listings() {
    let mut random = Random(0x9E37_79B9_7F4A_7C15);
    for _ in 0..400 {
        let items: Vec<_> = (0..random.below(9)).map(|_| random.item()).collect();
        let names = random.names();
        let encoded = encode_program(&items);
        assert_eq!(decode_program(&encoded.bytes), items);
        for (item, record) in items.iter().zip(&encoded.records) {
            if let Item::Rule(rule) = item {
                assert_eq!(decode_rule(&encoded.bytes[record.clone()]), *rule);
            }
        }

        let listing = list_program(&items, &names);
        let again = parsed(&listing);
        assert_eq!((&again.items, again.names), (&items, names));
        let mut rules = 0;
        for (item, line) in items.iter().zip(&again.lines) {
            rules += usize::from(item.is_rule());
            let ending = if item.is_rule() { format!(".  % rule {rules}") } else { ".".to_owned() };
            assert!(listing.lines().nth(line - 1).unwrap().ends_with(&ending), "{listing}");
        }
    }
}

/// Every `step`th rule, the last among them: decoding and encoding have its record where the library shows it.
fn records_are_as_shown(program: &[u8], is_plain: bool, step: usize) {
    let items = decode_program(program);
    let encoded = encode_program(&items);
    assert_eq!(encoded.bytes, program);
    assert_eq!(encoded.records.len(), items.len());
    let (rules, records): (Vec<_>, Vec<_>) = items
        .into_iter()
        .zip(encoded.records)
        .filter_map(|(item, record)| item.into_rule().map(|rule| (rule, record)))
        .unzip();
    let read = if is_plain { aspda::read_plain(program) } else { aspda::read_source(program) };
    assert_eq!(read, Ok(rules.len() as u32));
    for (index, record) in records.into_iter().enumerate().rev().step_by(step) {
        let number = index as u32 + 1;
        let shown = if is_plain { aspda::show_plain(program, number) } else { aspda::show_source(program, number) };
        assert_eq!(shown.unwrap().as_ptr_range(), program[record].as_ptr_range());
        assert_eq!(decode_rule(shown.unwrap()), rules[index]);
    }
}

#[test]
fn records_lie_where_the_library_shows_them() {
    let mut random = Random(0x2545_F491_4F6C_DD1D);
    for is_plain in [false, true] {
        for _ in 0..200 {
            let count = random.below(12);
            let items: Vec<_> = (0..count)
                .map(|_| {
                    if !is_plain && random.below(3) == 0 {
                        return random.taken_sheet();
                    }
                    let counts = FULL.map(|most| random.below(most as u64 + 1) as usize);
                    Item::Rule(random.taken_rule(counts, is_plain))
                })
                .collect();
            records_are_as_shown(&encode_program(&items).bytes, is_plain, 1);
        }
    }
}

#[test]
fn records_of_the_longest_programs_lie_where_the_library_shows_them() {
    let mut random = Random(0x9E6C_63D0_876A_9A35);
    // Each rule with the same options, and one tag before each other: the sheets append as many rules as there can be,
    // so that the translation has as many rules as the plain form takes.
    let option = |atom| Literal::Signed(SignedAtom::Negated(atom));
    let options: Vec<_> = (1..=SOURCE.heads as u16).map(option).collect();
    let tags = SOURCE.sheets as u16 + 1;
    let mut items: Vec<_> = (0..SOURCE.rules as u16)
        .map(|index| {
            let rule = random.taken_rule(FULL, false);
            Item::Rule(Rule { tag: Some(1 + index % tags), heads: options.clone(), ..rule })
        })
        .collect();
    let pairs = (1..=SOURCE.heads as u16).flat_map(|one| (1..one).map(move |other| (one, other)));
    let pairs = pairs.map(|(one, other)| Item::Opposition(option(one), option(other)));
    items.splice(9..9, pairs.take(SOURCE.sheets));
    items.extend((2..=tags).map(|lower| Item::Override(1, lower)));
    let source = encode_program(&items).bytes;
    assert_eq!(source.len(), SOURCE.length);
    records_are_as_shown(&source, false, 1);
    let appended = 2 * SOURCE.sheets * SOURCE.sheets;
    assert_eq!(aspda::translation_bound(&source), 13 * source.len() + APPENDED_RULE * appended);

    let mut out = vec![0; aspda::translation_bound(&source)];
    let translation = aspda::translate(&source, &mut out).unwrap();
    assert_eq!((translation.len(), aspda::read_plain(translation)), (PLAIN.length, Ok(PLAIN.rules as u32)));
    // Each call of show reads the whole program: all of them would take seconds.
    records_are_as_shown(translation, true, 61);
}

#[test]
fn random_sets_come_back_from_their_bytes_and_their_listings() {
    let mut random = Random(0xD1B5_4A32_D192_ED03);
    for _ in 0..400 {
        let (literals, names) = (random.part(), random.names());
        let record = encode_set(&literals).unwrap();
        let members = decode_set(&record);
        assert!(literals.iter().all(|literal| members.contains(literal)));
        assert!(members.iter().all(|member| literals.contains(member)));
        let listed = parse_set(&list_set(&members, &names), &names).unwrap();
        assert_eq!(encode_set(&listed).unwrap(), record);
    }
}
