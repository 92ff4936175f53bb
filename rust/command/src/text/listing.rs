//! Rules, preference sheets and sets as text, with the names that their program declares: parsed again, a listing gives
//! the same bytes.

use super::{Item, Literal, Names, Rule, SignedAtom};

/// A program: its names, then an item a line, behind a rule its number.
pub fn list_program(items: &[Item], names: &Names) -> String {
    let mut text = list_names(names);
    let mut rules = 0;
    for item in items {
        text += &list_item(item, names);
        if item.is_rule() {
            rules += 1;
            text += &format!("  % rule {rules}");
        }
        text.push('\n');
    }
    text
}

/// The declarations of names, and an empty line behind them if there are any.
pub fn list_names(names: &Names) -> String {
    let mut text = String::new();
    for (kind, table) in [("atom", &names.atoms), ("tag", &names.tags)] {
        for (number, name) in table.iter() {
            text += &format!("{kind} {number} = {name}.\n");
        }
    }
    if !text.is_empty() {
        text.push('\n');
    }
    text
}

/// A rule, `tag 1 overrides tag 2.` or `1 and 4 oppose.`
pub fn list_item(item: &Item, names: &Names) -> String {
    match item {
        Item::Rule(rule) => list_rule(rule, names),
        Item::Override(upper, lower) => {
            format!("tag {} overrides tag {}.", names.tags.show(*upper), names.tags.show(*lower))
        }
        Item::Opposition(first, second) => {
            format!("{} and {} oppose.", list_literal(*first, names), list_literal(*second, names))
        }
    }
}

/// A rule: its positive literals before those under `not`.
pub fn list_rule(rule: &Rule, names: &Names) -> String {
    let heads: Vec<_> = rule.heads.iter().map(|literal| list_literal(*literal, names)).collect();
    let positives = rule.positives.iter().map(|literal| list_literal(*literal, names));
    let nafs = rule.nafs.iter().map(|literal| format!("not {}", list_literal(*literal, names)));
    let body: Vec<_> = positives.chain(nafs).collect();

    let tag = rule.tag.map_or(String::new(), |tag| format!("tag {}: ", names.tags.show(tag)));
    let head = if heads.is_empty() { "never".to_owned() } else { heads.join(" or ") };
    let condition = if body.is_empty() { String::new() } else { format!(" if {}", body.join(" and ")) };
    format!("{tag}{head}{condition}.")
}

/// A set on one line.
pub fn list_set(literals: &[Literal], names: &Names) -> String {
    let members: Vec<_> = literals.iter().map(|literal| list_literal(*literal, names)).collect();
    format!("{{{}}}", members.join(", "))
}

pub fn list_literal(literal: Literal, names: &Names) -> String {
    match literal {
        Literal::Signed(signed) => list_signed(signed, names),
        Literal::Defeated(tag, signed) => list_mark("defeated", tag, signed, names),
        Literal::Derived(tag, signed) => list_mark("derived", tag, signed, names),
        Literal::RuleDefeated(rule) => format!("rule-defeated({rule})"),
    }
}

fn list_mark(word: &str, tag: u16, signed: SignedAtom, names: &Names) -> String {
    format!("{word}({}, {})", names.tags.show(tag), list_signed(signed, names))
}

fn list_signed(signed: SignedAtom, names: &Names) -> String {
    match signed {
        SignedAtom::Atom(atom) => names.atoms.show(atom),
        SignedAtom::Negated(atom) => format!("-{}", names.atoms.show(atom)),
    }
}
