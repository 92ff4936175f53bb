//! The rules that a source's preference sheets append, and which records made each.
//!
//! The rules are the library's: the quotient by the empty set leaves nothing out, and of a strict rule without naf
//! literals it keeps all, so that what stands in it behind the source's own rules are the appended ones. Which records
//! made a rule is looked up here.

use crate::files::Program;
use crate::text::{self, Item, Literal, Rule, SignedAtom};
use aspda::Refusal;

/// A source with the rules that its sheets append.
pub struct Expansion<'p> {
    source: &'p Program,
    items: Vec<Item>,
    places: Vec<String>,
    /// How many rules are written.
    written: usize,
    appended: Vec<Rule>,
}

impl<'p> Expansion<'p> {
    pub fn of(source: &'p Program) -> Result<Expansion<'p>, Refusal> {
        let written = aspda::read_source(&source.bytes)? as usize;
        let no_literals = text::encode_set(&[]).expect("a count can say none");
        let mut out = vec![0; aspda::quotient_bound(&source.bytes)];
        let quotient = aspda::quotient_source(&source.bytes, &no_literals, &mut out)?;
        let appended = text::decode_program(quotient).into_iter().filter_map(Item::into_rule).skip(written).collect();
        let items = text::decode_program(&source.bytes);
        let places = source.places(&items);
        Ok(Expansion { source, items, places, written, appended })
    }

    /// The bytes of a program that has the appended rules alone.
    pub fn bytes(&self) -> Vec<u8> {
        let items: Vec<_> = self.appended.iter().cloned().map(Item::Rule).collect();
        text::encode_program(&items).bytes
    }

    /// The appended rules as text, one a line.
    pub fn list(&self) -> String {
        if self.appended.is_empty() {
            return "% no rule is appended\n".to_owned();
        }
        let numbers = self.written + 1..=self.written + self.appended.len();
        let lines = numbers.filter_map(|number| self.list_rule(number));
        text::list_names(&self.source.names) + &lines.collect::<String>()
    }

    /// The appended rule that is counted by this number, with the two records that made it; none if it is not appended.
    pub fn list_rule(&self, number: usize) -> Option<String> {
        let rule = self.appended.get(number.checked_sub(self.written + 1)?)?;
        let made = match self.makers(rule) {
            Some((over, pair)) => format!(": {}; {}", self.list_record(over), self.list_record(pair)),
            None => String::new(),
        };
        Some(format!("{}  % rule {number}{made}\n", text::list_rule(rule, &self.source.names)))
    }

    fn list_record(&self, index: usize) -> String {
        let listed = text::list_item(&self.items[index], &self.source.names);
        format!("{} ({})", listed.trim_end_matches('.'), self.places[index])
    }

    /// The first override and the first opposition that make the rule.
    fn makers(&self, rule: &Rule) -> Option<(usize, usize)> {
        let (lower, b, a) = match (&rule.heads[..], &rule.positives[..]) {
            (&[Literal::Defeated(lower, b)], &[a]) => (lower, b, a),
            _ => return None,
        };
        let over = self.items.iter().position(|item| match *item {
            Item::Override(upper, under) => under == lower && self.is_headed(upper, a),
            _ => false,
        })?;
        let pair = self.items.iter().position(|item| match *item {
            Item::Opposition(first, second) => is_pair((first, second), a, b) || is_pair((second, first), a, b),
            _ => false,
        })?;
        Some((over, pair))
    }

    /// Whether a defeasible rule with the tag has the literal in its head.
    fn is_headed(&self, tag: u16, literal: Literal) -> bool {
        self.items.iter().any(|item| match item {
            Item::Rule(rule) => rule.tag == Some(tag) && rule.heads.contains(&literal),
            _ => false,
        })
    }
}

fn is_pair(pair: (Literal, Literal), a: Literal, b: SignedAtom) -> bool {
    pair == (a, Literal::Signed(b))
}
