//! Text to rules, preference sheets and sets: syntax, names, and the counts that a record's bytes hold. Limits are the
//! library's.
//!
//! ```text
//! program     = { declaration | rule | override | opposition }
//! declaration = "atom" NUMBER "=" NAME "." | "tag" NUMBER "=" NAME "."
//! rule        = [ "tag" tag ":" ] head [ "if" body ] "."
//! head        = "never" | literal { "or" literal }
//! body        = [ "not" ] literal { "and" [ "not" ] literal }
//! override    = "tag" tag "overrides" "tag" tag "."
//! opposition  = literal "and" literal "oppose" "."
//! literal     = signed | ( "defeated" | "derived" ) "(" tag "," signed ")" | "rule-defeated" "(" NUMBER ")"
//! signed      = [ "-" ] atom
//! atom, tag   = NUMBER | NAME
//! set         = "{" [ literal { "," literal } ] "}"
//! steps       = { declaration | rule | override | opposition | "drop" "." }
//! ```
//!
//! `overrides` and `oppose` stand where no name can: atoms and tags may be called so all the same. Where an atom is
//! called `drop`, `drop.` is the fact, as in a program.

use super::lexer::{tokens, Placed, Token};
use super::names::Table;
use super::{error, Item, Literal, Names, Place, Rule, SignedAtom, TextError};

/// As many literals as a count's byte holds.
const PART: usize = u8::MAX as usize;
/// As many rules of a program, or literals of a set, as a count's two bytes hold.
const RECORDS: usize = u16::MAX as usize;

/// A program as its text gives it.
#[derive(Clone, Debug, Default, PartialEq, Eq)]
pub struct Parsed {
    pub items: Vec<Item>,
    /// The line where each item begins.
    pub lines: Vec<usize>,
    pub names: Names,
}

/// A step of an assembly.
#[derive(Clone, Debug, PartialEq, Eq)]
pub enum Step {
    Add(Item),
    DropLast,
}

/// The steps of an assembly as a text gives them.
#[derive(Clone, Debug, Default, PartialEq, Eq)]
pub struct Steps {
    pub steps: Vec<Step>,
    /// The line where each step begins.
    pub lines: Vec<usize>,
    /// Those of the texts before, and those that this text declares.
    pub names: Names,
}

pub fn parse_program(text: &str) -> Result<Parsed, TextError> {
    let mut parser = Parser::new(text, &Names::default())?;
    let mut parsed = Parsed::default();
    let mut rules = 0;
    while *parser.token() != Token::End {
        let place = parser.place();
        if let Some(item) = parser.statement()? {
            rules += usize::from(item.is_rule());
            if rules > RECORDS {
                return error(place, format!("more than {RECORDS} rules"));
            }
            parsed.items.push(item);
            parsed.lines.push(place.line);
        }
    }
    parsed.names = parser.names;
    Ok(parsed)
}

/// The steps of an assembly; `names` are those of the texts before, which this one may declare again as they are.
pub fn parse_steps(text: &str, names: &Names) -> Result<Steps, TextError> {
    let mut parser = Parser::new(text, names)?;
    let mut parsed = Steps::default();
    while *parser.token() != Token::End {
        let line = parser.place().line;
        let step = if parser.takes_drop() { Some(Step::DropLast) } else { parser.statement()?.map(Step::Add) };
        if let Some(step) = step {
            parsed.steps.push(step);
            parsed.lines.push(line);
        }
    }
    parsed.names = parser.names;
    Ok(parsed)
}

/// The literals of a set in the order of the text; `names` are those of the program that goes with it.
pub fn parse_set(text: &str, names: &Names) -> Result<Vec<Literal>, TextError> {
    let mut parser = Parser::new(text, names)?;
    parser.expect('{')?;
    let mut literals = Vec::new();
    if !parser.takes(&Token::Sign('}')) {
        literals.push(parser.literal()?);
        while parser.takes(&Token::Sign(',')) {
            literals.push(parser.literal()?);
        }
        if !parser.takes(&Token::Sign('}')) {
            return parser.unexpected("`,` or `}`");
        }
    }
    match parser.token() {
        Token::End => Ok(literals),
        _ => parser.unexpected("nothing behind the set"),
    }
}

/// Whether a text is one of a set, and not of a program: no program begins with a brace.
pub fn holds_set(text: &str) -> Result<bool, TextError> {
    Ok(tokens(text)?[0].0 == Token::Sign('{'))
}

struct Parser<'t> {
    tokens: Vec<Placed<'t>>,
    next: usize,
    names: Names,
    /// The names that were there before the text.
    earlier: Names,
}

impl<'t> Parser<'t> {
    fn new(text: &'t str, names: &Names) -> Result<Parser<'t>, TextError> {
        Ok(Parser { tokens: tokens(text)?, next: 0, names: names.clone(), earlier: names.clone() })
    }

    fn token(&self) -> &Token<'t> {
        &self.tokens[self.next].0
    }

    fn place(&self) -> Place {
        self.tokens[self.next].1
    }

    /// Goes on to the next token; the end stays.
    fn advance(&mut self) {
        self.next = (self.next + 1).min(self.tokens.len() - 1);
    }

    fn takes(&mut self, token: &Token) -> bool {
        let found = self.token() == token;
        if found {
            self.advance();
        }
        found
    }

    fn takes_word(&mut self, word: &str) -> bool {
        self.takes(&Token::Word(word))
    }

    fn expect(&mut self, sign: char) -> Result<(), TextError> {
        if self.takes(&Token::Sign(sign)) {
            return Ok(());
        }
        self.unexpected(&format!("`{sign}`"))
    }

    fn unexpected<T>(&self, wanted: &str) -> Result<T, TextError> {
        error(self.place(), format!("{wanted} expected, and not {}", self.token()))
    }

    /// An item, or a declaration, which gives none.
    fn statement(&mut self) -> Result<Option<Item>, TextError> {
        if self.takes_word("atom") {
            let number = self.number("an atom's number")?;
            self.declaration(number, |names| &mut names.atoms)?;
            return Ok(None);
        }
        if !self.takes_word("tag") {
            return self.strict_or_opposition().map(Some);
        }
        if let (Token::Number(number), Token::Sign('=')) = (self.token().clone(), self.token_behind()) {
            self.advance();
            self.declaration(number, |names| &mut names.tags)?;
            return Ok(None);
        }
        let tag = self.tag()?;
        if self.takes(&Token::Name("overrides")) {
            return self.lower_tag(tag).map(Some);
        }
        if !self.takes(&Token::Sign(':')) {
            return self.unexpected("`:` or `overrides` (or, behind a tag's number, `=`)");
        }
        let rule = Rule { tag: Some(tag), ..Rule::default() };
        self.rule(rule).map(Some)
    }

    /// `tag LOWER .`, behind `tag UPPER overrides`
    fn lower_tag(&mut self, upper: u16) -> Result<Item, TextError> {
        if !self.takes_word("tag") {
            return self.unexpected("`tag`");
        }
        let lower = self.tag()?;
        self.expect('.')?;
        Ok(Item::Override(upper, lower))
    }

    /// A strict rule, or two options that oppose: behind the first literal stands `and`.
    fn strict_or_opposition(&mut self) -> Result<Item, TextError> {
        let start = self.next;
        if *self.token() != Token::Word("never") {
            let first = self.literal()?;
            if self.takes_word("and") {
                return self.second_option(first);
            }
            self.next = start;
        }
        self.rule(Rule::default())
    }

    /// `OPTION oppose .`, behind `OPTION and`
    fn second_option(&mut self, first: Literal) -> Result<Item, TextError> {
        let second = self.literal()?;
        if !self.takes(&Token::Name("oppose")) {
            return self.unexpected("`oppose`");
        }
        self.expect('.')?;
        Ok(Item::Opposition(first, second))
    }

    /// The token behind the next one.
    fn token_behind(&self) -> Token<'t> {
        self.tokens.get(self.next + 1).map_or(Token::End, |(token, _)| token.clone())
    }

    /// `drop .`, if no atom is called so
    fn takes_drop(&mut self) -> bool {
        const DROP: &str = "drop";
        let is_drop = *self.token() == Token::Name(DROP) && self.token_behind() == Token::Sign('.');
        if !is_drop || self.names.atoms.number(DROP).is_some() {
            return false;
        }
        self.advance();
        self.advance();
        true
    }

    /// `= NAME .`
    fn declaration(&mut self, number: u16, table: fn(&mut Names) -> &mut Table) -> Result<(), TextError> {
        self.expect('=')?;
        let place = self.place();
        let name = match *self.token() {
            Token::Name(name) => name,
            Token::Word(word) => return error(place, format!("`{word}` is a word of the text form, and no name")),
            _ => return self.unexpected("a name"),
        };
        self.advance();
        if table(&mut self.earlier).number(name) != Some(number) {
            table(&mut self.names).declare(number, name).or_else(|message| error(place, message))?;
        }
        self.expect('.')
    }

    /// The rest of a rule of which no literal is there yet.
    fn rule(&mut self, mut rule: Rule) -> Result<Item, TextError> {
        if !self.takes_word("never") {
            self.literal_into(&mut rule.heads)?;
            while self.takes_word("or") {
                self.literal_into(&mut rule.heads)?;
            }
        }
        if self.takes_word("if") {
            self.body_literal(&mut rule)?;
            while self.takes_word("and") {
                self.body_literal(&mut rule)?;
            }
            if *self.token() != Token::Sign('.') {
                return self.unexpected("`and` or `.`");
            }
        }
        if !self.takes(&Token::Sign('.')) {
            return self.unexpected(if rule.heads.is_empty() { "`if` or `.`" } else { "`or`, `if` or `.`" });
        }
        Ok(Item::Rule(rule))
    }

    fn body_literal(&mut self, rule: &mut Rule) -> Result<(), TextError> {
        let part = if self.takes_word("not") { &mut rule.nafs } else { &mut rule.positives };
        self.literal_into(part)
    }

    fn literal_into(&mut self, part: &mut Vec<Literal>) -> Result<(), TextError> {
        let place = self.place();
        part.push(self.literal()?);
        if part.len() > PART {
            return error(place, format!("more than {PART} literals in one part of a rule"));
        }
        Ok(())
    }

    fn literal(&mut self) -> Result<Literal, TextError> {
        if self.takes_word("defeated") {
            return self.mark().map(|(tag, signed)| Literal::Defeated(tag, signed));
        }
        if self.takes_word("derived") {
            return self.mark().map(|(tag, signed)| Literal::Derived(tag, signed));
        }
        if self.takes_word("rule-defeated") {
            self.expect('(')?;
            let rule = self.number("a rule's number")?;
            self.expect(')')?;
            return Ok(Literal::RuleDefeated(rule));
        }
        self.signed_atom("a literal").map(Literal::Signed)
    }

    /// `( TAG , ATOM )` or `( TAG , - ATOM )`
    fn mark(&mut self) -> Result<(u16, SignedAtom), TextError> {
        self.expect('(')?;
        let tag = self.tag()?;
        self.expect(',')?;
        let signed = self.signed_atom("an atom or its negation")?;
        self.expect(')')?;
        Ok((tag, signed))
    }

    fn signed_atom(&mut self, wanted: &str) -> Result<SignedAtom, TextError> {
        if self.takes(&Token::Sign('-')) {
            return self.atom("an atom").map(SignedAtom::Negated);
        }
        self.atom(wanted).map(SignedAtom::Atom)
    }

    fn atom(&mut self, wanted: &str) -> Result<u16, TextError> {
        self.named("atom", wanted, |names| &names.atoms)
    }

    fn tag(&mut self) -> Result<u16, TextError> {
        self.named("tag", "a tag", |names| &names.tags)
    }

    /// A number, or a name of the table.
    fn named(&mut self, kind: &str, wanted: &str, table: fn(&Names) -> &Table) -> Result<u16, TextError> {
        let name = match *self.token() {
            Token::Name(name) => name,
            _ => return self.number(wanted),
        };
        match table(&self.names).number(name) {
            Some(number) => {
                self.advance();
                Ok(number)
            }
            None => error(self.place(), format!("no {kind} is declared as `{name}`")),
        }
    }

    fn number(&mut self, wanted: &str) -> Result<u16, TextError> {
        match *self.token() {
            Token::Number(number) => {
                self.advance();
                Ok(number)
            }
            _ => self.unexpected(wanted),
        }
    }
}
