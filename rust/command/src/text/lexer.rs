//! A text as tokens with their places. Blanks, line ends and comments only separate.

use super::{error, Place, TextError};
use std::fmt;

const WORDS: [&str; 10] = ["tag", "atom", "or", "if", "and", "not", "never", "defeated", "derived", "rule-defeated"];

#[derive(Clone, Debug, PartialEq, Eq)]
pub enum Token<'t> {
    Number(u16),
    Name(&'t str),
    /// One of `WORDS`.
    Word(&'t str),
    /// One of `. , : = - ( ) { }`.
    Sign(char),
    End,
}

impl fmt::Display for Token<'_> {
    fn fmt(&self, f: &mut fmt::Formatter<'_>) -> fmt::Result {
        match self {
            Token::Number(number) => write!(f, "{number}"),
            Token::Name(word) | Token::Word(word) => write!(f, "`{word}`"),
            Token::Sign(sign) => write!(f, "`{sign}`"),
            Token::End => write!(f, "the end of the text"),
        }
    }
}

pub type Placed<'t> = (Token<'t>, Place);

/// The tokens of a text; the last is `End`, and no other is.
pub fn tokens(text: &str) -> Result<Vec<Placed<'_>>, TextError> {
    // Some editors begin a file with this mark.
    let text = text.strip_prefix('\u{FEFF}').unwrap_or(text);
    let mut reader = Reader { rest: text, place: Place { line: 1, column: 1 } };
    let mut found = Vec::new();
    loop {
        let placed = reader.next_token()?;
        let is_last = placed.0 == Token::End;
        found.push(placed);
        if is_last {
            return Ok(found);
        }
    }
}

struct Reader<'t> {
    rest: &'t str,
    place: Place,
}

impl<'t> Reader<'t> {
    /// Takes the characters for which `is_wanted` says yes, from the first on.
    fn take_while(&mut self, is_wanted: impl Fn(char) -> bool) -> &'t str {
        let length = self.rest.find(|c| !is_wanted(c)).unwrap_or(self.rest.len());
        self.take(length)
    }

    fn take(&mut self, length: usize) -> &'t str {
        let (taken, rest) = self.rest.split_at(length);
        for c in taken.chars() {
            if c == '\n' {
                self.place = Place { line: self.place.line + 1, column: 1 };
            } else {
                self.place.column += 1;
            }
        }
        self.rest = rest;
        taken
    }

    fn skip_blanks(&mut self) {
        self.take_while(|c| c.is_ascii_whitespace());
        while self.rest.starts_with('%') {
            self.take_while(|c| c != '\n');
            self.take_while(|c| c.is_ascii_whitespace());
        }
    }

    fn next_token(&mut self) -> Result<Placed<'t>, TextError> {
        self.skip_blanks();
        let place = self.place;
        let token = match self.rest.chars().next() {
            None => Token::End,
            Some(c) if ".,:=-(){}".contains(c) => {
                self.take(1);
                Token::Sign(c)
            }
            Some(c) if is_in_word(c) => self.word_or_number(place)?,
            Some(c) => return error(place, format!("`{}` means nothing here", c.escape_default())),
        };
        Ok((token, place))
    }

    fn word_or_number(&mut self, place: Place) -> Result<Token<'t>, TextError> {
        let whole = self.rest;
        let word = self.take_while(is_in_word);
        if word.starts_with(|c: char| c.is_ascii_digit()) {
            return number(word, place);
        }
        // The one word with a hyphen; nowhere else does a hyphen follow a name.
        if let ("rule", Some(rest)) = (word, self.rest.strip_prefix("-defeated")) {
            if !rest.starts_with(is_in_word) {
                self.take(self.rest.len() - rest.len());
                return Ok(Token::Word(&whole[..whole.len() - rest.len()]));
            }
        }
        if word.starts_with(|c: char| !c.is_ascii_lowercase()) || word.contains(|c: char| c.is_ascii_uppercase()) {
            return error(place, format!("`{word}` is no name: small letters, digits and _, a letter first"));
        }
        Ok(if WORDS.contains(&word) { Token::Word(word) } else { Token::Name(word) })
    }
}

fn is_in_word(c: char) -> bool {
    c.is_ascii_alphanumeric() || c == '_'
}

fn number(digits: &str, place: Place) -> Result<Token<'_>, TextError> {
    if digits.contains(|c: char| !c.is_ascii_digit()) {
        return error(place, format!("`{digits}` is neither a number nor a name"));
    }
    match digits.parse() {
        Ok(number) => Ok(Token::Number(number)),
        Err(_) => error(place, format!("{digits} is above 65535, the largest number that two bytes hold")),
    }
}
