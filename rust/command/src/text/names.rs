//! The names that a program declares for atoms and for tags.

use std::collections::BTreeMap;

/// One kind's names: each number has at most one, and each name stands for one number.
#[derive(Clone, Debug, Default, PartialEq, Eq)]
pub struct Table {
    names: BTreeMap<u16, String>,
    numbers: BTreeMap<String, u16>,
}

impl Table {
    /// Declares a name, or says what stands against it.
    pub fn declare(&mut self, number: u16, name: &str) -> Result<(), String> {
        if let Some(other) = self.numbers.get(name) {
            return Err(format!("`{name}` is declared already, for {other}"));
        }
        if let Some(other) = self.names.get(&number) {
            return Err(format!("{number} has a name already, `{other}`"));
        }
        self.names.insert(number, name.to_owned());
        self.numbers.insert(name.to_owned(), number);
        Ok(())
    }

    pub fn number(&self, name: &str) -> Option<u16> {
        self.numbers.get(name).copied()
    }

    /// The number's name, or its digits.
    pub fn show(&self, number: u16) -> String {
        self.names.get(&number).cloned().unwrap_or_else(|| number.to_string())
    }

    /// Each number with its name, ascending.
    pub fn iter(&self) -> impl Iterator<Item = (&u16, &String)> {
        self.names.iter()
    }
}

/// Atoms and tags have names of their own: where a name stands says which of the two it is.
#[derive(Clone, Debug, Default, PartialEq, Eq)]
pub struct Names {
    pub atoms: Table,
    pub tags: Table,
}
