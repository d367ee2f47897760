//! Names of propositions, actions and states. The blocks hold none; a model's
//! names serve the text that follows it.

use super::sheet::SILENT_WORD;
use super::words::number;
use crate::logic::Literals;
use std::collections::HashMap;

/// The names of one kind of thing, and how many numbers are declared.
#[derive(Default)]
pub(super) struct Names {
    what: &'static str,
    numbers: HashMap<String, u8>,
    /// One more than the highest declared number.
    pub(super) count: u8,
}

/// What actions are called; none may have the silent move's name.
const ACTION: &str = "action";

/// Words that the grammar uses where a name could stand.
const RESERVED: [&str; 2] = ["needs", "always"];

impl Names {
    pub(super) fn of(what: &'static str) -> Names {
        Names {
            what,
            ..Names::default()
        }
    }

    /// Declares a number, below a limit that the blocks set.
    pub(super) fn declare(&mut self, number: u8, limit: usize) -> Result<(), String> {
        if usize::from(number) >= limit {
            return Err(format!("the blocks have room for {limit} {}s", self.what));
        }
        self.count = self.count.max(number.saturating_add(1));
        Ok(())
    }

    /// Names a declared number.
    pub(super) fn name(&mut self, name: &str, number: u8) -> Result<(), String> {
        let letters = |c: char| c.is_alphanumeric() || c == '_' || c == '-';
        let begins_right = name.starts_with(|c: char| c.is_alphabetic() || c == '_');
        let taken = RESERVED.contains(&name) || self.what == ACTION && name == SILENT_WORD;
        if taken || !begins_right || !name.chars().all(letters) {
            return Err(format!("no {} can be named '{name}'", self.what));
        }
        match self.numbers.insert(name.to_string(), number) {
            None => Ok(()),
            Some(_) => Err(format!("there are two {}s '{name}'", self.what)),
        }
    }

    /// The number that a word stands for: itself, or the one of that name.
    pub(super) fn number(&self, word: &str) -> Result<u8, String> {
        if word.starts_with(|c: char| c.is_ascii_digit()) {
            return number(word, self.what);
        }
        let found = self.numbers.get(word).copied();
        found.ok_or_else(|| format!("no {} is named '{word}'", self.what))
    }
}

/// The names of a model.
pub(super) struct ModelNames {
    pub(super) propositions: Names,
    pub(super) actions: Names,
    pub(super) states: Names,
}

impl Default for ModelNames {
    fn default() -> Self {
        ModelNames {
            propositions: Names::of("proposition"),
            actions: Names::of(ACTION),
            states: Names::of("state"),
        }
    }
}

impl ModelNames {
    /// The bit of a proposition.
    pub(super) fn bit(&self, word: &str) -> Result<u32, String> {
        let number = self.propositions.number(word)?;
        1u32.checked_shl(number.into())
            .ok_or_else(|| "a mask has room for propositions 0 to 31".to_string())
    }

    /// Adds a literal, `held` or `!held`, to a conjunction.
    pub(super) fn add_literal(&self, word: &str, to: &mut Literals) -> Result<(), String> {
        match word.strip_prefix('!') {
            Some(name) => to.demanded_false |= self.bit(name)?,
            None => to.demanded_true |= self.bit(word)?,
        }
        Ok(())
    }
}
