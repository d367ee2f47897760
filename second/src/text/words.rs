//! The words of a line, taken one by one.

use std::str::FromStr;

/// A line without its comment, cut at spaces; `:` and `,` are words.
pub(super) struct Words {
    words: Vec<String>,
    taken: usize,
}

impl Words {
    pub(super) fn of(line: &str) -> Words {
        let text = line.split('#').next().unwrap_or("");
        let spaced = text.replace(':', " : ").replace(',', " , ");
        Words {
            words: spaced.split_whitespace().map(str::to_string).collect(),
            taken: 0,
        }
    }

    /// The next word, left in place.
    pub(super) fn peek(&self) -> Option<&str> {
        self.ahead(0)
    }

    /// The word `count` after the next one.
    pub(super) fn ahead(&self, count: usize) -> Option<&str> {
        self.words.get(self.taken + count).map(String::as_str)
    }

    /// Takes the next word, which must be there.
    pub(super) fn take(&mut self, what: &str) -> Result<String, String> {
        let word = self.peek().map(str::to_string);
        self.taken += 1;
        word.ok_or_else(|| format!("{what} is missing"))
    }

    /// Takes the next word if it is this one.
    pub(super) fn take_if(&mut self, word: &str) -> bool {
        let found = self.peek() == Some(word);
        self.taken += usize::from(found);
        found
    }

    /// Takes this very word.
    pub(super) fn take_word(&mut self, word: &str) -> Result<(), String> {
        let found = self.take(&format!("'{word}'"))?;
        if found == word {
            Ok(())
        } else {
            Err(format!("'{word}' expected, not '{found}'"))
        }
    }

    /// Takes a number that fits the field it is for.
    pub(super) fn take_number<T: FromStr>(&mut self, what: &str) -> Result<T, String> {
        let word = self.take(what)?;
        number(&word, what)
    }

    /// Nothing may be left.
    pub(super) fn end(&self) -> Result<(), String> {
        match self.peek() {
            None => Ok(()),
            Some(word) => Err(format!("'{word}' is left over")),
        }
    }
}

/// Reads a number that fits the field it is for.
pub(super) fn number<T: FromStr>(word: &str, what: &str) -> Result<T, String> {
    let fault = || format!("{what} must be a number that fits its field, not '{word}'");
    word.parse().map_err(|_| fault())
}
