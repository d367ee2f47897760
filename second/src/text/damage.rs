//! Directives that change blocks after they are laid out, so that every ground
//! of refusal can be reached from text.

use super::words::Words;
use crate::blocks::{fix_word_sum, BLOCK};
use crate::bytes::put;

/// A text may make its blocks no longer than this.
const LONGEST: usize = 1 << 16;

#[derive(Default)]
pub(super) struct Damage {
    /// Offsets and values set before the word sums are made right again.
    bytes: Vec<(usize, u8)>,
    /// Offsets and values set after that.
    raw_bytes: Vec<(usize, u8)>,
    length: Option<usize>,
}

impl Damage {
    /// Whether a line beginning with this word is a directive.
    pub(super) fn is_directive(word: &str) -> bool {
        ["byte", "raw-byte", "length"].contains(&word)
    }

    /// Adds a directive.
    pub(super) fn line(&mut self, words: &mut Words) -> Result<(), String> {
        let directive = words.take("a directive")?;
        if directive == "length" {
            let length = words.take_number("the length")?;
            if length > LONGEST {
                return Err(format!("the length is at most {LONGEST}"));
            }
            self.length = Some(length);
            return words.end();
        }
        let offset = words.take_number("the offset")?;
        let value = words.take_number("the value")?;
        match directive.as_str() {
            "byte" => self.bytes.push((offset, value)),
            _ => self.raw_bytes.push((offset, value)),
        }
        words.end()
    }

    /// Applies the directives. The sum is made right only where a `byte` has
    /// changed a block.
    pub(super) fn apply(&self, mut blocks: Vec<u8>) -> Vec<u8> {
        for (offset, value) in &self.bytes {
            put(&mut blocks, *offset, &[*value]);
            let touched = blocks.chunks_exact_mut(BLOCK).nth(offset / BLOCK);
            if let Some(block) = touched {
                fix_word_sum(block);
            }
        }
        for (offset, value) in &self.raw_bytes {
            put(&mut blocks, *offset, &[*value]);
        }
        if let Some(length) = self.length {
            blocks.resize(length, 0);
        }
        blocks
    }
}
