//! From text to blocks.

use super::damage::Damage;
use super::model::ModelText;
use super::names::ModelNames;
use super::question::QuestionText;
use super::sheet;
use super::words::{number, Words};
use crate::blocks::Sheet;
use std::fmt;

/// Why a text cannot be packed.
#[derive(Clone, Debug, PartialEq, Eq)]
pub struct TextError {
    pub line: usize,
    pub reason: String,
}

impl fmt::Display for TextError {
    fn fmt(&self, out: &mut fmt::Formatter) -> fmt::Result {
        write!(out, "line {}: {}", self.line, self.reason)
    }
}

/// What a part of the packed bytes is.
#[derive(Clone, Copy, Debug, PartialEq, Eq)]
pub enum Part {
    Model,
    Question,
    Sheet,
    Bytes,
}

/// What the lines since the last heading tell of.
enum Section {
    Model(Box<ModelText>),
    Question(Box<QuestionText>),
    Sheet(Sheet),
    Bytes(Vec<u8>),
}

/// Packs one text after another; a model's names serve what follows it.
#[derive(Default)]
pub struct Packer {
    names: ModelNames,
    section: Option<(Section, Damage)>,
    packed: Vec<(Part, Vec<u8>)>,
}

/// The blocks of one text.
pub fn pack_text(text: &str) -> Result<Vec<u8>, TextError> {
    let mut packer = Packer::default();
    packer.add(text)?;
    Ok(packer.blocks())
}

impl Packer {
    /// Packs a text after those before it.
    pub fn add(&mut self, text: &str) -> Result<(), TextError> {
        let mut number = 0;
        for line in text.lines() {
            number += 1;
            let done = self.line(&mut Words::of(line));
            done.map_err(|reason| TextError {
                line: number,
                reason,
            })?;
        }
        let done = self.close();
        done.map_err(|reason| TextError {
            line: number,
            reason,
        })
    }

    /// The blocks of all texts so far.
    pub fn blocks(&self) -> Vec<u8> {
        let parts = self.packed.iter();
        parts.flat_map(|(_, bytes)| bytes).copied().collect()
    }

    /// The same, apart.
    pub fn parts(&self) -> &[(Part, Vec<u8>)] {
        &self.packed
    }

    fn line(&mut self, words: &mut Words) -> Result<(), String> {
        let Some(first) = words.peek().map(str::to_string) else {
            return Ok(());
        };
        match first.as_str() {
            "model" | "question" | "sheet" => self.open(&first, words),
            "bytes" => self.bytes_line(words),
            _ => self.inner_line(&first, words),
        }
    }

    /// A heading ends the section above it.
    fn open(&mut self, heading: &str, words: &mut Words) -> Result<(), String> {
        self.close()?;
        words.take_word(heading)?;
        let section = match heading {
            "model" => {
                self.names = ModelNames::default();
                Section::Model(Box::new(ModelText::begin(words)?))
            }
            "question" => Section::Question(Box::new(QuestionText::begin(words, &self.names)?)),
            _ => Section::Sheet(sheet::begin(words, &self.names)?),
        };
        self.section = Some((section, Damage::default()));
        Ok(())
    }

    /// `bytes 00 ff`: bytes in hexadecimal, for what is no block.
    fn bytes_line(&mut self, words: &mut Words) -> Result<(), String> {
        words.take_word("bytes")?;
        if !matches!(self.section, Some((Section::Bytes(_), _))) {
            self.close()?;
            self.section = Some((Section::Bytes(Vec::new()), Damage::default()));
        }
        let Some((Section::Bytes(bytes), _)) = &mut self.section else {
            return Ok(());
        };
        while words.peek().is_some() {
            let word = words.take("a byte")?;
            let fault = |_| format!("'{word}' is no byte in hexadecimal");
            bytes.push(u8::from_str_radix(&word, 16).map_err(fault)?);
        }
        Ok(())
    }

    fn inner_line(&mut self, first: &str, words: &mut Words) -> Result<(), String> {
        let fault = || format!("'{first}' stands before any model, question or sheet");
        let (section, damage) = self.section.as_mut().ok_or_else(fault)?;
        if Damage::is_directive(first) {
            return damage.line(words);
        }
        match section {
            Section::Model(text) => text.line(words, &mut self.names),
            Section::Question(text) => {
                number::<u64>(first, "a node's own number")?;
                text.line(words, &self.names)
            }
            Section::Sheet(text) => sheet::line(text, words, &self.names),
            Section::Bytes(_) => Err(format!("'{first}' has no place after bytes")),
        }
    }

    /// Lays out the section that has ended.
    fn close(&mut self) -> Result<(), String> {
        let Some((section, damage)) = self.section.take() else {
            return Ok(());
        };
        let (part, blocks) = match section {
            Section::Model(text) => (Part::Model, text.pack(&self.names)?),
            Section::Question(text) => (Part::Question, text.pack()),
            Section::Sheet(text) => (Part::Sheet, text.pack()),
            Section::Bytes(bytes) => (Part::Bytes, bytes),
        };
        self.packed.push((part, damage.apply(blocks)));
        Ok(())
    }
}
