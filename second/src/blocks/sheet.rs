//! Sheets: a plan with its claimed total in one to three blocks.

use super::frame::{check_frame, fix_word_sums, BLOCK};
use crate::bytes::{put, u16_at, u64_at, u8_at};
use crate::ground::{demand, Ground};

/// How many choices every block but the last holds.
pub const SHEET_CHOICES: usize = 490;

const TOTAL_AT: usize = 8;
const COUNT_AT: usize = 16;
const CHOICES_AT: usize = 18;

/// "Sheet" is document 01's word for a stored plan with its claimed total:
/// what the field calls a certificate.
#[derive(Clone, Debug, Default, PartialEq, Eq)]
pub struct Sheet {
    pub steps: u8,
    pub start: u8,
    /// The eight bytes of the total as they stand: a weight, or a total of gains
    /// in two's complement. Which of them it is, the question tells.
    pub total: u64,
    /// One choice for each history, depth first: an action, or 255 for the
    /// silent move.
    pub choices: Vec<u8>,
}

impl Sheet {
    /// How many bytes the sheet's blocks take; a sheet always has one block.
    pub fn packed_len(choices: usize) -> usize {
        BLOCK * choices.div_ceil(SHEET_CHOICES).max(1)
    }

    /// Lays the sheet out in blocks, spare bytes zero and word sums right.
    pub fn pack(&self) -> Vec<u8> {
        let mut bytes = vec![0; Sheet::packed_len(self.choices.len())];
        let mut parts = self.choices.chunks(SHEET_CHOICES);
        for (place, block) in bytes.chunks_mut(BLOCK).enumerate() {
            let number = u8::try_from(place).unwrap_or(u8::MAX);
            let part = parts.next().unwrap_or(&[]);
            let count = u16::try_from(part.len()).unwrap_or(u16::MAX);
            put(block, 0, &[4, number, self.steps, self.start]);
            put(block, TOTAL_AT, &self.total.to_le_bytes());
            put(block, COUNT_AT, &count.to_le_bytes());
            put(block, CHOICES_AT, part);
        }
        fix_word_sums(&mut bytes);
        bytes
    }

    /// Reads the fields of whole blocks, taking the total of the first.
    pub fn unpack(bytes: &[u8]) -> Self {
        let mut choices = Vec::new();
        for block in bytes.chunks(BLOCK) {
            let count = usize::from(u16_at(block, COUNT_AT)).min(SHEET_CHOICES);
            choices.extend(block.iter().skip(CHOICES_AT).take(count));
        }
        Sheet {
            steps: u8_at(bytes, 2),
            start: u8_at(bytes, 3),
            total: u64_at(bytes, TOTAL_AT),
            choices,
        }
    }
}

/// The sheet in these bytes, for a question of so many steps from `start`, or
/// the first of grounds 1 to 6 against it.
pub fn read_sheet(bytes: &[u8], steps: u8, start: u8) -> Result<Sheet, Ground> {
    check_frame(bytes, 1..=3, |place| {
        (4, u8::try_from(place).unwrap_or(u8::MAX))
    })?;
    let blocks = || bytes.chunks(BLOCK);
    let heads_right = blocks().all(|b| u8_at(b, 2) == steps && u8_at(b, 3) == start);
    demand(heads_right, Ground::Counts)?;
    let total = u64_at(bytes, TOTAL_AT);
    let totals_agree = blocks().all(|b| u64_at(b, TOTAL_AT) == total);
    demand(totals_agree && counts_right(bytes), Ground::Range)?;
    let sheet = Sheet::unpack(bytes);
    demand(sheet.pack() == bytes, Ground::Spare)?;
    Ok(sheet)
}

/// Every block but the last holds exactly 490 choices, the last 1 to 490.
fn counts_right(bytes: &[u8]) -> bool {
    let last = (bytes.len() / BLOCK).saturating_sub(1);
    let mut counts = bytes
        .chunks(BLOCK)
        .map(|b| usize::from(u16_at(b, COUNT_AT)));
    let full = counts
        .by_ref()
        .take(last)
        .all(|count| count == SHEET_CHOICES);
    full && counts.all(|count| (1..=SHEET_CHOICES).contains(&count))
}
