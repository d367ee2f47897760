//! What all blocks share: length, word sum, kind and number (grounds 1 to 3).

use crate::bytes::{put, u16_at, u8_at};
use crate::ground::{demand, Ground};
use std::ops::RangeInclusive;

/// The bytes of a block.
pub const BLOCK: usize = 512;

/// Where the word stands that brings a block's sum to zero.
const LAST_WORD: usize = BLOCK - 2;

/// The sum of a block's 16-bit words modulo 65,536.
pub fn word_sum(block: &[u8]) -> u16 {
    let words = block.chunks(2).map(|word| u16_at(word, 0));
    words.fold(0, u16::wrapping_add)
}

/// Sets the last word so that the block's words sum to zero.
pub fn fix_word_sum(block: &mut [u8]) {
    put(block, LAST_WORD, &[0, 0]);
    let missing = word_sum(block).wrapping_neg();
    put(block, LAST_WORD, &missing.to_le_bytes());
}

/// Sets the last word of every whole block.
pub fn fix_word_sums(blocks: &mut [u8]) {
    for block in blocks.chunks_exact_mut(BLOCK) {
        fix_word_sum(block);
    }
}

/// Grounds 1, 2 and 3, each on all blocks before the next. `label` gives the
/// kind and number that the block in each place should carry.
pub(super) fn check_frame(
    bytes: &[u8],
    counts: RangeInclusive<usize>,
    label: fn(usize) -> (u8, u8),
) -> Result<(), Ground> {
    let whole = bytes.len().is_multiple_of(BLOCK);
    let count = bytes.len() / BLOCK;
    demand(whole && counts.contains(&count), Ground::Length)?;
    let sums_right = bytes.chunks(BLOCK).all(|block| word_sum(block) == 0);
    demand(sums_right, Ground::WordSum)?;
    let mut labels = bytes.chunks(BLOCK).map(|b| (u8_at(b, 0), u8_at(b, 1)));
    let labels_right = (0..count).all(|place| labels.next() == Some(label(place)));
    demand(labels_right, Ground::Kind)
}
