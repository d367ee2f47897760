//! Blocks on their way to being refused.

use super::rng::Rng;
use crate::blocks::{fix_word_sums, word_sum, BLOCK};
use crate::bytes::{put, u16_at, u8_at};

/// Changes to packed blocks: some before the word sums are made right again,
/// some after.
#[derive(Clone, Default)]
pub(super) struct Patches {
    fixed: Vec<(usize, u8)>,
    raw: Vec<(usize, u8)>,
    swapped_words: Option<(usize, usize)>,
    length: Option<usize>,
}

impl Patches {
    /// Sets a byte; the word sum is made right afterwards.
    pub(super) fn set(&mut self, at: usize, value: u8) {
        self.fixed.push((at, value));
    }

    /// Sets one byte of a region to something that is not zero.
    pub(super) fn spoil(&mut self, rng: &mut Rng, region: std::ops::Range<usize>) {
        let at = region.start + rng.below(region.len());
        let value = rng.byte(1, 255);
        self.set(at, value);
    }

    /// Changes a byte and leaves the word sum as it was.
    pub(super) fn break_sum(&mut self, rng: &mut Rng, bytes: usize) {
        let at = rng.below(bytes);
        let change = rng.byte(1, 255);
        self.raw.push((at, change));
    }

    /// Swaps two words, which the sum does not notice.
    pub(super) fn swap_words(&mut self, rng: &mut Rng, bytes: usize) {
        let first = 2 * rng.below(bytes / 2);
        let second = first / BLOCK * BLOCK + 2 * rng.below(BLOCK / 2);
        self.swapped_words = Some((first, second));
    }

    /// Cuts or lengthens the whole to one of the lengths about whole blocks.
    pub(super) fn relength(&mut self, rng: &mut Rng) {
        let whole = BLOCK * rng.range(0, 14);
        let about = [
            whole,
            whole,
            whole + 1,
            whole.saturating_sub(1),
            whole + 256,
        ];
        self.length = Some(rng.pick_or(&about, whole));
    }

    /// Applies the changes to packed blocks.
    pub(super) fn apply(&self, mut blocks: Vec<u8>) -> Vec<u8> {
        for (at, value) in &self.fixed {
            put(&mut blocks, *at, &[*value]);
        }
        fix_word_sums(&mut blocks);
        if let Some((first, second)) = self.swapped_words {
            let (one, other) = (u16_at(&blocks, first), u16_at(&blocks, second));
            put(&mut blocks, first, &other.to_le_bytes());
            put(&mut blocks, second, &one.to_le_bytes());
        }
        for (at, change) in &self.raw {
            let before = u8_at(&blocks, *at);
            put(&mut blocks, *at, &[before ^ change]);
        }
        if let Some(length) = self.length {
            blocks.resize(length, 0);
        }
        debug_assert!(!self.raw.is_empty() || blocks.chunks_exact(BLOCK).all(|b| word_sum(b) == 0));
        blocks
    }
}
