//! Ways to damage a sheet.

use super::damage::Patches;
use super::rng::Rng;
use crate::blocks::{Sheet, BLOCK};
use crate::logic::SILENT;

/// A sheet that is being damaged.
#[derive(Clone)]
pub(super) struct Draft {
    sheet: Sheet,
    patches: Patches,
}

impl Draft {
    pub(super) fn of(sheet: Sheet) -> Draft {
        Draft {
            sheet,
            patches: Patches::default(),
        }
    }

    pub(super) fn pack(&self) -> Vec<u8> {
        self.patches.apply(self.sheet.pack())
    }

    fn blocks(&self) -> usize {
        Sheet::packed_len(self.sheet.choices.len()) / BLOCK
    }

    /// The first byte of some block.
    fn block(&self, rng: &mut Rng) -> usize {
        BLOCK * rng.below(self.blocks())
    }
}

pub(super) type Harm = fn(&mut Rng, &mut Draft);

/// All ways, in the order of the grounds they mostly lead to.
pub(super) const HARMS: &[Harm] = &[
    |rng, draft| draft.patches.relength(rng),
    |rng, draft| draft.patches.relength(rng),
    |rng, draft| draft.patches.break_sum(rng, BLOCK * draft.blocks()),
    |rng, draft| draft.patches.break_sum(rng, BLOCK * draft.blocks()),
    |rng, draft| draft.patches.swap_words(rng, BLOCK * draft.blocks()),
    |rng, draft| draft.patches.set(draft.block(rng), rng.byte(0, 6)),
    |rng, draft| draft.patches.set(draft.block(rng) + 1, rng.byte(0, 4)),
    |rng, draft| draft.patches.set(draft.block(rng) + 2, rng.byte(0, 7)),
    |rng, draft| draft.patches.set(draft.block(rng) + 3, rng.byte(0, 33)),
    |rng, draft| {
        draft
            .patches
            .set(draft.block(rng) + 8 + rng.below(8), rng.byte(0, 255))
    },
    count,
    count,
    count,
    |rng, draft| {
        let base = draft.block(rng);
        draft.patches.spoil(rng, base + 4..base + 8);
    },
    |rng, draft| {
        let base = draft.block(rng);
        draft.patches.spoil(rng, base + 508..base + 510);
    },
    beyond_count,
    |rng, draft| {
        let count = draft.sheet.choices.len();
        draft.sheet.choices.truncate(rng.below(count + 1));
    },
    |_, draft| {
        draft.sheet.choices.pop();
    },
    |rng, draft| {
        let choice = rng.pick_or(&[0, 1, 2, 7, 8, 255], 255);
        draft.sheet.choices.push(choice);
    },
    choice,
    choice,
    choice,
    silent_for_action,
    action_for_silent,
    action_for_silent,
    total,
    total,
    total_form,
    total_form,
    top_bit_of_a_block,
    top_bit_of_a_block,
    any_byte,
];

/// A count about the ends of its range.
fn count(rng: &mut Rng, draft: &mut Draft) {
    let base = draft.block(rng);
    let last = (draft.sheet.choices.len() % 490) as u16;
    let about = [
        0,
        1,
        489,
        490,
        491,
        492,
        65535,
        last + 1,
        last.saturating_sub(1),
    ];
    let count: u16 = rng.pick_or(&about, 0);
    let [low, high] = count.to_le_bytes();
    draft.patches.set(base + 16, low);
    draft.patches.set(base + 17, high);
}

/// A total near the right one, or far from it.
fn total(rng: &mut Rng, draft: &mut Draft) {
    let near = [1, u64::MAX, 100, 1 << 40];
    draft.sheet.total = draft.sheet.total.wrapping_add(rng.pick_or(&near, 1));
}

/// The total without its sign, with the other sign or with the top bit set, cut
/// to 32 bits in either way, or with all bits set. It may still be right.
fn total_form(rng: &mut Rng, draft: &mut Draft) {
    let right = draft.sheet.total;
    let forms = [
        (right as i64).unsigned_abs(),
        right.wrapping_neg(),
        right | 1 << 63,
        right & 0xFFFF_FFFF,
        right as i32 as u64,
        u64::MAX,
    ];
    draft.sheet.total = rng.pick_or(&forms, right);
}

/// The top bit of one block's total turned over: in a sheet of one block the
/// total is wrong, in others it is another than in the other blocks, by its sign
/// alone.
fn top_bit_of_a_block(rng: &mut Rng, draft: &mut Draft) {
    let [.., high] = draft.sheet.total.to_le_bytes();
    draft.patches.set(draft.block(rng) + 15, high ^ 0x80);
}

/// A choice byte beyond the last block's count.
fn beyond_count(rng: &mut Rng, draft: &mut Draft) {
    let last = draft.blocks() - 1;
    let used = draft.sheet.choices.len() - 490 * last;
    if used < 490 {
        let base = BLOCK * last;
        draft.patches.spoil(rng, base + 18 + used..base + 508);
    }
}

/// Another action in place of a choice.
fn choice(rng: &mut Rng, draft: &mut Draft) {
    let place = rng.below(draft.sheet.choices.len());
    let choice = rng.pick_or(&[0, 1, 2, 3, 7, 8, 254, 255], 255);
    if let Some(byte) = draft.sheet.choices.get_mut(place) {
        *byte = choice;
    }
}

/// The silent move in place of an action.
fn silent_for_action(rng: &mut Rng, draft: &mut Draft) {
    swap_choice(rng, draft, |choice| choice != SILENT, &[SILENT]);
}

/// An action, or what is no choice anywhere, in place of the silent move.
fn action_for_silent(rng: &mut Rng, draft: &mut Draft) {
    let others = [0, 0, 1, 2, 3, 7, 8, 254];
    swap_choice(rng, draft, |choice| choice == SILENT, &others);
}

/// One of the others in place of a choice that fits; any choice if none does.
fn swap_choice(rng: &mut Rng, draft: &mut Draft, fits: fn(u8) -> bool, others: &[u8]) {
    let numbered = draft.sheet.choices.iter().enumerate();
    let fitting = numbered.filter(|(_, choice)| fits(**choice));
    let places: Vec<usize> = fitting.map(|(place, _)| place).collect();
    match rng.pick(&places) {
        Some(place) => draft.sheet.choices[place] = rng.pick_or(others, SILENT),
        None => choice(rng, draft),
    }
}

fn any_byte(rng: &mut Rng, draft: &mut Draft) {
    let at = rng.below(BLOCK * draft.blocks());
    draft.patches.set(at, rng.byte(0, 255));
}
