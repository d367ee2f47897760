//! Models to be written out, and buffers to write them to.

use super::model::{fill_rows, model_of_states, Size};
use super::model_damage::{harms_towards, Draft, HARMS};
use super::question::{random_question, Scale};
use super::rng::Rng;
use super::streams::right_sheet;
use crate::blocks::{read_model, ModelImage, QuestionImage, BLOCK};
use crate::desk::{Call, ROOM};
use crate::ground::Ground;
use crate::logic::{Model, Totals};

/// An accepted model with its bytes, which are what must be written.
pub(super) struct Kept {
    pub(super) bytes: Vec<u8>,
    image: ModelImage,
    model: Model,
    totals: Totals,
}

/// A question about a model, and a sheet for it.
pub(super) struct Asked {
    pub(super) question: Vec<u8>,
    pub(super) sheet: Vec<u8>,
}

const SCALE: Scale = Scale {
    nodes: 8,
    paths: 200,
    plans: 200,
};

/// The longest buffer to lend.
const LONGEST: usize = 16_384;

impl Kept {
    /// A random model of so many blocks.
    pub(super) fn drawn(rng: &mut Rng, blocks: usize) -> Option<Kept> {
        let last = (3 * blocks.saturating_sub(1)).min(32);
        let first = (3 * blocks.saturating_sub(2) + 1).min(last);
        let states = rng.range(first, last) as u8;
        let size = match rng.once_in(3) {
            true => Size::LARGE,
            false => Size::EIGHT_ACTIONS,
        };
        let mut image = model_of_states(rng, size, states);
        widen(rng, &mut image);
        if rng.once_in(3) {
            end_rewards(rng, &mut image);
        }
        Kept::of(image)
    }

    /// The model in these bytes, if load would accept them.
    pub(super) fn loaded(bytes: &[u8]) -> Option<Kept> {
        read_model(bytes).ok()?;
        Kept::of(ModelImage::unpack(bytes))
    }

    fn of(image: ModelImage) -> Option<Kept> {
        let bytes = image.pack();
        let model = read_model(&bytes).ok()?;
        let totals = Totals::of(&model);
        Some(Kept {
            bytes,
            image,
            model,
            totals,
        })
    }

    pub(super) fn asked(&self, rng: &mut Rng) -> Asked {
        let question = random_question(rng, &self.model, &self.totals, SCALE);
        let sheet = right_sheet(rng, &self.model, &question, &self.totals);
        Asked {
            question: QuestionImage::from(&question).pack(),
            sheet: sheet.pack(),
        }
    }

    /// The model damaged so that a load is refused on a ground; none if no
    /// damage of a few does it.
    pub(super) fn refused(&self, rng: &mut Rng, ground: Ground) -> Option<Vec<u8>> {
        let drawn = (0..80).map(|_| {
            let mut draft = Draft::of(self.image.clone());
            let harms = match rng.once_in(4) {
                true => HARMS,
                false => harms_towards(ground),
            };
            if let Some(harm) = rng.pick(harms) {
                harm(rng, &mut draft);
            }
            draft.pack()
        });
        let mut drawn = drawn.filter(|bytes| read_model(bytes) == Err(ground));
        drawn.next()
    }

    /// A call that writes the model, on a desk that has held this one or the
    /// other: into a buffer whose length is about the model's, the other's or
    /// the longest model's.
    pub(super) fn written(&self, rng: &mut Rng, other: &[u8]) -> Call {
        let own = self.bytes.len();
        let length = match rng.below(16) {
            0 => 0,
            1 | 2 => own - 1,
            3..=5 => own,
            6 => own + 1,
            7 => own + BLOCK,
            8 => own - BLOCK,
            9 => rng.pick_or(&[ROOM - 1, ROOM, ROOM, ROOM + 1], ROOM),
            10 => other.len(),
            11 => rng.pick_or(&[1, 2, BLOCK - 1, BLOCK, BLOCK + 1, 2 * BLOCK], 1),
            12 => rng.range(0, own),
            13 => rng.range(own, own + 2 * BLOCK),
            14 => rng.range(own, ROOM + 1),
            _ => rng.range(ROOM, LONGEST),
        };
        Call::WriteModel(self.contents(rng, other, length))
    }

    /// The same with a buffer that is long enough.
    pub(super) fn written_whole(&self, rng: &mut Rng, other: &[u8]) -> Call {
        let own = self.bytes.len();
        let lengths = [own, own, own + 1, own + BLOCK, own + rng.below(ROOM)];
        let length = rng.pick_or(&lengths, own);
        Call::WriteModel(self.contents(rng, other, length))
    }

    /// So many bytes that tell whether they were touched: marks, random ones,
    /// zeros, 255s, another model's, or the model's own with marks after them.
    fn contents(&self, rng: &mut Rng, other: &[u8], length: usize) -> Vec<u8> {
        let mut bytes = match rng.below(8) {
            0 => vec![0; length],
            1 => vec![255; length],
            2 | 3 => (0..length).map(|_| rng.byte(0, 255)).collect(),
            4 => other.iter().copied().cycle().take(length).collect(),
            5 => self.bytes.iter().copied().take(length).collect(),
            _ => Vec::new(),
        };
        let mark = rng.byte(0, 255);
        let marks = (bytes.len()..length).map(|at| mark.wrapping_add(at as u8));
        bytes.extend(marks.collect::<Vec<u8>>());
        bytes
    }
}

/// Half of the time adds propositions that are true in no state, and half of
/// these times an action that asks for one, so that it is enabled nowhere.
fn widen(rng: &mut Rng, image: &mut ModelImage) {
    let more = rng.byte(1, 3);
    let first = image.propositions;
    if rng.once_in(2) || first + more > 32 {
        return;
    }
    image.propositions += more;
    if rng.once_in(2) {
        let action = rng.below(image.actions.into());
        let bit = 1 << (first + rng.byte(0, more - 1));
        image.moves[action].precondition.demanded_true |= bit;
        fill_rows(rng, image);
    }
}

/// Gives some outcomes rewards at the ends, and about 0 and 256.
fn end_rewards(rng: &mut Rng, image: &mut ModelImage) {
    let ends = [-1000, 1000, -1000, 1000, -1, 1, -256, 256, 255, -999];
    for outcome in image.rows.iter_mut().flatten().flatten().flatten() {
        if outcome.weight > 0 && rng.once_in(3) {
            outcome.reward = rng.pick_or(&ends, 0);
        }
    }
}
