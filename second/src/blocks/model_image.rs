//! A model's head and row blocks as fields.

use super::frame::{fix_word_sums, BLOCK};
use crate::bytes::{i16_at, put, u32_at, u8_at};
use crate::logic::{Literals, Outcome};

/// The most states, actions and postconditions that the blocks have room for.
pub const STATES: usize = 32;
pub const ACTIONS: usize = 8;
pub const POSTS: usize = 4;
/// How many states a row block holds.
pub const ROW_STATES: usize = 3;
/// The most blocks that a model has: the head, and rows for 32 states.
pub const MODEL_BLOCKS: usize = 12;

const MASKS_AT: usize = 8;
const ACTIONS_AT: usize = 136;
const ACTION_BYTES: usize = 44;
const COUNT_AT: usize = 8;
const POSTS_AT: usize = 12;
const ROWS_AT: usize = 4;
const STATE_BYTES: usize = 128;
const OUTCOME_BYTES: usize = 4;

/// An outcome as stored: the same fields as an accepted one.
pub type OutcomeImage = Outcome;

/// The outcomes of one row block, by state, action and postcondition.
pub type RowBlock = [[[OutcomeImage; POSTS]; ACTIONS]; ROW_STATES];

/// An action as stored in the head.
#[derive(Clone, Copy, Debug, Default, PartialEq, Eq)]
pub struct ActionImage {
    pub precondition: Literals,
    pub count: u8,
    pub posts: [Literals; POSTS],
}

/// The fields of a model's blocks, used or not.
#[derive(Clone, Debug, Default, PartialEq, Eq)]
pub struct ModelImage {
    pub states: u8,
    pub actions: u8,
    pub propositions: u8,
    pub denominator: u8,
    pub masks: [u32; STATES],
    pub moves: [ActionImage; ACTIONS],
    pub rows: Vec<RowBlock>,
}

impl ModelImage {
    /// How many row blocks a model of so many states has.
    pub fn rows_for(states: u8) -> usize {
        usize::from(states).div_ceil(ROW_STATES)
    }

    /// The outcomes stored for a state and an action.
    pub fn outcomes(&self, state: usize, action: usize) -> [OutcomeImage; POSTS] {
        let row = self.rows.get(state / ROW_STATES);
        row.and_then(|row| row[state % ROW_STATES].get(action))
            .copied()
            .unwrap_or_default()
    }

    /// The same outcomes, to be changed; none if the rows end before.
    pub fn outcomes_mut(
        &mut self,
        state: usize,
        action: usize,
    ) -> Option<&mut [OutcomeImage; POSTS]> {
        let row = self.rows.get_mut(state / ROW_STATES)?;
        row[state % ROW_STATES].get_mut(action)
    }

    /// Reads the fields of whole blocks; the first is taken as the head.
    pub fn unpack(bytes: &[u8]) -> Self {
        let mut image = ModelImage {
            states: u8_at(bytes, 2),
            actions: u8_at(bytes, 3),
            propositions: u8_at(bytes, 4),
            denominator: u8_at(bytes, 5),
            ..ModelImage::default()
        };
        for (state, mask) in image.masks.iter_mut().enumerate() {
            *mask = u32_at(bytes, MASKS_AT + 4 * state);
        }
        for (action, place) in image.moves.iter_mut().enumerate() {
            *place = unpack_action(bytes, ACTIONS_AT + ACTION_BYTES * action);
        }
        image.rows = bytes.chunks(BLOCK).skip(1).map(unpack_row).collect();
        image
    }

    /// Lays the fields out in blocks, spare bytes zero and word sums right.
    pub fn pack(&self) -> Vec<u8> {
        let mut bytes = vec![0; BLOCK * (1 + self.rows.len())];
        let sizes = [
            self.states,
            self.actions,
            self.propositions,
            self.denominator,
        ];
        put(&mut bytes, 0, &[1, 0]);
        put(&mut bytes, 2, &sizes);
        for (state, mask) in self.masks.iter().enumerate() {
            put(&mut bytes, MASKS_AT + 4 * state, &mask.to_le_bytes());
        }
        for (action, image) in self.moves.iter().enumerate() {
            pack_action(&mut bytes, ACTIONS_AT + ACTION_BYTES * action, image);
        }
        let row_blocks = bytes.chunks_mut(BLOCK).skip(1);
        for (place, (block, row)) in row_blocks.zip(&self.rows).enumerate() {
            let number = u8::try_from(place + 1).unwrap_or(u8::MAX);
            put(block, 0, &[2, number]);
            pack_row(block, row);
        }
        fix_word_sums(&mut bytes);
        bytes
    }
}

fn unpack_literals(bytes: &[u8], at: usize) -> Literals {
    Literals {
        demanded_true: u32_at(bytes, at),
        demanded_false: u32_at(bytes, at + 4),
    }
}

fn pack_literals(bytes: &mut [u8], at: usize, literals: &Literals) {
    put(bytes, at, &literals.demanded_true.to_le_bytes());
    put(bytes, at + 4, &literals.demanded_false.to_le_bytes());
}

fn unpack_action(bytes: &[u8], at: usize) -> ActionImage {
    let mut image = ActionImage {
        precondition: unpack_literals(bytes, at),
        count: u8_at(bytes, at + COUNT_AT),
        ..ActionImage::default()
    };
    for (number, post) in image.posts.iter_mut().enumerate() {
        *post = unpack_literals(bytes, at + POSTS_AT + 8 * number);
    }
    image
}

fn pack_action(bytes: &mut [u8], at: usize, image: &ActionImage) {
    pack_literals(bytes, at, &image.precondition);
    put(bytes, at + COUNT_AT, &[image.count]);
    for (number, post) in image.posts.iter().enumerate() {
        pack_literals(bytes, at + POSTS_AT + 8 * number, post);
    }
}

/// Where in a row block an outcome stands.
fn outcome_at(state: usize, action: usize, post: usize) -> usize {
    ROWS_AT + STATE_BYTES * state + OUTCOME_BYTES * (POSTS * action + post)
}

fn unpack_row(block: &[u8]) -> RowBlock {
    let mut row = RowBlock::default();
    for (state, actions) in row.iter_mut().enumerate() {
        for (action, outcomes) in actions.iter_mut().enumerate() {
            for (post, outcome) in outcomes.iter_mut().enumerate() {
                *outcome = unpack_outcome(block, outcome_at(state, action, post));
            }
        }
    }
    row
}

fn unpack_outcome(block: &[u8], at: usize) -> OutcomeImage {
    Outcome {
        target: u8_at(block, at),
        weight: u8_at(block, at + 1),
        reward: i16_at(block, at + 2),
    }
}

fn pack_row(block: &mut [u8], row: &RowBlock) {
    for (state, actions) in row.iter().enumerate() {
        for (action, outcomes) in actions.iter().enumerate() {
            for (post, outcome) in outcomes.iter().enumerate() {
                let at = outcome_at(state, action, post);
                put(block, at, &[outcome.target, outcome.weight]);
                put(block, at + 2, &outcome.reward.to_le_bytes());
            }
        }
    }
}
