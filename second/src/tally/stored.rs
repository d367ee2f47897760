//! What the calls that write models (document 02, A.7) were about: the buffer,
//! the model, and how the desk came by it.

use crate::blocks::{ModelImage, BLOCK};
use crate::desk::{Answer, Call, Desk, ROOM};
use crate::logic::Model;

/// What happened before, as far as words about a later call need it.
#[derive(Default)]
pub(super) struct Past {
    /// How many bytes the models held before had, the last one at the end.
    lengths: Vec<usize>,
    /// What happened to the desk since its model was loaded, or it was made.
    since: Vec<String>,
    written: bool,
}

impl Past {
    /// What there is to tell of a call. `desk` is as it was after the call.
    pub(super) fn words(&mut self, call: &Call, answer: &Answer, desk: &Desk) -> Vec<String> {
        let held = desk.model().ok();
        let found = match (call, answer) {
            (Call::WriteModel(_), Answer::WriteModel(_, buffer)) => {
                let mut found = self.since.clone();
                found.extend(self.written.then(|| "a second time".to_string()));
                found.extend(
                    held.map(|model| model_words(model, buffer))
                        .unwrap_or_default(),
                );
                found.extend(desk_words(desk, buffer));
                found
            }
            (Call::ByHand(_), _) => vec![made_words(call, held)],
            _ => Vec::new(),
        };
        self.remember(call, answer, held);
        found
    }

    fn remember(&mut self, call: &Call, answer: &Answer, held: Option<&Model>) {
        self.written = matches!(answer, Answer::WriteModel(Ok(_), _));
        match answer {
            Answer::Load(Ok(())) => {
                let length = held.map_or(0, packed_len);
                self.since = self.lengths.last().map_or(Vec::new(), |before| {
                    vec![after_words(*before, length).to_string()]
                });
                self.lengths.push(length);
            }
            Answer::Load(Err(ground)) => {
                let words = format!("after a load refused with {}", ground.number());
                if !self.since.contains(&words) {
                    self.since.push(words);
                }
            }
            Answer::ByHand => self.since = vec![made_words(call, held)],
            _ => {}
        }
    }
}

/// How many bytes a model's blocks take.
fn packed_len(model: &Model) -> usize {
    let states = u8::try_from(model.states()).unwrap_or(u8::MAX);
    BLOCK * (1 + ModelImage::rows_for(states))
}

fn after_words(before: usize, length: usize) -> &'static str {
    match before.cmp(&length) {
        std::cmp::Ordering::Less => "after a shorter model",
        std::cmp::Ordering::Equal => "after a model of the same length",
        std::cmp::Ordering::Greater => "after a longer model",
    }
}

/// What a desk by hand holds, and by which count.
fn made_words(call: &Call, held: Option<&Model>) -> String {
    let (blocks, room) = call.said().unwrap_or_default();
    let needed = 1 + ModelImage::rows_for(room.get(2).copied().unwrap_or(0)) as u64;
    let count = match blocks {
        count if count == needed => "the right count",
        0..=12 => "another count",
        13..=255 => "a count over 12",
        _ => "a count over 255",
    };
    let model = if held.is_some() {
        "a model"
    } else {
        "no model"
    };
    format!("by hand, {model}, {count}")
}

/// The words of the rows that are true.
fn told(rows: &[(bool, &str)]) -> Vec<String> {
    let found = rows.iter().filter(|row| row.0);
    found.map(|row| row.1.to_string()).collect()
}

/// The buffer beside the model's length, and what the model has.
fn model_words(model: &Model, buffer: &[u8]) -> Vec<String> {
    let (length, lent) = (packed_len(model), buffer.len());
    let mut found = told(&[
        (lent == length, "an exact buffer"),
        (lent + 1 == length, "one byte short"),
        (lent == length + 1, "one byte longer"),
        (lent + BLOCK == length, "a block short"),
        (lent == length + BLOCK, "a block longer"),
        (lent == ROOM && length < ROOM, "a buffer of 12 blocks"),
        (lent > ROOM, "a buffer of more than 12 blocks"),
        (lent == 0, "an empty buffer"),
    ]);
    if lent < length {
        found.push(format!("{} blocks", length / BLOCK));
    }
    found.extend(field_words(model));
    found
}

/// What the model has that a wrong writer may lose.
fn field_words(model: &Model) -> Vec<String> {
    let states = model.states();
    let mut numbers = 0..states as u8;
    let moves = || model.moves.iter().flatten();
    let enabled = |action: u8| moves().any(|entry| entry.action == action);
    let rewarded = |reward: i16| {
        let mut outcomes = moves().flat_map(|entry| &entry.outcomes);
        outcomes.any(|outcome| outcome.reward == reward)
    };
    let silent = |state: u8| model.is_silent(state);
    told(&[
        (numbers.clone().any(silent), "silent states"),
        (numbers.all(silent), "silent states only"),
        (
            !(0..model.actions.len() as u8).all(enabled),
            "an action enabled nowhere",
        ),
        (rewarded(-1000), "reward -1000"),
        (rewarded(1000), "reward 1000"),
        (states == 1, "one state"),
        (states == 32, "32 states"),
        (!states.is_multiple_of(3), "a row block with spare states"),
        (unnamed(model), "an unused proposition"),
    ])
}

/// Whether some proposition is true in no state and named by no action.
fn unnamed(model: &Model) -> bool {
    let literals = model.actions.iter().flat_map(|action| {
        let posts = action.postconditions.iter();
        posts.chain([&action.precondition])
    });
    let named = literals.fold(0, |bits, l| bits | l.demanded_true | l.demanded_false);
    let held = model.valuation.iter().fold(named, |bits, mask| bits | mask);
    held != u32::MAX >> (32 - u32::from(model.propositions.clamp(1, 32)))
}

/// What the desk holds beside the model, or the buffer lent to one without.
fn desk_words(desk: &Desk, buffer: &[u8]) -> Vec<String> {
    let empty = desk.model().is_err();
    told(&[
        (desk.question().is_ok(), "a question is held"),
        (desk.judged().is_some(), "a verdict is held"),
        (empty && buffer.is_empty(), "an empty buffer"),
        (empty && buffer.len() >= ROOM, "a long buffer"),
    ])
}
