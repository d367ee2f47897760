//! The fields of an accepted model as they stand in its blocks, for writing it
//! (document 02, A.7).

use super::model_image::{ActionImage, ModelImage};
use crate::logic::{Action, Model, Move};

/// What `read_model` made of an image, made an image again. The silent move of a
/// state is no action, and is stored nowhere.
impl From<&Model> for ModelImage {
    fn from(model: &Model) -> Self {
        let states = count(model.states());
        let mut image = ModelImage {
            states,
            actions: count(model.actions.len()),
            propositions: model.propositions,
            denominator: model.denominator,
            rows: vec![Default::default(); ModelImage::rows_for(states)],
            ..ModelImage::default()
        };
        for (place, mask) in image.masks.iter_mut().zip(&model.valuation) {
            *place = *mask;
        }
        for (place, action) in image.moves.iter_mut().zip(&model.actions) {
            *place = stored_action(action);
        }
        for (state, moves) in model.moves.iter().enumerate() {
            for entry in moves.iter().filter(|entry| !entry.is_silent()) {
                store_outcomes(&mut image, state, entry);
            }
        }
        image
    }
}

/// A size of an accepted model, which a byte holds.
fn count(size: usize) -> u8 {
    u8::try_from(size).unwrap_or(u8::MAX)
}

fn stored_action(action: &Action) -> ActionImage {
    let mut image = ActionImage {
        precondition: action.precondition,
        count: count(action.postconditions.len()),
        ..ActionImage::default()
    };
    for (place, literals) in image.posts.iter_mut().zip(&action.postconditions) {
        *place = *literals;
    }
    image
}

fn store_outcomes(image: &mut ModelImage, state: usize, entry: &Move) {
    let places = image.outcomes_mut(state, usize::from(entry.action));
    for (place, outcome) in places.into_iter().flatten().zip(&entry.outcomes) {
        *place = *outcome;
    }
}
