//! Reading a model: grounds 1 to 7, each on the whole input before the next. A
//! state with no enabled action is accepted (document 02, A.1); its row is
//! spare.

use super::frame::check_frame;
use super::model_image::{ActionImage, ModelImage, OutcomeImage, MODEL_BLOCKS, POSTS};
use crate::ground::{demand, Ground};
use crate::logic::{Action, Literals, Model, Move};

/// The accepted model in these bytes, or the first ground against it.
pub fn read_model(bytes: &[u8]) -> Result<Model, Ground> {
    check_frame(bytes, 2..=MODEL_BLOCKS, label)?;
    let image = ModelImage::unpack(bytes);
    demand(sizes_right(&image), Ground::Counts)?;
    demand(ranges_right(&image), Ground::Range)?;
    // Packing the used fields alone gives back every block whose spare bytes
    // are zero, and no other.
    demand(used_fields(&image).pack() == bytes, Ground::Spare)?;
    demand(outcomes_right(&image), Ground::Outcomes)?;
    Ok(accepted(&image))
}

/// The head is kind 1, number 0; rows are kind 2 and count from 1.
fn label(place: usize) -> (u8, u8) {
    let number = u8::try_from(place).unwrap_or(u8::MAX);
    (if place == 0 { 1 } else { 2 }, number)
}

/// Ground 4.
fn sizes_right(image: &ModelImage) -> bool {
    (1..=32).contains(&image.states)
        && (1..=8).contains(&image.actions)
        && (1..=32).contains(&image.propositions)
        && (1..=100).contains(&image.denominator)
        && image.rows.len() == ModelImage::rows_for(image.states)
}

/// The masks of the states that the model has.
fn masks(image: &ModelImage) -> &[u32] {
    let count = usize::from(image.states);
    image.masks.get(..count).unwrap_or(&image.masks)
}

/// The actions that the model has.
fn actions(image: &ModelImage) -> &[ActionImage] {
    let count = usize::from(image.actions);
    image.moves.get(..count).unwrap_or(&image.moves)
}

/// The postconditions that an action has.
fn posts(action: &ActionImage) -> &[Literals] {
    let count = usize::from(action.count);
    action.posts.get(..count).unwrap_or(&action.posts)
}

/// The (state, action) pairs with used outcomes: those that are enabled.
fn enabled_pairs(image: &ModelImage) -> Vec<(usize, usize)> {
    let mut pairs = Vec::new();
    for (state, mask) in masks(image).iter().enumerate() {
        for (action, entry) in actions(image).iter().enumerate() {
            if entry.precondition.true_in(*mask) {
                pairs.push((state, action));
            }
        }
    }
    pairs
}

/// Each postcondition of the action with its outcome in the state.
fn used_outcomes(
    image: &ModelImage,
    state: usize,
    action: usize,
) -> impl Iterator<Item = (Literals, OutcomeImage)> + '_ {
    let posts = image.moves.get(action).map_or(&[][..], posts);
    posts.iter().copied().zip(image.outcomes(state, action))
}

/// Ground 5. Which outcomes are used depends on masks that are tested here
/// too; where those fail, the answer is this ground in any case.
fn ranges_right(image: &ModelImage) -> bool {
    let beyond = |mask: u32| u64::from(mask) >> image.propositions != 0;
    let literals_right = |literals: &Literals| {
        let both = literals.demanded_true & literals.demanded_false;
        both == 0 && !beyond(literals.demanded_true) && !beyond(literals.demanded_false)
    };
    let action_right = |action: &ActionImage| {
        (1..=POSTS).contains(&usize::from(action.count))
            && literals_right(&action.precondition)
            && posts(action).iter().all(literals_right)
    };
    let outcome_right = |outcome: &OutcomeImage| {
        outcome.target < image.states
            && (1..=100).contains(&outcome.weight)
            && (-1000..=1000).contains(&outcome.reward)
    };
    masks(image).iter().all(|mask| !beyond(*mask))
        && actions(image).iter().all(action_right)
        && enabled_pairs(image)
            .into_iter()
            .flat_map(|(state, action)| used_outcomes(image, state, action))
            .all(|(_, outcome)| outcome_right(&outcome))
}

/// The image with everything cleared that the model does not use.
fn used_fields(image: &ModelImage) -> ModelImage {
    let mut used = ModelImage {
        masks: Default::default(),
        moves: Default::default(),
        rows: vec![Default::default(); image.rows.len()],
        ..*image
    };
    for (place, mask) in used.masks.iter_mut().zip(masks(image)) {
        *place = *mask;
    }
    for (place, action) in used.moves.iter_mut().zip(actions(image)) {
        place.precondition = action.precondition;
        place.count = action.count;
        for (post, literals) in place.posts.iter_mut().zip(posts(action)) {
            *post = *literals;
        }
    }
    for (state, action) in enabled_pairs(image) {
        let found = used_outcomes(image, state, action);
        let places = used.outcomes_mut(state, action).into_iter().flatten();
        for (place, (_, outcome)) in places.zip(found) {
            *place = outcome;
        }
    }
    used
}

/// Ground 7.
fn outcomes_right(image: &ModelImage) -> bool {
    let contradicting = |action: &ActionImage| {
        let posts = posts(action);
        posts.iter().enumerate().all(|(number, post)| {
            let others = posts.iter().skip(number + 1);
            others.into_iter().all(|other| post.contradicts(other))
        })
    };
    let fulfilled = |(post, outcome): (Literals, OutcomeImage)| {
        let mask = masks(image).get(usize::from(outcome.target));
        mask.is_some_and(|mask| post.true_in(*mask))
    };
    let pair_right = |(state, action): (usize, usize)| {
        let weights = used_outcomes(image, state, action).map(|(_, o)| u32::from(o.weight));
        weights.sum::<u32>() == u32::from(image.denominator)
            && used_outcomes(image, state, action).all(fulfilled)
    };
    actions(image).iter().all(contradicting) && enabled_pairs(image).into_iter().all(pair_right)
}

/// The model that an image without ground 1 to 7 against it stands for.
fn accepted(image: &ModelImage) -> Model {
    let mut moves = vec![Vec::new(); masks(image).len()];
    for (state, action) in enabled_pairs(image) {
        let found = used_outcomes(image, state, action);
        let outcomes = found.map(|(_, outcome)| outcome).collect();
        let entry = Move {
            action: u8::try_from(action).unwrap_or(u8::MAX),
            outcomes,
        };
        if let Some(list) = moves.get_mut(state) {
            list.push(entry);
        }
    }
    add_silent_moves(&mut moves, image.denominator);
    let action = |entry: &ActionImage| Action {
        precondition: entry.precondition,
        postconditions: posts(entry).to_vec(),
    };
    Model {
        propositions: image.propositions,
        denominator: image.denominator,
        valuation: masks(image).to_vec(),
        actions: actions(image).iter().map(action).collect(),
        moves,
    }
}

/// Gives each state without an enabled action its silent move.
fn add_silent_moves(moves: &mut [Vec<Move>], denominator: u8) {
    for (state, list) in (0u8..).zip(moves) {
        if list.is_empty() {
            list.push(Move::silent(state, denominator));
        }
    }
}
