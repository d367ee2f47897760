//! Random models that are accepted, with silent states and without.

use super::rng::Rng;
use crate::blocks::{ActionImage, ModelImage, OutcomeImage};
use crate::logic::Literals;

/// The most states, propositions, actions and postconditions to draw.
#[derive(Clone, Copy)]
pub struct Size {
    pub states: u8,
    pub propositions: u8,
    pub actions: u8,
    pub posts: usize,
}

impl Size {
    pub const SMALL: Size = Size {
        states: 5,
        propositions: 4,
        actions: 3,
        posts: 3,
    };
    /// Few states, and as many actions as there can be.
    pub const EIGHT_ACTIONS: Size = Size {
        actions: 8,
        ..Size::SMALL
    };
    pub const LARGE: Size = Size {
        states: 32,
        propositions: 32,
        actions: 8,
        posts: 4,
    };
}

/// A random accepted model, up to a size.
pub fn random_model(rng: &mut Rng, size: Size) -> ModelImage {
    let image = sizes(rng, size);
    completed(rng, image, size.posts)
}

/// The same with just so many states.
pub(super) fn model_of_states(rng: &mut Rng, size: Size, states: u8) -> ModelImage {
    let image = ModelImage {
        states,
        ..sizes(rng, size)
    };
    completed(rng, image, size.posts)
}

/// A model's sizes, and nothing else.
fn sizes(rng: &mut Rng, size: Size) -> ModelImage {
    // A model of one state or one action has little to tell.
    let least = if rng.once_in(8) { 1 } else { 2 };
    let mut image = ModelImage {
        states: rng.byte(least, size.states),
        actions: rng.byte(least, size.actions),
        propositions: rng.byte(least, size.propositions),
        denominator: random_denominator(rng),
        ..ModelImage::default()
    };
    if rng.once_in(8) {
        // The very largest sizes stand at the ends of their ranges.
        image.states = size.states;
        image.propositions = size.propositions;
    }
    if rng.once_in(8) {
        image.actions = size.actions;
    }
    image
}

/// A model of these sizes, with up to so many postconditions.
fn completed(rng: &mut Rng, mut image: ModelImage, posts: usize) -> ModelImage {
    image.rows = vec![Default::default(); ModelImage::rows_for(image.states)];
    let used_bits = u32::MAX >> (32 - u32::from(image.propositions));
    for state in 0..usize::from(image.states) {
        image.masks[state] = rng.mask() & used_bits;
    }
    let silence = Silence::drawn(rng);
    let bit = 1 << rng.below(image.propositions.into());
    if silence == Silence::Everywhere {
        agree_on(rng, &mut image, bit);
    }
    for action in 0..usize::from(image.actions) {
        image.moves[action] = random_action(rng, &image, posts);
    }
    silence.apply(rng, &mut image, bit);
    fill_rows(rng, &mut image);
    image
}

/// How a model comes by states in which no action is enabled. About a third
/// of the models have some.
#[derive(Clone, Copy, PartialEq)]
enum Silence {
    Nowhere,
    /// Where no precondition happens to be true.
    AsDrawn,
    /// Wherever one proposition is as in some state: the work is over there.
    Over,
    /// In some state, each action for a reason of its own.
    OneState,
    Everywhere,
}

impl Silence {
    fn drawn(rng: &mut Rng) -> Silence {
        match rng.below(20) {
            0..=10 => Silence::Nowhere,
            11..=12 => Silence::AsDrawn,
            13..=15 => Silence::Over,
            16..=18 => Silence::OneState,
            _ => Silence::Everywhere,
        }
    }

    /// Changes the actions' preconditions so. For `Everywhere` the states
    /// already agree on the bit.
    fn apply(self, rng: &mut Rng, image: &mut ModelImage, bit: u32) {
        let mask = rng.pick_or(masks(image), 0);
        match self {
            Silence::Nowhere => enable_everywhere(rng, image),
            Silence::AsDrawn => {}
            Silence::Over | Silence::Everywhere => {
                for action in &mut image.moves[..usize::from(image.actions)] {
                    forbid(&mut action.precondition, mask, bit);
                }
            }
            Silence::OneState => silence_state(rng, image, mask),
        }
    }
}

/// Lets one proposition be true in all states, or in none.
fn agree_on(rng: &mut Rng, image: &mut ModelImage, bit: u32) {
    let held = rng.once_in(2);
    let states = usize::from(image.states);
    for mask in &mut image.masks[..states] {
        *mask = if held { *mask | bit } else { *mask & !bit };
    }
}

/// Makes a conjunction false in a state by the literal of one proposition.
fn forbid(literals: &mut Literals, mask: u32, bit: u32) {
    literals.demanded_true &= !bit;
    literals.demanded_false &= !bit;
    literal(literals, !mask, bit);
}

/// Makes every precondition false where these propositions are true.
fn silence_state(rng: &mut Rng, image: &mut ModelImage, mask: u32) {
    let propositions = usize::from(image.propositions);
    for action in &mut image.moves[..usize::from(image.actions)] {
        if action.precondition.true_in(mask) {
            forbid(&mut action.precondition, mask, 1 << rng.below(propositions));
        }
    }
}

fn random_denominator(rng: &mut Rng) -> u8 {
    let common = [1, 2, 3, 4, 6, 8, 10, 10, 10, 97, 99, 100];
    match rng.once_in(3) {
        true => rng.byte(1, 100),
        false => rng.pick_or(&common, 10),
    }
}

/// The masks of the model's states.
fn masks(image: &ModelImage) -> &[u32] {
    &image.masks[..usize::from(image.states)]
}

/// The literal of one proposition, as it stands in a state.
fn literal(literals: &mut Literals, mask: u32, bit: u32) {
    if mask & bit != 0 {
        literals.demanded_true |= bit;
    } else {
        literals.demanded_false |= bit;
    }
}

/// An action whose postconditions are true in states that differ pairwise:
/// each pair is told apart by one proposition, literal for literal.
fn random_action(rng: &mut Rng, image: &ModelImage, most: usize) -> ActionImage {
    let mut action = ActionImage::default();
    let mut witnesses = masks(image).to_vec();
    rng.shuffle(&mut witnesses);
    let wanted = rng.range(1, most.min(usize::from(image.denominator)));
    let mut chosen: Vec<u32> = Vec::new();
    for mask in witnesses {
        if chosen.len() < wanted && !chosen.contains(&mask) {
            chosen.push(mask);
        }
    }
    action.count = chosen.len() as u8;
    for (place, mask) in chosen.iter().enumerate() {
        for (other_place, other) in chosen.iter().enumerate().skip(place + 1) {
            let bit = random_bit(rng, mask ^ other);
            literal(&mut action.posts[place], *mask, bit);
            literal(&mut action.posts[other_place], *other, bit);
        }
        if rng.once_in(4) {
            let bit = 1 << rng.below(image.propositions.into());
            literal(&mut action.posts[place], *mask, bit);
        }
    }
    if rng.once_in(2) {
        let mask = rng.pick_or(masks(image), 0);
        for _ in 0..rng.range(1, 2) {
            let bit = 1 << rng.below(image.propositions.into());
            literal(&mut action.precondition, mask, bit);
        }
    }
    action
}

/// One of the bits of a mask that is not zero.
fn random_bit(rng: &mut Rng, mask: u32) -> u32 {
    let bits: Vec<u32> = (0..32).map(|i| 1 << i).filter(|b| mask & b != 0).collect();
    rng.pick_or(&bits, 1)
}

/// Lets one action always be enabled if some state has none.
fn enable_everywhere(rng: &mut Rng, image: &mut ModelImage) {
    let actions = usize::from(image.actions);
    let moves = &image.moves[..actions];
    let enabled = |mask: &u32| moves.iter().any(|a| a.precondition.true_in(*mask));
    if !masks(image).iter().all(enabled) {
        let action = rng.below(actions);
        image.moves[action].precondition = Literals::default();
    }
}

/// Draws the outcomes of each enabled action, and clears all others.
pub(super) fn fill_rows(rng: &mut Rng, image: &mut ModelImage) {
    let large_rewards = rng.once_in(4);
    for state in 0..usize::from(image.states) {
        for action in 0..usize::from(image.actions) {
            let entry = image.moves[action];
            let enabled = entry.precondition.true_in(image.masks[state]);
            let mut outcomes = [OutcomeImage::default(); 4];
            if enabled {
                fill_outcomes(rng, image, &entry, large_rewards, &mut outcomes);
            }
            if let Some(place) = image.outcomes_mut(state, action) {
                *place = outcomes;
            }
        }
    }
}

fn fill_outcomes(
    rng: &mut Rng,
    image: &ModelImage,
    action: &ActionImage,
    large_rewards: bool,
    outcomes: &mut [OutcomeImage; 4],
) {
    let count = usize::from(action.count);
    let weights = random_weights(rng, image.denominator, count);
    let numbered = || (0u8..).zip(masks(image));
    for (post, outcome) in outcomes.iter_mut().take(count).enumerate() {
        let fitting = numbered().filter(|(_, mask)| action.posts[post].true_in(**mask));
        let targets: Vec<u8> = fitting.map(|(state, _)| state).collect();
        outcome.target = rng.pick_or(&targets, 0);
        outcome.weight = weights[post];
        outcome.reward = match large_rewards {
            true => rng.range(0, 2000) as i16 - 1000,
            false => rng.range(0, 4) as i16 - 2,
        };
    }
}

/// So many weights of at least 1 that sum to a denominator.
fn random_weights(rng: &mut Rng, denominator: u8, count: usize) -> Vec<u8> {
    let mut weights = vec![1; count];
    let mut left = denominator.saturating_sub(count as u8);
    for weight in weights.iter_mut().skip(1) {
        let more = rng.byte(0, left);
        *weight += more;
        left -= more;
    }
    if let Some(first) = weights.first_mut() {
        *first += left;
    }
    rng.shuffle(&mut weights);
    weights
}
