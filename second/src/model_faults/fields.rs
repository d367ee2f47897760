//! Models that are packed otherwise than they were loaded.

use super::Fault;
use crate::blocks::{word_sum, ModelImage, BLOCK};
use crate::bytes::{put, u8_at};
use crate::logic::{Literals, Model, Move, Outcome};

/// The faults of packing. None changes the number of blocks.
const PACKINGS: [Fault; 28] = [
    Fault::HeadSpareFilled,
    Fault::RowSpareFilled,
    Fault::SumsZero,
    Fault::RowSumsZero,
    Fault::SumsTurned,
    Fault::SumsTogether,
    Fault::RowsFromZero,
    Fault::NowhereCleared,
    Fault::NowhereUncounted,
    Fault::OutcomesReversed,
    Fault::OutcomesByTarget,
    Fault::OutcomesByWeight,
    Fault::RewardsUnsigned,
    Fault::RewardsCut,
    Fault::RewardsTurned,
    Fault::RewardsLost,
    Fault::MasksBeyond,
    Fault::RowsBeyond,
    Fault::StatesRounded,
    Fault::ActionsForPropositions,
    Fault::PropositionsForDenominator,
    Fault::PropositionsUsed,
    Fault::DenominatorFound,
    Fault::WeightsReduced,
    Fault::SilentPacked,
    Fault::LiteralsExchanged,
    Fault::AlwaysEnabledFreed,
    Fault::UnnamedDropped,
];

/// The faults with which a model's blocks are others than the right ones.
pub(super) fn wrong_packings(model: &Model) -> Vec<Fault> {
    let right = ModelImage::from(model).pack();
    let differs = |fault: &Fault| packed(*fault, model) != right;
    PACKINGS.into_iter().filter(differs).collect()
}

/// The blocks that a desk with the fault packs; the right ones if the fault is no
/// such one.
pub fn packed(fault: Fault, model: &Model) -> Vec<u8> {
    let mut changed = model.clone();
    for entry in changed.moves.iter_mut().flatten() {
        change_outcomes(fault, &mut entry.outcomes);
    }
    let mut image = ModelImage::from(&changed);
    change_sizes(fault, &mut image, model);
    change_actions(fault, &mut image, model);
    change_rows(fault, &mut image, model);
    let mut bytes = image.pack();
    change_labels(fault, &mut bytes);
    change_sums(fault, &mut bytes);
    bytes
}

fn change_outcomes(fault: Fault, outcomes: &mut [Outcome]) {
    match fault {
        Fault::OutcomesReversed => outcomes.reverse(),
        Fault::OutcomesByTarget => outcomes.sort_by_key(|outcome| outcome.target),
        Fault::OutcomesByWeight => outcomes.sort_by_key(|outcome| 255 - outcome.weight),
        _ => {}
    }
    for Outcome { reward, .. } in outcomes {
        *reward = match fault {
            Fault::RewardsUnsigned => reward.saturating_abs(),
            Fault::RewardsCut => *reward & 255,
            Fault::RewardsTurned => reward.swap_bytes(),
            Fault::RewardsLost => 0,
            _ => *reward,
        };
    }
}

/// The numbers of actions that some state has as a move.
fn enabled_somewhere(model: &Model) -> Vec<u8> {
    let moves = model.moves.iter().flatten();
    moves.map(|entry| entry.action).collect()
}

/// The propositions that some precondition or postcondition names.
fn named(model: &Model) -> u32 {
    let all = model.actions.iter().flat_map(|action| {
        let posts = action.postconditions.iter();
        posts.chain([&action.precondition])
    });
    all.fold(0, |bits, l| bits | l.demanded_true | l.demanded_false)
}

/// The moves that are stored, with the weights of their outcomes.
fn stored_moves(model: &Model) -> impl Iterator<Item = &Move> {
    let moves = model.moves.iter().flatten();
    moves.filter(|entry| !entry.is_silent())
}

fn change_sizes(fault: Fault, image: &mut ModelImage, model: &Model) {
    let ModelImage {
        actions,
        propositions,
        denominator,
        ..
    } = image;
    match fault {
        Fault::StatesRounded => image.states = 3 * image.states.div_ceil(3),
        Fault::ActionsForPropositions => std::mem::swap(actions, propositions),
        Fault::PropositionsForDenominator => std::mem::swap(propositions, denominator),
        Fault::PropositionsUsed => {
            let used = model.valuation.iter().fold(named(model), |all, m| all | m);
            *propositions = (32 - used.leading_zeros() as u8).max(1);
        }
        Fault::DenominatorFound => {
            let first = stored_moves(model).next();
            *denominator = first.map_or(1, |entry| {
                entry.outcomes.iter().map(|outcome| outcome.weight).sum()
            });
        }
        _ => {}
    }
}

fn change_actions(fault: Fault, image: &mut ModelImage, model: &Model) {
    let enabled = enabled_somewhere(model);
    let always = |literals: Literals| model.valuation.iter().all(|mask| literals.true_in(*mask));
    let last = enabled.iter().filter(|action| **action < 8).max();
    for (number, action) in (0u8..).zip(&mut image.moves) {
        let nowhere = !enabled.contains(&number);
        match fault {
            Fault::NowhereCleared if nowhere => *action = Default::default(),
            Fault::NowhereUncounted if Some(&number) > last.max(Some(&0)) => {
                *action = Default::default();
                image.actions = image.actions.min(number);
            }
            Fault::AlwaysEnabledFreed if always(action.precondition) => {
                action.precondition = Default::default();
            }
            Fault::LiteralsExchanged => {
                exchange(&mut action.precondition);
                action.posts.iter_mut().for_each(exchange);
            }
            _ => {}
        }
    }
}

fn exchange(literals: &mut Literals) {
    std::mem::swap(&mut literals.demanded_true, &mut literals.demanded_false);
}

fn change_rows(fault: Fault, image: &mut ModelImage, model: &Model) {
    let states = model.states();
    let last = states.saturating_sub(1);
    match fault {
        Fault::UnnamedDropped => image
            .masks
            .iter_mut()
            .for_each(|mask| *mask &= named(model)),
        Fault::MasksBeyond => {
            let mask = image.masks[last];
            image.masks.iter_mut().skip(states).for_each(|m| *m = mask);
        }
        Fault::RowsBeyond => {
            if let Some(row) = image.rows.last_mut() {
                let used = row[last % 3];
                row[last % 3..].fill(used);
            }
        }
        Fault::SilentPacked => {
            for state in (0..states as u8).filter(|state| model.is_silent(*state)) {
                let silent = Move::silent(state, model.denominator).outcomes;
                let places = image.outcomes_mut(state.into(), 0);
                for (place, outcome) in places.into_iter().flatten().zip(silent) {
                    *place = outcome;
                }
            }
        }
        Fault::WeightsReduced => reduce(image, model),
        _ => {}
    }
}

/// Divides D and all weights by what divides them all.
fn reduce(image: &mut ModelImage, model: &Model) {
    let weights = stored_moves(model).flat_map(|entry| &entry.outcomes);
    let weights: Vec<u8> = weights.map(|outcome| outcome.weight).collect();
    let divides = |by: &u8| weights.iter().all(|weight| weight.is_multiple_of(*by));
    let all = (1..=model.denominator).filter(|by| model.denominator.is_multiple_of(*by));
    let common = all.filter(divides).max().unwrap_or(1);
    image.denominator /= common;
    for outcome in image.rows.iter_mut().flatten().flatten().flatten() {
        outcome.weight /= common;
    }
}

/// Spare bytes and the numbers of rows; the sums are made right afterwards.
fn change_labels(fault: Fault, bytes: &mut [u8]) {
    for (number, block) in bytes.chunks_mut(BLOCK).enumerate() {
        match fault {
            Fault::HeadSpareFilled if number == 0 => put(block, 6, &[1]),
            Fault::RowSpareFilled if number > 0 => put(block, 2, &[3]),
            Fault::RowsFromZero if number > 0 => {
                let before = u8_at(block, 1).saturating_sub(1);
                put(block, 1, &[before]);
            }
            _ => {}
        }
    }
}

fn change_sums(fault: Fault, bytes: &mut [u8]) {
    let all: u16 = bytes
        .chunks(BLOCK)
        .map(without_last)
        .fold(0, u16::wrapping_add);
    let blocks = bytes.len() / BLOCK;
    for (number, block) in bytes.chunks_mut(BLOCK).enumerate() {
        let sum = without_last(block);
        let last = match fault {
            Fault::SumsZero => 0,
            Fault::RowSumsZero if number > 0 => 0,
            Fault::SumsTurned => sum,
            Fault::SumsTogether if number + 1 < blocks => 0,
            Fault::SumsTogether => all.wrapping_neg(),
            _ => sum.wrapping_neg(),
        };
        put(block, BLOCK - 2, &last.to_le_bytes());
    }
}

/// The sum of a block's words but the last.
fn without_last(block: &[u8]) -> u16 {
    word_sum(block.get(..BLOCK - 2).unwrap_or_default())
}
