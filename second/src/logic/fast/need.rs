//! Which state formulas the root can need in which states.

use super::has;
use crate::logic::{Model, Node, Question};

/// A path has at most six steps, so seven places.
pub(super) const PLACES: usize = 7;

/// For each node the states, a bit for each, in which the root can come to
/// need it as a state formula.
pub(super) fn needed(model: &Model, question: &Question, path_formulas: &[bool]) -> Vec<u32> {
    let mut need = vec![0u32; question.nodes.len()];
    if let Some(last) = need.last_mut() {
        *last = 1u32.checked_shl(question.start.into()).unwrap_or(0);
    }
    // Children have smaller numbers, so what a node needs is complete by the
    // time it is reached.
    for (number, node) in question.nodes.iter().enumerate().rev() {
        let states = need[number];
        if states == 0 || path_formulas[number] {
            continue;
        }
        match *node {
            Node::Not(child) => need[usize::from(child)] |= states,
            Node::And(left, right) => {
                need[usize::from(left)] |= states;
                need[usize::from(right)] |= states;
            }
            Node::Plan(plan) => {
                let reach = reachable(model, states);
                if let Some(condition) = plan.condition() {
                    spread(question, path_formulas, condition, &reach, &mut need);
                }
            }
            _ => {}
        }
    }
    need
}

/// The states that can be met after 0, 1, .. steps from any of these.
fn reachable(model: &Model, states: u32) -> [u32; PLACES] {
    let mut reach = [states; PLACES];
    for place in 1..PLACES {
        let before = reach[place - 1];
        let from = (0..32u8).filter(|state| has(before, *state));
        let moves = from.flat_map(|state| model.moves(state));
        let outcomes = moves.flat_map(|entry| &entry.outcomes);
        reach[place] = outcomes.fold(0, |set, outcome| set | 1 << outcome.target);
    }
    reach
}

/// Adds what a plan node's condition needs of the state formulas in it.
fn spread(
    question: &Question,
    path_formulas: &[bool],
    condition: usize,
    reach: &[u32; PLACES],
    need: &mut [u32],
) {
    let places = places_of(question, condition, path_formulas);
    for (number, places) in places.iter().enumerate() {
        let is_state = !path_formulas[number];
        for (place, states) in reach.iter().enumerate() {
            if is_state && places >> place & 1 == 1 {
                need[number] |= states;
            }
        }
    }
}

/// For each node the places on a path, a bit for each, at which the condition
/// reads it. What lies below a state formula is not followed.
pub(super) fn places_of(question: &Question, condition: usize, path_formulas: &[bool]) -> Vec<u8> {
    let mut places = vec![0u8; condition + 1];
    places[condition] = 1;
    for number in (0..=condition).rev() {
        let here = places[number];
        if here == 0 || !path_formulas[number] {
            continue;
        }
        match question.nodes[number] {
            Node::Not(child) => places[usize::from(child)] |= here,
            Node::And(left, right) => {
                places[usize::from(left)] |= here;
                places[usize::from(right)] |= here;
            }
            Node::Next(child) => places[usize::from(child)] |= here << 1,
            _ => {}
        }
    }
    places
}
