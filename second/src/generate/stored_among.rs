//! Models written out among the calls of another stream, which stay as they are.

use super::rng::Rng;
use super::stored_hand::{any_desk, right_desk};
use super::stored_models::Kept;
use crate::desk::Call;

/// The calls with others between them, which leave the old ones their answers:
/// calls that write the model, and desks by hand just before a load that is
/// done, which clears all that a desk holds.
pub(super) fn with_models(seed: u64, calls: Vec<Call>) -> Vec<Call> {
    // Numbers of its own, so that the old calls are drawn as before.
    let mut rng = Rng::new(!seed);
    let mut held: Option<Kept> = Kept::drawn(&mut rng, 2);
    let mut before = Vec::new();
    let mut all = Vec::new();
    for call in calls {
        if let Some(next) = accepted(&call) {
            all.extend(by_hand(&mut rng, held.as_ref(), &before));
            before = held.map_or(before, |kept| kept.bytes);
            held = Some(next);
        }
        all.push(call);
        for _ in 0..rng.below(5).saturating_sub(3) {
            all.extend(held.as_ref().map(|kept| kept.written(&mut rng, &before)));
        }
    }
    all
}

/// The model that a call loads.
fn accepted(call: &Call) -> Option<Kept> {
    match call {
        Call::Load(bytes) => Kept::loaded(bytes),
        _ => None,
    }
}

/// Now and then a desk by hand, and writes of what it holds.
fn by_hand(rng: &mut Rng, held: Option<&Kept>, before: &[u8]) -> Vec<Call> {
    let Some(kept) = held.filter(|_| rng.once_in(2)) else {
        return Vec::new();
    };
    let mut calls = vec![match rng.once_in(3) {
        true => right_desk(rng, kept, before),
        false => any_desk(rng, kept, before),
    }];
    for _ in 0..rng.range(1, 3) {
        calls.push(kept.written(rng, before));
    }
    calls
}
