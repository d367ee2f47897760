//! Models written out again (document 02, A.7): in all orders with the other
//! calls, and on desks put together by hand.

use super::rng::Rng;
use super::stored_hand::{any_desk, right_desk};
use super::stored_models::Kept;
use super::streams::canary;
use crate::blocks::BLOCK;
use crate::desk::{Call, ROOM};
use crate::ground::{Ground, OF_LOADS};

/// Stories about models of 2 to 12 blocks in turn; at first on the empty desk.
pub fn stored(rng: &mut Rng, count: usize) -> Vec<Call> {
    let mut calls = Vec::new();
    let mut turn = 0;
    while calls.len() < count {
        let blocks = 2 + turn % 11;
        let others = rng.range(2, 12);
        let drawn = (Kept::drawn(rng, blocks), Kept::drawn(rng, others));
        let (Some(kept), Some(other)) = drawn else {
            continue;
        };
        if turn == 0 {
            calls.extend(on_the_empty_desk(rng, &kept, &other));
        }
        turn += 1;
        calls.extend(match rng.below(5) {
            0 => loaded_again(rng, &kept, &other),
            1 => after_refusals(rng, &kept, &other),
            2 => one_after_the_other(rng, &kept, &other),
            3 => desks_by_hand(rng, &kept, &other),
            _ => in_any_order(rng, &kept, &other),
        });
    }
    calls
}

/// No model is held, whatever is lent, and whatever was refused before.
fn on_the_empty_desk(rng: &mut Rng, kept: &Kept, other: &Kept) -> Vec<Call> {
    let asked = kept.asked(rng);
    let lengths = [0, 1, 2 * BLOCK - 1, 2 * BLOCK, ROOM, 16_384];
    let mut calls: Vec<Call> = lengths
        .iter()
        .map(|length| Call::WriteModel(vec![7; *length]))
        .collect();
    for ground in OF_LOADS {
        calls.extend(kept.refused(rng, ground).map(Call::Load));
        calls.push(kept.written(rng, &other.bytes));
    }
    calls.extend([Call::Put(asked.question), Call::Judge]);
    calls.push(kept.written(rng, &other.bytes));
    calls
}

/// The model is written and loaded once more as it was written; a question about
/// it gets the same answers before and after.
fn loaded_again(rng: &mut Rng, kept: &Kept, other: &Kept) -> Vec<Call> {
    let asked = kept.asked(rng);
    let questioned = [
        Call::Put(asked.question),
        Call::Judge,
        Call::Write(vec![3; 3 * BLOCK]),
        Call::Check(asked.sheet),
    ];
    let mut calls = Vec::new();
    for _ in 0..2 {
        calls.push(Call::Load(kept.bytes.clone()));
        for call in &questioned {
            for _ in 0..rng.below(3) {
                calls.push(kept.written(rng, &other.bytes));
            }
            calls.push(call.clone());
        }
        calls.push(kept.written_whole(rng, &other.bytes));
        calls.push(Call::Write(vec![3; 3 * BLOCK]));
    }
    calls
}

/// Loads are refused on each ground, of the model damaged and of another; what
/// is written is the model that was loaded before.
fn after_refusals(rng: &mut Rng, kept: &Kept, other: &Kept) -> Vec<Call> {
    let mut calls = vec![Call::Load(kept.bytes.clone())];
    let asked = kept.asked(rng);
    if rng.once_in(2) {
        calls.extend([Call::Put(asked.question), Call::Judge]);
    }
    let mut grounds = OF_LOADS;
    rng.shuffle(&mut grounds);
    for ground in grounds {
        let damaged = if rng.once_in(2) { kept } else { other };
        calls.extend(damaged.refused(rng, ground).map(Call::Load));
        calls.push(kept.written_whole(rng, &other.bytes));
        if rng.once_in(2) {
            calls.push(kept.written(rng, &other.bytes));
        }
        if rng.once_in(4) {
            calls.push(canary(rng));
        }
    }
    calls
}

/// One model after the other, each written into buffers of both lengths.
fn one_after_the_other(rng: &mut Rng, kept: &Kept, other: &Kept) -> Vec<Call> {
    let mut calls = Vec::new();
    let mut pair = [(kept, other), (other, kept)];
    rng.shuffle(&mut pair);
    for _ in 0..2 {
        for (held, before) in pair {
            calls.push(Call::Load(held.bytes.clone()));
            for _ in 0..rng.range(1, 3) {
                calls.push(held.written(rng, &before.bytes));
            }
            calls.push(held.written_whole(rng, &before.bytes));
        }
    }
    calls
}

/// Desks put together by hand, with all calls on them.
fn desks_by_hand(rng: &mut Rng, kept: &Kept, other: &Kept) -> Vec<Call> {
    let mut calls = Vec::new();
    for _ in 0..4 {
        calls.push(match rng.once_in(4) {
            true => right_desk(rng, kept, &other.bytes),
            false => any_desk(rng, kept, &other.bytes),
        });
        calls.push(kept.written_whole(rng, &other.bytes));
        for _ in 0..rng.below(3) {
            calls.push(kept.written(rng, &other.bytes));
        }
        let asked = kept.asked(rng);
        if rng.once_in(2) {
            calls.extend([Call::Put(asked.question), Call::Judge, canary(rng)]);
            calls.push(Call::Check(asked.sheet));
            calls.push(kept.written(rng, &other.bytes));
        }
        if rng.once_in(4) {
            let ground = rng.pick_or(&OF_LOADS, Ground::Length);
            calls.extend(other.refused(rng, ground).map(Call::Load));
            calls.push(kept.written(rng, &other.bytes));
        }
        if rng.once_in(4) {
            calls.push(Call::Load(other.bytes.clone()));
            calls.push(other.written(rng, &kept.bytes));
        }
    }
    calls
}

/// All calls in any order on two models.
fn in_any_order(rng: &mut Rng, kept: &Kept, other: &Kept) -> Vec<Call> {
    let mut calls = vec![Call::Load(kept.bytes.clone())];
    let (mut held, mut before) = (kept, other);
    let mut asked = held.asked(rng);
    for _ in 0..rng.range(15, 40) {
        let call = match rng.below(16) {
            0 => {
                (held, before) = (before, held);
                asked = held.asked(rng);
                Call::Load(held.bytes.clone())
            }
            1 => Call::Load(held.bytes.clone()),
            2 => {
                let ground = rng.pick_or(&OF_LOADS, Ground::Length);
                Call::Load(before.refused(rng, ground).unwrap_or_default())
            }
            3 | 4 => Call::Put(asked.question.clone()),
            5 | 6 => Call::Judge,
            7 | 8 => canary(rng),
            9 => Call::Check(asked.sheet.clone()),
            10 => Call::Put(vec![0; BLOCK]),
            _ => held.written(rng, &before.bytes),
        };
        calls.push(call);
    }
    calls
}
