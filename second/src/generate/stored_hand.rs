//! Desks put together by hand: a room for a model, and a number that says how
//! many blocks it has.

use super::rng::Rng;
use super::stored_models::Kept;
use crate::blocks::BLOCK;
use crate::bytes::{put, u8_at};
use crate::desk::{Call, ROOM};
use crate::ground::{Ground, OF_LOADS};

/// A desk with a model in its room, mostly said rightly.
pub(super) fn right_desk(rng: &mut Rng, kept: &Kept, other: &[u8]) -> Call {
    let room = filled(rng, &kept.bytes, other);
    Call::by_hand(blocks_of(&kept.bytes), &room)
}

/// A desk whose number or whose room may be anything.
pub(super) fn any_desk(rng: &mut Rng, kept: &Kept, other: &[u8]) -> Call {
    let count = any_count(rng, blocks_of(&kept.bytes));
    let room = any_room(rng, kept, other);
    match rng.below(3) {
        0 => Call::by_hand(blocks_of(&kept.bytes), &room),
        _ => Call::by_hand(count, &filled(rng, &kept.bytes, other)),
    }
}

fn blocks_of(bytes: &[u8]) -> u64 {
    (bytes.len() / BLOCK) as u64
}

/// A number near the right one, at the ends of what a model can have, or so
/// large that a part of it, or the bytes of so many blocks, wrap to the right
/// one: 512 times 2^55 is 2^64, and 512 times 2^23 is 2^32.
fn any_count(rng: &mut Rng, right: u64) -> u64 {
    let near = [right.saturating_sub(1), right + 1, right + 2];
    let ends = [0, 1, 2, 11, 12, 13, 14, 255];
    let wraps = [8, 16, 23, 31, 32, 55, 56, 63].map(|bit| 1u64 << bit);
    match rng.below(6) {
        0 | 1 => rng.pick_or(&near, right),
        2 => rng.pick_or(&ends, right),
        3 => rng.pick_or(&wraps, right) + right,
        4 => rng.pick_or(&wraps, right),
        _ => u64::MAX - rng.below(14) as u64,
    }
}

/// The model with something after its last block: zeros, 255s, random bytes,
/// the bytes of another model or its own once more.
fn filled(rng: &mut Rng, model: &[u8], other: &[u8]) -> Vec<u8> {
    let mut room = model.to_vec();
    let missing = ROOM.saturating_sub(room.len());
    match rng.below(5) {
        0 => {}
        1 => room.resize(ROOM, 255),
        2 => room.extend((0..missing).map(|_| rng.byte(0, 255)).collect::<Vec<u8>>()),
        3 => room.extend(other.iter().cycle().take(missing)),
        _ => room.extend(model.iter().cycle().take(missing)),
    }
    room
}

/// A room in which the model has a byte changed, or is damaged so that load
/// refuses it on some ground, or in which there is none.
fn any_room(rng: &mut Rng, kept: &Kept, other: &[u8]) -> Vec<u8> {
    match rng.below(8) {
        0 => vec![0; ROOM],
        1 => vec![255; ROOM],
        2 | 3 => {
            let mut model = kept.bytes.clone();
            let at = rng.below(model.len());
            let byte = u8_at(&model, at) ^ rng.byte(1, 255);
            put(&mut model, at, &[byte]);
            filled(rng, &model, other)
        }
        _ => {
            // Bytes of the right length, so that the first ground cannot be.
            let ground = rng.pick_or(&OF_LOADS[1..], Ground::Kind);
            let model = kept.refused(rng, ground).unwrap_or_default();
            let whole = model.get(..kept.bytes.len()).unwrap_or(&model);
            filled(rng, whole, other)
        }
    }
}
