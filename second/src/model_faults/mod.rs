//! Desks that err when they write a model (document 02, A.7), or about what a
//! desk by hand holds, as none should, to see that the streams tell them from a
//! right one.

mod buffers;
mod fault;
mod fields;
mod hand;
mod held;
mod past;

pub use fault::{Fault, ALL};
pub use fields::packed;

use crate::desk::{replay, Answer, Call, Desk};
use crate::ground::Ground;
use crate::strays::Strays;
use held::strayed;
use past::Past;
use std::collections::BTreeMap;

/// How often a desk with a fault answers otherwise, for each call.
pub type Differences = BTreeMap<(Fault, &'static str), usize>;

/// What a call that writes a model answers, and the buffer after it.
type Written = (Result<usize, Ground>, Vec<u8>);

/// Writes bytes, if the buffer has room for them.
fn filled(lent: &[u8], bytes: &[u8]) -> Written {
    let mut buffer = lent.to_vec();
    match buffer.get_mut(..bytes.len()) {
        Some(place) => {
            place.copy_from_slice(bytes);
            (Ok(bytes.len()), buffer)
        }
        None => (Err(Ground::ShortBuffer), buffer),
    }
}

/// Replays a stream from the empty desk beside a desk of each fault. Each model is
/// written from what the right desk holds; what a wrong desk holds or lost is
/// carried along until it holds the same as the right one again.
pub fn differences(stream: &[u8]) -> Differences {
    let mut counts = Differences::new();
    let mut strays = Strays::default();
    let mut past = Past::default();
    replay(stream, |call, answer, desk| {
        let mut found = strays.wrong(call, answer);
        strays.follow(strayed(call, answer, desk), desk);
        if let (Call::WriteModel(lent), Answer::WriteModel(right, after)) = (call, answer) {
            let right = (*right, after.clone());
            found.extend(wrong_writes(lent, &right, desk, &past));
        }
        past.remember(call, answer, desk);
        for (fault, call) in found {
            *counts.entry((fault, call)).or_default() += 1;
        }
    });
    counts
}

/// The faults with which a model is written otherwise.
fn wrong_writes(
    lent: &[u8],
    right: &Written,
    desk: &Desk,
    past: &Past,
) -> Vec<(Fault, &'static str)> {
    let made = |fault: Fault| {
        buffers::written(fault, lent, right, desk)
            .or_else(|| past.written(fault, lent))
            .or_else(|| hand::written(fault, lent, past.by_hand()?))
    };
    let differs = |fault: &Fault| made(*fault).is_some_and(|wrong| wrong != *right);
    let mut found: Vec<Fault> = ALL.iter().copied().filter(differs).collect();
    if right.0.is_ok() {
        found.extend(past.wrong_fields());
    }
    found
        .into_iter()
        .map(|fault| (fault, "write-model"))
        .collect()
}
