//! Worst cases for giving up a choice that can no longer win: nearly all weight
//! on one outcome, and the same weight on all.

use super::bench::{nested_both_ways, words, Case};
use super::bench_models::ten_outcomes;
use super::bench_windows::{both_ways, root};

/// Nearly all weight is on the first outcome. The others, which are looked at
/// later, say next to nothing.
fn first(_: usize, _: usize, arity: usize) -> &'static [u8] {
    match arity {
        4 => &[97, 1, 1, 1],
        _ => &[97, 3],
    }
}

/// Nearly all weight is on the last outcome: all others are looked at before
/// anything is known.
fn last(_: usize, _: usize, arity: usize) -> &'static [u8] {
    match arity {
        4 => &[1, 1, 1, 97],
        _ => &[3, 97],
    }
}

/// All outcomes have the same weight, so that no choice is much better.
fn even(_: usize, _: usize, arity: usize) -> &'static [u8] {
    match arity {
        4 => &[25; 4],
        _ => &[50; 2],
    }
}

/// One plan whose gain nearly all paths, or hardly any, have.
fn gain(bound: i32) -> Vec<String> {
    let gain = format!("gain 6 steps greater {bound}");
    words(&[&gain, "plan 0 steps 6 greater 1/1"])
}

pub(super) fn cases() -> Vec<Case> {
    let [first, last, even] = [first, last, even].map(|weights| ten_outcomes(100, weights));
    vec![
        Case::new("skewed-first-gain", &first, &gain(2)),
        Case::new("skewed-last-gain", &last, &gain(2)),
        Case::new("skewed-first-root", &first, &root("greater 1/1")),
        Case::new("skewed-last-root", &last, &root("greater 1/1")),
        Case::new("skewed-last-windows", &last, &both_ways()),
        Case::new("even-gain", &even, &gain(2)),
        Case::new("even-root", &even, &root("greater 1/1")),
        Case::new("even-both-ways", &even, &nested_both_ways()),
        Case::new("even-windows", &even, &both_ways()),
    ]
}

#[cfg(test)]
mod tests {
    use super::*;
    use crate::generate::bench_models::tests::served;

    /// The heaviest outcome of every action of every state has all weight but
    /// 3, or all its outcomes have the same.
    #[test]
    fn weights_as_named() {
        for case in cases() {
            let (model, totals, _) = served(&case);
            assert!((0..32).all(|state| totals.paths(6, state) == 1_000_000));
            for entry in (0..32).flat_map(|state| model.moves(state)) {
                let weights: Vec<u8> = entry.outcomes.iter().map(|one| one.weight).collect();
                let heaviest = weights.iter().max().copied();
                match case.name.split('-').nth(1) {
                    _ if case.name.starts_with("even") => {
                        assert!(weights.iter().all(|weight| *weight == weights[0]))
                    }
                    Some("first") => assert_eq!((heaviest, weights[0]), (Some(97), 97)),
                    _ => assert_eq!((heaviest, weights.last()), (Some(97), Some(&97))),
                }
            }
        }
    }
}
