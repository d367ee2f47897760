//! Bounds for plan nodes: loose ones, and such that a given total meets or just
//! misses.

use super::rng::Rng;
use crate::logic::{Bound, Summed};

/// The largest q of operators 8 and 9.
const MOST_CHANCE_Q: i128 = 1_000_000;
const MOST_GAIN_Q: i128 = 1_000;
/// The largest p of operator 9, on either side of 0.
const MOST_GAIN_P: i128 = 6_000_000;

/// A bound that has nothing to do with any plan.
pub(super) fn loose(rng: &mut Rng, summed: Summed) -> Bound {
    match summed {
        Summed::Weights { .. } => {
            let q = rng.pick_or(&[1, 1, 2, 3, 10, 100, 1_000_000], 1);
            let p = rng.range(0, q as usize) as i32;
            Bound { p, q }
        }
        Summed::Gains { .. } => {
            let q = rng.pick_or(&[1, 1, 2, 3, 10, 100, 999, 1000], 1);
            let few = rng.range(0, 6 * q as usize) as i32 - 3 * q as i32;
            let ends = [few, few, few, 0, 6_000_000, -6_000_000, 1, -1];
            let p = rng.pick_or(&ends, 0);
            Bound { p, q }
        }
    }
}

/// A bound at, just below or just above a total over `whole`.
pub(super) fn close(rng: &mut Rng, summed: Summed, total: i128, whole: u64) -> Bound {
    let aside = rng.pick_or(&[-1, 1, 0, 0, 0, 0], 0);
    let whole = i128::from(whole);
    match summed {
        Summed::Weights { .. } => chance((total + aside).clamp(0, whole), whole),
        Summed::Gains { .. } => expected(rng, total + aside, whole),
    }
}

/// A chance in lowest terms, or the nearest below in millionths.
pub(super) fn chance(weight: i128, whole: i128) -> Bound {
    lowest(weight, whole, MOST_CHANCE_Q).unwrap_or_else(|| {
        let millionths = (weight * MOST_CHANCE_Q).div_euclid(whole);
        bound(millionths, MOST_CHANCE_Q)
    })
}

/// An expected gain in lowest terms, or one of the two nearest with some q.
pub(super) fn expected(rng: &mut Rng, total: i128, whole: i128) -> Bound {
    let exact = lowest(total, whole, MOST_GAIN_Q);
    exact.unwrap_or_else(|| {
        let q = match rng.once_in(2) {
            true => MOST_GAIN_Q,
            false => rng.range(1, 1000) as i128,
        };
        let p = (total * q).div_euclid(whole) + rng.below(2) as i128;
        bound(p.clamp(-MOST_GAIN_P, MOST_GAIN_P), q)
    })
}

/// The fraction in lowest terms, if its q is small enough.
pub(super) fn lowest(total: i128, whole: i128, most_q: i128) -> Option<Bound> {
    let common = gcd(total.unsigned_abs() as u64, whole as u64).max(1);
    let (p, q) = (total / i128::from(common), whole / i128::from(common));
    (q <= most_q).then(|| bound(p, q))
}

fn bound(p: i128, q: i128) -> Bound {
    Bound {
        p: p as i32,
        q: q as u32,
    }
}

pub(super) fn gcd(a: u64, b: u64) -> u64 {
    if b == 0 {
        a
    } else {
        gcd(b, a % b)
    }
}
