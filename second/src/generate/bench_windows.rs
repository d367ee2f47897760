//! Worst cases with a gain for every window that ends with the path: of six
//! steps, of five after the first, of four after the second and so on. What a
//! path has gained in each window is another number, so that hardly two
//! histories are alike.

use super::bench::Case;
use super::bench_asked::Asked;
use super::bench_models::{mixed, ten_outcomes};

/// The conjunction of the gains of all windows that end after so many steps:
/// each is to pass a bound given by its length.
pub(super) fn windows_above(asked: &mut Asked, steps: usize, bound: fn(usize) -> i32) -> usize {
    let mut all = asked.gain(1, &format!("greater {}", bound(1)));
    for length in 2..=steps {
        let gain = asked.gain(length, &format!("greater {}", bound(length)));
        let next = asked.after(1, all);
        all = asked.and(gain, next);
    }
    all
}

/// The same with bounds that rewards of either sign pass or not by turns.
pub(super) fn windows(asked: &mut Asked, steps: usize) -> usize {
    windows_above(asked, steps, |length| -(length as i32))
}

/// One plan over all windows.
pub(super) fn root(bound: &str) -> Vec<String> {
    let mut asked = Asked::default();
    let all = windows(&mut asked, 6);
    asked.plan(all, 6, bound);
    asked.nodes()
}

/// As many plans as there is room for, all over the same windows and where the
/// one before is true: it is true everywhere, so that they all ask the same.
fn alike(bound: &str) -> Vec<String> {
    let mut asked = Asked::default();
    let all = windows(&mut asked, 6);
    let mut plan = asked.plan(all, 6, bound);
    while asked.room() >= 2 + Asked::room_for_everywhere(2) {
        let both = asked.and(all, plan);
        plan = asked.plan(both, 6, bound);
    }
    asked.everywhere(plan, 2)
}

/// Seven plans over the same windows, each with the one before after the first
/// step: it is true in some states only.
fn after_one(bound: &str) -> Vec<String> {
    let mut asked = Asked::default();
    let all = windows(&mut asked, 6);
    let mut plan = asked.plan(all, 6, bound);
    while asked.room() >= 3 + Asked::room_for_everywhere(2) {
        let next = asked.after(1, plan);
        let both = asked.and(all, next);
        plan = asked.plan(both, 6, bound);
    }
    asked.everywhere(plan, 2)
}

/// Four conditions, each with a bound of its own for the gain of all six steps,
/// and each asked for a greater and for a less chance where the ones before are
/// true. No two of the eight plans ask the same.
pub(super) fn both_ways() -> Vec<String> {
    let mut asked = Asked::default();
    let shorter = windows(&mut asked, 5);
    let shorter = asked.after(1, shorter);
    let mut before = None;
    for own in 0..4 {
        let gain = asked.gain(6, &format!("greater -{}", 6 + own));
        let mut all = asked.and(gain, shorter);
        if let Some(before) = before {
            all = asked.and(all, before);
        }
        let greater = asked.plan(all, 6, "greater 1/1000");
        let less = asked.plan(all, 6, "less 999/1000");
        before = Some(asked.and(greater, less));
    }
    let last = before.unwrap_or_default();
    asked.everywhere(last, 2)
}

pub(super) fn cases() -> Vec<Case> {
    let ten = ten_outcomes(10, mixed);
    vec![
        Case::new("windows-root", &ten, &root("greater 1/1")),
        Case::new("windows-root-less", &ten, &root("less 0/1")),
        Case::new("windows-alike", &ten, &alike("greater 1/1000")),
        Case::new("windows-alike-less", &ten, &alike("less 999/1000")),
        Case::new("windows-after-one", &ten, &after_one("greater 3/10")),
        Case::new("windows-nested", &ten, &both_ways()),
    ]
}

#[cfg(test)]
mod tests {
    use super::*;
    use crate::generate::bench_models::tests::served;
    use crate::logic::Node;

    /// Every window that ends with the path has its gain.
    #[test]
    fn windows_of_all_lengths() {
        for case in cases() {
            let (_, totals, question) = served(&case);
            assert_eq!(totals.paths(6, 0), 1_000_000, "{}", case.name);
            let lengths = question.nodes.iter().filter_map(|node| match node {
                Node::Gain { steps, .. } => Some(*steps),
                _ => None,
            });
            let lengths: Vec<u8> = lengths.collect();
            assert_eq!(lengths[..6], [1, 2, 3, 4, 5, 6], "{}", case.name);
            assert!(lengths[6..].iter().all(|steps| *steps == 6));
        }
    }

    #[test]
    fn as_many_plans_as_fit() {
        for case in cases() {
            let plans = served(&case).2.plan_nodes().count();
            let wanted = match case.name {
                "windows-root" | "windows-root-less" => 1,
                "windows-after-one" => 8,
                "windows-nested" => 9,
                _ => 12,
            };
            assert_eq!(plans, wanted, "{}", case.name);
        }
    }
}
