//! Worst cases for "equal" below the root: nodes that are needed in every
//! state and that no plan meets, so that all plans are looked at each time.

use super::bench::{equal_levels, Case};
use super::bench_asked::Asked;
use super::bench_models::{alike, early_choices, six_moves};
use super::bench_windows::windows;

/// 32 states with two actions of two outcomes each: 32,768 plans of four steps.
fn two_by_two() -> Vec<u8> {
    alike(32, &[2, 2])
}

/// 32 states with two certain moves and an action of two outcomes: 65,535 plans
/// of four steps.
fn two_and_one() -> Vec<u8> {
    alike(32, &[1, 1, 2])
}

/// 32 states with four certain moves: 4,096 plans of six steps.
fn four_moves() -> Vec<u8> {
    alike(32, &[1; 4])
}

/// Eight nodes with a gain of four steps each, each where the one before is
/// false.
fn four_steps(bound: &str) -> Vec<String> {
    let mut asked = Asked::default();
    let gain = asked.gain(4, "greater -4");
    let mut plan = asked.plan(gain, 4, bound);
    for own in 1..8 {
        let gain = asked.gain(4, &format!("greater {}", own - 4));
        let failed = asked.not(plan);
        let both = asked.and(gain, failed);
        plan = asked.plan(both, 4, bound);
    }
    asked.everywhere(plan, 5)
}

/// So many nodes that ask where the path ends, each where the one before is
/// false. No plan comes to just so much, though it is a whole number of units.
fn at_the_end(steps: usize, count: usize, bound: &str) -> Vec<String> {
    let mut asked = Asked::default();
    let held = asked.add("proposition 0");
    let last = asked.after(steps, held);
    let mut plan = asked.plan(last, steps, bound);
    for _ in 1..count {
        let failed = asked.not(plan);
        let both = asked.and(last, failed);
        plan = asked.plan(both, steps, bound);
    }
    asked.everywhere(plan, 5)
}

/// Nine nodes with a gain of all steps each, above these bounds, and the node
/// before after the first step. Seven of them are needed in all states.
fn gains(steps: usize, bound: fn(usize) -> i32) -> Vec<String> {
    let mut asked = Asked::default();
    let mut last = asked.add("proposition 0");
    for own in 0..9 {
        let gain = asked.gain(steps, &format!("greater {}", bound(own)));
        let next = asked.after(1, last);
        let both = asked.and(gain, next);
        last = asked.plan(both, steps, "equal 1/2");
    }
    asked.nodes()
}

/// As many nodes as there is room for, all with the same gain of six steps.
fn one_gain(bound: i32) -> Vec<String> {
    let mut asked = Asked::default();
    let gain = asked.gain(6, &format!("greater {bound}"));
    let mut plan = asked.plan(gain, 6, "equal 1/2");
    while asked.room() >= 2 + Asked::room_for_everywhere(2) {
        let both = asked.and(gain, plan);
        plan = asked.plan(both, 6, "equal 1/2");
    }
    asked.everywhere(plan, 2)
}

/// Nodes that are decided after the first step, where proposition 0 is true or
/// not; the gain of all six steps is then of no account on half the paths.
fn early_next() -> Vec<String> {
    let mut asked = Asked::default();
    let gain = asked.gain(6, "greater 0");
    let held = asked.add("proposition 0");
    let next = asked.after(1, held);
    let both = asked.and(next, gain);
    let mut plan = asked.plan(both, 6, "equal 1/2");
    while asked.room() >= 3 + Asked::room_for_everywhere(2) {
        let failed = asked.not(plan);
        let more = asked.and(both, failed);
        plan = asked.plan(more, 6, "equal 1/2");
    }
    asked.everywhere(plan, 2)
}

/// Nodes over the gains of all windows that end with the path, each where the
/// one before is false.
fn over_windows(steps: usize) -> Vec<String> {
    let mut asked = Asked::default();
    let all = windows(&mut asked, steps);
    let mut plan = asked.plan(all, steps, "equal 1/2");
    while asked.room() >= 3 + Asked::room_for_everywhere(3) {
        let failed = asked.not(plan);
        let both = asked.and(all, failed);
        plan = asked.plan(both, steps, "equal 1/2");
    }
    asked.everywhere(plan, 3)
}

/// One plan over the gains of all windows.
fn over_all() -> Vec<String> {
    let mut asked = Asked::default();
    let all = windows(&mut asked, 6);
    asked.plan(all, 6, "equal 123457/1000000");
    asked.nodes()
}

pub(super) fn cases() -> Vec<Case> {
    let (pairs, six) = (two_by_two(), six_moves());
    let odd = "equal 5001/10000";
    vec![
        Case::new("equal-nested-4", &pairs, &four_steps("equal 1/2")),
        Case::new("equal-gains-4", &pairs, &gains(4, |own| own as i32 - 4)),
        Case::new("equal-ends-4", &pairs, &at_the_end(4, 9, odd)),
        Case::new("equal-ends-4-65535", &two_and_one(), &at_the_end(4, 9, odd)),
        Case::new("equal-sure-6", &six, &gains(6, |own| -1000 - own as i32)),
        Case::new("equal-sure-6-most", &six, &one_gain(-1000)),
        Case::new("equal-never-6-most", &six, &one_gain(1000)),
        Case::new("equal-unsure-6", &six, &gains(6, |own| own as i32)),
        Case::new("equal-unsure-6-most", &six, &one_gain(0)),
        Case::new("equal-early-next", &six, &early_next()),
        Case::new("equal-early-choices", &early_choices(8), &over_all()),
        Case::new("equal-one-state-65536", &equal_levels(), &one_gain(6)),
        Case::new("equal-thousands", &four_moves(), &over_windows(6)),
        Case::new("equal-windows", &six, &over_windows(6)),
    ]
}

#[cfg(test)]
mod tests {
    use super::*;
    use crate::blocks::read_model;
    use crate::generate::bench_models::tests::{met_after, served};
    use crate::logic::{Relation, Totals};

    #[test]
    fn plans_in_every_state() {
        let rows = [
            (two_by_two(), 4, 32_768),
            (two_and_one(), 4, 65_535),
            (four_moves(), 6, 4_096),
        ];
        for (bytes, steps, plans) in rows {
            let model = read_model(&bytes).expect("an accepted model");
            let totals = Totals::of(&model);
            assert!((0..32).all(|state| totals.plans(steps, state) == plans));
        }
        for (bytes, plans) in [(equal_levels(), 65_536), (early_choices(8), 32_768)] {
            let model = read_model(&bytes).expect("an accepted model");
            let totals = Totals::of(&model);
            let states = 0..model.states() as u8;
            let most = |state: &u8| totals.plans(6, *state) == plans;
            assert_eq!(states.filter(most).collect::<Vec<u8>>(), [0]);
        }
    }

    /// The nodes with "equal" are below the root, or are needed in all states
    /// by a root that is one itself.
    #[test]
    fn nested_and_served() {
        for case in cases() {
            let (model, _, question) = served(&case);
            let equal = question.plan_nodes();
            let equal = equal.filter(|(_, plan)| plan.relation == Relation::Equal);
            let alone = case.name == "equal-early-choices";
            assert!(alone || equal.count() >= 4, "{}", case.name);
            let root = question.root_plan().expect(case.name);
            if root.relation != Relation::Equal && case.name != "equal-one-state-65536" {
                assert_eq!(met_after(&model, root.steps()).len(), 32, "{}", case.name);
            }
        }
    }

    #[test]
    fn as_many_nodes_as_fit() {
        let nodes = |name: &str| {
            let case = cases().into_iter().find(|case| case.name == name);
            served(&case.expect(name)).2.plan_nodes().count()
        };
        assert_eq!(nodes("equal-nested-4"), 9);
        assert_eq!(nodes("equal-sure-6"), 9);
        assert_eq!(nodes("equal-sure-6-most"), 19);
        assert_eq!(nodes("equal-thousands"), 8);
    }
}
