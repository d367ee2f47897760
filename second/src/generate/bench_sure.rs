//! Worst cases that are easy for whoever sees it: conditions that are the same
//! on all paths, "equal" that the first plan meets, and plans of which many come
//! to the same total.

use super::bench::Case;
use super::bench_asked::Asked;
use super::bench_models::{mixed, six_moves, small_rewards, ten_outcomes, Open};

/// 32 states, eight actions of four outcomes of the same weight: 32,768 plans
/// of two steps, with few totals.
fn full_even() -> Vec<u8> {
    let open = Open {
        states: 32,
        arities: &[4; 8],
        denominator: 100,
        weights: |_, _, _| &[25; 4],
        reward: small_rewards,
    };
    open.packed()
}

/// A gain of all steps that every path has, and one that none has.
const EVERY: &str = "greater -1000";
const NONE: &str = "greater 1000";

/// One plan over a gain of all six steps, needed in all states.
fn one_gain(gain: &str, bound: &str) -> Vec<String> {
    let mut asked = Asked::default();
    let gain = asked.gain(6, gain);
    let plan = asked.plan(gain, 6, bound);
    asked.everywhere(plan, 2)
}

/// One plan over the gain of the last step, needed in all states.
fn last_gain(gain: &str, bound: &str) -> Vec<String> {
    let mut asked = Asked::default();
    let gain = asked.gain(1, gain);
    let last = asked.after(5, gain);
    let plan = asked.plan(last, 6, bound);
    asked.everywhere(plan, 2)
}

/// As many plans as there is room for, all of which the first plan meets.
fn first_plan() -> Vec<String> {
    let mut asked = Asked::default();
    let gain = asked.gain(6, EVERY);
    let mut plan = asked.plan(gain, 6, "equal 1/1");
    while asked.room() >= 2 + Asked::room_for_everywhere(2) {
        let both = asked.and(gain, plan);
        plan = asked.plan(both, 6, "equal 1/1");
    }
    asked.everywhere(plan, 2)
}

/// As many plans as there is room for that ask for the action of the second
/// step: below each outcome of the first all comes to the whole or to nothing.
fn alike() -> Vec<String> {
    let mut asked = Asked::default();
    let first = asked.add("do 0");
    let second = asked.after(1, first);
    let mut plan = asked.plan(second, 2, "equal 1/2");
    while asked.room() >= 3 + Asked::room_for_everywhere(2) {
        let failed = asked.not(plan);
        let both = asked.and(second, failed);
        plan = asked.plan(both, 2, "equal 1/2");
    }
    asked.everywhere(plan, 2)
}

pub(super) fn cases() -> Vec<Case> {
    let (ten, six) = (ten_outcomes(10, mixed), six_moves());
    vec![
        Case::new("sure-greater", &ten, &one_gain(EVERY, "greater 1/2")),
        Case::new("sure-less", &ten, &one_gain(EVERY, "less 1/2")),
        Case::new("never-greater", &ten, &last_gain(NONE, "greater 1/2")),
        Case::new("never-less", &ten, &last_gain(NONE, "less 1/2")),
        Case::new("equal-first-plan", &six, &first_plan()),
        Case::new("equal-alike-2", &full_even(), &alike()),
    ]
}

#[cfg(test)]
mod tests {
    use super::*;
    use crate::desk::{verdict_line, JudgeKind};
    use crate::generate::bench_models::tests::{met_after, served};

    /// The plans below the root are needed in all states.
    #[test]
    fn needed_everywhere() {
        for case in cases() {
            let (model, _, _) = served(&case);
            assert_eq!(met_after(&model, 2).len(), 32, "{}", case.name);
        }
    }

    fn case(name: &str) -> Case {
        let case = cases().into_iter().find(|case| case.name == name);
        case.expect(name)
    }

    fn line(case: Case) -> String {
        verdict_line(&[case.model, case.question].concat(), JudgeKind::Fast)
    }

    /// In each state the answer is the same, and the root's with it.
    #[test]
    fn sure_answers() {
        for name in ["sure-greater", "never-less"] {
            assert!(line(case(name)).starts_with("yes"), "{name}");
        }
        for name in ["sure-less", "never-greater"] {
            assert!(line(case(name)).starts_with("no"), "{name}");
        }
    }

    #[test]
    fn as_many_plans_as_fit() {
        let plans = |name| served(&case(name)).2.plan_nodes().count();
        assert_eq!(plans("equal-first-plan"), 19);
        assert_eq!(plans("equal-alike-2"), 13);
    }

    /// "Equal" to the whole is met by the first plan.
    #[test]
    fn first_plan_meets() {
        let mut asked = Asked::default();
        let gain = asked.gain(6, EVERY);
        asked.plan(gain, 6, "equal 1/1");
        let case = Case::new("first", &six_moves(), &asked.nodes());
        assert!(line(case).contains(" plans 1 "));
    }
}
