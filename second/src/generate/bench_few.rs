//! Questions about "equal" with few plans: at most 1,024 in every state. They
//! are to be judged with little stack, however deep they go.

use super::bench::{words, Case};
use super::bench_asked::Asked;
use super::bench_models::{alike, early_choices};
use super::bench_windows::windows;

/// One plan over the gains of all windows that no plan meets, though the bound
/// is a whole number of units.
fn root(steps: usize) -> Vec<String> {
    let mut asked = Asked::default();
    let all = windows(&mut asked, steps);
    asked.plan(all, steps, "equal 4321/10000");
    asked.nodes()
}

/// An expected gain that no plan has: moves are certain, so that every plan
/// gains a whole number of points.
fn expected() -> Vec<String> {
    words(&["plan gain 1 to 5 steps 5 equal 4321/1000"])
}

/// A condition that only the last of the plans meets with certainty.
fn last_plan() -> Vec<String> {
    let mut asked = Asked::default();
    let first = asked.add("do 3");
    let second = asked.after(1, first);
    let both = asked.and(first, second);
    let gain = asked.gain(6, "greater -1000");
    let all = asked.and(both, gain);
    asked.plan(all, 6, "equal 1/1");
    asked.nodes()
}

/// As many nodes with a gain of so many steps as there is room for, needed in
/// all states that can be met.
fn nested(steps: usize) -> Vec<String> {
    let mut asked = Asked::default();
    let gain = asked.gain(steps, "greater 0");
    let mut plan = asked.plan(gain, steps, "equal 1/2");
    while asked.room() >= 2 + Asked::room_for_everywhere(5) {
        let both = asked.and(gain, plan);
        plan = asked.plan(both, steps, "equal 1/2");
    }
    asked.everywhere(plan, 5)
}

pub(super) fn cases() -> Vec<Case> {
    let (two, four, long) = (alike(32, &[1; 2]), alike(32, &[1; 4]), early_choices(4));
    vec![
        Case::new("few-64-nested", &two, &nested(6)),
        Case::new("few-1024-root", &four, &root(5)),
        Case::new("few-1024-nested", &four, &nested(5)),
        Case::new("few-1024-long", &long, &root(6)),
        Case::new("few-1024-shown", &long, &last_plan()),
        Case::new("few-1024-expected", &four, &expected()),
    ]
}

#[cfg(test)]
mod tests {
    use super::*;
    use crate::desk::{verdict_line, JudgeKind};
    use crate::generate::bench_models::tests::{met_after, served};
    use crate::logic::{Plan, Relation};

    /// There are so many plans as the name says, and no more in any state.
    #[test]
    fn few_plans() {
        for case in cases() {
            let (model, totals, question) = served(&case);
            let states = || 0..model.states() as u8;
            let equal = question.plan_nodes();
            let equal = equal.filter(|(_, plan)| plan.relation == Relation::Equal);
            let counts = equal.flat_map(|(_, plan)| {
                let steps = plan.steps();
                states().map(move |state| (steps, state))
            });
            let most = counts
                .map(|(steps, state)| totals.plans(steps, state))
                .max();
            let wanted = case.name.split('-').nth(1).map(|number| number.parse());
            assert_eq!(most.map(Ok), wanted, "{}", case.name);
        }
    }

    #[test]
    fn nested_ones_are_needed_everywhere() {
        for case in cases().iter().filter(|case| case.name.ends_with("nested")) {
            assert_eq!(met_after(&served(case).0, 5).len(), 32, "{}", case.name);
        }
    }

    /// The longest plans have the most choices, and the last of them is shown.
    #[test]
    fn long_plans_are_long() {
        let cases = cases().into_iter();
        let shown = cases.filter(|case| case.name == "few-1024-shown");
        for case in shown {
            let model = served(&case).0;
            assert_eq!(Plan::first(&model, 0, 6).choices(&model).len(), 1365);
            let line = verdict_line(&[case.model, case.question].concat(), JudgeKind::Fast);
            let start = "yes 1000000/1000000 at plans 1024 choices 3 3 0";
            assert!(line.starts_with(start), "{line}");
        }
    }
}
