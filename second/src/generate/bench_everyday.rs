//! Everyday questions: one to three steps ahead, on a model that fills all its
//! blocks and on a middling one.

use super::bench::Case;
use super::bench_asked::Asked;
use super::bench_models::alike;

/// A model of 12 blocks: 32 states, eight actions, four outcomes each.
fn full() -> Vec<u8> {
    alike(32, &[4; 8])
}

/// A model of eight states and three actions, one of which is certain: 903
/// plans of three steps.
fn middling() -> Vec<u8> {
    alike(8, &[2, 2, 1])
}

/// Whether proposition 0 can be true after one step.
fn one_step() -> Vec<String> {
    let mut asked = Asked::default();
    let held = asked.add("proposition 0");
    let next = asked.after(1, held);
    asked.plan(next, 1, "greater 1/2");
    asked.nodes()
}

/// Whether one step can gain something.
fn one_gain() -> Vec<String> {
    let mut asked = Asked::default();
    let gain = asked.gain(1, "greater 0");
    asked.plan(gain, 1, "greater 1/2");
    asked.nodes()
}

/// Whether each of two things can be had in one step, by a plan of its own.
fn two_plans() -> Vec<String> {
    let mut asked = Asked::default();
    let held = asked.add("proposition 0");
    let next = asked.after(1, held);
    let first = asked.plan(next, 1, "greater 1/2");
    let wait = asked.add("do 3");
    let without = asked.not(wait);
    let second = asked.plan(without, 1, "less 1/3");
    asked.and(first, second);
    asked.nodes()
}

/// A goal after two steps.
fn goal(bound: &str) -> Vec<String> {
    let mut asked = Asked::default();
    let held = asked.add("proposition 1");
    let last = asked.after(2, held);
    asked.plan(last, 2, bound);
    asked.nodes()
}

/// A goal after three steps and a gain on the way.
fn goal_and_gain(bound: &str) -> Vec<String> {
    let mut asked = Asked::default();
    let held = asked.add("proposition 1");
    let last = asked.after(3, held);
    let gain = asked.gain(3, "greater 0");
    let both = asked.and(last, gain);
    asked.plan(both, 3, bound);
    asked.nodes()
}

pub(super) fn cases() -> Vec<Case> {
    let (full, middling) = (full(), middling());
    vec![
        Case::new("everyday-full-next", &full, &one_step()),
        Case::new("everyday-full-gain", &full, &one_gain()),
        Case::new("everyday-full-and", &full, &two_plans()),
        Case::new("everyday-full-equal", &full, &goal("equal 37/100")),
        Case::new("everyday-two-greater", &middling, &goal("greater 1/2")),
        Case::new("everyday-two-less", &middling, &goal("less 1/2")),
        Case::new("everyday-two-equal", &middling, &goal("equal 49/100")),
        Case::new(
            "everyday-three-greater",
            &middling,
            &goal_and_gain("greater 1/2"),
        ),
        Case::new("everyday-three-less", &middling, &goal_and_gain("less 1/2")),
        Case::new(
            "everyday-three-equal",
            &middling,
            &goal_and_gain("equal 49/100"),
        ),
    ]
}

#[cfg(test)]
mod tests {
    use super::*;
    use crate::generate::bench_models::tests::served;

    #[test]
    fn few_steps_on_models_as_described() {
        for case in cases() {
            let (model, totals, question) = served(&case);
            let (states, blocks) = match case.name.starts_with("everyday-full-") {
                true => (32, 12),
                false => (8, 4),
            };
            assert_eq!(model.states(), states, "{}", case.name);
            assert_eq!(case.model.len(), 512 * blocks, "{}", case.name);
            assert!(question.plan_nodes().all(|(_, plan)| plan.steps() <= 3));
            assert!(states == 32 || (0..8).all(|state| totals.plans(3, state) == 903));
        }
    }
}
