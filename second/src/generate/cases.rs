//! Made-up models at the limits, written as text: plans of a given size, a
//! million paths, 65,536 plans; each also by way of silent states.

use crate::text::pack_text;

/// Packs a text of our own making.
pub(super) fn pack(text: &str) -> Vec<u8> {
    pack_text(text).unwrap_or_default()
}

/// A question of these nodes.
pub(super) fn question(start: u8, nodes: &[String]) -> Vec<u8> {
    let numbered = nodes.iter().enumerate();
    let lines: String = numbered
        .map(|(own, node)| format!("{own} {node}\n"))
        .collect();
    pack(&format!("question start {start}\n{lines}"))
}

/// Lines for actions of one to four postconditions over propositions b0, b1.
pub(super) const POSTS: [&str; 4] = [
    "post always\n",
    "post b0\npost !b0\n",
    "post b0 b1\npost b0 !b1\npost !b0\n",
    "post b0 b1\npost b0 !b1\npost !b0 b1\npost !b0 !b1\n",
];

/// For each number of postconditions, weights that sum to 10, in two ways.
pub(super) const WEIGHTS: [[&[u8]; 2]; 4] = [
    [&[10], &[10]],
    [&[7, 3], &[4, 6]],
    [&[5, 3, 2], &[2, 4, 4]],
    [&[4, 3, 2, 1], &[1, 2, 3, 4]],
];

/// For each number of postconditions, the low bits that a target needs.
pub(super) const LOW_BITS: [&[u8]; 4] = [&[3], &[3, 0], &[3, 1, 0], &[3, 1, 2, 0]];

/// Where plans of `plan_of_size` may come to an end of the work.
#[derive(Clone, Copy, PartialEq, Eq)]
pub(super) enum Ends {
    Never,
    /// State 2, one of the first four, is silent.
    InStateTwo,
}

/// How many choices a plan from the first four states has: four outcomes
/// everywhere, or in three of them and silent moves in the other.
fn full_size(steps: usize, ends: Ends) -> usize {
    (0..steps).fold(0, |size, before| match ends {
        Ends::Never => 4 * size + 1,
        Ends::InStateTwo => 3 * size + before + 1,
    })
}

/// A model in which every plan of `steps` steps from the last state has just
/// `size` choices. The first four states have two actions of four outcomes
/// each; each further one leads to a smaller remainder and full trees. Gives
/// the model and the start. With an end in state 2, not every size can be had.
pub(super) fn plan_of_size(size: usize, steps: usize, ends: Ends) -> (Vec<u8>, u8) {
    // From the smallest remainder up: how many outcomes each state has.
    let mut arities = Vec::new();
    let (mut left, mut below) = (size, steps.saturating_sub(1));
    while below > 0 && left != full_size(below + 1, ends) {
        let full = full_size(below, ends);
        let arity = (left - 1).div_ceil(full).clamp(1, 4);
        arities.insert(0, arity);
        left = (left - 1).saturating_sub((arity - 1) * full);
        below -= 1;
    }
    (sized_text(&arities, ends), 3 + arities.len() as u8)
}

/// The model whose states from 4 on have so many outcomes each.
fn sized_text(arities: &[usize], ends: Ends) -> Vec<u8> {
    let silent = ends == Ends::InStateTwo;
    let mut text = String::from("model D 10\n");
    for (number, name) in ["b0", "b1", "w0", "w1", "over"].iter().enumerate() {
        text += &format!("proposition {number} {name}\n");
    }
    for (number, low) in ["", "b0", "b1", "b0 b1"].iter().enumerate() {
        let over = if silent && number == 2 { "over" } else { "" };
        text += &format!("state {number}: {low} w0 w1 {over}\n");
    }
    for (place, arity) in arities.iter().enumerate() {
        let code = ["", "w0", "w1", "w0 w1"][arity - 1];
        text += &format!("state {}: b0 b1 {code}\n", 4 + place);
    }
    for action in 0..8 {
        let needs = ["!w0 !w1", "w0 !w1", "!w0 w1", "w0 w1"][action % 4];
        text += &format!("action {action} needs {needs} !over\n{}", POSTS[action % 4]);
    }
    let live = (0..4 + arities.len()).filter(|state| !silent || *state != 2);
    for state in live {
        let arity = if state < 4 { 4 } else { arities[state - 4] };
        let first = if state <= 4 { 3 } else { state as u8 - 1 };
        text += &outcome_line(state, arity - 1, arity, 0, first);
        text += &outcome_line(state, arity + 3, arity, 1, first);
    }
    pack(&text)
}

/// A model in which every plan of 6 steps from state 0 has 1,365 choices, the
/// most, and 256 of the last ones are silent: four outcomes from each layer of
/// four states to the next, and in the fifth a state without an action.
pub(super) fn late_silence() -> Vec<u8> {
    let mut text = String::from("model D 10\n");
    for (number, name) in ["b0", "b1", "over"].iter().enumerate() {
        text += &format!("proposition {number} {name}\n");
    }
    text += "state 0:\n";
    for layer in 0..5 {
        for (number, low) in ["", "b0", "b1", "b0 b1"].iter().enumerate() {
            let over = if (layer, number) == (4, 2) {
                "over"
            } else {
                ""
            };
            text += &format!("state {}: {low} {over}\n", 1 + 4 * layer + number);
        }
    }
    text += &format!(
        "action 0 needs !over\n{0}action 1 needs !over\n{0}",
        POSTS[3]
    );
    for state in (0..21).filter(|state| *state != 19) {
        let base = 1 + 4 * u8::div_ceil(state, 4).min(4);
        for action in 0..2 {
            text += &based_line(state, action, 4, base, base + 3);
        }
    }
    pack(&text)
}

/// An outcome line whose first target is given.
fn outcome_line(state: usize, action: usize, arity: usize, way: usize, first: u8) -> String {
    let weights = WEIGHTS[arity - 1][way];
    let lows = LOW_BITS[arity - 1];
    let mut parts = Vec::new();
    for (place, (weight, low)) in weights.iter().zip(lows).enumerate() {
        let target = if place == 0 { first } else { *low };
        let reward = (state + 3 * action + 5 * place) as i32 % 7 - 3;
        parts.push(format!("{target} weight {weight} reward {reward}"));
    }
    format!("outcome {state} {action}: {}\n", parts.join(", "))
}

/// A model with exactly 1,000,000 six-step paths from some states or, with
/// one more outcome, 1,000,001 from the last. States 0 to 3 have ten outcomes
/// among themselves, 4 to 7 one; 8 has ten or eleven to those of one, and
/// each of 9 to 13 nine to the first and one to the state before it.
pub(super) fn million_paths(one_more: bool) -> Vec<u8> {
    let mut text = String::from("model D 10\n");
    for (number, name) in ["b0", "b1", "still", "last"].iter().enumerate() {
        text += &format!("proposition {number} {name}\n");
    }
    for state in 0..8usize {
        let low = ["", "b0", "b1", "b0 b1"][state % 4];
        let still = if state < 4 { "" } else { "still" };
        text += &format!("state {state}: {low} {still}\n");
    }
    let flag = if one_more { "last" } else { "" };
    text += &format!("state 8: b0 b1 {flag}\n");
    for state in 9..14 {
        text += &format!("state {state}: b0 b1\n");
    }
    text += &format!(
        "action 0 needs !still\n{0}action 1 needs !still\n{0}",
        POSTS[3]
    );
    text += &format!("action 2 needs !still !last\n{}", POSTS[1]);
    text += &format!("action 3 needs !still last\n{}", POSTS[2]);
    text += &format!("action 4 needs still\n{}", POSTS[0]);
    for state in (0..4).chain(8..14) {
        let base = if state == 8 { 4 } else { 0 };
        let first = if state > 8 { state - 1 } else { base + 3 };
        text += &based_line(state, 0, 4, base, base + 3);
        text += &based_line(state, 1, 4, base, base + 3);
        match state == 8 && one_more {
            true => text += &based_line(state, 3, 3, base, base + 3),
            false => text += &based_line(state, 2, 2, base, first),
        }
    }
    for state in 4..8 {
        text += &format!("outcome {state} 4: {state} weight 10\n");
    }
    pack(&text)
}

/// The same by paths with a silent step at the end. States 0 to 3 have ten
/// outcomes among themselves, 4 to 7 none; 8 has nine to the first and ten or
/// eleven to the silent ones, and each of 9 to 12 nine to the first and one to
/// the state before it: 900,000 + 90,000 + 9,000 + 900 + 90 + 10 from the last.
pub(super) fn million_silent_paths(one_more: bool) -> Vec<u8> {
    let mut text = String::from("model D 10\n");
    for (number, name) in ["b0", "b1", "over", "last"].iter().enumerate() {
        text += &format!("proposition {number} {name}\n");
    }
    for state in 0..13usize {
        let low = ["", "b0", "b1", "b0 b1"][if state < 8 { state % 4 } else { 3 }];
        let over = if (4..8).contains(&state) { "over" } else { "" };
        let last = if state == 8 { "last" } else { "" };
        text += &format!("state {state}: {low} {over} {last}\n");
    }
    let rest = if one_more { 2 } else { 1 };
    let posts = [3, 3, 1, 3, 3, rest - 1].map(|more: usize| POSTS[more]);
    for (action, posts) in posts.iter().enumerate() {
        let needs = if action < 3 { "!over" } else { "last" };
        text += &format!("action {action} needs {needs}\n{posts}");
    }
    for state in (0..4).chain(8..13) {
        let first = if state > 8 { state - 1 } else { 3 };
        text += &based_line(state, 0, 4, 0, 3);
        text += &based_line(state, 1, 4, 0, 3);
        text += &match state {
            8 => "outcome 8 2: 3 weight 7, 4 weight 3\n".to_string(),
            _ => based_line(state, 2, 2, 0, first),
        };
    }
    for (action, arity) in [(3, 4), (4, 4), (5, rest)] {
        text += &based_line(8, action, arity, 4, 7);
    }
    pack(&text)
}

/// An outcome line among the four states from `base` on, whose first target
/// is given.
pub(super) fn based_line(state: u8, action: u8, arity: usize, base: u8, first: u8) -> String {
    let lows = LOW_BITS[arity - 1].iter().skip(1).map(|low| base + low);
    let targets: Vec<u8> = std::iter::once(first).chain(lows).collect();
    let weights = WEIGHTS[arity - 1][usize::from(action) % 2];
    let pairs = targets.iter().zip(weights);
    let parts: Vec<String> = pairs
        .map(|(target, weight)| format!("{target} weight {weight} reward {}", weight % 3))
        .collect();
    format!("outcome {state} {action}: {}\n", parts.join(", "))
}

/// A model with exactly 65,536 three-step plans from state 0 or, with one
/// more action there, 65,537. State 0 has one action of four outcomes to
/// states of one such action, those to states of two deterministic actions to
/// the end, where there is one action or none.
pub(super) fn most_plans(one_more: bool, silent: bool) -> Vec<u8> {
    let mut text = String::from("model D 10\n");
    for (number, name) in ["b0", "b1", "root", "leaf", "end"].iter().enumerate() {
        text += &format!("proposition {number} {name}\n");
    }
    let lows = ["", "b0", "b1", "b0 b1"];
    text += "state 0: root\n";
    for (group, flag) in ["", "leaf", "end"].iter().enumerate() {
        for (number, low) in lows.iter().enumerate() {
            text += &format!("state {}: {low} {flag}\n", 1 + 4 * group + number);
        }
    }
    text += &format!("action 0 needs !leaf !end\n{}", POSTS[3]);
    text += "action 1 needs leaf\npost end\naction 2 needs leaf\npost end\n";
    if !silent {
        text += "action 3 needs end\npost end\n";
    }
    text += match one_more {
        true if silent => "action 3 needs root\npost end\noutcome 0 3: 9 weight 10\n",
        true => "action 4 needs root\npost end\noutcome 0 4: 9 weight 10\n",
        false => "",
    };
    text += &based_line(0, 0, 4, 1, 4);
    for state in 1..5 {
        text += &based_line(state, 0, 4, 5, 8);
    }
    for state in 5..9 {
        text += &format!("outcome {state} 1: {0} weight 10\n", state + 4);
        text += &format!("outcome {state} 2: {0} weight 10 reward 1\n", state + 4);
    }
    for state in (9..13).filter(|_| !silent) {
        text += &format!("outcome {state} 3: {state} weight 10\n");
    }
    pack(&text)
}

#[cfg(test)]
mod tests {
    use super::*;
    use crate::blocks::read_model;
    use crate::desk::Desk;
    use crate::ground::Ground;
    use crate::logic::{Plan, Totals, SILENT};

    fn totals(model: &[u8]) -> (Totals, u8) {
        let model = read_model(model).expect("an accepted model");
        (Totals::of(&model), model.states() as u8)
    }

    #[test]
    fn a_million_paths_and_one() {
        for (one_more, wanted) in [(false, 1_000_000), (true, 1_000_001)] {
            for model in [million_paths(one_more), million_silent_paths(one_more)] {
                let (totals, states) = totals(&model);
                let most = (0..states).map(|state| totals.paths(6, state)).max();
                assert_eq!(most, Some(wanted));
            }
        }
    }

    #[test]
    fn most_plans_and_one() {
        for (one_more, wanted) in [(false, 65_536), (true, 65_537)] {
            for silent in [false, true] {
                let (totals, states) = totals(&most_plans(one_more, silent));
                let most = (0..states).map(|state| totals.plans(3, state)).max();
                assert_eq!(most, Some(wanted));
            }
        }
    }

    /// What judging a plan over "gain 2" gives, or its ground.
    fn judged(model: &[u8], start: u8, steps: usize, relation: &str) -> Result<(), Ground> {
        let nodes = [
            "gain 2 steps greater 1".to_string(),
            format!("plan 0 steps {steps} {relation} 3/10"),
        ];
        let mut desk = Desk::default();
        desk.load(model)?;
        desk.put(&question(start, &nodes))?;
        desk.judge().map(|_| ())
    }

    #[test]
    fn limits_just_met_and_just_passed() {
        for paths in [million_paths, million_silent_paths] {
            let asked = |one_more| judged(&paths(one_more), 0, 6, "greater");
            assert_eq!(asked(false), Ok(()));
            assert_eq!(asked(true), Err(Ground::TooManyPaths));
        }
        for silent in [false, true] {
            let asked = |one_more, relation| judged(&most_plans(one_more, silent), 9, 3, relation);
            assert_eq!(asked(false, "equal"), Ok(()));
            assert_eq!(asked(true, "equal"), Err(Ground::TooManyPlans));
            assert_eq!(asked(true, "less"), Ok(()));
        }
    }

    /// The states that the cases say are silent are so.
    #[test]
    fn silent_cases() {
        let silent = |bytes: &[u8]| -> Vec<u8> {
            let model = read_model(bytes).expect("an accepted model");
            let states = 0..model.states() as u8;
            states.filter(|state| model.is_silent(*state)).collect()
        };
        for one_more in [false, true] {
            assert_eq!(silent(&million_silent_paths(one_more)), [4, 5, 6, 7]);
            assert_eq!(silent(&most_plans(one_more, true)), [9, 10, 11, 12]);
            assert_eq!(silent(&million_paths(one_more)), []);
            assert_eq!(silent(&most_plans(one_more, false)), []);
        }
        assert_eq!(silent(&late_silence()), [19]);
    }

    #[test]
    fn plans_of_given_size() {
        let without = [489, 490, 491, 980, 981, 1365].map(|size| (size, Ends::Never));
        let with = [490, 491, 543].map(|size| (size, Ends::InStateTwo));
        for (size, ends) in without.into_iter().chain(with) {
            let (bytes, start) = plan_of_size(size, 6, ends);
            check_size(&bytes, start, size, ends == Ends::InStateTwo);
        }
        check_size(&late_silence(), 0, 1365, true);
    }

    /// Plans of six steps have so many choices, with silent ones or without.
    fn check_size(bytes: &[u8], start: u8, size: usize, silent: bool) {
        let model = read_model(bytes).expect("an accepted model");
        let mut plan = Plan::first(&model, start, 6);
        assert_eq!(plan.choices(&model).len(), size);
        assert!(plan.advance(&model));
        assert_eq!(plan.choices(&model).len(), size);
        assert_eq!(plan.choices(&model).contains(&SILENT), silent, "{size}");
    }
}
