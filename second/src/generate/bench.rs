//! Everyday questions and worst cases within the limits, for timing.

use super::bench_equal;
use super::bench_everyday;
use super::bench_few;
use super::bench_gains;
use super::bench_reasons;
use super::bench_skewed;
use super::bench_sure;
use super::bench_turns;
use super::bench_windows;
use super::cases::{based_line, most_plans, pack, question, LOW_BITS, POSTS, WEIGHTS};

/// A model followed by a question, under a name.
pub struct Case {
    pub name: &'static str,
    pub model: Vec<u8>,
    pub question: Vec<u8>,
}

impl Case {
    /// The question of these nodes in state 0.
    pub(super) fn new(name: &'static str, model: &[u8], nodes: &[String]) -> Case {
        Case {
            name,
            model: model.to_vec(),
            question: question(0, nodes),
        }
    }
}

/// A model of 32 states with ten outcomes each, so that every state has a
/// million six-step paths.
pub(super) fn ten_outcomes() -> Vec<u8> {
    scattered(|_| false)
}

/// The same with no action in every fourth state, where 3 of each state's
/// outcomes lead.
fn ten_and_silent() -> Vec<u8> {
    scattered(|state| state % 4 == 3)
}

/// A model of 32 states in none of which any of its actions is enabled.
fn all_silent() -> Vec<u8> {
    scattered(|_| true)
}

/// 32 states, of which some are silent and the others have ten outcomes all
/// over them.
fn scattered(silent: fn(usize) -> bool) -> Vec<u8> {
    let mut text = String::from("model D 10 N 6\nproposition 0 b0\nproposition 1 b1\n");
    for state in 0..32usize {
        let bits = (0..5).filter(|bit| state >> bit & 1 == 1);
        let words: String = bits.map(|bit| format!(" {bit}")).collect();
        let over = if silent(state) { "5" } else { "" };
        text += &format!("state {state}:{words} {over}\n");
    }
    text += &format!(
        "action 0 needs !5\n{0}action 1 needs !5\n{0}action 2 needs !5\n{1}",
        POSTS[3], POSTS[1]
    );
    for state in (0..32).filter(|state| !silent(*state)) {
        for (action, arity) in [(0, 4), (1, 4), (2, 2)] {
            text += &scattered_line(state, action, arity);
        }
    }
    pack(&text)
}

/// An outcome line with targets all over the 32 states.
fn scattered_line(state: usize, action: usize, arity: usize) -> String {
    let weights = WEIGHTS[arity - 1][state % 2];
    let pairs = LOW_BITS[arity - 1].iter().zip(weights).enumerate();
    let parts: Vec<String> = pairs
        .map(|(place, (low, weight))| {
            let group = (7 * state + 3 * action + 5 * place) % 8;
            let target = 4 * group + usize::from(*low);
            let reward = (13 * state + 7 * action + 11 * place) as i32 % 9 - 4;
            format!("{target} weight {weight} reward {reward}")
        })
        .collect();
    format!("outcome {state} {action}: {}\n", parts.join(", "))
}

/// A model with 805,255 six-step paths from state 0, of which about half,
/// 14,641 times 27, end with a silent step: eleven outcomes in each of the
/// first four steps, then 28, all to silent states but one, which leads to 28
/// more.
fn half_silent() -> Vec<u8> {
    let mut text = String::from("model D 10\n");
    for (number, name) in ["b0", "b1", "late", "over"].iter().enumerate() {
        text += &format!("proposition {number} {name}\n");
    }
    text += "state 0:\n";
    for (layer, flag) in ["", "", "", "late", "over"].iter().enumerate() {
        for (number, low) in ["", "b0", "b1", "b0 b1"].iter().enumerate() {
            text += &format!("state {}: {low} {flag}\n", 1 + 4 * layer + number);
        }
    }
    text += "state 21: b0 b1 late\n";
    text += &format!(
        "action 0 needs !over\n{0}action 1 needs !over\n{0}",
        POSTS[3]
    );
    text += &format!("action 2 needs !late !over\n{}", POSTS[2]);
    for action in 3..8 {
        text += &format!("action {action} needs late\n{}", POSTS[3]);
    }
    for state in (0..17).chain(21..22) {
        let base = if state == 21 {
            17
        } else {
            1 + 4 * u8::div_ceil(state, 4)
        };
        let late = base == 17;
        for action in (0..8).filter(|action| if late { *action != 2 } else { *action < 3 }) {
            let first = if late && state < 17 && action == 0 {
                21
            } else {
                base + 3
            };
            let arity = if action == 2 { 3 } else { 4 };
            text += &based_line(state, action, arity, base, first);
        }
    }
    pack(&text)
}

/// A model with 65,536 six-step plans of 1,365 choices from state 0: four
/// outcomes everywhere, and two actions just in the states met after two
/// steps.
pub(super) fn equal_levels() -> Vec<u8> {
    let mut text = String::from("model D 10\n");
    for (number, name) in ["b0", "b1", "two", "late"].iter().enumerate() {
        text += &format!("proposition {number} {name}\n");
    }
    text += "state 0:\n";
    for (group, flag) in ["", "two", "late"].iter().enumerate() {
        for (number, low) in ["", "b0", "b1", "b0 b1"].iter().enumerate() {
            text += &format!("state {}: {low} {flag}\n", 1 + 4 * group + number);
        }
    }
    text += &format!("action 0\n{0}action 1 needs two\n{0}", POSTS[3]);
    for state in 0..13u8 {
        let base = [1, 5, 9, 9][usize::from(state.div_ceil(4))];
        text += &based_line(state, 0, 4, base, base + 3);
        if (5..9).contains(&state) {
            text += &based_line(state, 1, 4, base, base + 3);
        }
    }
    pack(&text)
}

pub(super) fn words(nodes: &[&str]) -> Vec<String> {
    nodes.iter().map(|node| node.to_string()).collect()
}

/// Everyday questions, and worst cases within the limits of each kind.
pub fn bench_cases() -> Vec<Case> {
    let mut cases = bench_everyday::cases();
    cases.extend(one_of_each());
    cases.extend(bench_few::cases());
    cases.extend(bench_equal::cases());
    cases.extend(bench_sure::cases());
    cases.extend(bench_windows::cases());
    cases.extend(bench_skewed::cases());
    cases.extend(bench_turns::cases());
    cases.extend(bench_gains::cases(&ten_outcomes(), &equal_levels()));
    cases.extend(bench_reasons::cases());
    cases
}

/// One worst case of each kind.
fn one_of_each() -> Vec<Case> {
    let case = Case::new;
    let ten = ten_outcomes();
    let levels = equal_levels();
    let gain_root = words(&["gain 6 steps greater 2", "plan 0 steps 6 greater 1/2"]);
    let equal_root = words(&[
        "gain 6 steps greater 6",
        "plan 0 steps 6 equal 123457/1000000",
    ]);
    vec![
        case("greater-million-paths", &ten, &gain_root),
        case("equal-65536-plans", &levels, &equal_root),
        case("formula-39-nodes", &ten, &long_formula()),
        case("and-of-itself-38", &ten, &doubled_formula()),
        case("nested-shallow-37", &ten, &nested_shallow()),
        case("nested-deep-gains", &ten, &nested_deep("greater", 6)),
        case("nested-one-gain", &ten, &nested_one_gain()),
        case("nested-both-ways", &ten, &nested_both_ways()),
        case("nested-equal", &levels, &nested_deep("equal", 3)),
        case("silent-greater-half", &half_silent(), &gain_root),
        case("silent-equal-65536", &most_plans(false, true), &equal_root),
        case("silent-all-nested-37", &all_silent(), &nested_shallow()),
        case(
            "silent-nested-gains",
            &ten_and_silent(),
            &nested_deep("greater", 6),
        ),
    ]
}

/// 39 nodes that are all worked out at the end of each path.
fn long_formula() -> Vec<String> {
    let mut nodes = words(&["gain 6 steps greater 0", "gain 6 steps less 9"]);
    for own in 2..39 {
        nodes.push(match own % 3 {
            0 => format!("not {}", own - 1),
            _ => format!("and {} {}", own - 1, own - 2),
        });
    }
    nodes.push("plan 38 steps 6 greater 1/2".to_string());
    nodes
}

fn doubled_formula() -> Vec<String> {
    let mut nodes = words(&["gain 6 steps greater 2"]);
    for own in 1..39 {
        nodes.push(format!("and {0} {0}", own - 1));
    }
    nodes.push("plan 38 steps 6 greater 1/2".to_string());
    nodes
}

fn nested_shallow() -> Vec<String> {
    let mut nodes = words(&["proposition 0", "next 0"]);
    for own in 2..39 {
        nodes.push(format!("plan {} steps 6 greater 1/2", own - 1));
    }
    nodes.push("plan 38 steps 6 greater 1/2".to_string());
    nodes
}

/// 18 "plan" nodes, each a search six steps deep in every state: all ask for
/// the same gain and for the node before.
fn nested_one_gain() -> Vec<String> {
    let mut nodes = words(&["gain 6 steps greater 0", "plan 0 steps 6 greater 1/1000"]);
    while nodes.len() + 5 <= 40 {
        let last = nodes.len() - 1;
        nodes.push(format!("and 0 {last}"));
        nodes.push(format!("plan {} steps 6 greater 1/1000", last + 1));
    }
    let last = nodes.len() - 1;
    nodes.push(format!("next {last}"));
    nodes.push(format!("next {}", last + 1));
    nodes.push(format!("plan {} steps 2 greater 1/1000", last + 2));
    nodes
}

/// 14 "plan" nodes, each a search six steps deep in every state: seven gains,
/// each asked for a greater and for a less chance together with the nodes
/// before.
pub(super) fn nested_both_ways() -> Vec<String> {
    let mut nodes = words(&["gain 6 steps greater 0"]);
    for own in 1..8 {
        let last = nodes.len() - 1;
        nodes.push(format!("plan {last} steps 6 greater 1/1000"));
        nodes.push(format!("plan {last} steps 6 less 999/1000"));
        nodes.push(format!("and {} {}", last + 1, last + 2));
        if own < 7 {
            nodes.push(format!("gain 6 steps greater {}", -own));
            nodes.push(format!("and {} {}", last + 3, last + 4));
        }
    }
    let last = nodes.len() - 1;
    nodes.push(format!("next {last}"));
    nodes.push(format!("next {}", last + 1));
    nodes.push(format!("plan {} steps 2 greater 1/1000", last + 2));
    nodes
}

/// Plan nodes that need the one below in every state, each with a gain.
fn nested_deep(relation: &str, gain: u8) -> Vec<String> {
    let mut nodes = words(&["proposition 0"]);
    while nodes.len() + 4 <= 40 {
        let last = nodes.len() - 1;
        let bound = nodes.len() as i32 / 4 - 4;
        nodes.push(format!("gain {gain} steps greater {bound}"));
        nodes.push(format!("next {last}"));
        nodes.push(format!("and {} {}", last + 1, last + 2));
        nodes.push(format!("plan {} steps 6 {relation} 1/2", last + 3));
    }
    nodes
}

#[cfg(test)]
mod tests {
    use super::*;
    use crate::blocks::read_model;
    use crate::logic::{Model, Totals};

    fn read(bytes: &[u8]) -> Model {
        read_model(bytes).expect("an accepted model")
    }

    fn totals(model: &[u8]) -> (Totals, u8) {
        let model = read(model);
        (Totals::of(&model), model.states() as u8)
    }

    #[test]
    fn bench_cases_are_served() {
        for model in [
            ten_outcomes(),
            equal_levels(),
            ten_and_silent(),
            all_silent(),
        ] {
            let (totals, states) = totals(&model);
            assert!((0..states).all(|state| totals.paths(6, state) <= 1_000_000));
        }
        assert_eq!(totals(&ten_outcomes()).0.paths(6, 0), 1_000_000);
        assert_eq!(totals(&all_silent()).0.paths(6, 0), 1);
        assert_eq!(totals(&half_silent()).0.paths(6, 0), 805_255);
        assert_eq!(totals(&most_plans(false, true)).0.plans(6, 0), 65_536);
        assert_eq!(totals(&equal_levels()).0.plans(6, 0), 65_536);
    }

    #[test]
    fn silent_states() {
        let silent = |bytes: &[u8]| -> Vec<u8> {
            let model = read(bytes);
            let states = 0..model.states() as u8;
            states.filter(|state| model.is_silent(*state)).collect()
        };
        assert_eq!(silent(&ten_outcomes()), []);
        assert_eq!(silent(&ten_and_silent()), [3, 7, 11, 15, 19, 23, 27, 31]);
        assert_eq!(silent(&all_silent()).len(), 32);
        assert_eq!(silent(&half_silent()), [17, 18, 19, 20]);
    }
}
