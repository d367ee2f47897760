//! Worst cases in which steps with many outcomes take turns with certain ones.
//! Where the last step is certain, nearly every path is a history of its own,
//! and what one history has found out serves no other.

use super::bench::{words, Case};
use super::bench_asked::Asked;
use super::bench_windows::windows_above;
use super::cases::{pack, LOW_BITS, POSTS};

/// States of one kind.
#[derive(Clone, Copy)]
struct Group {
    states: usize,
    /// Only one action is enabled, and it has one outcome. Else there are seven
    /// actions of four outcomes beside it: 29 outcomes.
    certain: bool,
    /// The group that all moves lead to.
    next: usize,
}

/// The number of the first state of a group.
fn start(groups: &[Group], number: usize) -> usize {
    groups[..number].iter().map(|group| group.states).sum()
}

/// The reward of an outcome, given its state, its action and its place.
type Reward = fn(usize, usize, usize) -> i32;

/// Rewards from -1 to 1: many histories have gained the same.
fn small(state: usize, action: usize, place: usize) -> i32 {
    match action {
        7 => -(state as i32 % 2),
        _ => (state + action + place) as i32 % 3 - 1,
    }
}

/// Rewards all over the range, without a pattern: hardly two histories have
/// gained the same, so that it helps nobody to remember what they came to.
fn spread(state: usize, action: usize, place: usize) -> i32 {
    let number = (97 * state + 11 * action + place + 1) as u64;
    (((number * 2_654_435_761) >> 7) % 2001) as i32 - 1000
}

/// The model with these groups, one after another.
fn in_turns(groups: &[Group], reward: Reward) -> Vec<u8> {
    let mut text = String::from("model D 100\nproposition 0 b0\nproposition 1 b1\n");
    text += "proposition 2 certain\n";
    for (number, group) in groups.iter().enumerate() {
        for own in 0..group.states {
            let low = ["", "b0", "b1", "b0 b1"][own % 4];
            let flag = if group.certain { "certain" } else { "" };
            text += &format!("state {}: {low} {flag}\n", start(groups, number) + own);
        }
    }
    for action in 0..7 {
        text += &format!("action {action} needs !certain\n{}", POSTS[3]);
    }
    text += &format!("action 7\n{}", POSTS[0]);
    for (number, group) in groups.iter().enumerate() {
        let first = start(groups, group.next);
        let room = groups[group.next].states;
        for own in 0..group.states {
            let state = start(groups, number) + own;
            if !group.certain {
                text += &lines(state, own, first, room, reward);
            }
            let (target, reward) = (first + own % room, reward(state, 7, 0));
            text += &format!("outcome {state} 7: {target} weight 100 reward {reward}\n");
        }
    }
    pack(&text)
}

/// The outcomes of the seven actions of a state, all over the states from
/// `first` on, of which there are so many.
fn lines(state: usize, own: usize, first: usize, room: usize, reward: Reward) -> String {
    let line = |action: usize| {
        let places = LOW_BITS[3].iter().enumerate();
        let parts: Vec<String> = places
            .map(|(place, low)| {
                let fitting: Vec<usize> = (usize::from(*low)..room).step_by(4).collect();
                let target = first + fitting[(action + own) % fitting.len()];
                let reward = reward(state, action, place);
                format!("{target} weight 25 reward {reward}")
            })
            .collect();
        format!("outcome {state} {action}: {}\n", parts.join(", "))
    };
    (0..7).map(line).collect()
}

/// State 0 has 29 outcomes in each of four steps, and then two certain steps:
/// 707,281 paths, more than 28 times as many as any other state.
fn one_state(reward: Reward) -> Vec<u8> {
    let many = |states, next| Group {
        states,
        certain: false,
        next,
    };
    let ends = Group {
        states: 4,
        certain: true,
        next: 4,
    };
    let groups = [many(1, 1), many(4, 2), many(4, 3), many(4, 4), ends];
    in_turns(&groups, reward)
}

/// Three groups by turns. From each of the 14 states of the last there are 29
/// outcomes, 29 again, and then a certain step back to it: 707,281 paths of six
/// steps, and as many of five.
fn three_by_turns(reward: Reward) -> Vec<u8> {
    let group = |states, certain, next| Group {
        states,
        certain,
        next,
    };
    let groups = [group(4, false, 1), group(14, true, 2), group(14, false, 0)];
    in_turns(&groups, reward)
}

/// Bounds that every path passes in all windows, so that no plan has less than
/// the whole. Whoever does not see that walks all paths.
fn low(length: usize) -> i32 {
    -2 * length as i32
}

/// Bounds that some paths pass in all windows, but not all paths of any plan.
fn high(length: usize) -> i32 {
    -i32::from(length == 1)
}

/// Bounds about which little is known before the path ends.
fn middle(length: usize) -> i32 {
    -10 * length as i32
}

/// One plan with a gain of all six steps.
fn gain() -> Vec<String> {
    words(&["gain 6 steps greater 2", "plan 0 steps 6 greater 1/1"])
}

/// One plan over all windows.
fn root(bounds: fn(usize) -> i32, bound: &str) -> Vec<String> {
    let mut asked = Asked::default();
    let all = windows_above(&mut asked, 6, bounds);
    asked.plan(all, 6, bound);
    asked.nodes()
}

/// As many plans as there is room for, all needed in the states that two steps
/// lead to, each with a bound of its own for the gain of all six steps. None is
/// true. With a "not" over each, none can be passed over for another one.
fn apart(bounds: fn(usize) -> i32, bound: &str, with_not: bool) -> Vec<String> {
    let mut asked = Asked::default();
    let shorter = windows_above(&mut asked, 5, bounds);
    let shorter = asked.after(1, shorter);
    let each = if with_not { 5 } else { 4 };
    let mut joined = None;
    for own in 0.. {
        if asked.room() + usize::from(own == 0) < each + Asked::room_for_everywhere(2) {
            break;
        }
        let gain = asked.gain(6, &format!("greater {}", bounds(6) - own));
        let all = asked.and(gain, shorter);
        let mut plan = asked.plan(all, 6, bound);
        if with_not {
            plan = asked.not(plan);
        }
        joined = match joined {
            Some(before) => Some(asked.and(before, plan)),
            None => Some(plan),
        };
    }
    asked.everywhere(joined.unwrap_or_default(), 2)
}

pub(super) fn cases() -> Vec<Case> {
    let (one, three) = (one_state(small), three_by_turns(small));
    let (one_spread, three_spread) = (one_state(spread), three_by_turns(spread));
    let greater = "greater 1/1";
    vec![
        Case::new("one-state-gain", &one, &gain()),
        Case::new("one-state-greater", &one, &root(high, greater)),
        Case::new("one-state-less", &one, &root(low, "less 0/1")),
        Case::new("one-state-spread", &one_spread, &root(middle, greater)),
        Case::new("turns-greater", &three, &apart(high, greater, false)),
        Case::new("turns-less", &three, &apart(low, "less 0/1", true)),
        Case::new("turns-spread", &three_spread, &apart(middle, greater, true)),
    ]
}

#[cfg(test)]
mod tests {
    use super::*;
    use crate::blocks::read_model;
    use crate::generate::bench_models::tests::{met_after, served};
    use crate::logic::Totals;

    #[test]
    fn within_the_limits() {
        cases().iter().for_each(|case| drop(served(case)));
    }

    #[test]
    fn one_state_has_all_paths() {
        let model = read_model(&one_state(spread)).expect("an accepted model");
        let totals = Totals::of(&model);
        assert_eq!(totals.paths(6, 0), 707_281);
        let states = 1..model.states() as u8;
        let others = states.map(|state| totals.paths(6, state)).max();
        assert!(others < Some(707_281 / 28));
    }

    #[test]
    fn as_many_plans_as_fit() {
        let plans = |name: &str| {
            let case = cases().into_iter().find(|case| case.name == name);
            served(&case.expect(name)).2.plan_nodes().count()
        };
        assert_eq!(plans("turns-greater"), 7);
        assert_eq!(plans("turns-less"), 5);
        assert_eq!(plans("turns-spread"), 5);
    }

    /// All 14 states of the last group are met after two steps.
    #[test]
    fn as_many_histories_as_paths() {
        let model = read_model(&three_by_turns(small)).expect("an accepted model");
        let totals = Totals::of(&model);
        assert_eq!(met_after(&model, 2), (18..32).collect::<Vec<u8>>());
        for state in 18..32 {
            assert_eq!(totals.paths(6, state), 707_281);
            assert_eq!(totals.paths(5, state), 707_281);
        }
    }
}
