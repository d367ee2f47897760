//! Models for timing in which every action is enabled in every state.

use super::cases::{pack, LOW_BITS, POSTS};

/// What the outcomes of such a model are like.
#[derive(Clone, Copy)]
pub(super) struct Open {
    /// The number of states: 4, 8, 16 or 32.
    pub states: usize,
    /// How many outcomes each action has.
    pub arities: &'static [usize],
    pub denominator: u8,
    /// The weights of an action, given its state, its number and how many
    /// outcomes it has.
    pub weights: fn(usize, usize, usize) -> &'static [u8],
    /// The reward of an outcome, given its state, its action and its place.
    pub reward: fn(usize, usize, usize) -> i32,
}

impl Open {
    /// The packed model. The propositions are the bits of the state's number.
    pub(super) fn packed(&self) -> Vec<u8> {
        let bits = self.states.ilog2();
        let mut text = format!("model D {} N {bits}\n", self.denominator);
        text += "proposition 0 b0\nproposition 1 b1\n";
        for state in 0..self.states {
            let truths = (0..bits).filter(|bit| state >> bit & 1 == 1);
            let words: String = truths.map(|bit| format!(" {bit}")).collect();
            text += &format!("state {state}:{words}\n");
        }
        for (action, arity) in self.arities.iter().enumerate() {
            text += &format!("action {action}\n{}", POSTS[arity - 1]);
        }
        for state in 0..self.states {
            for action in 0..self.arities.len() {
                text += &self.line(state, action);
            }
        }
        pack(&text)
    }

    fn line(&self, state: usize, action: usize) -> String {
        let arity = self.arities[action];
        let weights = (self.weights)(state, action, arity).iter().enumerate();
        let parts: Vec<String> = weights
            .map(|(place, weight)| {
                let target = self.target(state, action, place);
                let reward = (self.reward)(state, action, place);
                format!("{target} weight {weight} reward {reward}")
            })
            .collect();
        format!("outcome {state} {action}: {}\n", parts.join(", "))
    }

    /// A state in which the postcondition is true. The factors are odd, so that
    /// the targets of all states are spread over all states.
    fn target(&self, state: usize, action: usize, place: usize) -> usize {
        match self.arities[action] {
            1 => (6 * state + action + 3) % self.states,
            2 => 2 * ((5 * state + 3 * action + 7 * place + 1) % (self.states / 2)) + 1 - place,
            arity => {
                let group = (7 * state + 3 * action + 5 * place) % (self.states / 4);
                4 * group + usize::from(LOW_BITS[arity - 1][place])
            }
        }
    }
}

/// Weights out of 10 that differ from state to state and from action to action.
pub(super) fn mixed(state: usize, action: usize, arity: usize) -> &'static [u8] {
    super::cases::WEIGHTS[arity - 1][(state / 3 + action) % 2]
}

/// Rewards from -4 to 4.
pub(super) fn small_rewards(state: usize, action: usize, place: usize) -> i32 {
    (13 * state + 7 * action + 11 * place) as i32 % 9 - 4
}

/// Rewards from -20 to 20.
pub(super) fn wide_rewards(state: usize, action: usize, place: usize) -> i32 {
    (13 * state + 7 * action * action + 29 * place) as i32 % 41 - 20
}

/// So many states with actions of so many outcomes in each, mixed weights and
/// small rewards.
pub(super) fn alike(states: usize, arities: &'static [usize]) -> Vec<u8> {
    let open = Open {
        states,
        arities,
        denominator: 10,
        weights: mixed,
        reward: small_rewards,
    };
    open.packed()
}

/// 32 states with six certain moves in each: 46,656 plans of six steps from
/// every state.
pub(super) fn six_moves() -> Vec<u8> {
    let open = Open {
        states: 32,
        arities: &[1; 6],
        denominator: 10,
        weights: mixed,
        reward: wide_rewards,
    };
    open.packed()
}

/// 32 states with ten outcomes in each: a million paths of six steps from every
/// state. The weights of an action are given by its number of outcomes.
pub(super) fn ten_outcomes(
    denominator: u8,
    weights: fn(usize, usize, usize) -> &'static [u8],
) -> Vec<u8> {
    let open = Open {
        states: 32,
        arities: &[4, 4, 2],
        denominator,
        weights,
        reward: small_rewards,
    };
    open.packed()
}

/// So many actions of four outcomes in state 0 and in the four states after it,
/// then one. Every plan from state 0 has 1,365 choices, the most; of four actions
/// there are 1,024 plans and 65,536 paths, of eight 32,768 and 262,144. Choices
/// that come later make far more plans of as many paths.
pub(super) fn early_choices(actions: usize) -> Vec<u8> {
    let mut text = String::from("model D 10\n");
    for (number, name) in ["b0", "b1", "late"].iter().enumerate() {
        text += &format!("proposition {number} {name}\n");
    }
    text += "state 0:\n";
    for (group, flag) in ["", "late"].iter().enumerate() {
        for (number, low) in ["", "b0", "b1", "b0 b1"].iter().enumerate() {
            text += &format!("state {}: {low} {flag}\n", 1 + 4 * group + number);
        }
    }
    text += &format!("action 0\n{}", POSTS[3]);
    for action in 1..actions {
        text += &format!("action {action} needs !late\n{}", POSTS[3]);
    }
    for state in 0..9 {
        for action in 0..if state < 5 { actions } else { 1 } {
            text += &early_line(state, action);
        }
    }
    pack(&text)
}

/// An outcome line to the first four states after state 0, or to the last four.
fn early_line(state: usize, action: usize) -> String {
    let first = if state == 0 { 1 } else { 5 };
    let lows = LOW_BITS[3].iter().zip(mixed(state, action, 4)).enumerate();
    let parts: Vec<String> = lows
        .map(|(place, (low, weight))| {
            let reward = (state + action + place) as i32 % 3 - 1;
            let target = first + usize::from(*low);
            format!("{target} weight {weight} reward {reward}")
        })
        .collect();
    format!("outcome {state} {action}: {}\n", parts.join(", "))
}

#[cfg(test)]
pub(super) mod tests {
    use super::*;
    use crate::blocks::{read_model, read_question};
    use crate::generate::bench::Case;
    use crate::logic::{check_limits, Model, Plan, Question, Totals};

    /// The states that can be met after just so many steps from state 0.
    pub fn met_after(model: &Model, steps: usize) -> Vec<u8> {
        let mut states = vec![0];
        for _ in 0..steps {
            let moves = states.iter().flat_map(|state| model.moves(*state));
            states = moves
                .flat_map(|entry| entry.outcomes.iter().map(|outcome| outcome.target))
                .collect();
            states.sort();
            states.dedup();
        }
        states
    }

    /// The case read back: the model, its totals and the question, which is
    /// within the limits.
    pub fn served(case: &Case) -> (Model, Totals, Question) {
        let model = read_model(&case.model).expect(case.name);
        let question = read_question(&case.question, &model).expect(case.name);
        let totals = Totals::of(&model);
        check_limits(&question, &totals).expect(case.name);
        (model, totals, question)
    }

    #[test]
    fn paths_and_plans() {
        let six = read_model(&six_moves()).expect("an accepted model");
        let totals = Totals::of(&six);
        assert!((0..32).all(|state| totals.plans(6, state) == 46_656));
        let ten = read_model(&ten_outcomes(10, mixed)).expect("an accepted model");
        let totals = Totals::of(&ten);
        assert!((0..32).all(|state| totals.paths(6, state) == 1_000_000));
    }

    #[test]
    fn early_choices_are_few() {
        for (actions, plans, paths) in [(4, 1_024, 65_536), (8, 32_768, 262_144)] {
            let model = read_model(&early_choices(actions)).expect("an accepted model");
            let totals = Totals::of(&model);
            assert_eq!(totals.plans(6, 0), plans);
            assert_eq!(totals.paths(6, 0), paths);
            assert_eq!(Plan::first(&model, 0, 6).choices(&model).len(), 1365);
        }
    }

    #[test]
    fn all_states_are_met() {
        for bytes in [six_moves(), ten_outcomes(10, mixed)] {
            let model = read_model(&bytes).expect("an accepted model");
            assert_eq!(met_after(&model, 2).len(), 32);
            assert_eq!(met_after(&model, 6).len(), 32);
        }
    }
}
