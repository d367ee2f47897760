//! A path: the states passed, with the action and reward of each step.

use super::Outcome;

/// A path of document 001, Definition 2, with the rewards of its steps.
#[derive(Clone, Debug, PartialEq, Eq)]
pub struct Path {
    /// One more than there are steps.
    pub states: Vec<u8>,
    /// The action of each step, or 255 for a silent one.
    pub actions: Vec<u8>,
    pub rewards: Vec<i16>,
    /// The product of the weights of its steps.
    pub weight: u64,
}

impl Path {
    /// The path of no steps, which only stands in a state.
    pub fn standing(state: u8) -> Path {
        Path {
            states: vec![state],
            actions: Vec::new(),
            rewards: Vec::new(),
            weight: 1,
        }
    }

    /// The path one step on, by an action with one of its outcomes.
    pub fn extended(&self, action: u8, outcome: &Outcome) -> Path {
        let mut path = self.clone();
        path.states.push(outcome.target);
        path.actions.push(action);
        path.rewards.push(outcome.reward);
        path.weight = path.weight.saturating_mul(u64::from(outcome.weight));
        path
    }

    /// The sum of `steps` rewards from a place on.
    pub fn gain(&self, place: usize, steps: usize) -> i32 {
        let rewards = self.rewards.iter().skip(place).take(steps);
        rewards.map(|reward| i32::from(*reward)).sum()
    }

    /// The cumulative reward of the steps `first` to `last`, counted from 1:
    /// of s_l a_l .. s_u a_u s_u+1 in source document 000, Definition 13.
    pub fn gain_of_steps(&self, first: u8, last: u8) -> i32 {
        let numbered = (1u8..).zip(&self.rewards);
        let summed = numbered.filter(|(step, _)| (first..=last).contains(step));
        summed.map(|(_, reward)| i32::from(*reward)).sum()
    }
}
