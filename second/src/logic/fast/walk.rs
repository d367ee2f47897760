//! The values of a condition along one history after another.

use super::has;
use super::program::{Program, Rule};
use crate::logic::{Model, Outcome, SILENT};

/// Where a history stands. Values of earlier steps stay as they are while
/// later steps are tried, so going back costs nothing.
pub(super) struct Walk<'a> {
    pub(super) model: &'a Model,
    pub(super) program: &'a Program,
    values: Vec<bool>,
    /// The rewards summed up to each step.
    sums: [i32; 8],
    pub(super) start: u8,
}

impl<'a> Walk<'a> {
    /// Begins in a state.
    pub(super) fn from(model: &'a Model, program: &'a Program, start: u8) -> Walk<'a> {
        let mut walk = Walk {
            model,
            program,
            values: vec![false; program.values()],
            sums: [0; 8],
            start,
        };
        // Nothing has been done yet, and no rule asks at step 0.
        walk.settle(0, start, SILENT);
        walk
    }

    /// Goes from `step` one on, by an action with one of its outcomes.
    pub(super) fn enter(&mut self, step: usize, action: u8, outcome: &Outcome) {
        self.sums[step + 1] = self.sums[step] + i32::from(outcome.reward);
        self.settle(step + 1, outcome.target, action);
    }

    /// Works out what becomes known at a step.
    fn settle(&mut self, step: usize, state: u8, action: u8) {
        for (value, rule) in self.program.known_at(step) {
            self.values[*value] = match *rule {
                Rule::InSet(set) => has(set, state),
                Rule::Not(child) => !self.values[child],
                Rule::And(left, right) => self.values[left] && self.values[right],
                Rule::Did(wanted) => action == wanted,
                Rule::Gained {
                    since,
                    relation,
                    bound,
                } => relation.relates(self.sums[step] - self.sums[since], bound),
            };
        }
    }

    /// The condition's value, once its last step has been entered.
    pub(super) fn answer(&self) -> bool {
        self.values[self.program.answer()]
    }
}
