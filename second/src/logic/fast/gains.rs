//! Totals of gains (operator 9), by tables over the steps taken and the state
//! reached: what can still be gained does not depend on the history before.

use super::show::{first_choices, numbered_choices};
use super::totals::{each_sum, find_sum};
use super::wanted_total;
use crate::logic::{Judged, Model, Move, Outcome, Plan, PlanNode};
use crate::logic::{Relation, Summed, Totals};
use std::collections::HashMap;

/// A node's window of steps on a model. Steps after the last one of the window
/// change no total but by a factor, so tables and lists end there.
pub(super) struct Gains<'a> {
    model: &'a Model,
    node: PlanNode,
    first: usize,
    last: usize,
    /// For each number of steps taken, the best total on from each state.
    best: Vec<Vec<i64>>,
    /// For steps taken and a state, the totals of all plans on from there.
    lists: HashMap<(usize, u8), Vec<i64>>,
}

impl<'a> Gains<'a> {
    /// None for a node that sums no gains.
    pub(super) fn of(model: &'a Model, node: &PlanNode) -> Option<Gains<'a>> {
        let Summed::Gains { first, last } = node.summed else {
            return None;
        };
        let mut gains = Gains {
            model,
            node: *node,
            first: first.into(),
            last: node.steps().min(last.into()),
            best: Vec::new(),
            lists: HashMap::new(),
        };
        if node.relation != Relation::Equal {
            gains.fill_best();
        }
        Some(gains)
    }

    /// What a step adds to a total over D to the steps left when it is made,
    /// before it is weighed: its reward for all that can follow within the
    /// window, if it is in it.
    fn gained(&self, taken: usize, outcome: &Outcome) -> i64 {
        match taken + 1 >= self.first {
            true => i64::from(outcome.reward) * self.whole(self.last - taken - 1),
            false => 0,
        }
    }

    fn whole(&self, steps: usize) -> i64 {
        i64::try_from(self.model.whole(steps)).unwrap_or(i64::MAX)
    }

    /// The total of a move after some steps, where `further` gives that from
    /// the state on to which an outcome in some place leads.
    fn weighed(
        &self,
        taken: usize,
        entry: &Move,
        mut further: impl FnMut(usize, u8) -> i64,
    ) -> i64 {
        let numbered = entry.outcomes.iter().enumerate();
        let summands = numbered.map(|(place, outcome)| {
            let total = self.gained(taken, outcome) + further(place, outcome.target);
            i64::from(outcome.weight) * total
        });
        summands.sum()
    }

    fn fill_best(&mut self) {
        let states = || 0..u8::try_from(self.model.states()).unwrap_or(u8::MAX);
        let mut best = vec![vec![0; self.model.states()]];
        for taken in (0..self.last).rev() {
            let further = &best[0];
            let row = states().map(|state| self.best_move(taken, state, further).0);
            let row = row.collect();
            best.insert(0, row);
        }
        self.best = best;
    }

    /// The best total after some steps, and the first move that has it;
    /// `further` has the best ones a step later.
    fn best_move(&self, taken: usize, state: u8, further: &[i64]) -> (i64, Option<&'a Move>) {
        let mut best = (0, None);
        for entry in self.model.moves(state) {
            let total = self.weighed(taken, entry, |_, target| further[usize::from(target)]);
            if best.1.is_none() || self.node.relation.relates(total, best.0) {
                best = (total, Some(entry));
            }
        }
        best
    }

    /// The choices of the first plan with the best total. All weights are at
    /// least 1, so such a plan is best below each outcome.
    fn best_choices(&self, taken: usize, state: u8, choices: &mut Vec<u8>) {
        if taken == self.last {
            first_choices(self.model, state, self.node.steps() - taken, choices);
            return;
        }
        let (_, entry) = self.best_move(taken, state, &self.best[taken + 1]);
        if let Some(entry) = entry {
            choices.push(entry.action);
            for outcome in &entry.outcomes {
                self.best_choices(taken + 1, outcome.target, choices);
            }
        }
    }

    /// The totals of all plans after some steps, in dictionary order.
    fn list(&mut self, taken: usize, state: u8) -> Vec<i64> {
        if taken == self.last {
            return vec![0];
        }
        if let Some(known) = self.lists.get(&(taken, state)) {
            return known.clone();
        }
        let mut list = Vec::new();
        for entry in self.model.moves(state) {
            list.append(&mut super::totals::combine(&self.lists_below(taken, entry)));
        }
        self.lists.insert((taken, state), list.clone());
        list
    }

    /// For each outcome of a move, its share of the totals of all plans below.
    fn lists_below(&mut self, taken: usize, entry: &Move) -> Vec<Vec<i64>> {
        let mut lists = Vec::with_capacity(entry.outcomes.len());
        for outcome in &entry.outcomes {
            let gained = self.gained(taken, outcome);
            let weight = i64::from(outcome.weight);
            let below = self.list(taken + 1, outcome.target).into_iter();
            lists.push(below.map(|total| weight * (gained + total)).collect());
        }
        lists
    }

    /// The number, from 0, of the first plan that meets an "equal" bound among
    /// those that end with the window.
    fn first_equal(&mut self, state: u8) -> Option<u64> {
        let wanted = wanted_total(&self.node, self.model.whole(self.last))?;
        let mut passed = 0;
        for entry in self.model.moves(state) {
            match find_sum(self.lists_below(0, entry), wanted) {
                Ok(place) => return Some(passed + place),
                Err(count) => passed += count,
            }
        }
        None
    }

    /// Shows the totals of all plans that end with the window, in dictionary
    /// order.
    pub(super) fn each(&mut self, state: u8, seen: &mut impl FnMut(i64)) {
        for entry in self.model.moves(state) {
            each_sum(self.lists_below(0, entry), seen);
        }
    }

    /// The total of all steps from the total of those that matter.
    fn lengthened(&self, total: i64) -> i128 {
        i128::from(total) * i128::from(self.model.whole(self.node.steps() - self.last))
    }

    /// The best total of all plans from a state.
    fn best_from(&self, state: u8) -> i128 {
        let row = self.best.first();
        let total = row.and_then(|row| row.get(usize::from(state)));
        self.lengthened(total.copied().unwrap_or(0))
    }

    fn met_by(&self, total: i128) -> bool {
        let whole = self.model.whole(self.node.steps());
        self.node.met_by(total, whole)
    }

    /// Whether some plan from the state meets the bound.
    pub(super) fn some_plan(&mut self, state: u8) -> bool {
        match self.node.relation {
            Relation::Equal => self.first_equal(state).is_some(),
            _ => self.met_by(self.best_from(state)),
        }
    }

    /// The best total of all plans from a state, and the choices of the first
    /// plan that has it.
    pub(super) fn best_plan(&self, start: u8) -> (i128, Vec<u8>) {
        let mut choices = Vec::new();
        self.best_choices(0, start, &mut choices);
        (self.best_from(start), choices)
    }

    /// The verdict on a root that asks for "equal".
    pub(super) fn judge_equal(&mut self, start: u8, totals: &Totals) -> Judged {
        let steps = self.node.steps();
        let Some(number) = self.first_equal(start) else {
            return Judged::none_equal(totals.plans(steps, start));
        };
        let (choices, before) =
            numbered_choices(self.model, totals, steps, self.last, start, number);
        let whole = self.model.whole(steps);
        let total = wanted_total(&self.node, whole).unwrap_or(0);
        Judged::shown(&self.node, whole, total.into(), before + 1, choices)
    }

    /// The total of a given plan.
    pub(super) fn total(&self, plan: &Plan) -> i128 {
        self.lengthened(self.total_from(0, Some(plan)))
    }

    fn total_from(&self, taken: usize, plan: Option<&Plan>) -> i64 {
        if taken == self.last {
            return 0;
        }
        let chosen = plan.and_then(|plan| Some((plan, plan.chosen(self.model)?)));
        chosen.map_or(0, |(plan, entry)| {
            self.weighed(taken, entry, |place, _| {
                self.total_from(taken + 1, plan.below().get(place))
            })
        })
    }
}
