//! How many paths and plans there are, counted on states alone, and the two
//! limits on them (grounds 24 and 25). A silent move counts as any move with
//! one outcome, so a silent state has one path and one plan of any length.

use super::{Model, Question, Relation};
use crate::ground::{demand, Ground};

pub const MOST_PATHS: u64 = 1_000_000;
pub const MOST_PLANS: u64 = 65_536;
const MOST_STEPS: usize = 6;

/// For each number of steps, a count for each state. Counts too large for the
/// type stay at its end; all are far above the limits there.
pub struct Totals {
    paths: Vec<Vec<u64>>,
    plans: Vec<Vec<u64>>,
}

impl Totals {
    pub fn of(model: &Model) -> Totals {
        let ones = vec![1; model.states()];
        let mut totals = Totals {
            paths: vec![ones.clone()],
            plans: vec![ones],
        };
        let states = || (0..model.states()).map(|state| u8::try_from(state).unwrap_or(u8::MAX));
        for steps in 1..=MOST_STEPS {
            let paths = states().map(|state| totals.count_paths(model, steps, state));
            let paths = paths.collect();
            let plans = states().map(|state| totals.count_plans(model, steps, state));
            let plans = plans.collect();
            totals.paths.push(paths);
            totals.plans.push(plans);
        }
        totals
    }

    /// How many paths of so many steps begin in a state, over all choices.
    pub fn paths(&self, steps: usize, state: u8) -> u64 {
        lookup(&self.paths, steps, state)
    }

    /// How many plans of so many steps there are from a state.
    pub fn plans(&self, steps: usize, state: u8) -> u64 {
        lookup(&self.plans, steps, state)
    }

    fn count_paths(&self, model: &Model, steps: usize, state: u8) -> u64 {
        let outcomes = model.moves(state).iter().flat_map(|entry| &entry.outcomes);
        let below = outcomes.map(|outcome| self.paths(steps - 1, outcome.target));
        below.fold(0, u64::saturating_add)
    }

    fn count_plans(&self, model: &Model, steps: usize, state: u8) -> u64 {
        let by_move = model.moves(state).iter().map(|entry| {
            let below = entry.outcomes.iter();
            let counts = below.map(|outcome| self.plans(steps - 1, outcome.target));
            counts.fold(1, u64::saturating_mul)
        });
        by_move.fold(0, u64::saturating_add)
    }

    fn most(table: &[Vec<u64>], steps: usize) -> u64 {
        let row = table.get(steps).into_iter().flatten();
        row.copied().max().unwrap_or(0)
    }
}

fn lookup(table: &[Vec<u64>], steps: usize, state: u8) -> u64 {
    let row = table.get(steps);
    row.and_then(|row| row.get(usize::from(state)))
        .copied()
        .unwrap_or(0)
}

/// Grounds 24 and 25: every plan node, in every state of the model.
pub fn check_limits(question: &Question, totals: &Totals) -> Result<(), Ground> {
    let plans = || question.plan_nodes().map(|(_, plan)| plan);
    let few_paths = plans().all(|plan| Totals::most(&totals.paths, plan.steps()) <= MOST_PATHS);
    demand(few_paths, Ground::TooManyPaths)?;
    let mut counted = plans().filter(|plan| plan.relation == Relation::Equal);
    let few_plans = counted.all(|plan| Totals::most(&totals.plans, plan.steps()) <= MOST_PLANS);
    demand(few_plans, Ground::TooManyPlans)
}
