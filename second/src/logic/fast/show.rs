//! From what the search found to the choices of the shown plan.

use super::search::greatest_by;
use super::walk::Walk;
use crate::logic::{Model, Move, Plan, Totals};

/// The greatest total and the choices of the first plan that has it. All
/// weights are at least 1, so such a plan is best below each outcome, and the
/// first best choice at each history makes up the first best plan.
pub(super) fn best_choices(walk: &mut Walk, steps: usize, wanted: bool) -> (u64, Vec<u8>) {
    let mut choices = Vec::new();
    let total = follow_best(walk, 0, walk.start, steps, wanted, &mut choices);
    (total, choices)
}

fn follow_best(
    walk: &mut Walk,
    step: usize,
    state: u8,
    steps: usize,
    wanted: bool,
    choices: &mut Vec<u8>,
) -> u64 {
    let model = walk.model;
    if step >= walk.program.depth() {
        first_choices(model, state, steps - step, choices);
        return u64::from(walk.answer() == wanted);
    }
    let Some((total, entry)) = best_move(walk, step, model.moves(state), wanted) else {
        return 0;
    };
    choices.push(entry.action);
    for outcome in &entry.outcomes {
        walk.enter(step, entry.action, outcome);
        follow_best(walk, step + 1, outcome.target, steps, wanted, choices);
    }
    total
}

/// The first move with the greatest total.
fn best_move<'a>(
    walk: &mut Walk,
    step: usize,
    moves: &'a [Move],
    wanted: bool,
) -> Option<(u64, &'a Move)> {
    let mut best: Option<(u64, &Move)> = None;
    for entry in moves {
        let total = greatest_by(walk, step, entry, wanted);
        if best.is_none_or(|(greatest, _)| total > greatest) {
            best = Some((total, entry));
        }
    }
    best
}

/// Beyond the condition's depth every plan weighs the same: the lowest
/// choices come first.
pub(super) fn first_choices(model: &Model, state: u8, steps: usize, choices: &mut Vec<u8>) {
    if steps > 0 {
        choices.extend(Plan::first(model, state, steps).choices(model));
    }
}

/// The choices of the first plan of `steps` steps that begins with plan
/// `number` of `depth` steps, and how many plans of `steps` steps come before.
pub(super) fn numbered_choices(
    model: &Model,
    totals: &Totals,
    steps: usize,
    depth: usize,
    start: u8,
    number: u64,
) -> (Vec<u8>, u64) {
    let mut decoder = Decoder {
        model,
        totals,
        choices: Vec::new(),
    };
    let before = decoder.decode(start, steps, depth, number);
    (decoder.choices, before)
}

struct Decoder<'a> {
    model: &'a Model,
    totals: &'a Totals,
    choices: Vec<u8>,
}

impl Decoder<'_> {
    /// Adds the choices from a state on; gives how many plans come before.
    fn decode(&mut self, state: u8, steps: usize, depth: usize, number: u64) -> u64 {
        if depth == 0 {
            first_choices(self.model, state, steps, &mut self.choices);
            return 0;
        }
        let mut number = number;
        let mut before = 0;
        for entry in self.model.moves(state) {
            let here = self.plans_by(entry, depth);
            if number < here {
                return before + self.decode_move(entry, steps, depth, number);
            }
            number -= here;
            before += self.plans_by(entry, steps);
        }
        before
    }

    /// The number splits into one for each outcome, the last counting ones.
    fn decode_move(&mut self, entry: &Move, steps: usize, depth: usize, number: u64) -> u64 {
        self.choices.push(entry.action);
        let mut rest = number;
        let mut left = self.plans_by(entry, depth);
        let mut before = 0;
        for outcome in &entry.outcomes {
            left /= self.totals.plans(depth - 1, outcome.target).max(1);
            let own = rest / left.max(1);
            rest %= left.max(1);
            let place = self.decode(outcome.target, steps - 1, depth - 1, own);
            before = before * self.totals.plans(steps - 1, outcome.target) + place;
        }
        before
    }

    /// How many plans of so many steps begin with a move.
    fn plans_by(&self, entry: &Move, steps: usize) -> u64 {
        let below = entry.outcomes.iter();
        let counts = below.map(|outcome| self.totals.plans(steps - 1, outcome.target));
        counts.fold(1, u64::saturating_mul)
    }
}
