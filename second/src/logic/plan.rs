//! Plans as trees of choices, in dictionary order.

use super::{Model, Move, Path};

/// A plan: document 01's word for a bounded policy (source document 001,
/// Definition 2), kept as the tree of the histories that it can meet. Since
/// an action's postconditions contradict, its targets differ, so a history of
/// states and a place in this tree are the same thing.
#[derive(Clone, Debug, PartialEq, Eq)]
pub struct Plan {
    state: u8,
    /// The place of the chosen move among the state's.
    option: usize,
    /// The plans below each outcome; none at the last step.
    below: Vec<Plan>,
}

impl Plan {
    /// The first plan in dictionary order: the lowest choices everywhere.
    pub fn first(model: &Model, state: u8, steps: usize) -> Plan {
        Plan::first_with(model, state, steps, 0)
    }

    /// The first one with a given first move, by its place among the state's.
    pub fn first_with(model: &Model, state: u8, steps: usize, option: usize) -> Plan {
        let mut plan = Plan {
            state,
            option,
            below: Vec::new(),
        };
        if steps > 1 {
            let outcomes = plan.chosen(model).map_or(&[][..], |m| &m.outcomes);
            let below = outcomes.iter();
            plan.below = below
                .map(|outcome| Plan::first(model, outcome.target, steps - 1))
                .collect();
        }
        plan
    }

    /// The last plan in dictionary order: the highest choices everywhere.
    pub fn last(model: &Model, state: u8, steps: usize) -> Plan {
        let option = model.moves(state).len().saturating_sub(1);
        let mut plan = Plan::first_with(model, state, steps, option);
        for below in &mut plan.below {
            *below = Plan::last(model, below.state, steps - 1);
        }
        plan
    }

    /// The state in which the plan begins.
    pub fn state(&self) -> u8 {
        self.state
    }

    /// The move that the plan makes first.
    pub fn chosen<'a>(&self, model: &'a Model) -> Option<&'a Move> {
        model.moves(self.state).get(self.option)
    }

    /// The plans that go on below each outcome.
    pub fn below(&self) -> &[Plan] {
        &self.below
    }

    fn steps(&self) -> usize {
        1 + self.below.first().map_or(0, Plan::steps)
    }

    /// Becomes the next plan in dictionary order, if there is one. Choices
    /// below later outcomes come last in that order and so change first.
    pub fn advance(&mut self, model: &Model) -> bool {
        let steps = self.steps();
        for place in (0..self.below.len()).rev() {
            if self.below[place].advance(model) {
                return true;
            }
            let state = self.below[place].state;
            self.below[place] = Plan::first(model, state, steps - 1);
        }
        let more = self.option + 1 < model.moves(self.state).len();
        if more {
            *self = Plan::first_with(model, self.state, steps, self.option + 1);
        }
        more
    }

    /// The choices depth first: that for this history, then those below each
    /// outcome.
    pub fn choices(&self, model: &Model) -> Vec<u8> {
        let mut list: Vec<u8> = self.chosen(model).map(|m| m.action).into_iter().collect();
        for plan in &self.below {
            list.extend(plan.choices(model));
        }
        list
    }

    /// The plan with exactly these choices, if each is an enabled action, or
    /// 255 where none is enabled, and none is missing or left over.
    pub fn from_choices(model: &Model, state: u8, steps: usize, choices: &[u8]) -> Option<Plan> {
        let mut rest = choices.iter();
        let plan = Plan::read(model, state, steps, &mut rest)?;
        rest.next().is_none().then_some(plan)
    }

    fn read(
        model: &Model,
        state: u8,
        steps: usize,
        choices: &mut std::slice::Iter<u8>,
    ) -> Option<Plan> {
        let action = *choices.next()?;
        let moves = model.moves(state);
        let option = moves.iter().position(|entry| entry.action == action)?;
        let mut below = Vec::new();
        if steps > 1 {
            for outcome in &moves.get(option)?.outcomes {
                below.push(Plan::read(model, outcome.target, steps - 1, choices)?);
            }
        }
        Some(Plan {
            state,
            option,
            below,
        })
    }

    /// Every path that the plan allows, with its weight.
    pub fn paths(&self, model: &Model) -> Vec<Path> {
        let mut found = Vec::new();
        self.extend_paths(model, &Path::standing(self.state), &mut found);
        found
    }

    fn extend_paths(&self, model: &Model, so_far: &Path, found: &mut Vec<Path>) {
        let Some(entry) = self.chosen(model) else {
            return;
        };
        for (place, outcome) in entry.outcomes.iter().enumerate() {
            let path = so_far.extended(entry.action, outcome);
            match self.below.get(place) {
                Some(plan) => plan.extend_paths(model, &path, found),
                None => found.push(path),
            }
        }
    }
}
