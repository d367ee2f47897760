//! The plans that wrong explainers look at, and the totals that they see.

use super::{Case, Fault};
use crate::logic::{plain, Model, Node, Path, Plan, PlanNode, Question};
use crate::logic::{Summed, SILENT};
use std::collections::BTreeMap;

/// Histories by the steps taken and the state reached.
pub(super) type Histories = BTreeMap<(usize, u8), Path>;

/// A plan with its total.
#[derive(Clone)]
pub(super) struct Listed {
    pub(super) total: i128,
    pub(super) choices: Vec<u8>,
    pub(super) plan: Plan,
}

/// All plans of a node in dictionary order.
pub(super) fn all_plans(model: &Model, question: &Question, node: &PlanNode) -> Vec<Listed> {
    let mut plan = Plan::first(model, question.start, node.steps());
    let mut found = Vec::new();
    loop {
        found.push(Listed {
            total: plain::total_of(model, question, node, &plan),
            choices: plan.choices(model),
            plan: plan.clone(),
        });
        if !plan.advance(model) {
            return found;
        }
    }
}

impl Case<'_> {
    /// The plans of an explainer with the fault.
    pub(super) fn plans_by(&self, root: &PlanNode, fault: Fault) -> Vec<Listed> {
        let mut asked = self.question.clone();
        match fault {
            Fault::FromStateZero if asked.start > 0 => {
                asked.start = 0;
                all_plans(self.model, &asked, root)
            }
            Fault::NestedFalse if self.nested() => {
                nested_false(&mut asked);
                all_plans(self.model, &asked, root)
            }
            _ => {
                let mut plans = self.plans.clone();
                self.seen_by(root, fault, &mut plans);
                plans
            }
        }
    }

    /// Whether plan nodes stand before the root.
    fn nested(&self) -> bool {
        self.question.plan_nodes().count() > 1
    }

    /// Leaves of all plans those that an explainer with the fault looks at, with
    /// the totals that it sees. Some plan is always left.
    fn seen_by(&self, root: &PlanNode, fault: Fault, plans: &mut Vec<Listed>) {
        let first = plans.first().cloned();
        match fault {
            Fault::FirstMoveOnly => plans.retain(|listed| self.follows_first(listed, 0)),
            Fault::LastOutcomeOnly => plans.retain(|listed| self.follows_first(listed, 1)),
            Fault::ByState => plans.retain(|listed| chooses_by_state(self.model, &listed.plan)),
            Fault::FirstLeftOut if plans.len() > 1 => drop(plans.remove(0)),
            Fault::LastLeftOut if plans.len() > 1 => drop(plans.pop()),
            Fault::FirstHundred => plans.truncate(100),
            Fault::SilentPassedOver => plans.retain(|listed| !listed.choices.contains(&SILENT)),
            _ => {
                for listed in plans.iter_mut() {
                    listed.total = self.total_by(root, fault, listed);
                }
            }
        }
        if plans.is_empty() {
            plans.extend(first);
        }
    }

    /// Whether the plan has the lowest choices below each outcome of its first
    /// move but so many of the last ones.
    fn follows_first(&self, listed: &Listed, last: usize) -> bool {
        let below = listed.plan.below();
        let steps = self.steps.saturating_sub(1);
        let looked_at = below.len() - last.min(below.len());
        let mut below = below.iter().take(looked_at);
        below.all(|plan| *plan == Plan::first(self.model, plan.state(), steps))
    }

    /// The total that an explainer with the fault sees.
    fn total_by(&self, root: &PlanNode, fault: Fault, listed: &Listed) -> i128 {
        match fault {
            Fault::TotalsUnsigned => listed.total.abs(),
            Fault::TotalCut => (listed.total as i32).into(),
            Fault::SilentPathsLost | Fault::Unweighted => self.sum(root, fault, listed),
            Fault::FromTheStart | Fault::UpToTheEnd if root.sums_gains() => {
                self.sum(&other_window(root, fault), fault, listed)
            }
            Fault::ListsByState if !root.sums_gains() => self.sum_by_state(root, &listed.plan, 0),
            _ => listed.total,
        }
    }

    /// The sum over the plan's paths, some of which may not count or not be
    /// weighed.
    fn sum(&self, root: &PlanNode, fault: Fault, listed: &Listed) -> i128 {
        let paths = listed.plan.paths(self.model).into_iter();
        let counted =
            paths.filter(|path| fault != Fault::SilentPathsLost || !path.actions.contains(&SILENT));
        let summand = |path: Path| {
            let factor = plain::factor_of(self.model, self.question, root, &path);
            let weight = match fault {
                Fault::Unweighted => 1,
                _ => path.weight,
            };
            i128::from(weight) * i128::from(factor)
        };
        counted.map(summand).sum()
    }

    /// The total of a plan's part after some steps, where each history is taken
    /// for the first one that comes to its state after as many steps.
    fn sum_by_state(&self, root: &PlanNode, plan: &Plan, taken: usize) -> i128 {
        let Some(entry) = plan.chosen(self.model) else {
            return 0;
        };
        let history = self.histories.get(&(taken, plan.state()));
        let mut sum = 0;
        for (place, outcome) in entry.outcomes.iter().enumerate() {
            let further = match (plan.below().get(place), history) {
                (Some(below), _) => self.sum_by_state(root, below, taken + 1),
                (None, Some(history)) => {
                    let path = history.extended(entry.action, outcome);
                    plain::factor_of(self.model, self.question, root, &path).into()
                }
                (None, None) => 0,
            };
            sum += i128::from(outcome.weight) * further;
        }
        sum
    }

    /// The plan's choices in its first steps alone.
    pub(super) fn first_choices(&self, plan: &Plan, steps: usize) -> Vec<u8> {
        let mut choices = Vec::new();
        add_choices(self.model, plan, steps, &mut choices);
        choices
    }
}

fn add_choices(model: &Model, plan: &Plan, steps: usize, choices: &mut Vec<u8>) {
    if steps > 0 {
        choices.extend(plan.chosen(model).map(|entry| entry.action));
        for below in plan.below() {
            add_choices(model, below, steps - 1, choices);
        }
    }
}

/// Whether a plan makes one choice in each state that it can be in with some
/// steps left, whatever the states before.
fn chooses_by_state(model: &Model, plan: &Plan) -> bool {
    let mut level = vec![plan];
    while !level.is_empty() {
        let mut chosen: BTreeMap<u8, u8> = BTreeMap::new();
        for plan in &level {
            let action = plan.chosen(model).map_or(0, |entry| entry.action);
            if *chosen.entry(plan.state()).or_insert(action) != action {
                return false;
            }
        }
        level = level.iter().flat_map(|plan| plan.below()).collect();
    }
    true
}

/// The root with another window of steps.
fn other_window(root: &PlanNode, fault: Fault) -> PlanNode {
    let Summed::Gains { first, last } = root.summed else {
        return *root;
    };
    let (first, last) = match fault {
        Fault::FromTheStart => (1, last),
        _ => (first, root.steps),
    };
    PlanNode {
        summed: Summed::Gains { first, last },
        ..*root
    }
}

/// For each number of steps below `steps` and each state the first history that
/// comes to it, depth first in dictionary order.
pub(super) fn first_histories(model: &Model, start: u8, steps: usize) -> Histories {
    let mut found = Histories::new();
    add_histories(model, Path::standing(start), steps, &mut found);
    found
}

fn add_histories(model: &Model, path: Path, steps: usize, found: &mut Histories) {
    let taken = path.actions.len();
    let state = path.states.last().copied().unwrap_or(0);
    // What follows a state after as many steps has been met already.
    if taken >= steps || found.contains_key(&(taken, state)) {
        return;
    }
    found.insert((taken, state), path.clone());
    for entry in model.moves(state) {
        for outcome in &entry.outcomes {
            let further = path.extended(entry.action, outcome);
            add_histories(model, further, steps, found);
        }
    }
}

/// Puts "false" for each plan node but the root.
fn nested_false(question: &mut Question) {
    let root = question.root();
    for node in question.nodes.iter_mut().take(root) {
        if let Node::Plan(_) = node {
            *node = Node::False;
        }
    }
}
