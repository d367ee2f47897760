//! The totals that judges with faults take for the best one on no.

use super::{Asked, Fault};
use crate::logic::{fast, plain, Model, Node, Plan, PlanNode, Question};
use crate::logic::{Relation, Totals, SILENT};
use std::cell::OnceCell;

/// The totals of more (plan, path) pairs than this are not listed.
const AFFORDABLE: u64 = 20_000;
/// Nor those of conditions that have more nodes than this when they are followed
/// as trees, once for each pair: a tower of "and" has far more.
const AFFORDABLE_NODES: u128 = 1_000_000;

/// The best total of a node's plans from the question's start; 0 for "equal".
pub(super) fn best(model: &Model, question: &Question, node: PlanNode) -> i128 {
    let found = fast::best_plan(model, question, &node, &Totals::of(model));
    found.map_or(0, |(total, _)| total)
}

/// The plans of a root that no plan meets.
pub(super) struct Missed<'a> {
    asked: &'a Asked<'a>,
    root: PlanNode,
    totals: OnceCell<Vec<Listed>>,
}

/// A plan's total, and whether the plan makes a silent move.
struct Listed {
    total: i128,
    silent: bool,
}

impl<'a> Missed<'a> {
    pub(super) fn of(asked: &'a Asked<'a>, root: PlanNode) -> Missed<'a> {
        Missed {
            asked,
            root,
            totals: OnceCell::new(),
        }
    }

    /// The total that a judge with the fault takes for the best; none if it
    /// takes the right one.
    pub(super) fn best_by(&self, fault: Fault) -> Option<i128> {
        let (model, question) = (self.asked.model, self.asked.question);
        match fault {
            Fault::WrongEnd => Some(best(model, question, self.other_end())),
            Fault::FirstMoveOnly => self.of_first_moves(),
            Fault::FromStateZero => {
                let mut asked = question.clone();
                asked.start = 0;
                Some(best(model, &asked, self.root))
            }
            Fault::PathsEnd if self.is_alone() && has_silent(model) => {
                Some(best(&paths_ended(model), question, self.root))
            }
            Fault::SilentPassedOver if has_silent(model) => {
                let awake = self.listed().iter().filter(|plan| !plan.silent);
                self.best_of(awake.map(|plan| plan.total), |total| total)
            }
            Fault::NestedFalse => Some(best(model, &nested_false(question), self.root)),
            Fault::BestUnsigned if self.root.sums_gains() => {
                let sizes = self.listed().iter().map(|plan| plan.total.abs());
                self.best_of(sizes, |total| total)
            }
            Fault::BestBySize if self.root.sums_gains() => {
                let totals = self.listed().iter().map(|plan| plan.total);
                self.best_of(totals, i128::abs)
            }
            _ => None,
        }
    }

    /// The root that asks for the other end of the totals.
    fn other_end(&self) -> PlanNode {
        let relation = match self.root.relation {
            Relation::Less => Relation::Greater,
            _ => Relation::Less,
        };
        PlanNode {
            relation,
            ..self.root
        }
    }

    /// The least for "less", the greatest for "greater", where totals are
    /// compared by something of them.
    fn best_of(
        &self,
        totals: impl Iterator<Item = i128>,
        by: impl Fn(i128) -> i128,
    ) -> Option<i128> {
        match self.root.relation {
            Relation::Less => totals.min_by_key(|total| by(*total)),
            _ => totals.max_by_key(|total| by(*total)),
        }
    }

    /// The best total of the plans that go on with the lowest choices after any
    /// first move.
    fn of_first_moves(&self) -> Option<i128> {
        let (model, question) = (self.asked.model, self.asked.question);
        let totals = Totals::of(model);
        let moves = 0..model.moves(question.start).len();
        let found = moves.map(|option| {
            let plan = Plan::first_with(model, question.start, self.root.steps(), option);
            fast::total_of(model, question, &self.root, &plan, &totals)
        });
        self.best_of(found, |total| total)
    }

    /// Whether there is no plan node below the root.
    fn is_alone(&self) -> bool {
        self.asked.question.plan_nodes().count() == 1
    }

    /// All plans in dictionary order; none if they are too many, or if there
    /// are others below the root, which take long.
    fn listed(&self) -> &[Listed] {
        self.totals.get_or_init(|| self.list())
    }

    fn list(&self) -> Vec<Listed> {
        let (model, question) = (self.asked.model, self.asked.question);
        let (start, steps) = (question.start, self.root.steps());
        let totals = Totals::of(model);
        let pairs = totals.plans(steps, start);
        let pairs = pairs.saturating_mul(totals.paths(steps, start));
        let mut found = Vec::new();
        let nodes = plain::cost(model, question, &totals);
        if pairs > AFFORDABLE || nodes > AFFORDABLE_NODES || !self.is_alone() {
            return found;
        }
        let mut plan = Plan::first(model, start, steps);
        loop {
            found.push(Listed {
                total: plain::total_of(model, question, &self.root, &plan),
                silent: plan.choices(model).contains(&SILENT),
            });
            if !plan.advance(model) {
                return found;
            }
        }
    }
}

fn has_silent(model: &Model) -> bool {
    let mut moves = model.moves.iter().flatten();
    moves.any(|entry| entry.is_silent())
}

/// The model where silent moves lead nowhere.
fn paths_ended(model: &Model) -> Model {
    let mut ended = model.clone();
    let moves = ended.moves.iter_mut().flatten();
    for silent in moves.filter(|entry| entry.is_silent()) {
        silent.outcomes.clear();
    }
    ended
}

/// The question with "false" for each plan node but the root.
fn nested_false(question: &Question) -> Question {
    let mut asked = question.clone();
    let root = asked.root();
    for node in asked.nodes.iter_mut().take(root) {
        if let Node::Plan(_) = node {
            *node = Node::False;
        }
    }
    asked
}
