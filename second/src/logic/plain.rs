//! The judge straight from the definitions: every plan in dictionary order,
//! every path of each, every formula by recursion. Slow, and plain to check.

use super::{Judged, Lamp, Model, Node, Path, Plan, PlanNode, Question};
use super::{Reached, Reason, Relation, Summed, Totals};

/// The verdict on a question.
pub fn judge(model: &Model, question: &Question) -> Judged {
    let reader = Reader { model, question };
    if let Some(plan) = question.root_plan() {
        return reader.judge_plan(&plan);
    }
    let place = Path::standing(question.start);
    Judged::other_root(reader.holds(question.root(), &place, 0))
}

/// The least total of all plans where the root asks for "less", the greatest
/// where it asks for "greater", and the choices of the first plan that has it,
/// whether or not it meets the bound. "Equal" has no best plan.
pub fn best_plan(model: &Model, question: &Question, root: &PlanNode) -> Option<(i128, Vec<u8>)> {
    let (total, plan) = Reader { model, question }.best_plan(root)?;
    Some((total, plan.choices(model)))
}

/// What the root's plans come to: the greatest or the least total, or for
/// "equal" the nearest ones on either side of the bound.
pub fn reason(model: &Model, question: &Question, root: &PlanNode) -> Reason {
    match best_plan(model, question, root) {
        Some((total, choices)) => Reason::best(root.relation, total, choices),
        None => Reader { model, question }.nearest(root),
    }
}

/// The plan's total for the question's root.
pub fn total_of(model: &Model, question: &Question, root: &PlanNode, plan: &Plan) -> i128 {
    Reader { model, question }.total(root, plan)
}

/// What a path's weight is counted with in a plan node's total: 1 or 0 for a
/// condition that is true or not, or a gain.
pub fn factor_of(model: &Model, question: &Question, node: &PlanNode, path: &Path) -> i32 {
    Reader { model, question }.factor(node, path)
}

/// About how many nodes `judge` will look at: plans times paths times the
/// formula followed as a tree.
pub fn cost(model: &Model, question: &Question, totals: &Totals) -> u128 {
    let costs = costs(model, question, totals);
    costs.last().copied().unwrap_or(0)
}

/// The same for `total_of`: the paths of one plan times the condition.
pub fn total_cost(model: &Model, question: &Question, root: &PlanNode, totals: &Totals) -> u128 {
    let costs = costs(model, question, totals);
    let condition = root.condition().and_then(|node| costs.get(node));
    let condition = condition.copied().unwrap_or(0);
    let paths = 4u128.pow(u32::from(root.steps));
    condition.saturating_add(8).saturating_mul(paths)
}

/// About how many nodes are looked at where each node is read once.
fn costs(model: &Model, question: &Question, totals: &Totals) -> Vec<u128> {
    let mut costs: Vec<u128> = Vec::new();
    for node in &question.nodes {
        let of = |child: u8| costs.get(usize::from(child)).copied().unwrap_or(0);
        let below = match *node {
            Node::Not(child) | Node::Next(child) => of(child),
            Node::And(left, right) => of(left).saturating_add(of(right)),
            Node::Plan(plan) => match plan.summed {
                Summed::Weights { condition } => of(condition),
                Summed::Gains { .. } => 0,
            }
            .saturating_add(8)
            .saturating_mul(plan_paths(model, plan.steps(), totals)),
            _ => 0,
        };
        costs.push(below.saturating_add(1));
    }
    costs
}

/// The most (plan, path) pairs from any state.
fn plan_paths(model: &Model, steps: usize, totals: &Totals) -> u128 {
    let states = 0..u8::try_from(model.states()).unwrap_or(u8::MAX);
    let pairs = states.map(|state| {
        let paths = 4u128.pow(u32::try_from(steps).unwrap_or(6));
        let paths = paths.min(u128::from(totals.paths(steps, state)));
        u128::from(totals.plans(steps, state)).saturating_mul(paths)
    });
    pairs.max().unwrap_or(0)
}

/// Definition 4 of source document 001 and Definition 13 of 000, with the
/// comparison of a plan's total with its bound left open: `floats` has judges
/// that differ in that alone.
pub trait Meaning {
    fn model(&self) -> &Model;
    fn question(&self) -> &Question;

    /// Whether a plan from this state meets the node's bound.
    fn met(&self, node: &PlanNode, plan: &Plan, state: u8) -> bool;

    /// Whether a node is true on a path from a place on.
    fn holds(&self, node: usize, path: &Path, place: usize) -> bool {
        let Some(node) = self.question().nodes.get(node) else {
            return false;
        };
        let state = path.states.get(place).copied().unwrap_or(u8::MAX);
        let child = |number: u8, place: usize| self.holds(usize::from(number), path, place);
        match *node {
            Node::False => false,
            Node::Proposition(number) => self.model().holds(state, number),
            Node::Not(number) => !child(number, place),
            Node::And(left, right) => child(left, place) && child(right, place),
            // No action has the silent move's number, so no "do" is true of it.
            Node::Do(action) => path.actions.get(place) == Some(&action),
            Node::Next(number) => child(number, place + 1),
            Node::Gain {
                steps,
                relation,
                bound,
            } => relation.relates(path.gain(place, usize::from(steps)), bound),
            Node::Plan(plan) => self.some_plan(&plan, state),
        }
    }

    /// Whether some plan from the state meets the node's bound.
    fn some_plan(&self, node: &PlanNode, state: u8) -> bool {
        let mut plan = Plan::first(self.model(), state, node.steps());
        loop {
            if self.met(node, &plan, state) {
                return true;
            }
            if !plan.advance(self.model()) {
                return false;
            }
        }
    }

    /// The sum over all the plan's paths of the weight of each times what it
    /// counts with.
    fn total(&self, node: &PlanNode, plan: &Plan) -> i128 {
        let paths = plan.paths(self.model()).into_iter();
        let summand = |path: Path| i128::from(path.weight) * i128::from(self.factor(node, &path));
        paths.map(summand).sum()
    }

    /// 1 where the node's condition is true on the path and 0 where it is not,
    /// or the cumulative reward of the path's steps from the first to the last
    /// that the node names.
    fn factor(&self, node: &PlanNode, path: &Path) -> i32 {
        match node.summed {
            Summed::Weights { condition } => i32::from(self.holds(usize::from(condition), path, 0)),
            Summed::Gains { first, last } => path.gain_of_steps(first, last),
        }
    }
}

struct Reader<'a> {
    model: &'a Model,
    question: &'a Question,
}

impl Meaning for Reader<'_> {
    fn model(&self) -> &Model {
        self.model
    }

    fn question(&self) -> &Question {
        self.question
    }

    fn met(&self, node: &PlanNode, plan: &Plan, _state: u8) -> bool {
        node.met_by(self.total(node, plan), self.model.whole(node.steps()))
    }
}

impl Reader<'_> {
    /// The verdict on a plan root. All plans are tried.
    fn judge_plan(&self, node: &PlanNode) -> Judged {
        let whole = self.model.whole(node.steps());
        match self.best_plan(node) {
            Some((total, plan)) => Judged::by_best(node, whole, total, plan.choices(self.model)),
            None => self.judge_equal(node, whole),
        }
    }

    /// The first plan in dictionary order that meets an "equal" bound is shown;
    /// if there is none, all are counted.
    fn judge_equal(&self, node: &PlanNode, whole: u64) -> Judged {
        let mut place = 0;
        let mut shown: Option<(i128, u64, Plan)> = None;
        self.each_plan(node, |total, plan| {
            place += 1;
            if shown.is_none() && node.met_by(total, whole) {
                shown = Some((total, place, plan.clone()));
            }
        });
        match shown {
            Some((total, count, plan)) => {
                Judged::shown(node, whole, total, count, plan.choices(self.model))
            }
            None => Judged::none_equal(place),
        }
    }

    /// The least total for "less", the greatest for "greater", and the first
    /// plan in dictionary order that has it.
    fn best_plan(&self, node: &PlanNode) -> Option<(i128, Plan)> {
        if node.relation == Relation::Equal {
            return None;
        }
        let mut best: Option<(i128, Plan)> = None;
        self.each_plan(node, |total, plan| {
            // Of equal totals the one that came before stays.
            let so_far = best.as_ref().map(|best| best.0);
            if so_far.is_none_or(|so_far| node.relation.relates(total, so_far)) {
                best = Some((total, plan.clone()));
            }
        });
        best
    }

    /// The list of all plans is looked through for each side: a plan on it is
    /// the nearest if none that lies there is nearer, and none before it is as
    /// near.
    fn nearest(&self, node: &PlanNode) -> Reason {
        let whole = self.model.whole(node.steps());
        let mut listed: Vec<Reached> = Vec::new();
        self.each_plan(node, |total, plan| {
            let choices = plan.choices(self.model);
            listed.push(Reached { total, choices });
        });
        let on = |side: Lamp| {
            let there = listed
                .iter()
                .filter(|plan| node.lamp(plan.total, whole) == side);
            let totals = there.clone().map(|plan| plan.total);
            let nearest = match side {
                Lamp::Below => totals.max(),
                _ => totals.min(),
            };
            let mut there = there.filter(|plan| Some(plan.total) == nearest);
            there.next().cloned()
        };
        Reason::Nearest {
            below: on(Lamp::Below),
            above: on(Lamp::Above),
        }
    }

    /// Every plan from the question's start in dictionary order, with its total.
    fn each_plan(&self, node: &PlanNode, mut seen: impl FnMut(i128, &Plan)) {
        let mut plan = Plan::first(self.model, self.question.start, node.steps());
        loop {
            seen(self.total(node, &plan), &plan);
            if !plan.advance(self.model) {
                return;
            }
        }
    }
}
