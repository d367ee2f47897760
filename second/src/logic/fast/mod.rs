//! The judge for the arm: only what the root can need, from the bottom up.
//!
//! `need` finds the (plan node, state) pairs that can matter, `program` turns
//! a condition into rules by the step at which each becomes known, `walk`
//! keeps their values along a history, `search` finds least and greatest
//! totals, `totals` lists all totals for "equal", and `show` turns what was
//! found into choices. `gains` does all this for totals of gains, which have
//! no condition. `nearest` keeps what lies next to a bound for "why not".

mod gains;
mod nearest;
mod need;
mod program;
mod search;
mod show;
mod totals;
mod walk;

use super::{Judged, Model, Node, Plan, PlanNode, Question, Reason, Relation, Totals};
use gains::Gains;
use program::Program;
use walk::Walk;

pub use nearest::all_totals;

/// The verdict on a question whose limits have been checked.
pub fn judge(model: &Model, question: &Question, totals: &Totals) -> Judged {
    let judge = Judge::prepare(model, question, totals);
    match question.root_plan() {
        Some(plan) => judge.judge_plan(&plan),
        None => Judged::other_root(judge.holds(question.root(), question.start)),
    }
}

/// The least total of all plans where the root asks for "less", the greatest
/// where it asks for "greater", and the choices of the first plan that has it,
/// whether or not it meets the bound. "Equal" has no best plan.
pub fn best_plan(
    model: &Model,
    question: &Question,
    root: &PlanNode,
    totals: &Totals,
) -> Option<(i128, Vec<u8>)> {
    Judge::prepare(model, question, totals).best_plan(root)
}

/// What the root's plans come to: the greatest or the least total, or for
/// "equal" the nearest ones on either side of the bound.
pub fn reason(model: &Model, question: &Question, root: &PlanNode, totals: &Totals) -> Reason {
    let judge = Judge::prepare(model, question, totals);
    match judge.best_plan(root) {
        Some((total, choices)) => Reason::best(root.relation, total, choices),
        None => judge.nearest(root),
    }
}

/// The plan's total for the question's root.
pub fn total_of(
    model: &Model,
    question: &Question,
    root: &PlanNode,
    plan: &Plan,
    totals: &Totals,
) -> i128 {
    if let Some(gains) = Gains::of(model, root) {
        return gains.total(plan);
    }
    let judge = Judge::prepare(model, question, totals);
    let program = judge.program(root);
    let total = search::plan_total(&mut judge.walk(&program), plan);
    judge.lengthened(root, program.depth(), total)
}

/// What is known of a question's state formulas, lowest nodes first.
struct Judge<'a> {
    model: &'a Model,
    question: &'a Question,
    totals: &'a Totals,
    depths: Vec<usize>,
    path_formulas: Vec<bool>,
    /// For each state formula the states where it is true, a bit for each;
    /// of a plan node only those that the root can need.
    true_in: Vec<u32>,
}

impl<'a> Judge<'a> {
    /// Decides all state formulas below the root where they can be needed.
    fn prepare(model: &'a Model, question: &'a Question, totals: &'a Totals) -> Judge<'a> {
        let mut judge = Judge {
            model,
            question,
            totals,
            depths: question.depths(),
            path_formulas: question.path_formulas(),
            true_in: Vec::with_capacity(question.nodes.len()),
        };
        let needed = need::needed(model, question, &judge.path_formulas);
        for (number, node) in question.nodes.iter().enumerate() {
            let states = needed.get(number).copied().unwrap_or(0);
            let set = judge.decide(node, states, number == question.root());
            judge.true_in.push(set);
        }
        judge
    }

    /// The states among the needed ones where a node is true. A plan root is
    /// left out: it is judged with its shown plan.
    fn decide(&self, node: &Node, needed: u32, is_root: bool) -> u32 {
        let of = |child: u8| self.true_in.get(usize::from(child)).copied().unwrap_or(0);
        match *node {
            Node::Proposition(number) => {
                states_where(needed, |state| self.model.holds(state, number))
            }
            Node::Not(child) => !of(child) & needed,
            Node::And(left, right) => of(left) & of(right),
            Node::Plan(plan) if !is_root && needed != 0 => self.plan_true_in(&plan, needed),
            _ => 0,
        }
    }

    /// The states among the needed ones where some plan meets a node's bound.
    fn plan_true_in(&self, plan: &PlanNode, needed: u32) -> u32 {
        if let Some(mut gains) = Gains::of(self.model, plan) {
            return states_where(needed, |state| gains.some_plan(state));
        }
        let program = self.program(plan);
        states_where(needed, |state| self.some_plan(plan, &program, state))
    }

    fn holds(&self, node: usize, state: u8) -> bool {
        let set = self.true_in.get(node).copied().unwrap_or(0);
        has(set, state)
    }

    /// The condition of a plan node as rules along a path.
    fn program(&self, plan: &PlanNode) -> Program {
        let condition = plan.condition().unwrap_or(0);
        Program::of(
            self.question,
            condition,
            &self.depths,
            &self.path_formulas,
            &self.true_in,
        )
    }

    /// A walk from the question's start.
    fn walk<'b>(&'b self, program: &'b Program) -> Walk<'b> {
        Walk::from(self.model, program, self.question.start)
    }

    /// Whether some plan from the state meets the node's bound.
    fn some_plan(&self, plan: &PlanNode, program: &Program, state: u8) -> bool {
        let mut walk = Walk::from(self.model, program, state);
        if plan.relation == Relation::Equal {
            return self.first_equal(plan, &mut walk).is_some();
        }
        let found = search::greatest(&mut walk, plan.relation == Relation::Greater);
        let total = self.extreme(plan, program.depth(), found);
        plan.met_by(total, self.model.whole(plan.steps()))
    }

    /// The greatest weight for "greater" or the least for "less", from the
    /// greatest total for the condition or for its negation.
    fn extreme(&self, plan: &PlanNode, depth: usize, found: u64) -> i128 {
        let total = match plan.relation {
            Relation::Less => self.model.whole(depth).saturating_sub(found),
            _ => found,
        };
        self.lengthened(plan, depth, total)
    }

    /// The total of all steps from the total of those that matter.
    fn lengthened(&self, plan: &PlanNode, depth: usize, total: u64) -> i128 {
        let spare_steps = plan.steps() - depth.min(plan.steps());
        i128::from(total) * i128::from(self.model.whole(spare_steps))
    }

    /// The number, from 0, of the first plan of the condition's depth whose
    /// total meets an "equal" bound.
    fn first_equal(&self, plan: &PlanNode, walk: &mut Walk) -> Option<u64> {
        let whole = self.model.whole(walk.program.depth());
        totals::first_with(walk, wanted_total(plan, whole)?)
    }

    /// The verdict on a plan root.
    fn judge_plan(&self, plan: &PlanNode) -> Judged {
        match self.best_plan(plan) {
            Some((total, choices)) => {
                Judged::by_best(plan, self.model.whole(plan.steps()), total, choices)
            }
            None => self.judge_equal(plan),
        }
    }

    fn judge_equal(&self, plan: &PlanNode) -> Judged {
        if let Some(mut gains) = Gains::of(self.model, plan) {
            return gains.judge_equal(self.question.start, self.totals);
        }
        let program = self.program(plan);
        match self.first_equal(plan, &mut self.walk(&program)) {
            Some(number) => self.show_numbered(plan, &program, number),
            None => Judged::none_equal(self.totals.plans(plan.steps(), self.question.start)),
        }
    }

    /// The least total for "less", the greatest for "greater", and the choices
    /// of the first plan that has it.
    fn best_plan(&self, plan: &PlanNode) -> Option<(i128, Vec<u8>)> {
        if plan.relation == Relation::Equal {
            return None;
        }
        if let Some(gains) = Gains::of(self.model, plan) {
            return Some(gains.best_plan(self.question.start));
        }
        let program = self.program(plan);
        let mut walk = self.walk(&program);
        let wanted = plan.relation == Relation::Greater;
        let (found, choices) = show::best_choices(&mut walk, plan.steps(), wanted);
        Some((self.extreme(plan, program.depth(), found), choices))
    }

    fn show_numbered(&self, plan: &PlanNode, program: &Program, number: u64) -> Judged {
        let (choices, before) = show::numbered_choices(
            self.model,
            self.totals,
            plan.steps(),
            program.depth(),
            self.question.start,
            number,
        );
        let whole = self.model.whole(plan.steps());
        let total = wanted_total(plan, whole).unwrap_or(0);
        Judged::shown(plan, whole, total.into(), before + 1, choices)
    }
}

/// The one total over `whole` that meets an "equal" bound; none where that is
/// no whole number.
fn wanted_total(plan: &PlanNode, whole: u64) -> Option<i64> {
    let product = i128::from(plan.bound.p) * i128::from(whole);
    let q = i128::from(plan.bound.q);
    match product.checked_rem(q) {
        Some(0) => i64::try_from(product / q).ok(),
        _ => None,
    }
}

/// Whether a state's bit is in a set of states.
fn has(set: u32, state: u8) -> bool {
    u64::from(set) >> state.min(63) & 1 == 1
}

/// Those of the states in which a test passes.
fn states_where(states: u32, mut test: impl FnMut(u8) -> bool) -> u32 {
    let in_set = (0..32).filter(|state| has(states, *state));
    let passing = in_set.filter(|state| test(*state));
    passing.fold(0, |set, state| set | 1 << state)
}
