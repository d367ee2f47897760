//! All totals of a root in dictionary order, and the nearest ones on either side
//! of an "equal" bound.

use super::gains::Gains;
use super::{show, totals, Judge};
use crate::logic::{Model, PlanNode, Question, Reached, Reason, Summed, Totals};

/// The totals of the root's plans as far as they matter, one for each plan that
/// ends where no total changes any more but by a factor, in dictionary order.
pub fn all_totals(
    model: &Model,
    question: &Question,
    root: &PlanNode,
    totals: &Totals,
) -> Vec<i128> {
    let judge = Judge::prepare(model, question, totals);
    let mut found = Vec::new();
    let depth = judge.each_total(root, &mut |total| found.push(i128::from(total)));
    let spare_steps = root.steps() - depth.min(root.steps());
    let factor = i128::from(model.whole(spare_steps));
    found.iter().map(|total| factor * total).collect()
}

/// A total and the number, from 0, of the first plan that has it.
#[derive(Clone, Copy)]
struct Found {
    total: i64,
    number: u64,
}

/// What has been seen so far. The two ends of the gap about the bound are
/// worked out once, so that a total is only compared with them.
struct Nearest {
    most_below: i128,
    least_above: i128,
    seen: u64,
    below: Option<Found>,
    above: Option<Found>,
}

impl Nearest {
    /// For totals over `whole`. Those below the bound are all whose product with
    /// q is less than p times `whole`, which need not be a multiple of q.
    fn of(plan: &PlanNode, whole: u64) -> Nearest {
        let product = i128::from(plan.bound.p) * i128::from(whole);
        let q = i128::from(plan.bound.q).max(1);
        Nearest {
            most_below: (product - 1).div_euclid(q),
            least_above: product.div_euclid(q) + 1,
            seen: 0,
            below: None,
            above: None,
        }
    }

    /// Takes the next total in dictionary order; of equal ones the first stays.
    fn see(&mut self, total: i64) {
        let found = Found {
            total,
            number: self.seen,
        };
        self.seen += 1;
        if i128::from(total) <= self.most_below {
            if self.below.is_none_or(|nearest| total > nearest.total) {
                self.below = Some(found);
            }
        } else if i128::from(total) >= self.least_above
            && self.above.is_none_or(|nearest| total < nearest.total)
        {
            self.above = Some(found);
        }
    }
}

impl Judge<'_> {
    /// The nearest totals on either side of an "equal" bound.
    pub(super) fn nearest(&self, plan: &PlanNode) -> Reason {
        let mut nearest = Nearest::of(plan, self.model.whole(self.depth(plan)));
        let depth = self.each_total(plan, &mut |total| nearest.see(total));
        let reached = |found: Option<Found>| found.map(|found| self.reached(plan, depth, found));
        Reason::Nearest {
            below: reached(nearest.below),
            above: reached(nearest.above),
        }
    }

    /// After how many steps no total of a node changes any more but by a factor.
    fn depth(&self, plan: &PlanNode) -> usize {
        match plan.summed {
            Summed::Gains { last, .. } => last.into(),
            Summed::Weights { condition } => {
                let depth = self.depths.get(usize::from(condition));
                depth.copied().unwrap_or(0)
            }
        }
    }

    /// Shows the totals of all plans of just so many steps, in dictionary order,
    /// and gives that number.
    fn each_total(&self, plan: &PlanNode, seen: &mut impl FnMut(i64)) -> usize {
        match Gains::of(self.model, plan) {
            Some(mut gains) => gains.each(self.question.start, seen),
            None => totals::each(&mut self.walk(&self.program(plan)), seen),
        }
        self.depth(plan)
    }

    /// A total and its first plan, both lengthened to all steps.
    fn reached(&self, plan: &PlanNode, depth: usize, found: Found) -> Reached {
        let (steps, start) = (plan.steps(), self.question.start);
        let spare_steps = steps - depth.min(steps);
        let (choices, _) =
            show::numbered_choices(self.model, self.totals, steps, depth, start, found.number);
        Reached {
            total: i128::from(found.total) * i128::from(self.model.whole(spare_steps)),
            choices,
        }
    }
}
