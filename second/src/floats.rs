//! Judges that compare in floats, as the one before ours did and none should:
//! which calls of a stream they answer otherwise than whole numbers do. A
//! stream in which they answer all alike cannot tell them from a right judge.

use crate::blocks::Sheet;
use crate::desk::{replay, Answer, Call};
use crate::ground::Ground;
use crate::logic::plain::{self, Meaning};
use crate::logic::{Checked, Model, Path, Plan, PlanNode, Question};
use crate::logic::{Relation, Totals, Verdict};
use std::collections::BTreeMap;
use std::ops::Div;

/// How a total over D to the n is compared with p/q; doubles have 53 bits,
/// singles 24.
#[derive(Clone, Copy, Debug, PartialEq, Eq, PartialOrd, Ord)]
pub enum Arithmetic {
    /// Two quotients of doubles.
    DividedDoubles,
    /// The same, each rounded to a single.
    RoundedSingles,
    /// Two quotients of singles.
    DividedSingles,
    /// Two products, the total times q and p times D to the n.
    MultipliedDoubles,
    MultipliedSingles,
    /// Products of chances (for gains, times the gain) added up, as the judge
    /// before ours did it.
    AddedDoubles,
    AddedSingles,
    /// The same as its release build did it: each multiply and add fused.
    FusedDoubles,
}

pub const ALL: [Arithmetic; 8] = [
    Arithmetic::DividedDoubles,
    Arithmetic::RoundedSingles,
    Arithmetic::DividedSingles,
    Arithmetic::MultipliedDoubles,
    Arithmetic::MultipliedSingles,
    Arithmetic::AddedDoubles,
    Arithmetic::AddedSingles,
    Arithmetic::FusedDoubles,
];

/// Questions that a judge looks at no more nodes than this for, by an
/// estimate that is high where few of a model's states have a choice.
const AFFORDABLE: u128 = 5_000_000;

/// A judge straight from the definitions but for the comparison with a bound.
struct FloatJudge<'a> {
    model: &'a Model,
    question: &'a Question,
    arithmetic: Arithmetic,
}

impl Meaning for FloatJudge<'_> {
    fn model(&self) -> &Model {
        self.model
    }

    fn question(&self) -> &Question {
        self.question
    }

    fn met(&self, node: &PlanNode, plan: &Plan, state: u8) -> bool {
        let (p, q) = (i128::from(node.bound.p), i128::from(node.bound.q));
        let (left, right) = self.sides(node, plan, state, (p, q));
        node.relation.relates(left, right)
    }
}

impl FloatJudge<'_> {
    fn yes(&self) -> bool {
        let place = Path::standing(self.question.start);
        self.holds(self.question.root(), &place, 0)
    }

    /// Whether a claimed total passes for the plan's.
    fn claim_right(&self, node: &PlanNode, plan: &Plan, claimed: i128) -> bool {
        let whole = i128::from(self.model.whole(node.steps()));
        let (left, right) = self.sides(node, plan, self.question.start, (claimed, whole));
        left == right
    }

    /// The two numbers that are compared. Singles are exact as doubles.
    fn sides(&self, node: &PlanNode, plan: &Plan, start: u8, (p, q): (i128, i128)) -> (f64, f64) {
        let whole = i128::from(self.model.whole(node.steps()));
        let total = || self.total(node, plan);
        let double = |p: i128, q: i128| p as f64 / q as f64;
        let rounded = |p: i128, q: i128| f64::from(double(p, q) as f32);
        let single = |p: i128, q: i128| f64::from(p as f32 / q as f32);
        let double_product = |a: i128, b: i128| a as f64 * b as f64;
        let single_product = |a: i128, b: i128| f64::from(a as f32 * b as f32);
        let begun = Path::standing(start);
        match self.arithmetic {
            Arithmetic::DividedDoubles => (double(total(), whole), double(p, q)),
            Arithmetic::RoundedSingles => (rounded(total(), whole), rounded(p, q)),
            Arithmetic::DividedSingles => (single(total(), whole), single(p, q)),
            Arithmetic::MultipliedDoubles => (double_product(total(), q), double_product(p, whole)),
            Arithmetic::MultipliedSingles => (single_product(total(), q), single_product(p, whole)),
            Arithmetic::AddedDoubles => {
                let total = self.added(node, plan, &begun, &|t: f64, a, b| t + a * b);
                (total, double(p, q))
            }
            Arithmetic::AddedSingles => {
                let total = self.added(node, plan, &begun, &|t: f32, a, b| t + a * b);
                (f64::from(total), single(p, q))
            }
            Arithmetic::FusedDoubles => {
                let total = self.added(node, plan, &begun, &|t, a: f64, b| a.mul_add(b, t));
                (total, double(p, q))
            }
        }
    }

    /// The chance of a plan's condition, or its expected gain: over the outcomes
    /// of its first action, the chance of each times what comes from there on,
    /// added up.
    fn added<F>(&self, node: &PlanNode, plan: &Plan, so_far: &Path, join: &Join<F>) -> F
    where
        F: From<i16> + Div<Output = F>,
    {
        let mut total = F::from(0);
        let chosen = plan.chosen(self.model).into_iter();
        let outcomes = chosen.flat_map(|entry| entry.outcomes.iter().map(|o| (entry.action, o)));
        for (place, (action, outcome)) in outcomes.enumerate() {
            let path = so_far.extended(action, outcome);
            let further = match plan.below().get(place) {
                Some(below) => self.added(node, below, &path, join),
                // Six rewards of up to 1,000 points fit.
                None => F::from(self.factor(node, &path) as i16),
            };
            let (weight, whole) = (outcome.weight.into(), self.model.denominator.into());
            let chance = F::from(weight) / F::from(whole);
            total = join(total, chance, further);
        }
        total
    }
}

/// Adds a product to a total, rounding twice or once.
type Join<F> = dyn Fn(F, F, F) -> F;

/// What a call asked: a verdict on a question whose root is its one "plan"
/// node, or on another one; whether a sheet meets the bound, and whether its
/// claimed total is its plan's.
#[derive(Clone, Copy, Debug, PartialEq, Eq, PartialOrd, Ord)]
pub enum Asked {
    Root,
    Inner,
    Met,
    Claim,
}

/// How often an arithmetic answers otherwise, for each operator and relation
/// (those of the first plan node) and each right answer.
pub type Differences = BTreeMap<(Arithmetic, Asked, u8, Relation, bool), usize>;

/// Replays a stream from the empty desk beside a judge of each arithmetic.
pub fn differences(stream: &[u8]) -> Differences {
    let mut counts = Differences::new();
    replay(stream, |call, answer, desk| {
        let (Ok(model), Ok(question)) = (desk.model(), desk.question()) else {
            return;
        };
        let Some((_, first)) = question.plan_nodes().next() else {
            return;
        };
        for arithmetic in ALL {
            let judge = FloatJudge {
                model,
                question,
                arithmetic,
            };
            for (asked, right, given) in answers(&judge, call, answer) {
                if right != given {
                    let operator = first.summed.operator();
                    let key = (arithmetic, asked, operator, first.relation, right);
                    *counts.entry(key).or_default() += 1;
                }
            }
        }
    });
    counts
}

/// What was asked, the right answer and the judge's.
fn answers(judge: &FloatJudge, call: &Call, answer: &Answer) -> Vec<(Asked, bool, bool)> {
    match (call, answer) {
        (_, Answer::Judge(Ok(judged))) => {
            let totals = Totals::of(judge.model);
            if plain::cost(judge.model, judge.question, &totals) > AFFORDABLE {
                return Vec::new();
            }
            let alone = judge.question.plan_nodes().count() == 1;
            let asked = match judge.question.root_plan() {
                Some(_) if alone => Asked::Root,
                _ => Asked::Inner,
            };
            let right = !matches!(judged.verdict, Verdict::No { .. });
            vec![(asked, right, judge.yes())]
        }
        (Call::Check(bytes), Answer::Check(checked)) => sheet_answers(judge, bytes, *checked),
        _ => Vec::new(),
    }
}

/// The same for a sheet that is accepted, or refused for its total alone; a
/// condition with plans in it can take long to read on every path.
fn sheet_answers(
    judge: &FloatJudge,
    bytes: &[u8],
    checked: Result<Checked, Ground>,
) -> Vec<(Asked, bool, bool)> {
    let (start, root) = (judge.question.start, judge.question.root_plan());
    let (Some(root), Ok(_) | Err(Ground::Total)) = (root, checked) else {
        return Vec::new();
    };
    let totals = Totals::of(judge.model);
    if plain::total_cost(judge.model, judge.question, &root, &totals) > AFFORDABLE {
        return Vec::new();
    }
    let sheet = Sheet::unpack(bytes);
    let Some(plan) = Plan::from_choices(judge.model, start, root.steps(), &sheet.choices) else {
        return Vec::new();
    };
    let claimed = root.summed.claimed(sheet.total);
    let claim = judge.claim_right(&root, &plan, claimed);
    let mut found = vec![(Asked::Claim, checked.is_ok(), claim)];
    if let Ok(right) = checked {
        found.push((Asked::Met, right.met, judge.met(&root, &plan, start)));
    }
    found
}
