//! Questions that mostly no plan meets (document 02, A.5): with bounds at the end
//! of all totals, beyond it, or between two of them. In the made-up models many
//! plans share a total, so that it matters which of them is the first.

use super::bounds::{chance, expected};
use super::cases::question;
use super::lamps::{nodes, small_model};
use super::leftovers::left_over;
use super::model::Size;
use super::pitfalls::far_model;
use super::question::{random_question, Scale};
use super::reason_models::{fan, stairs, tossed};
use super::rng::Rng;
use super::streams::{any_question, few_states, good_model, AFFORDABLE};
use crate::blocks::{read_model, read_question, QuestionImage};
use crate::desk::Call;
use crate::logic::{fast, plain, Bound, Model, Node, PlanNode, Question};
use crate::logic::{Relation, Summed, Totals, Verdict};

/// Random questions with so few plans that all can be listed.
const FEW: Scale = Scale {
    nodes: 10,
    paths: 1_000,
    plans: 600,
};

/// Judged questions, a few to a model; now and then one that may be damaged.
pub fn reasons(rng: &mut Rng, count: usize) -> Vec<Call> {
    let mut calls = Vec::new();
    while calls.len() < count {
        let Some(drawn) = Drawn::any(rng) else {
            continue;
        };
        calls.push(Call::Load(drawn.bytes.clone()));
        if rng.once_in(8) {
            let packed = any_question(rng, &drawn.model, &drawn.totals, calls.len());
            let read = read_question(&packed, &drawn.model);
            if read.map_or(true, |asked| drawn.affords(&asked)) {
                calls.extend([Call::Put(packed), Call::Judge]);
            }
        }
        for _ in 0..4 {
            if let Some(asked) = drawn.question(rng) {
                let refused = left_over(rng, &asked, &drawn.model);
                calls.extend(refused.filter(|_| rng.once_in(48)).map(Call::Put));
                let packed = QuestionImage::from(&asked).pack();
                calls.extend([Call::Put(packed), Call::Judge]);
            }
        }
    }
    calls
}

/// What the questions of a model are drawn from.
enum Source {
    /// Nodes of all kinds.
    Random,
    /// A condition or a window, in plans of one of these numbers of steps.
    Steps(&'static [usize]),
    /// The gains of six steps.
    Far,
    /// A condition or a window of one step in plans of six.
    Long,
}

struct Drawn {
    bytes: Vec<u8>,
    model: Model,
    totals: Totals,
    source: Source,
}

impl Drawn {
    fn any(rng: &mut Rng) -> Option<Drawn> {
        let (bytes, source) = match rng.below(50) {
            0..=14 => (tossed(rng), Source::Steps(&[1, 2, 3, 3, 3])),
            15..=23 => (stairs(rng), Source::Steps(&[1, 2, 3, 4, 5, 5, 5])),
            24..=30 => (small_model(rng), Source::Steps(&[2, 3, 3])),
            31..=41 => {
                let size = match rng.once_in(3) {
                    true => Size::SMALL,
                    false => few_states(rng),
                };
                (good_model(rng, size)?.0, Source::Random)
            }
            42..=45 => (far_model(rng), Source::Far),
            _ => (fan(rng), Source::Long),
        };
        let model = read_model(&bytes).ok()?;
        Some(Drawn {
            totals: Totals::of(&model),
            bytes,
            model,
            source,
        })
    }

    /// A question with a bound that is mostly not met; now and then its plan is
    /// not the root, or another one stands before it.
    fn question(&self, rng: &mut Rng) -> Option<Question> {
        let mut asked = self.unbound(rng)?;
        let root = self.rebound(rng, &asked)?;
        asked.nodes.pop();
        asked.nodes.push(Node::Plan(root));
        if rng.once_in(3) {
            let other = self.rebound(rng, &asked)?;
            let wider = self.beside(&asked, root, other);
            asked = wider.filter(|wider| self.is_quick(wider)).unwrap_or(asked);
        }
        let plan = asked.root() as u8;
        match rng.below(24) {
            0 => asked.nodes.push(Node::And(plan, plan)),
            1 => asked.nodes.push(Node::Not(plan)),
            2 => asked.nodes.extend([Node::Not(plan), Node::Not(plan + 1)]),
            _ => {}
        }
        self.affords(&asked).then_some(asked)
    }

    /// The question with a condition that also asks, at the start of each path,
    /// whether some plan of one step does what cannot be done with the other
    /// root's bound, or that none does: what is so. The totals stay what they are.
    /// A root of operator 9 has no condition, and no other plan beside it.
    fn beside(&self, asked: &Question, root: PlanNode, other: PlanNode) -> Option<Question> {
        let mut wider = asked.clone();
        wider.nodes.pop();
        let condition = root.condition()? as u8;
        let never = wider.nodes.len() as u8;
        wider.nodes.push(Node::False);
        wider.nodes.push(Node::Plan(PlanNode {
            steps: 1,
            summed: Summed::Weights { condition: never },
            ..other
        }));
        let judged = fast::judge(&self.model, &wider, &self.totals);
        if let Verdict::No { .. } = judged.verdict {
            wider.nodes.push(Node::Not(wider.root() as u8));
        }
        let both = Node::And(condition, wider.root() as u8);
        wider.nodes.push(both);
        let condition = wider.root() as u8;
        wider.nodes.push(Node::Plan(PlanNode {
            summed: Summed::Weights { condition },
            ..root
        }));
        Some(wider)
    }

    /// Whether its plans can be listed in many ways, as `reason_faults` does.
    fn is_quick(&self, asked: &Question) -> bool {
        plain::cost(&self.model, asked, &self.totals) <= AFFORDABLE
    }

    /// Whether a block has room for the question and the plain judge can answer
    /// it.
    fn affords(&self, asked: &Question) -> bool {
        asked.nodes.len() <= 40 && plain::cost(&self.model, asked, &self.totals) <= 5 * AFFORDABLE
    }

    /// A question with a plan root, whose bound does not matter.
    fn unbound(&self, rng: &mut Rng) -> Option<Question> {
        if let Source::Random = self.source {
            return Some(random_question(rng, &self.model, &self.totals, FEW));
        }
        // A greatest total below 0 is rarer than a least one.
        let all = [
            "less", "less", "equal", "equal", "equal", "equal", "greater", "greater", "greater",
        ];
        let relation = rng.pick_or(&all, "equal");
        let mut nodes = match self.source {
            Source::Random => Vec::new(),
            Source::Far => vec![format!("plan gain 1 to 6 steps 6 {relation}")],
            Source::Long => long_nodes(rng, relation),
            Source::Steps(numbers) => {
                let steps = rng.pick_or(numbers, 1);
                match rng.once_in(6) {
                    true => nested_nodes(rng, &self.model, steps, relation),
                    false => nodes(rng, steps, relation),
                }
            }
        };
        let root = nodes.pop().unwrap_or_default();
        nodes.push(format!("{root} 0/1"));
        let start = match self.source {
            Source::Long => 0,
            _ => rng.byte(0, 1),
        };
        read_question(&question(start, &nodes), &self.model).ok()
    }

    /// The question's root with another bound.
    fn rebound(&self, rng: &mut Rng, asked: &Question) -> Option<PlanNode> {
        let mut root = asked.root_plan()?;
        if self.totals.plans(root.steps(), asked.start) > FEW.plans {
            return None;
        }
        let mut listed = fast::all_totals(&self.model, asked, &root, &self.totals);
        listed.sort_unstable();
        listed.dedup();
        let point = missed(rng, root.relation, &listed)?;
        root.bound = self.bound(rng, root, point);
        Some(root)
    }

    fn is_far(&self) -> bool {
        matches!(self.source, Source::Far)
    }

    /// The bound that lies at the point, or near it where q is too large.
    fn bound(&self, rng: &mut Rng, root: PlanNode, point: Point) -> Bound {
        let whole = point.parts * i128::from(self.model.whole(root.steps()));
        match root.summed {
            Summed::Weights { .. } => chance(point.number.clamp(0, whole), whole),
            Summed::Gains { .. } if self.is_far() && !rng.once_in(4) => far(rng),
            Summed::Gains { .. } if rng.once_in(16) => far(rng),
            Summed::Gains { .. } => expected(rng, point.number, whole),
        }
    }
}

/// A number of units of 1 over D to the n, or of halves or thirds of units.
struct Point {
    number: i128,
    parts: i128,
}

/// A point that no total lies on the asked side of, or at; for "equal" also one
/// between two totals.
fn missed(rng: &mut Rng, relation: Relation, listed: &[i128]) -> Option<Point> {
    let (least, greatest) = (*listed.first()?, *listed.last()?);
    let apart = rng.below(listed.len().max(2) - 1);
    let (lower, upper) = match listed.get(apart..apart + 2) {
        Some([lower, upper]) => (*lower, *upper),
        _ => (least, greatest),
    };
    Some(match (relation, rng.below(10)) {
        (Relation::Less, 0..=3) => at(least),
        (Relation::Less, _) => beside(rng, least, -1),
        (Relation::Greater, 0..=3) => at(greatest),
        (Relation::Greater, _) => beside(rng, greatest, 1),
        (Relation::Equal, 0..=1) => beside(rng, least, -1),
        (Relation::Equal, 2..=3) => beside(rng, greatest, 1),
        (Relation::Equal, 4..=5) => Point {
            number: lower + upper,
            parts: 2,
        },
        (Relation::Equal, 6..=7) => beside(rng, lower, 1),
        (Relation::Equal, _) => beside(rng, upper, -1),
    })
}

fn at(total: i128) -> Point {
    Point {
        number: total,
        parts: 1,
    }
}

/// A point next to a total, above it or below.
fn beside(rng: &mut Rng, total: i128, sign: i128) -> Point {
    let (away, parts) = rng.pick_or(&[(1, 1), (1, 1), (1, 2), (1, 3), (2, 3), (9, 1)], (1, 1));
    Point {
        number: parts * total + sign * away,
        parts,
    }
}

/// A bound of operator 9 far from all totals, with q about its end.
fn far(rng: &mut Rng) -> Bound {
    let p = rng.range(2_500_000, 6_000_000) as i32;
    Bound {
        p: rng.pick_or(&[p, -p, 6_000_000, -6_000_000], p),
        q: rng.pick_or(&[1000, 1000, 999], 1000),
    }
}

/// A condition that some plan of one step meets its bound in the state reached
/// after some steps, by its chance or by its gain. The root is without its bound.
fn nested_nodes(rng: &mut Rng, model: &Model, steps: usize, relation: &str) -> Vec<String> {
    let below = rng.pick_or(&["less", "equal", "greater"], "greater");
    let chance = rng.below(usize::from(model.denominator) + 1);
    let mut nodes = match rng.once_in(2) {
        true => vec![format!("plan gain 1 to 1 steps 1 {below} 0/1")],
        false => vec![
            "proposition 0".to_string(),
            "next 0".to_string(),
            format!("plan 1 steps 1 {below} {chance}/{}", model.denominator),
        ],
    };
    for _ in 0..rng.range(1, steps) {
        nodes.push(format!("next {}", nodes.len() - 1));
    }
    nodes.push(format!("plan {} steps {steps} {relation}", nodes.len() - 1));
    nodes
}

/// The first step of six, by a proposition or by its gain.
fn long_nodes(rng: &mut Rng, relation: &str) -> Vec<String> {
    match rng.once_in(2) {
        true => vec![format!("plan gain 1 to 1 steps 6 {relation}")],
        false => vec![
            "proposition 0".to_string(),
            "next 0".to_string(),
            format!("plan 1 steps 6 {relation}"),
        ],
    }
}
