//! Reading a question against a model: grounds 1 to 6, 9 and 13.

use super::frame::check_frame;
use super::question_image::{NodeImage, QuestionImage};
use crate::ground::{demand, Ground};
use crate::logic::{Bound, Model, Node, PlanNode, Question, Relation, Summed};

/// The accepted question in these bytes, or the first ground against it. All its
/// nodes are reached from its root: both limits concern used nodes only.
pub fn read_question(bytes: &[u8], model: &Model) -> Result<Question, Ground> {
    let question = read_formula(bytes, model)?;
    let reached = QuestionImage::unpack(bytes).reached();
    demand(reached.iter().all(|found| *found), Ground::Leftover)?;
    Ok(question)
}

/// The same where nodes may be left over (grounds 1 to 6 and 9): these grounds
/// ask all nodes, used or not.
pub fn read_formula(bytes: &[u8], model: &Model) -> Result<Question, Ground> {
    check_frame(bytes, 1..=1, |_| (3, 0))?;
    let image = QuestionImage::unpack(bytes);
    let start_right = usize::from(image.start) < model.states();
    let count_right = (1..=40).contains(&image.count);
    demand(start_right && count_right, Ground::Counts)?;
    let read = |(own, node): (usize, &NodeImage)| read_node(own, node, model);
    let found: Option<Vec<Node>> = image.counted().iter().enumerate().map(read).collect();
    let nodes = found.ok_or(Ground::Range)?;
    demand(
        used_fields(image.start, &nodes).pack() == bytes,
        Ground::Spare,
    )?;
    let question = Question {
        start: image.start,
        nodes,
    };
    demand(question.well_formed(), Ground::Formula)?;
    Ok(question)
}

/// The node with its used fields, if each is in its range (ground 5).
fn read_node(own: usize, image: &NodeImage, model: &Model) -> Option<Node> {
    let child = |number: u8| (usize::from(number) < own).then_some(number);
    let plan = |summed, bound| {
        Some(Node::Plan(PlanNode {
            steps: steps(image)?,
            summed,
            relation: Relation::from_number(image.right)?,
            bound,
        }))
    };
    Some(match image.operator {
        1 => Node::False,
        2 if image.left < model.propositions => Node::Proposition(image.left),
        3 => Node::Not(child(image.left)?),
        4 => Node::And(child(image.left)?, child(image.right)?),
        5 if usize::from(image.left) < model.actions.len() => Node::Do(image.left),
        6 => Node::Next(child(image.left)?),
        7 => Node::Gain {
            steps: steps(image)?,
            relation: Relation::from_number(image.right)?,
            bound: gain_bound(image)?,
        },
        8 => {
            let condition = child(image.left)?;
            plan(Summed::Weights { condition }, chance_bound(image)?)?
        }
        9 => plan(window(image)?, expected_bound(image)?)?,
        _ => return None,
    })
}

fn steps(image: &NodeImage) -> Option<u8> {
    (1..=6).contains(&image.steps).then_some(image.steps)
}

fn gain_bound(image: &NodeImage) -> Option<i32> {
    let right = (-6000..=6000).contains(&image.p) && image.q == 1;
    right.then_some(image.p)
}

fn chance_bound(image: &NodeImage) -> Option<Bound> {
    let NodeImage { p, q, .. } = *image;
    let right = (1..=1_000_000).contains(&q) && p >= 0 && i64::from(p) <= i64::from(q);
    right.then_some(Bound { p, q })
}

/// The left byte of operator 9 is l plus 8 times u, with 1 <= l <= u <= n.
fn window(image: &NodeImage) -> Option<Summed> {
    let (first, last) = (image.left % 8, image.left / 8);
    let right = 1 <= first && first <= last && last <= image.steps;
    right.then_some(Summed::Gains { first, last })
}

fn expected_bound(image: &NodeImage) -> Option<Bound> {
    let NodeImage { p, q, .. } = *image;
    let right = (-6_000_000..=6_000_000).contains(&p) && (1..=1000).contains(&q);
    right.then_some(Bound { p, q })
}

/// The image of these nodes and nothing else: what ground 6 compares with.
fn used_fields(start: u8, nodes: &[Node]) -> QuestionImage {
    let mut image = QuestionImage {
        start,
        count: u8::try_from(nodes.len()).unwrap_or(u8::MAX),
        ..QuestionImage::default()
    };
    for (place, node) in image.nodes.iter_mut().zip(nodes) {
        *place = NodeImage::from(*node);
    }
    image
}

impl From<Node> for NodeImage {
    /// The node as it is stored, with zero in its spare fields.
    fn from(node: Node) -> NodeImage {
        let image = |operator, left, right| NodeImage {
            operator,
            left,
            right,
            ..NodeImage::default()
        };
        match node {
            Node::False => image(1, 0, 0),
            Node::Proposition(number) => image(2, number, 0),
            Node::Not(child) => image(3, child, 0),
            Node::And(left, right) => image(4, left, right),
            Node::Do(action) => image(5, action, 0),
            Node::Next(child) => image(6, child, 0),
            Node::Gain {
                steps,
                relation,
                bound,
            } => NodeImage {
                steps,
                p: bound,
                q: 1,
                ..image(7, 0, relation.number())
            },
            Node::Plan(plan) => NodeImage {
                steps: plan.steps,
                p: plan.bound.p,
                q: plan.bound.q,
                ..image(
                    plan.summed.operator(),
                    left_byte(plan.summed),
                    plan.relation.number(),
                )
            },
        }
    }
}

/// What stands in the left byte of a plan node.
fn left_byte(summed: Summed) -> u8 {
    match summed {
        Summed::Weights { condition } => condition,
        Summed::Gains { first, last } => first + 8 * last,
    }
}

impl From<&Question> for QuestionImage {
    fn from(question: &Question) -> QuestionImage {
        used_fields(question.start, &question.nodes)
    }
}
