//! Nodes that no root reaches (document 02, A.6), left over on purpose. Each kind
//! of leftover is one that some wrong judge takes for used.

use super::rng::Rng;
use crate::blocks::{read_question, NodeImage, QuestionImage};
use crate::ground::Ground;
use crate::logic::{Model, Question};

/// The question with one more node, which has this number; those from there on
/// move up by one. None if there is no room, or the root would be another.
pub(super) fn inserted(image: &QuestionImage, place: u8, node: NodeImage) -> Option<QuestionImage> {
    let (own, count) = (usize::from(place), usize::from(image.count));
    if own >= count || count >= image.nodes.len() {
        return None;
    }
    let mut wider = image.clone();
    wider.nodes.copy_within(own..count, own + 1);
    wider.nodes[own] = node;
    wider.count += 1;
    for later in &mut wider.nodes[own + 1..=count] {
        later.renumber(|child| child.checked_add(u8::from(child >= place)));
    }
    Some(wider)
}

/// A way to leave nodes over; none where a question has no room or no node for
/// it.
type Way = fn(&mut Rng, &QuestionImage) -> Option<QuestionImage>;

const WAYS: &[Way] = &[
    first,
    anywhere,
    anywhere,
    before_the_root,
    chain,
    over_a_used_node,
    over_a_used_node,
    twin,
    named,
    named,
    named,
    named,
    long_plan,
    many,
];

/// The question with one node left over, or several, in one of the ways.
pub(super) fn with_leftovers(rng: &mut Rng, image: &QuestionImage) -> Option<QuestionImage> {
    let rare = by_window(rng, image).or_else(|| high(rng, image));
    let rare = rare.filter(|_| rng.once_in(2));
    let drawn = rare.or_else(|| rng.pick(WAYS).and_then(|way| way(rng, image)));
    drawn.or_else(|| anywhere(rng, image))
}

/// One whose number is the left byte of a used node of operator 9. Few questions
/// have so many nodes before such a one.
fn by_window(rng: &mut Rng, image: &QuestionImage) -> Option<QuestionImage> {
    numbered_like(rng, image, WINDOW)
}

/// One with a number from 32 on, where marks in 32 bits begin anew.
fn high(rng: &mut Rng, image: &QuestionImage) -> Option<QuestionImage> {
    let root = image.count.checked_sub(1).filter(|root| *root >= 32)?;
    let place = rng.byte(32, root);
    inserted(image, place, leftover(rng, place))
}

/// The same packed, if 13 is the only ground against it.
pub(super) fn left_over(rng: &mut Rng, question: &Question, model: &Model) -> Option<Vec<u8>> {
    let image = QuestionImage::from(question);
    let refused = |packed: &Vec<u8>| read_question(packed, model) == Err(Ground::Leftover);
    let drawn = (0..8).filter_map(|_| with_leftovers(rng, &image));
    drawn.map(|image| image.pack()).find(refused)
}

/// A node that has no child, of any operator that has none. Its numbers exist in
/// every model.
fn leaf(rng: &mut Rng) -> NodeImage {
    let steps = rng.byte(1, 6);
    let last = rng.byte(1, steps);
    let with = |operator| NodeImage {
        operator,
        ..NodeImage::default()
    };
    match rng.below(6) {
        0 => with(1),
        1 | 2 => with(2),
        3 => with(5),
        4 => NodeImage {
            steps,
            right: rng.byte(1, 3),
            q: 1,
            ..with(7)
        },
        _ => NodeImage {
            steps,
            left: rng.byte(1, last) + 8 * last,
            right: rng.byte(1, 3),
            p: rng.range(0, 8) as i32 - 4,
            q: rng.range(1, 3) as u32,
            ..with(9)
        },
    }
}

/// A node over two earlier ones, or over the first of them. Its plans have six
/// steps, so that a condition which some plan can look at is not too deep.
fn over(rng: &mut Rng, left: u8, right: u8) -> NodeImage {
    let node = NodeImage {
        left,
        ..NodeImage::default()
    };
    match rng.below(4) {
        0 => NodeImage {
            operator: 3,
            ..node
        },
        1 => NodeImage {
            operator: 4,
            right,
            ..node
        },
        2 => NodeImage {
            operator: 6,
            ..node
        },
        _ => NodeImage {
            operator: 8,
            steps: 6,
            right: rng.byte(1, 3),
            p: 1,
            q: rng.range(1, 3) as u32,
            ..node
        },
    }
}

/// A leftover for a place: over earlier nodes, or without a child.
fn leftover(rng: &mut Rng, place: u8) -> NodeImage {
    let mut earlier = || rng.below(place.into()) as u8;
    let (left, right) = (earlier(), earlier());
    match place == 0 || rng.once_in(2) {
        true => leaf(rng),
        false => over(rng, left, right),
    }
}

fn first(rng: &mut Rng, image: &QuestionImage) -> Option<QuestionImage> {
    inserted(image, 0, leaf(rng))
}

fn anywhere(rng: &mut Rng, image: &QuestionImage) -> Option<QuestionImage> {
    let place = rng.below(image.count.into()) as u8;
    inserted(image, place, leftover(rng, place))
}

fn before_the_root(rng: &mut Rng, image: &QuestionImage) -> Option<QuestionImage> {
    let root = image.count.checked_sub(1)?;
    inserted(image, root, leftover(rng, root))
}

/// A leftover over a used node, somewhere after it.
fn over_a_used_node(rng: &mut Rng, image: &QuestionImage) -> Option<QuestionImage> {
    let root = image.count.checked_sub(1).filter(|root| *root > 0)?;
    let place = rng.byte(1, root);
    let mut used = || rng.below(place.into()) as u8;
    let (left, right) = (used(), used());
    inserted(image, place, over(rng, left, right))
}

/// Leftovers each over the one before, with used nodes between them or without:
/// only the last is a child of none.
fn chain(rng: &mut Rng, image: &QuestionImage) -> Option<QuestionImage> {
    let mut place = rng.below(image.count.into()) as u8;
    let mut longer = inserted(image, place, leftover(rng, place))?;
    for _ in 0..rng.range(1, 5) {
        let below = place;
        let root = longer.count - 1;
        place = rng.byte(below + 1, root.min(below + 3));
        let node = match over(rng, below, below) {
            // One "next" after another would be too deep for a plan.
            next if next.operator == 6 => NodeImage {
                operator: 3,
                ..next
            },
            other => other,
        };
        longer = inserted(&longer, place, node)?;
    }
    Some(longer)
}

/// A node once more, just after itself.
fn twin(rng: &mut Rng, image: &QuestionImage) -> Option<QuestionImage> {
    let below_root = image.count.checked_sub(1)?;
    let place = rng.below(below_root.into());
    let node = image.counted().get(place).filter(|_| below_root > 0)?;
    inserted(image, place as u8 + 1, *node)
}

/// A leftover whose number some used node has in a byte that is no child: as the
/// number of a proposition or an action, a relation, a window of steps, a number
/// of steps or of points, or as the zero of a spare byte.
fn named(rng: &mut Rng, image: &QuestionImage) -> Option<QuestionImage> {
    let field = rng.below(9);
    numbered_like(rng, image, field)
}

/// The field of a window of steps, among those of `no_child`.
const WINDOW: usize = 2;

/// One whose number some used node has in a field.
fn numbered_like(rng: &mut Rng, image: &QuestionImage, field: usize) -> Option<QuestionImage> {
    let numbered = (0u8..).zip(image.counted());
    let found = numbered.filter_map(|(own, node)| no_child(node, field).filter(|v| *v <= own));
    let places: Vec<u8> = found.collect();
    let place = rng.pick(&places)?;
    inserted(image, place, leftover(rng, place))
}

/// A byte of a node that is no child, if this node has such a one.
fn no_child(node: &NodeImage, field: usize) -> Option<u8> {
    let of = |operators: &[u8], byte: u8| operators.contains(&node.operator).then_some(byte);
    match field {
        0 => of(&[2], node.left),
        1 => of(&[5], node.left),
        WINDOW => of(&[9], node.left),
        3 => of(&[7], node.right),
        4 => of(&[8], node.right),
        5 => of(&[9], node.right),
        6 => of(&[7, 8, 9], node.steps),
        7 => of(&[7, 8, 9], u8::try_from(node.p).ok()?),
        _ => of(&[1, 2, 3, 5, 6, 7], 0),
    }
}

/// A plan of six steps, mostly with "equal", which may be over a limit that no
/// used node passes.
fn long_plan(rng: &mut Rng, image: &QuestionImage) -> Option<QuestionImage> {
    let root = image.count.checked_sub(1)?;
    let place = rng.byte(0, root);
    let gains = NodeImage {
        operator: 9,
        steps: 6,
        left: 1 + 8,
        right: rng.pick_or(&[2, 2, 3], 2),
        p: 0,
        q: 1,
    };
    match place == 0 || rng.once_in(2) {
        true => inserted(image, place, gains),
        false => {
            let left = rng.below(place.into()) as u8;
            let operator = 8;
            inserted(
                image,
                place,
                NodeImage {
                    operator,
                    left,
                    ..gains
                },
            )
        }
    }
}

/// Several at once, now and then so many that the block is full.
fn many(rng: &mut Rng, image: &QuestionImage) -> Option<QuestionImage> {
    let mut fuller = anywhere(rng, image)?;
    for _ in 0..rng.pick_or(&[1, 2, 3, 5, 8, 40], 2) {
        fuller = anywhere(rng, &fuller).unwrap_or(fuller);
    }
    Some(fuller)
}
