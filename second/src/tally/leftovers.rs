//! Where the leftovers of refused questions stand (document 02, A.6), what
//! stands beside them, and how the nodes of accepted questions are shared.

use crate::blocks::{read_formula, read_question, NodeImage, QuestionImage, BLOCK};
use crate::desk::Desk;
use crate::ground::Ground;
use crate::logic::{check_limits, Model, Totals};
use std::collections::BTreeSet;

/// What there is to tell of a put. `desk` is as it was after the call.
pub(super) fn put_words(bytes: &[u8], right: Result<(), Ground>, desk: &Desk) -> Vec<String> {
    let image = QuestionImage::unpack(bytes);
    if bytes.len() != BLOCK || !(1..=40).contains(&image.count) {
        return Vec::new();
    }
    let found = match right {
        Ok(()) => shared_words(&image),
        Err(Ground::Leftover) => {
            let mut found = leftover_words(&image);
            found.extend(desk_words(bytes, desk));
            found
        }
        Err(ground) => beside_words(&image, ground, desk),
    };
    found.into_iter().map(String::from).collect()
}

/// How the nodes of an accepted question are used.
fn shared_words(image: &QuestionImage) -> BTreeSet<&'static str> {
    let nodes = image.counted();
    let mut children: Vec<u8> = nodes.iter().flat_map(|node| node.children()).collect();
    children.sort_unstable();
    let doubled = |node: &NodeImage| node.operator == 4 && node.left == node.right;
    let all = [
        (
            children.windows(2).any(|pair| pair[0] == pair[1]),
            "a shared node",
        ),
        (nodes.iter().any(doubled), "a doubled and"),
        (nodes.len() == 40, "40 nodes"),
    ];
    all.into_iter()
        .filter(|row| row.0)
        .map(|row| row.1)
        .collect()
}

/// The numbers of the leftovers.
fn leftovers(image: &QuestionImage) -> Vec<usize> {
    let reached = image.reached();
    (0..reached.len()).filter(|own| !reached[*own]).collect()
}

const OPERATORS: [&str; 9] = [
    "operator 1",
    "operator 2",
    "operator 3",
    "operator 4",
    "operator 5",
    "operator 6",
    "operator 7",
    "operator 8",
    "operator 9",
];

/// The places and operators of the leftovers, and what they are near to.
fn leftover_words(image: &QuestionImage) -> BTreeSet<&'static str> {
    let (nodes, places) = (image.counted(), leftovers(image));
    let mut found = BTreeSet::new();
    for own in &places {
        let left = |child: &u8| places.contains(&usize::from(*child));
        let (chained, over): (Vec<u8>, Vec<u8>) =
            nodes[*own].children().iter().partition(|c| left(c));
        let place = match own {
            0 => "first",
            own if own + 2 == nodes.len() => "before the root",
            _ => "in the middle",
        };
        found.insert(place);
        found.extend((!chained.is_empty()).then_some("a chain"));
        found.extend((!over.is_empty()).then_some("over a used node"));
        found.extend(OPERATORS.get(usize::from(nodes[*own].operator).wrapping_sub(1)));
        found.extend((*own >= 32).then_some("from 32 on"));
        found.extend(names(image, *own));
    }
    found.extend((places.len() > 1).then_some("several"));
    found
}

/// The fields of used nodes that have the number of a leftover and are no
/// children.
fn names(image: &QuestionImage, own: usize) -> Vec<&'static str> {
    let nodes = image.counted().iter().zip(image.reached());
    let mut found = Vec::new();
    for (node, _) in nodes.filter(|node| node.1) {
        let (left, right) = (usize::from(node.left), usize::from(node.right));
        found.push(match node.operator {
            2 if left == own => "numbered like a proposition",
            5 if left == own => "numbered like an action",
            9 if left == own => "numbered like a window",
            7..=9 if right == own => "numbered like a relation",
            _ => continue,
        });
    }
    found
}

/// What the desk holds all the same, and whether leftovers alone pass a limit.
fn desk_words(bytes: &[u8], desk: &Desk) -> BTreeSet<&'static str> {
    let limited = desk.model().is_ok_and(|model| over_a_limit(bytes, model));
    let all = [
        (desk.question().is_ok(), "a question is held"),
        (desk.judged().is_some(), "a verdict is held"),
        (limited, "over a limit"),
    ];
    all.into_iter()
        .filter(|row| row.0)
        .map(|row| row.1)
        .collect()
}

fn over_a_limit(bytes: &[u8], model: &Model) -> bool {
    let totals = Totals::of(model);
    let used = QuestionImage::unpack(bytes).used_only().pack();
    let whole = read_formula(bytes, model).and_then(|asked| check_limits(&asked, &totals));
    let used = read_question(&used, model).and_then(|asked| check_limits(&asked, &totals));
    whole.is_err() && used.is_ok()
}

/// Leftovers beside another ground, and whether it is theirs alone.
fn beside_words(image: &QuestionImage, ground: Ground, desk: &Desk) -> BTreeSet<&'static str> {
    let mut found = BTreeSet::new();
    if leftovers(image).is_empty() {
        return found;
    }
    found.insert("beside a leftover");
    let used = image.used_only().pack();
    let read = desk.model().map(|model| read_formula(&used, model).err());
    if ground >= Ground::Range && read.is_ok_and(|read| read != Some(ground)) {
        found.insert("by a leftover");
    }
    found
}
