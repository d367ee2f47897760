//! Document 02, A.6: each node must be reached from the root by following
//! children, and what is refused changes nothing.

mod common;

use second::blocks::{read_formula, read_model, read_question, NodeImage, QuestionImage};
use second::desk::{next_call, Answer, Call, Desk};
use second::generate::{random_question, stream, Rng, Scale};
use second::ground::Ground;
use second::logic::{check_limits, fast, Model, Totals};
use second::text::{pack_text, show_blocks};
use std::fs;

fn two_shelf() -> Vec<u8> {
    let text = fs::read_to_string(common::fixtures().join("two-shelf.model")).expect("fixture");
    pack_text(&text).expect("text")
}

fn packed(nodes: &[&str]) -> Vec<u8> {
    let numbered = nodes.iter().enumerate();
    let lines: String = numbered
        .map(|(own, node)| format!("{own} {node}\n"))
        .collect();
    pack_text(&format!("question start 0\n{lines}")).expect("text")
}

/// 0 for done, or the number of the refusal.
fn put(nodes: &[&str]) -> u8 {
    let mut desk = Desk::default();
    desk.load(&two_shelf()).expect("an accepted model");
    let answer = desk.put(&packed(nodes));
    answer.map_or_else(|ground| ground.number(), |()| 0)
}

/// Each operator with a node before it that it has as a child, or has not.
#[test]
fn children_by_operator() {
    let table: [(&[&str], u8); 20] = [
        (&["false"], 0),
        (&["false", "false"], 13),
        (&["false", "proposition 0"], 13),
        (&["false", "not 0"], 0),
        (&["false", "and 0 0"], 0),
        (&["false", "false", "and 0 1"], 0),
        (&["false", "false", "and 1 0"], 0),
        (&["false", "false", "and 0 0"], 13),
        (&["false", "false", "and 1 1"], 13),
        (&["false", "plan 0 steps 1 less 1/2"], 0),
        (&["false", "false", "plan 0 steps 1 less 1/2"], 13),
        (&["false", "false", "plan 1 steps 1 less 1/2"], 13),
        (&["false", "plan gain 1 to 1 steps 1 less 1/2"], 13),
        (&["false", "next 0", "plan 1 steps 1 less 1/2"], 0),
        (&["false", "do 0", "plan 1 steps 1 less 1/2"], 13),
        (&["do 0", "plan 0 steps 1 less 1/2"], 0),
        (
            &["false", "gain 1 steps less 0", "plan 1 steps 1 less 1/2"],
            13,
        ),
        (&["gain 1 steps less 0", "plan 0 steps 1 less 1/2"], 0),
        (&["plan gain 1 to 1 steps 1 less 1/2"], 0),
        (&["plan gain 1 to 1 steps 1 less 1/2", "not 0"], 0),
    ];
    for (nodes, wanted) in table {
        assert_eq!(put(nodes), wanted, "{nodes:?}");
    }
}

/// One leftover in each place of a chain of all lengths.
#[test]
fn every_place() {
    for length in 1..40 {
        for place in 0..length {
            let mut nodes = vec!["false".to_string()];
            for own in 1..=length {
                let before = if own == place + 1 { own - 2 } else { own - 1 };
                nodes.push(match own {
                    _ if own == place || own == 1 && place == 0 => "false".to_string(),
                    _ => format!("not {before}"),
                });
            }
            let nodes: Vec<&str> = nodes.iter().map(String::as_str).collect();
            assert_eq!(put(&nodes), 13, "{nodes:?}");
        }
    }
}

/// A ground of 1 to 6 and 9 is given first, be it the leftover's or another's.
#[test]
fn lower_grounds_first() {
    let table: [(&[&str], u8); 8] = [
        (&["raw 0 0 0 0 0 0", "false"], 5),
        (&["proposition 2", "false"], 5),
        (&["false", "not 2", "not 0"], 5),
        (&["raw 1 0 1 0 0 0", "false"], 6),
        (&["false", "raw 2 0 0 1 0 0"], 6),
        (&["false", "do 0"], 9),
        (&["do 0", "next 0", "plan 1 steps 1 less 1/2", "false"], 9),
        (&["do 0", "next 0", "plan 1 steps 2 less 1/2", "false"], 13),
    ];
    for (nodes, wanted) in table {
        assert_eq!(put(nodes), wanted, "{nodes:?}");
    }
    let mut desk = Desk::default();
    let bytes = packed(&["false", "false"]);
    assert_eq!(desk.put(&bytes), Err(Ground::NoModel));
    desk.load(&two_shelf()).expect("an accepted model");
    assert_eq!(desk.put(&bytes[..511]), Err(Ground::Length));
}

/// What the words say, one node after another until there is no more to add.
fn reached_by_words(nodes: &[NodeImage]) -> Vec<bool> {
    let mut found: Vec<bool> = (1..=nodes.len()).map(|own| own == nodes.len()).collect();
    loop {
        let is_child = |own: usize| {
            let parents = nodes.iter().zip(&found).filter(|node| *node.1);
            parents.clone().any(|(node, _)| match node.operator {
                3 | 6 | 8 => usize::from(node.left) == own,
                4 => [node.left, node.right].contains(&(own as u8)),
                _ => false,
            })
        };
        let more = (0..nodes.len()).find(|own| !found[*own] && is_child(*own));
        match more {
            Some(own) => found[own] = true,
            None => return found,
        }
    }
}

/// Random nodes over earlier ones: the walk finds what the words say, and that is
/// every node just where each but the root is a child of some node.
#[test]
fn walk_and_words() {
    let mut rng = Rng::new(7);
    let mut all_reached = 0;
    for _ in 0..20_000 {
        let most = if rng.once_in(3) { 40 } else { 8 };
        let mut image = QuestionImage {
            count: rng.byte(1, most),
            ..QuestionImage::default()
        };
        for own in 0..usize::from(image.count) {
            let mut child = || rng.range(own.saturating_sub(3), own.saturating_sub(1)) as u8;
            let (left, right) = (child(), child());
            image.nodes[own] = NodeImage {
                operator: if own == 0 { 1 } else { rng.byte(1, 9) },
                left,
                right,
                ..NodeImage::default()
            };
        }
        let nodes = image.counted();
        let reached = image.reached();
        assert_eq!(reached, reached_by_words(nodes));
        let children: Vec<u8> = nodes.iter().flat_map(|node| node.children()).collect();
        let each_a_child = (0..image.count - 1).all(|own| children.contains(&own));
        assert_eq!(reached.iter().all(|found| *found), each_a_child);
        all_reached += usize::from(each_a_child);
        let used = image.used_only();
        assert!(used.reached().iter().all(|found| *found));
        let count = reached.iter().filter(|found| **found).count();
        assert_eq!(usize::from(used.count), count);
    }
    assert!(all_reached > 1_000, "{all_reached}");
}

fn calls(kind: &str, count: usize) -> Vec<Call> {
    let bytes = stream(kind, 5, count).expect("kind");
    let mut rest = bytes.as_slice();
    std::iter::from_fn(|| next_call(&mut rest)).collect()
}

/// The leftovers of a refused question say nothing: with them removed it is
/// accepted, and has the verdict that it would have with them.
#[test]
fn removed_leftovers() {
    let mut model = None;
    let mut refused = 0;
    for call in calls("judges", 12_000) {
        match call {
            Call::Load(bytes) => model = read_model(&bytes).ok(),
            Call::Put(bytes) => {
                let model = model.as_ref().expect("a model");
                if read_question(&bytes, model) == Err(Ground::Leftover) {
                    same_without(&bytes, model);
                    refused += 1;
                }
            }
            _ => {}
        }
    }
    assert!(refused > 200, "{refused}");
}

fn same_without(bytes: &[u8], model: &Model) {
    let used = QuestionImage::unpack(bytes).used_only().pack();
    let removed = read_question(&used, model).expect("an accepted question");
    let whole = read_formula(bytes, model).expect("a formula");
    let totals = Totals::of(model);
    if check_limits(&whole, &totals).is_ok() {
        let judged = fast::judge(model, &removed, &totals);
        assert_eq!(judged, fast::judge(model, &whole, &totals));
    }
    // The text form has both, and gives the same bytes again.
    for packed in [bytes, &used] {
        assert_eq!(pack_text(&show_blocks(packed)).as_deref(), Ok(packed));
    }
}

/// A refused put leaves question and verdict, and the calls after it answer as
/// without it.
#[test]
fn refused_puts_change_nothing() {
    let mut desk = Desk::default();
    let (mut held, mut judged) = (0, 0);
    for kind in ["lists", "sheets"] {
        for call in calls(kind, 8_000) {
            let before = desk.clone();
            if call.make(&mut desk) == Answer::Put(Err(Ground::Leftover)) {
                assert_eq!(desk, before);
                held += usize::from(desk.question().is_ok());
                judged += usize::from(desk.judged().is_some());
            }
        }
    }
    assert!(held > 200 && judged > 100, "{held} {judged}");
}

/// Random questions are accepted; many of their nodes are shared, and some fill
/// the block.
#[test]
fn random_questions_are_accepted() {
    let mut rng = Rng::new(3);
    let model = read_model(&two_shelf()).expect("an accepted model");
    let totals = Totals::of(&model);
    let scale = Scale {
        nodes: 14,
        paths: 1_000,
        plans: 1_000,
    };
    let (mut nodes, mut shared, mut full) = (0, 0, 0);
    for _ in 0..4_000 {
        let question = random_question(&mut rng, &model, &totals, scale);
        let image = QuestionImage::from(&question);
        assert_eq!(read_question(&image.pack(), &model), Ok(question));
        let children = image.counted().iter().flat_map(|node| node.children());
        nodes += usize::from(image.count);
        shared += usize::from(children.count() + 1 > usize::from(image.count));
        full += usize::from(image.count == 40);
    }
    assert!(nodes > 16_000, "{nodes} nodes");
    assert!(shared > 600, "{shared} with a shared node");
    assert!(full > 20, "{full} of 40 nodes");
}
