//! Worst cases for expected gains (operator 9). Such a node has no child, so
//! that 40 nodes have room for no more than 19 of them that are all needed in
//! every state: 18 "and" join them, and two "next" and a plan lead there.

use super::bench::{words, Case};
use super::cases::{pack, question};

/// The cases on a model of a million paths, on one of 65,536 plans, and on one
/// of certain moves.
pub(super) fn cases(ten: &[u8], levels: &[u8]) -> Vec<Case> {
    let case = |name, model: &[u8], nodes: Vec<String>| Case {
        name,
        model: model.to_vec(),
        question: question(0, &nodes),
    };
    vec![
        case("expected-greater-million", ten, greater_root()),
        case("expected-equal-65536", levels, equal_root()),
        case("expected-nested-19", ten, nested()),
        case("expected-nested-equal", &six_ways(), nested_equal()),
    ]
}

/// A root that shows the plan of greatest gain in six steps.
fn greater_root() -> Vec<String> {
    words(&["plan gain 1 to 6 steps 6 greater 0/1"])
}

/// A root whose total is a whole number that no plan has, since all plans are
/// then looked at.
fn equal_root() -> Vec<String> {
    words(&["plan gain 1 to 6 steps 6 equal 4321/1000"])
}

/// 19 nodes of operator 9, all of which are to be true: windows from each step
/// to the last, by turns with bounds that are easily passed from either side.
fn nested() -> Vec<String> {
    let mut nodes: Vec<String> = Vec::new();
    for own in 0..19 {
        let (first, bound) = (1 + own % 6, 10 + own);
        let relation = match own % 2 {
            0 => format!("greater -{bound}/1"),
            _ => format!("less {bound}/1"),
        };
        nodes.push(format!("plan gain {first} to 6 steps 6 {relation}"));
        if own > 0 {
            let last = nodes.len() - 1;
            nodes.push(format!("and {} {last}", last - 1));
        }
    }
    after_steps(nodes, 2)
}

/// 19 nodes of operator 9 with "equal", all of which are to be true. None is:
/// moves are certain, so that every plan gains a whole number of points, and
/// half a point more is asked for, a whole total over D to the 6. A judge that
/// works out each node in each state looks at all plans, each time; a "not" over
/// each, so that none can be passed over, would leave room for 12 only.
fn nested_equal() -> Vec<String> {
    let mut nodes: Vec<String> = Vec::new();
    for own in 0..19 {
        let (first, p) = (1 + own % 6, 2 * own + 1);
        nodes.push(format!("plan gain {first} to 6 steps 6 equal {p}/2"));
        if own > 0 {
            let last = nodes.len() - 1;
            nodes.push(format!("and {} {last}", last - 1));
        }
    }
    after_steps(nodes, 2)
}

/// The last node, read after so many steps of some plan.
fn after_steps(mut nodes: Vec<String>, steps: usize) -> Vec<String> {
    for _ in 0..steps {
        nodes.push(format!("next {}", nodes.len() - 1));
    }
    let condition = nodes.len() - 1;
    nodes.push(format!("plan {condition} steps {steps} greater 1/1000"));
    nodes
}

/// A model of 32 states with six certain moves in each, so that every state has
/// 6 to the 6, that is 46,656, plans of six steps. The moves of state s lead to
/// the six states from 6s + 3 on, round the 32, so that the 36 plans of two steps
/// come to 36 states in a row: to all of them.
fn six_ways() -> Vec<u8> {
    let mut text = String::from("model D 10 N 5\n");
    for state in 0..32usize {
        let bits = (0..5).filter(|bit| state >> bit & 1 == 1);
        let truths: String = bits.map(|bit| format!(" {bit}")).collect();
        text += &format!("state {state}:{truths}\n");
    }
    for action in 0..6 {
        text += &format!("action {action}\npost always\n");
    }
    for state in 0..32usize {
        for action in 0..6usize {
            let target = (6 * state + action + 3) % 32;
            let reward = (13 * state + 7 * action * action) as i32 % 41 - 20;
            text += &format!("outcome {state} {action}: {target} weight 10 reward {reward}\n");
        }
    }
    pack(&text)
}

#[cfg(test)]
mod tests {
    use super::*;
    use crate::blocks::{read_model, read_question};
    use crate::generate::bench_cases;
    use crate::generate::bench_models::tests::met_after;
    use crate::logic::{fast, Judged, Model, Node, Question, Totals};

    #[test]
    fn every_state_has_as_many_plans() {
        let model = read_model(&six_ways()).expect("an accepted model");
        let totals = Totals::of(&model);
        assert!((0..32).all(|state| totals.plans(6, state) == 46_656));
        assert!((0..32).all(|state| totals.paths(6, state) == 46_656));
    }

    fn case(name: &str) -> (Model, Question) {
        let case = bench_cases().into_iter().find(|case| case.name == name);
        let case = case.expect(name);
        let model = read_model(&case.model).expect("an accepted model");
        let question = read_question(&case.question, &model).expect("accepted");
        (model, question)
    }

    /// The nested nodes are needed in all states, and there is room for no more.
    #[test]
    fn needed_everywhere() {
        for name in ["expected-nested-19", "expected-nested-equal"] {
            let (model, question) = case(name);
            assert_eq!(met_after(&model, 2).len(), 32, "{name}");
            let gains = question.plan_nodes().filter(|(_, plan)| plan.sums_gains());
            assert_eq!(gains.count(), 19, "{name}");
            assert_eq!(question.nodes.len(), 40, "{name}");
        }
    }

    /// No plan has a total that "equal" asks for, in any state, though it is a
    /// whole number: no search ends before the last plan.
    #[test]
    fn no_plan_is_equal() {
        let (model, question) = case("expected-nested-equal");
        let whole = i128::from(model.whole(6));
        let gains = question.plan_nodes().filter(|(_, plan)| plan.sums_gains());
        for (number, node) in gains {
            let (p, q) = (i128::from(node.bound.p), i128::from(node.bound.q));
            assert_eq!(p * whole % q, 0, "node {number}");
            for start in 0..32 {
                let asked = Question {
                    start,
                    nodes: vec![Node::Plan(node)],
                };
                let judged = fast::judge(&model, &asked, &Totals::of(&model));
                assert_eq!(judged, Judged::none_equal(46_656), "{number}");
            }
        }
    }
}
