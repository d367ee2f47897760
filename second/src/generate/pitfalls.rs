//! Models made up so that certain wrong judges of expected gains (operator 9)
//! answer questions about them otherwise, which random ones hardly bring about:
//! comparisons that need more than 64 bits with a sign, and totals that only a
//! plan has which looks at the history.

use super::bounds::lowest;
use super::cases::{pack, question};
use super::question::random_choices;
use super::rng::Rng;
use super::streams::right_sheet;
use crate::blocks::{read_model, read_question, BLOCK};
use crate::desk::Call;
use crate::logic::{fast, Bound, Model, Node, Plan, PlanNode, Question, Relation};
use crate::logic::{Summed, Totals};

/// Such a model, and some questions about it: each is judged, its plan written,
/// and the sheet of some plan checked.
pub(super) fn pitfalls(rng: &mut Rng) -> Vec<Call> {
    let far = rng.once_in(2);
    let bytes = if far {
        far_model(rng)
    } else {
        tossed_model(rng)
    };
    let Ok(model) = read_model(&bytes) else {
        return Vec::new();
    };
    let totals = Totals::of(&model);
    let mut calls = vec![Call::Load(bytes)];
    for _ in 0..4 {
        let mut nodes = vec![match far {
            true => far_node(rng),
            false => history_node(rng, &model, &totals),
        }];
        if rng.once_in(4) {
            nodes.push("not 0".to_string());
        }
        let packed = question(0, &nodes);
        if let Ok(question) = read_question(&packed, &model) {
            calls.extend([Call::Put(packed), Call::Judge]);
            calls.push(Call::Write(vec![0; 3 * BLOCK]));
            let sheet = right_sheet(rng, &model, &question, &totals);
            calls.push(Call::Check(sheet.pack()));
        }
    }
    calls
}

/// A model with about the largest D and the largest rewards: from the first
/// state one action stays for certain, the other may leave for the second. A
/// state has 64 plans of six steps.
pub(super) fn far_model(rng: &mut Rng) -> Vec<u8> {
    let base = rng.pick_or(&[100, 100, 100, 99, 98, 97], 100);
    let stays = rng.range(1, base - 1);
    let leaves = base - stays;
    // With rewards of one sign, a bound on the other side of 0 is missed by as
    // much as can be.
    let sign = rng.pick(&[1, -1]).filter(|_| rng.once_in(2));
    let mut reward = || {
        let points = rng.range(900, 1000) as i32;
        let points = rng.pick_or(&[points, -points, 1000, -1000], 1000);
        sign.map_or(points, |sign| sign * points.abs())
    };
    let (first, second, third, last) = (reward(), reward(), reward(), reward());
    let mut text = format!("model D {base}\nproposition 0 gone\nstate 0:\nstate 1: gone\n");
    text += "action 0 needs !gone\npost !gone\n";
    text += "action 1 needs !gone\npost !gone\npost gone\naction 2 needs gone\npost gone\n";
    text += &format!("outcome 0 0: 0 weight {base} reward {first}\n");
    text += &format!("outcome 0 1: 0 weight {stays} reward {second}, ");
    text += &format!("1 weight {leaves} reward {third}\n");
    text += &format!("outcome 1 2: 1 weight {base} reward {last}\n");
    pack(&text)
}

/// A bound far from 0, with q about its end. Times q, the totals of this model
/// reach to 6 * 10^18 on either side of 0, and so does p times D to the 6.
fn far_node(rng: &mut Rng) -> String {
    let first = rng.pick_or(&[1, 1, 1, 2, 3], 1);
    let last = rng.pick_or(&[6, 6, 5], 6);
    let relation = rng.pick_or(&["less", "greater", "less", "greater", "equal"], "less");
    let p = rng.range(2_500_000, 6_000_000) as i32;
    let p = rng.pick_or(&[p, -p, 6_000_000, -6_000_000], p);
    let q = rng.pick_or(&[1000, 1000, 1000, 999, 990], 1000);
    format!("plan gain {first} to {last} steps 6 {relation} {p}/{q}")
}

/// A coin is tossed in each step, with other weights and rewards for each state
/// and action. D is small, so that all totals of three steps can be asked for.
fn tossed_model(rng: &mut Rng) -> Vec<u8> {
    let base = rng.range(2, 10);
    let mut text = format!("model D {base}\nproposition 0 up\nstate 0:\nstate 1: up\n");
    text += "action 0\npost up\npost !up\naction 1\npost up\npost !up\n";
    for state in 0..2 {
        for action in 0..2 {
            let up = rng.range(1, base - 1);
            let mut reward = || rng.range(0, 6) as i32 - 3;
            let (won, lost) = (reward(), reward());
            let down = base - up;
            text += &format!("outcome {state} {action}: 1 weight {up} reward {won}, ");
            text += &format!("0 weight {down} reward {lost}\n");
        }
    }
    pack(&text)
}

/// Just the total of some plan of three steps. The history of states is more
/// than the last of them only at the third, so that its gain is summed.
fn history_node(rng: &mut Rng, model: &Model, totals: &Totals) -> String {
    let first = rng.byte(1, 3);
    let node = PlanNode {
        steps: 3,
        summed: Summed::Gains { first, last: 3 },
        relation: Relation::Equal,
        bound: Bound { p: 0, q: 1 },
    };
    let choices = random_choices(rng, model, 0, 3);
    let asked = Question {
        start: 0,
        nodes: vec![Node::Plan(node)],
    };
    let plan = Plan::from_choices(model, 0, 3, &choices);
    let total = plan.map_or(0, |plan| {
        fast::total_of(model, &asked, &node, &plan, totals)
    });
    let Bound { p, q } = lowest(total, model.whole(3).into(), 1000).unwrap_or(node.bound);
    format!("plan gain {first} to 3 steps 3 equal {p}/{q}")
}
