//! Both ends of every range, on either side.

mod common;

use second::desk::Desk;
use second::text::pack_text;
use std::fs;

/// 0 for done, or the number of the refusal.
fn number(answer: Result<(), second::ground::Ground>) -> u8 {
    answer.map_or_else(|ground| ground.number(), |()| 0)
}

fn two_shelf() -> String {
    fs::read_to_string(common::fixtures().join("two-shelf.model")).expect("fixture")
}

/// What loading gives once each pair's first part is replaced by its second.
fn load(changes: &[(&str, &str)]) -> u8 {
    let mut text = two_shelf();
    for (from, to) in changes {
        assert!(text.contains(from), "'{from}' is not in the model");
        text = text.replace(from, to);
    }
    number(Desk::default().load(&pack_text(&text).expect("text")))
}

#[test]
fn model_ranges() {
    let table: [(&str, &str, u8); 21] = [
        ("reward 10,", "reward 1000,", 0),
        ("reward 10,", "reward 1001,", 5),
        ("reward 10,", "reward -1000,", 0),
        ("reward 10,", "reward -1001,", 5),
        ("reward 10,", "reward 32767,", 5),
        ("reward 10,", "reward -32768,", 5),
        ("over weight 9", "over weight 0", 5),
        ("over weight 9", "over weight 101", 5),
        ("over weight 9", "over weight 100", 7),
        ("over weight 9", "over weight 8", 7),
        ("over weight 9", "over weight 10", 7),
        ("over wait: over", "over wait: 2", 0),
        ("over wait: over", "over wait: 3", 5),
        ("over wait: over", "over wait: 1", 7),
        ("D 10\n", "D 0\n", 4),
        ("D 10\n", "D 11\n", 7),
        ("D 10\n", "D 100\n", 7),
        ("D 10\n", "D 101\n", 4),
        ("D 10\n", "D 10 N 0\n", 4),
        ("D 10\n", "D 10 N 1\n", 5),
        ("D 10\n", "D 10 N 33\n", 4),
    ];
    for (from, to, wanted) in table {
        assert_eq!(load(&[(from, to)]), wanted, "{to}");
    }
    assert_eq!(
        load(&[
            ("D 10\n", "D 10 N 32\n"),
            ("loaded: held", "loaded: held 31")
        ]),
        0
    );
    assert_eq!(
        load(&[
            ("D 10\n", "D 10 N 31\n"),
            ("loaded: held", "loaded: held 31")
        ]),
        5
    );
}

#[test]
fn model_sizes() {
    let table = [
        ("D 10 S 0 blocks 2", 4),
        ("D 10 S 2 blocks 2", 5),
        ("D 10 S 4 blocks 2", 4),
        // Nothing is true in state 3, so grip is enabled there, with weight 0.
        ("D 10 S 4", 5),
        ("D 10 S 33", 4),
        ("D 10 A 0", 4),
        // Wait's fields are spare then, and so is the row of the last state.
        ("D 10 A 3", 6),
        ("D 10 A 5", 5),
        ("D 10 A 9", 4),
        ("D 10 blocks 12", 4),
        ("D 10 blocks 13", 1),
    ];
    for (heading, wanted) in table {
        let heading = format!("model {heading}");
        assert_eq!(load(&[("model D 10", &heading)]), wanted, "{heading}");
    }
}

/// What putting gives for these nodes on the two-shelf model.
fn put(heading: &str, nodes: &str) -> u8 {
    let mut desk = Desk::default();
    let model = pack_text(&two_shelf()).expect("model");
    desk.load(&model).expect("two-shelf");
    let text = format!("question {heading}\n{nodes}\n");
    number(desk.put(&pack_text(&text).expect("question")))
}

#[test]
fn question_ranges() {
    let plan = |fields: &str| format!("0 proposition 1\n1 next 0\n2 {fields}");
    let gain = |fields: &str| format!("0 {fields}\n1 plan 0 steps 6 greater 0/1");
    let table = [
        (plan("plan 1 steps 1 less 0/1"), 0),
        (plan("plan 1 steps 1 less 1/1"), 0),
        (plan("plan 1 steps 1 less 2/1"), 5),
        (plan("plan 1 steps 1 less -1/1"), 5),
        (plan("plan 1 steps 1 less 0/0"), 5),
        (plan("plan 1 steps 1 less 1000000/1000000"), 0),
        (plan("plan 1 steps 1 less 1000000/1000001"), 5),
        (plan("plan 1 steps 0 less 1/2"), 5),
        (plan("plan 1 steps 6 less 1/2"), 0),
        (plan("plan 1 steps 7 less 1/2"), 5),
        (plan("plan 2 steps 1 less 1/2"), 5),
        (plan("plan 3 steps 1 less 1/2"), 5),
        (plan("raw 8 1 1 0 1 2"), 5),
        (plan("raw 8 1 1 4 1 2"), 5),
        (plan("raw 0 0 0 0 0 0"), 5),
        (plan("raw 10 1 1 1 1 2"), 5),
        (plan("raw 255 1 1 1 1 2"), 5),
        (plan("raw 3 0 0 1 0 0"), 6),
        (plan("raw 3 0 0 0 1 0"), 6),
        (plan("raw 3 0 0 0 0 1"), 6),
        (plan("raw 3 1 0 0 0 0"), 6),
        (plan("next 1"), 9),
        (gain("gain 6 steps equal 6000"), 0),
        (gain("gain 6 steps equal 6001"), 5),
        (gain("gain 6 steps equal -6000"), 0),
        (gain("gain 6 steps equal -6001"), 5),
        (gain("gain 0 steps equal 0"), 5),
        (gain("gain 7 steps equal 0"), 5),
        (gain("raw 7 1 0 1 0 0"), 5),
        (gain("raw 7 1 0 1 0 2"), 5),
        (gain("raw 7 1 1 1 0 1"), 6),
        (gain("do 3"), 0),
        (gain("do 4"), 5),
        (gain("proposition 1"), 0),
        (gain("proposition 2"), 5),
        (gain("not 0"), 5),
    ];
    for (nodes, wanted) in table {
        assert_eq!(put("start 0", &nodes), wanted, "{nodes}");
    }
}

#[test]
fn question_sizes() {
    let nots = |count: usize| -> String {
        let more = (1..count).map(|own| format!("{own} not {}\n", own - 1));
        "0 false\n".to_string() + &more.collect::<String>()
    };
    assert_eq!(put("start 0", &nots(40)), 0);
    assert_eq!(put("start 0 nodes 41", &nots(40)), 4);
    assert_eq!(put("start 0 nodes 39", &nots(40)), 6);
    assert_eq!(put("start 0", ""), 4);
    assert_eq!(put("start 2", "0 false"), 0);
    assert_eq!(put("start 3", "0 false"), 4);
}

/// A condition may look just as far ahead as its plan.
#[test]
fn depths() {
    for steps in 1..=6 {
        for depth in 0..=6 {
            let nexts = (1..=depth).map(|own| format!("{own} next {}\n", own - 1));
            let nexts: String = nexts.collect();
            let root = format!("{} plan {depth} steps {steps} less 1/2", depth + 1);
            let nodes = format!("0 proposition 0\n{nexts}{root}");
            let wanted = if depth <= steps { 0 } else { 9 };
            assert_eq!(put("start 0", &nodes), wanted, "{depth} {steps}");
            let deep = format!("0 gain {} steps less 0\n1 not 0\n", depth.max(1));
            let nodes = format!("{deep}2 plan 1 steps {steps} less 1/2");
            let wanted = if depth.max(1) <= steps { 0 } else { 9 };
            assert_eq!(put("start 0", &nodes), wanted, "{depth} {steps}");
        }
    }
}

/// States without an enabled action are accepted, their rows spare.
#[test]
fn states_without_actions() {
    let nowhere = ("wait needs done", "wait needs done held");
    let outcome = "outcome over wait: over weight 10 reward 0\n";
    assert_eq!(load(&[nowhere]), 6);
    assert_eq!(load(&[nowhere, (outcome, "")]), 0);
    let elsewhere = "outcome over drop: over weight 9 reward 10, loaded weight 1\n";
    assert_eq!(load(&[nowhere, (outcome, elsewhere)]), 6);
    // Grip, quick and drop are gone as well: no state has an action.
    let gone = [
        ("grip needs !held !done", "grip needs held done"),
        ("quick needs !held !done", "quick needs held done"),
        ("drop needs held", "drop needs held done"),
    ];
    let lines = [
        (
            "outcome empty grip: loaded weight 8 reward -2, empty weight 2 reward -2\n",
            "",
        ),
        (
            "outcome empty quick: loaded weight 5 reward -1, empty weight 5 reward -1\n",
            "",
        ),
        (
            "outcome loaded drop: over weight 9 reward 10, loaded weight 1 reward 0\n",
            "",
        ),
    ];
    let all = [&gone[..], &[nowhere]].concat();
    assert_eq!(load(&all), 6);
    assert_eq!(load(&[&all[..], &lines, &[(outcome, "")]].concat()), 0);
}
