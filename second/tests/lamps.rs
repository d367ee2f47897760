//! Lamps (document 02, A.4): figures worked out by hand, the comparison at the
//! ends of what can be compared, and that the streams have every lamp that
//! there can be.

mod common;

use common::pack;
use second::desk::{verdict_line, Call, Desk, JudgeKind};
use second::generate::stream;
use second::logic::{Bound, Lamp, PlanNode, Relation, Summed};
use second::tally::{tally, Tally};
use second::text::pack_text;
use std::collections::BTreeMap;
use std::sync::LazyLock;

fn fixture(name: &str) -> Vec<u8> {
    pack(&[&common::fixtures().join(name)]).remove(0)
}

fn question(nodes: &str) -> Vec<u8> {
    pack_text(&format!("question start 0\n{nodes}\n")).expect("question")
}

/// Document 02's two lines, and the one that document 01 has for a no to
/// "equal", written out once more.
#[test]
fn documents_lines() {
    let held = "0 proposition 0\n1 next 0\n2 plan 1 steps 1 greater 8/10";
    let done = "0 proposition 1\n1 next 0\n2 next 1\n3 plan 2 steps 2 equal ";
    for (nodes, wanted) in [
        (held.to_string(), "no plans 0 at"),
        (
            format!("{done}45/100"),
            "yes 45/100 at plans 3 choices 1 2 0",
        ),
        (format!("{done}50/100"), "no plans 4"),
    ] {
        let input = [fixture("two-shelf.model"), question(&nodes)].concat();
        for kind in [JudgeKind::Fast, JudgeKind::Plain] {
            assert_eq!(verdict_line(&input, kind), wanted);
        }
    }
}

/// The lines of a list of calls on the two-shelf model, by both judges.
fn replayed(calls: &[Call]) -> [Vec<String>; 2] {
    [JudgeKind::Fast, JudgeKind::Plain].map(|kind| {
        let mut desk = Desk::new(kind);
        desk.load(&fixture("two-shelf.model")).expect("two-shelf");
        let answers = calls.iter().map(|call| call.make(&mut desk).to_string());
        answers.collect()
    })
}

/// The stream's lines: a lamp after the steps of a yes, after the count of a no
/// to "less" or "greater", after "met" or "unmet". Nothing of a verdict is left
/// when another question is put.
#[test]
fn lines_of_a_list() {
    let sheet = |weight: u64, choices: &str| {
        let text = format!("sheet n 1 start 0 weight {weight}\nchoices {choices}");
        Call::Check(pack_text(&text).expect("sheet"))
    };
    let held = |bound: &str| {
        let nodes = format!("0 proposition 0\n1 next 0\n2 plan 1 steps 1 {bound}");
        Call::Put(question(&nodes))
    };
    let not = "0 proposition 0\n1 next 0\n2 plan 1 steps 1 greater 7/10\n3 not 2";
    let calls = [
        (held("greater 8/10"), "put done"),
        (Call::Judge, "judge no 0 at"),
        (sheet(8, "0"), "check accepted unmet at"),
        (sheet(5, "1"), "check accepted unmet below"),
        (held("equal 6/10"), "put done"),
        (Call::Judge, "judge no 2"),
        (sheet(8, "0"), "check accepted unmet above"),
        (sheet(5, "1"), "check accepted unmet below"),
        (sheet(6, "1"), "check refused 11"),
        (held("less 8/10"), "put done"),
        (sheet(8, "0"), "check accepted unmet at"),
        (Call::Judge, "judge yes 5 1 below 0 choices 1"),
        (sheet(5, "1"), "check accepted met below"),
        (held("less 4/10"), "put done"),
        (Call::Judge, "judge no 0 above"),
        (Call::Put(question(not)), "put done"),
        (Call::Judge, "judge no 0"),
        (held("equal 5/10"), "put done"),
        (Call::Judge, "judge yes 5 1 at 2 choices 1"),
    ];
    let (made, wanted): (Vec<Call>, Vec<&str>) = calls.into_iter().unzip();
    for lines in replayed(&made) {
        assert_eq!(lines, wanted);
    }
}

/// Totals beside a bound of p/q with D to the n at its end, where sides lie up
/// to 12 * 10^18 apart.
#[test]
fn ends_of_the_comparison() {
    const WHOLE: u64 = 1_000_000_000_000;
    let most = 6000 * i128::from(WHOLE);
    let node = |p: i32, q: u32| PlanNode {
        steps: 6,
        summed: Summed::Gains { first: 1, last: 6 },
        relation: Relation::Less,
        bound: Bound { p, q },
    };
    for (p, q, total, wanted) in [
        (6_000_000, 1000, most, Lamp::At),
        (6_000_000, 1000, most - 1, Lamp::Below),
        (6_000_000, 1000, -most, Lamp::Below),
        (-6_000_000, 1000, -most, Lamp::At),
        (-6_000_000, 1000, 1 - most, Lamp::Above),
        (-6_000_000, 1000, most, Lamp::Above),
        (5_999_999, 1000, most, Lamp::Above),
        (6_000_000, 999, most, Lamp::Below),
        (6_000_000, 1, most, Lamp::Below),
        (-6_000_000, 1, -most, Lamp::Above),
        (0, 1000, 0, Lamp::At),
        (0, 1000, 1, Lamp::Above),
        (0, 1000, -1, Lamp::Below),
        (1, 1000, 1_000_000_000, Lamp::At),
        (-1, 1000, -1_000_000_000, Lamp::At),
        (-1, 3, -333_333_333_333, Lamp::Above),
        (-1, 3, -333_333_333_334, Lamp::Below),
    ] {
        assert_eq!(node(p, q).lamp(total, WHOLE), wanted, "{total} {p}/{q}");
    }
}

/// A bound is met with one lamp each.
#[test]
fn lamps_meet() {
    let lamps = [Lamp::Below, Lamp::At, Lamp::Above];
    let relations = [Relation::Less, Relation::Equal, Relation::Greater];
    for (own, lamp) in lamps.into_iter().enumerate() {
        for (other, relation) in relations.into_iter().enumerate() {
            assert_eq!(lamp.meets(relation), own == other);
        }
    }
}

/// The answers of the streams with verdicts, with the counts of calls of
/// `tests/agree`.
static COUNTS: LazyLock<BTreeMap<&str, Tally>> = LazyLock::new(|| {
    let kinds = ["small", "judges", "sheets", "lists", "tight"].into_iter();
    let counted = kinds.map(|kind| {
        let calls = if kind == "tight" { 13_000 } else { 50_000 };
        (kind, tally(&stream(kind, 1, calls).expect("kind")))
    });
    counted.collect()
});

/// A call has an answer about something so often at least.
fn reached(counts: &Tally, kind: &str, call: &str, words: &str, fewest: usize) {
    let found = counts
        .iter()
        .filter(|(key, _)| key.0 == call && key.2 == words);
    let count: usize = found.map(|(_, count)| count).sum();
    assert!(count >= fewest, "{kind}: {count} times {call} {words}");
}

/// Relations with the lamps of yes and no.
const VERDICTS: [(&str, &str); 7] = [
    ("yes with plan: operator", "less, below"),
    ("yes with plan: operator", "greater, above"),
    ("yes with plan, counted: operator", "equal, at"),
    ("no: operator", "less, at"),
    ("no: operator", "less, above"),
    ("no: operator", "greater, at"),
    ("no: operator", "greater, below"),
];

/// The same for totals next to the bound: a unit of 1 over D to the n, or less.
const NEXT_TO: [(&str, &str, &str); 4] = [
    ("yes with plan: operator", "less", "below"),
    ("yes with plan: operator", "greater", "above"),
    ("no: operator", "less", "above"),
    ("no: operator", "greater", "below"),
];

#[test]
fn streams_have_every_lamp_of_a_verdict() {
    for kind in ["small", "judges", "sheets", "lists"] {
        let counts = &COUNTS[kind];
        for (answer, asked) in VERDICTS {
            for operator in [8, 9] {
                let words = format!("{answer} {operator} {asked}");
                reached(counts, kind, "judge", &words, 30);
            }
            let words = format!("{answer} 9 {asked}, total below 0");
            reached(counts, kind, "judge", &words, 3);
        }
        for answer in ["yes", "no"] {
            let words = format!("{answer}: another root over plans");
            reached(counts, kind, "judge", &words, 50);
        }
    }
}

#[test]
fn streams_have_verdicts_next_to_the_bound() {
    for kind in ["small", "judges", "sheets"] {
        let counts = &COUNTS[kind];
        for (answer, relation, lamp) in NEXT_TO {
            for (operator, near, fewest) in [
                (8, "one unit", 20),
                (9, "one unit", 10),
                (8, "less than a unit", 3),
                (9, "less than a unit", 1),
            ] {
                let words = format!("{answer} {operator} {relation}, {near} {lamp}");
                reached(counts, kind, "judge", &words, fewest);
            }
            let words = format!("{answer} 9 {relation}, one unit {lamp}, total below 0");
            reached(counts, kind, "judge", &words, 2);
        }
    }
    let counts = &COUNTS["tight"];
    for (answer, relation, lamp) in NEXT_TO {
        for (operator, sign) in [(8, ""), (9, ""), (9, ", total below 0")] {
            let words = format!("{answer} {operator} {relation}, less than a unit {lamp}{sign}");
            reached(counts, "tight", "judge", &words, 5);
        }
    }
}

/// The answer to a sheet's total with this lamp.
fn met(relation: &str, lamp: &str) -> &'static str {
    match (relation, lamp) {
        ("less", "below") | ("equal", "at") | ("greater", "above") => "accepted met",
        _ => "accepted unmet",
    }
}

#[test]
fn streams_have_sheets_of_every_lamp() {
    let kinds = [("small", 3), ("judges", 3), ("sheets", 8)];
    for (kind, fewest) in kinds {
        let counts = &COUNTS[kind];
        for relation in ["less", "equal", "greater"] {
            for (operator, sign) in [(8, ""), (9, ""), (9, ", total below 0")] {
                for lamp in ["below", "at", "above"] {
                    let asked = format!("{}: operator {operator}", met(relation, lamp));
                    let words = format!("{asked} {relation}, {lamp}{sign}");
                    reached(counts, kind, "check", &words, fewest);
                }
                for lamp in ["below", "above"] {
                    let asked = format!("{}: operator {operator}", met(relation, lamp));
                    let words = format!("{asked} {relation}, one unit {lamp}{sign}");
                    reached(counts, kind, "check", &words, fewest);
                }
            }
        }
    }
}
