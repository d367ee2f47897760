//! Plans by expected gain (document 02, A.3): figures worked out by hand, the
//! fields of operator 9, its sheets and pictures, and that the streams ask it.

mod common;

use common::pack;
use second::blocks::{read_model, Sheet};
use second::desk::{verdict_line, Desk, JudgeKind};
use second::draw::draw;
use second::generate::stream;
use second::logic::Plan;
use second::tally::{tally, Tally};
use second::text::{pack_text, show_blocks};

fn fixture(name: &str) -> Vec<u8> {
    pack(&[&common::fixtures().join(name)]).remove(0)
}

fn question(start: u8, nodes: &str) -> Vec<u8> {
    pack_text(&format!("question start {start}\n{nodes}\n")).expect("question")
}

/// The verdict lines of both judges.
fn verdicts(model: &[u8], question: &[u8]) -> [String; 2] {
    let input = [model, question].concat();
    [JudgeKind::Fast, JudgeKind::Plain].map(|kind| verdict_line(&input, kind))
}

/// Start, window, steps, bound and line on the two-shelf model.
type Row = (u8, &'static str, u8, &'static str, &'static str);

/// What a step earns, out of 10: grip -20, quick -10, drop 9 * 10 = 90, wait 0.
const TWO_SHELF: [Row; 18] = [
    // One step: -20 and -10.
    (
        0,
        "1 to 1",
        1,
        "less 0/1",
        "yes -20/10 below plans 0 choices 0",
    ),
    (
        0,
        "1 to 1",
        1,
        "equal -1/1",
        "yes -10/10 at plans 2 choices 1",
    ),
    (0, "1 to 1", 1, "greater -1/1", "no plans 0 at"),
    (
        1,
        "1 to 1",
        1,
        "greater 8/1",
        "yes 90/10 above plans 0 choices 2",
    ),
    (2, "1 to 1", 1, "equal 0/1", "yes 0/10 at plans 1 choices 3"),
    // The second of two, as document 02 has it: 8 * 90 - 2 * 10.
    (
        0,
        "2 to 2",
        2,
        "greater 6/1",
        "yes 700/100 above plans 0 choices 0 2 1",
    ),
    // 5 * 90 - 5 * 20 = 350, and 5 * 90 - 5 * 10 = 400, the fourth plan.
    (
        0,
        "2 to 2",
        2,
        "less 4/1",
        "yes 350/100 below plans 0 choices 1 2 0",
    ),
    (
        0,
        "2 to 2",
        2,
        "equal 4/1",
        "yes 400/100 at plans 4 choices 1 2 1",
    ),
    (0, "2 to 2", 2, "equal 5/1", "no plans 4"),
    // The first of two: -2 * 100 by two plans, -1 * 100 by two.
    (
        0,
        "1 to 1",
        2,
        "less -1/1",
        "yes -200/100 below plans 0 choices 0 2 0",
    ),
    (
        0,
        "1 to 1",
        2,
        "equal -1/1",
        "yes -100/100 at plans 3 choices 1 2 0",
    ),
    // Both: 700 - 200, and 350 - 100.
    (
        0,
        "1 to 2",
        2,
        "greater 4/1",
        "yes 500/100 above plans 0 choices 0 2 1",
    ),
    (0, "1 to 2", 2, "less 5/2", "no plans 0 at"),
    (
        0,
        "1 to 2",
        2,
        "less 3/1",
        "yes 250/100 below plans 0 choices 1 2 0",
    ),
    // A window that ends before the plan: ten times as much, first choices.
    (
        0,
        "2 to 2",
        3,
        "greater 6/1",
        "yes 7000/1000 above plans 0 choices 0 2 3 2 1 2 0",
    ),
    // The third of three: after quick, 5 * 90 (drop missed before) + 5 * 700.
    (
        0,
        "3 to 3",
        3,
        "greater 3/1",
        "yes 3950/1000 above plans 0 choices 1 2 3 2 0 2 1",
    ),
    // All three: -2000 + 8 * (9 * 100 + 90) + 2 * 500.
    (
        0,
        "1 to 3",
        3,
        "greater 6/1",
        "yes 6920/1000 above plans 0 choices 0 2 3 2 0 2 1",
    ),
    // From loaded, the second step: 1 * 90, since 9 of 10 wait.
    (
        1,
        "2 to 2",
        2,
        "equal 9/10",
        "yes 90/100 at plans 1 choices 2 3 2",
    ),
];

#[test]
fn two_shelf_table() {
    let model = fixture("two-shelf.model");
    for (start, window, steps, bound, wanted) in TWO_SHELF {
        let node = format!("0 plan gain {window} steps {steps} {bound}");
        assert_eq!(
            verdicts(&model, &question(start, &node)),
            [wanted; 2],
            "{node}"
        );
    }
}

/// Source document 000, Example 10: the policy's paths, their weights and
/// cumulative rewards (3.7), and the expected reward (3.8), 8 1/10.
#[test]
fn example_10() {
    let model = read_model(&fixture("robot.model")).expect("robot");
    let plan = Plan::from_choices(&model, 0, 2, &[0, 0, 3]).expect("policy");
    let paths = plan.paths(&model).into_iter();
    let mut found: Vec<(Vec<u8>, u64, i32)> = paths
        .map(|path| (path.states.clone(), path.weight, path.gain_of_steps(1, 2)))
        .collect();
    found.sort();
    let wanted = [
        (vec![0, 0, 0], 1, 0),
        (vec![0, 0, 1], 9, 0),
        (vec![0, 1, 1], 9, 0),
        (vec![0, 1, 3], 81, 10),
    ];
    assert_eq!(found, wanted);
    let asked = question(0, "0 plan gain 1 to 2 steps 2 equal 81/10");
    let line = "yes 810/100 at plans 2 choices 0 0 3";
    assert_eq!(verdicts(&fixture("robot.model"), &asked), [line; 2]);
}

/// What putting a node of operator 9 gives on the two-shelf model: 0 or the
/// refusal.
fn put(node: &str) -> u8 {
    let mut desk = Desk::default();
    desk.load(&fixture("two-shelf.model")).expect("two-shelf");
    let answer = desk.put(&question(0, &format!("0 {node}")));
    answer.map_or_else(|ground| ground.number(), |()| 0)
}

/// Every left byte with every n: l is the byte modulo 8, u the quotient.
#[test]
fn windows() {
    for steps in 0..=8u8 {
        for left in 0..=255u8 {
            let (first, last) = (left % 8, left / 8);
            let right = steps <= 6 && 1 <= first && first <= last && last <= steps;
            let wanted = if right { 0 } else { 5 };
            assert_eq!(
                put(&format!("raw 9 {steps} {left} 3 6 1")),
                wanted,
                "{steps} {left}"
            );
        }
    }
}

#[test]
fn other_fields() {
    for (field, wanted) in [
        ("0 6 1", 5),
        ("1 6 1", 0),
        ("2 6 1", 0),
        ("3 6 1", 0),
        ("4 6 1", 5),
        ("255 6 1", 5),
        ("1 6000000 1", 0),
        ("1 6000001 1", 5),
        ("1 -6000000 1", 0),
        ("1 -6000001 1", 5),
        ("1 2147483647 1", 5),
        ("1 -2147483648 1", 5),
        ("1 6 0", 5),
        ("1 6 2", 0),
        ("1 6 1000", 0),
        ("1 6 1001", 5),
        ("1 6 1000000", 5),
        ("1 6 4294967295", 5),
        // No cell is spare: p may be 0, and q may not.
        ("1 0 1", 0),
        ("1 0 0", 5),
    ] {
        assert_eq!(put(&format!("raw 9 2 18 {field}")), wanted, "{field}");
    }
}

/// All bits of a sheet's eight bytes matter, for operator 9 and for 8.
#[test]
fn every_bit_of_a_total() {
    let held = "0 proposition 1\n1 next 0\n2 next 1\n3 plan 2 steps 2 equal 45/100";
    let asked = [
        ("0 plan gain 1 to 1 steps 2 less 0/1", -200, [0, 2, 0]),
        ("0 plan gain 2 to 2 steps 2 less 0/1", 700, [0, 2, 1]),
        (held, 45, [1, 2, 0]),
    ];
    for (nodes, total, choices) in asked {
        let mut desk = Desk::default();
        desk.load(&fixture("two-shelf.model")).expect("two-shelf");
        desk.put(&question(0, nodes)).expect("question");
        let sheet = |total: u64| Sheet {
            steps: 2,
            start: 0,
            total,
            choices: choices.to_vec(),
        };
        let right = i64::from(total) as u64;
        assert!(desk.check(&sheet(right).pack()).is_ok(), "{nodes}");
        for bit in 0..64 {
            let answer = desk.check(&sheet(right ^ 1 << bit).pack());
            assert_eq!(
                answer.map_err(|ground| ground.number()),
                Err(11),
                "{nodes} {bit}"
            );
        }
    }
}

/// A sheet says `total` where its number has a sign; an unsigned number that
/// stands in the same bytes will do.
#[test]
fn text_of_totals() {
    let signed = pack_text("sheet n 2 start 0 total -200\nchoices 0 2 0").expect("text");
    let plain = pack_text("sheet n 2 start 0 weight 18446744073709551416\nchoices 0 2 0");
    assert_eq!(Ok(&signed), plain.as_ref());
    assert!(show_blocks(&signed).starts_with("sheet n 2 start 0 total -200\n"));
    let above = pack_text("sheet n 2 start 0 total 700\nchoices 0 2 1").expect("text");
    assert!(show_blocks(&above).starts_with("sheet n 2 start 0 weight 700\n"));
}

/// A window is written out, and any left byte can be.
#[test]
fn text_of_windows() {
    let words = "plan gain 2 to 3 steps 5 greater -7/10";
    let packed = question(0, &format!("0 {words}"));
    // l + 8u, relation, p and q.
    assert_eq!(packed[8..12], [9, 5, 2 + 8 * 3, 3]);
    assert_eq!(packed[12..20], [249, 255, 255, 255, 10, 0, 0, 0]);
    assert!(show_blocks(&packed).contains(words));
    for left in 0..=255u8 {
        let text = show_blocks(&question(0, &format!("0 raw 9 6 {left} 1 6 1")));
        let window = format!("plan gain {} to {} steps 6 less 6/1\n", left % 8, left / 8);
        assert!(text.contains(&window), "{text}");
    }
    for wrong in ["8 to 1", "1 to 32", "1 2", "one to 2"] {
        let text = format!("question start 0\n0 plan gain {wrong} steps 6 less 6/1");
        assert!(pack_text(&text).is_err(), "{wrong}");
    }
}

/// Each path of a picture has its weight and its gain.
#[test]
fn pictures() {
    let asked = question(0, "0 plan gain 1 to 2 steps 2 greater 4/1");
    let svg = draw(&[fixture("two-shelf.model"), asked].concat()).expect("a picture");
    // Grip, then drop or quick: -2 + 10, -2 + 0, -2 - 1 twice.
    for (words, count) in [
        ("72/100, gain 8<", 1),
        ("8/100, gain -2<", 1),
        ("10/100, gain -3<", 2),
        ("condition true", 0),
        ("Verdict: yes 500/100 above plans 0<", 1),
    ] {
        assert_eq!(svg.matches(words).count(), count, "{words}");
    }
}

/// The answers of a stream.
fn counted(kind: &str, calls: usize) -> Tally {
    tally(&stream(kind, 1, calls).expect("kind"))
}

/// A call has an answer about something so often at least.
fn reached(counts: &Tally, call: &str, words: &str, fewest: usize) {
    let found = counts
        .iter()
        .filter(|(key, _)| key.0 == call && key.2 == words);
    let count: usize = found.map(|(_, count)| count).sum();
    assert!(count >= fewest, "{count} times {call} {words}");
}

/// Yes and no of each relation, with totals on either side of 0.
const VERDICTS: [(&str, &str, usize); 15] = [
    ("judge", "yes with plan: operator 9 less", 40),
    (
        "judge",
        "yes with plan: operator 9 less, total below 0",
        100,
    ),
    ("judge", "yes with plan: operator 9 greater", 100),
    (
        "judge",
        "yes with plan: operator 9 greater, total below 0",
        10,
    ),
    ("judge", "yes with plan, counted: operator 9 equal", 30),
    (
        "judge",
        "yes with plan, counted: operator 9 equal, total below 0",
        15,
    ),
    ("judge", "no: operator 9 less", 50),
    ("judge", "no: operator 9 greater", 50),
    ("judge", "no, plans counted: operator 9 equal", 50),
    ("judge", "yes: by operator 9 below the root", 20),
    ("judge", "no: by operator 9 below the root", 40),
    ("judge", "yes with plan: by operator 9 below the root", 15),
    (
        "judge",
        "yes with plan, counted: by operator 9 below the root",
        20,
    ),
    (
        "judge",
        "no, plans counted: by operator 9 below the root",
        3,
    ),
    ("judge", "yes with plan: operator 8 greater", 100),
];

#[test]
fn streams_ask_for_gains() {
    for (kind, calls) in [("small", 15_000), ("judges", 15_000), ("lists", 40_000)] {
        let counts = counted(kind, calls);
        for (call, words, fewest) in VERDICTS {
            reached(&counts, call, words, fewest);
        }
        if kind == "judges" {
            for call in ["judge", "check"] {
                reached(&counts, call, "refused 24: by operator 9 alone", 2);
                reached(&counts, call, "refused 25: by operator 9 alone", 2);
            }
        }
    }
}

#[test]
fn streams_have_wrong_fields() {
    let counts = counted("questions", 10_000);
    for field in [
        "n",
        "l below 1",
        "l over u",
        "u over n",
        "relation",
        "p",
        "q",
    ] {
        let words = format!("refused 5: operator 9, {field}");
        reached(&counts, "put", &words, 40);
    }
}

#[test]
fn streams_have_sheets_of_gains() {
    let (sheets, tight) = (counted("sheets", 50_000), counted("tight", 13_000));
    for relation in ["less", "equal", "greater"] {
        for answer in ["accepted met", "accepted unmet", "refused 11"] {
            for sign in ["", ", total below 0"] {
                let words = format!("{answer}: operator 9 {relation}{sign}");
                reached(&sheets, "check", &words, 10);
                reached(&tight, "check", &words, 10);
            }
        }
    }
    for (words, fewest) in [
        ("1 block: operator 9 less, total below 0", 50),
        ("2 blocks: operator 9 less, total below 0", 5),
        ("3 blocks: operator 9 less, total below 0", 5),
        ("3 blocks: operator 9 greater", 5),
    ] {
        reached(&sheets, "write", words, fewest);
    }
}
