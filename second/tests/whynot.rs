//! Why not (document 02, A.5): the lines of the documents and of the fixtures by
//! both judges, the judges against each other, and the printed plans back on
//! sheets.

mod common;

use common::{files, fixtures, named, pack};
use second::blocks::{read_model, read_question, BLOCK};
use second::desk::{pairs, reason_calls, verdict_line, whynot_lines, Answer, Desk, JudgeKind};
use second::generate::stream;
use second::logic::{plain, Checked, Lamp, Totals};
use second::tally::reason_tally;
use second::text::pack_text;
use std::fs;
use std::path::{Path, PathBuf};

/// The lines of both judges, the plain one where it is affordable.
fn lines(input: &[u8]) -> Vec<Vec<String>> {
    let mut found = vec![whynot_lines(input, JudgeKind::Fast)];
    if affordable(input) {
        found.push(whynot_lines(input, JudgeKind::Plain));
    }
    found
}

fn affordable(input: &[u8]) -> bool {
    let (model, question) = input.split_at(input.len().saturating_sub(BLOCK));
    let cost = read_model(model).ok().and_then(|model| {
        let question = read_question(question, &model).ok()?;
        Some(plain::cost(&model, &question, &Totals::of(&model)))
    });
    cost.is_some_and(|cost| cost < 50_000_000)
}

fn two_shelf(nodes: &str) -> Vec<u8> {
    let model = pack(&[&fixtures().join("two-shelf.model")]).remove(0);
    let question = pack_text(&format!("question start 0\n{nodes}\n")).expect("question");
    [model, question].concat()
}

/// The lines of document 02 and of the notes on open points, written out once
/// more, and one of each other kind.
#[test]
fn documents_lines() {
    let held = "0 proposition 0\n1 next 0\n2 plan 1 steps 1 greater ";
    let twice = "0 proposition 0\n1 next 0\n2 next 1\n3 plan 2 steps 2 less ";
    let done = "0 proposition 1\n1 next 0\n2 next 1\n3 plan 2 steps 2 equal ";
    let gain = "0 plan gain 1 to 1 steps 2 equal ";
    for (nodes, wanted) in [
        (format!("{held}8/10"), "greatest 8/10 choices 0"),
        (format!("{twice}18/100"), "least 18/100 choices 0 2 1"),
        (
            format!("{done}50/100"),
            "below 45/100 choices 1 2 0\nabove 72/100 choices 0 2 0",
        ),
        (
            format!("{done}73/100"),
            "below 72/100 choices 0 2 0\nabove none",
        ),
        (
            format!("{done}44/100"),
            "below none\nabove 45/100 choices 1 2 0",
        ),
        (
            format!("{done}45/100"),
            "yes 45/100 at plans 3 choices 1 2 0",
        ),
        (
            format!("{gain}-3/2"),
            "below -200/100 choices 0 2 0\nabove -100/100 choices 1 2 0",
        ),
        (format!("{held}7/10\n3 not 2"), "no reason"),
        (format!("{held}8/10\n3 not 2"), "yes"),
        (format!("{held}11/10"), "refused 5"),
    ] {
        for found in lines(&two_shelf(&nodes)) {
            assert_eq!(found.join("\n"), wanted, "{nodes}");
        }
    }
}

/// Input of every wrong length is refused as by verdict.
#[test]
fn lengths() {
    for length in [0, 1, 511, 512, 1023, 6655, 6657, 100_000] {
        let input = vec![0; length];
        assert_eq!(whynot_lines(&input, JudgeKind::Fast), ["refused 1"]);
    }
    assert_eq!(whynot_lines(&vec![0; 6656], JudgeKind::Fast), ["refused 3"]);
}

/// All that a fixture says after `# whynot: `.
fn said(file: &Path) -> Vec<String> {
    let text = fs::read_to_string(file).expect("fixture");
    let lines = text.lines();
    lines
        .filter_map(|line| line.strip_prefix("# whynot: ").map(str::to_string))
        .collect()
}

fn all_questions() -> Vec<PathBuf> {
    let folders = fs::read_dir(fixtures()).expect("fixtures");
    let folders = folders.map(|entry| entry.expect("entry"));
    let folders = folders.filter(|entry| entry.path().is_dir());
    let names = folders.map(|entry| entry.file_name().to_string_lossy().to_string());
    names.flat_map(|name| files(&name, "question")).collect()
}

/// Every question of the fixtures: what it says itself, by both judges; a yes
/// and a refusal print as by verdict.
#[test]
fn fixtures_lines() {
    let (mut questions, mut explained) = (0, 0);
    for file in all_questions() {
        let input = pack(&[&named(&file, "model"), &file]).concat();
        let verdict = verdict_line(&input, JudgeKind::Fast);
        let said = said(&file);
        for found in lines(&input) {
            if !said.is_empty() {
                assert_eq!(found, said, "{}", file.display());
            }
            if !verdict.starts_with("no") {
                assert_eq!(found, [verdict.as_str()], "{}", file.display());
            }
        }
        questions += 1;
        explained += usize::from(!said.is_empty());
    }
    assert!(questions >= 471 && explained >= 182);
}

/// The longest answer has 1,365 choices in each of its lines, and more than
/// 8,192 bytes.
#[test]
fn longest_answer() {
    let lines = said(&fixtures().join("whynot/fan-gain-equal-0.question"));
    for line in &lines {
        let (_, choices) = line.split_once(" choices ").expect("choices");
        assert_eq!(choices.split(' ').count(), 1365);
    }
    assert!(lines.join("\n").len() > 8192);
}

/// Both judges print the same, on further seeds than `tests/agree` has.
#[test]
fn fast_and_plain_agree() {
    for seed in 20..30 {
        for (kind, calls, questions) in [("reasons", 3_000, 600), ("small", 3_000, 300)] {
            for pair in pairs(&stream(kind, seed, calls).expect("kind"), questions) {
                let [fast, plain] =
                    [JudgeKind::Fast, JudgeKind::Plain].map(|kind| whynot_lines(&pair, kind));
                assert_eq!(fast, plain, "{kind}, seed {seed}");
            }
        }
    }
}

/// Each printed plan is accepted with the total beside it, does not meet the
/// bound, and lies on its side.
#[test]
fn printed_plans_are_accepted() {
    let mut checked = 0;
    for pair in pairs(&stream("reasons", 31, 4_000).expect("kind"), 1_000) {
        let printed = whynot_lines(&pair, JudgeKind::Fast);
        let plans = printed.iter().filter(|line| line.contains('/'));
        let plans = plans.filter(|line| !line.starts_with("yes"));
        let mut words = plans.map(|line| line.split(' ').next().unwrap_or(""));
        let mut desk = Desk::default();
        for call in reason_calls(&pair, &printed.join("\n")) {
            if let Answer::Check(answer) = call.make(&mut desk) {
                let Checked { met, lamp } = answer.expect("accepted");
                assert!(!met && fits(words.next(), lamp), "{printed:?}");
                checked += 1;
            }
        }
        assert_eq!(words.next(), None, "{printed:?}");
    }
    assert!(checked > 700);
}

fn fits(word: Option<&str>, lamp: Lamp) -> bool {
    match word {
        Some("below") => lamp == Lamp::Below,
        Some("above") => lamp == Lamp::Above,
        Some("greatest") => lamp != Lamp::Above,
        Some("least") => lamp != Lamp::Below,
        _ => false,
    }
}

/// What cannot be read as a printed plan becomes no sheet.
#[test]
fn unreadable_lines() {
    let pair = two_shelf("0 proposition 0\n1 next 0\n2 plan 1 steps 1 greater 8/10");
    for (printed, calls) in [
        ("greatest 8/10 choices 0\n", 3),
        ("below 5/10 choices 1\nabove 8/10 choices 0\n", 4),
        ("below none\nabove 8/10 choices 0\n", 3),
        ("no reason\n", 0),
        ("yes 8/10 above plans 0 choices 0\n", 0),
        ("greatest 8/10 choices 256\n", 0),
        ("greatest 8/10 at choices 0\n", 0),
        ("greatest 8 choices 0\n", 0),
        ("refused 1\n", 0),
        ("", 0),
    ] {
        assert_eq!(reason_calls(&pair, printed).len(), calls, "{printed}");
    }
    assert!(reason_calls(&[], "below none").is_empty());
}

/// The questions of `reasons` that `tests/agree` asks have every kind of line
/// for both operators, with all that its plan can have.
#[test]
fn stream_has_every_line() {
    for seed in 1..=3 {
        let counts = reason_tally(&pairs(
            &stream("reasons", seed, 9_000).expect("kind"),
            2_250,
        ));
        let reached = |words: String, fewest: usize| {
            let count = counts.get(&words).copied().unwrap_or(0);
            assert!(count >= fewest, "seed {seed}: {count} times {words}");
        };
        for operator in [8, 9] {
            for word in ["greatest", "least", "below", "above"] {
                reached(format!("operator {operator} {word}"), 120);
                for detail in ["silent", "tie", "no whole bound"] {
                    reached(format!("operator {operator} {word}, {detail}"), 20);
                }
            }
            for word in ["below", "above"] {
                reached(format!("operator {operator} {word} none"), 50);
            }
        }
        for word in ["greatest", "least", "below", "above"] {
            reached(format!("operator 9 {word}, total below 0"), 30);
        }
        for (words, fewest) in [("no reason", 100), ("yes", 100), ("refused", 20)] {
            reached(words.to_string(), fewest);
        }
    }
}
