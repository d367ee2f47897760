//! The documents' examples, from the fixtures and from figures written here.

mod common;

use common::{files, named, pack, says};
use second::blocks::{read_model, read_question};
use second::desk::{verdict_line, Desk, JudgeKind};
use second::logic::{plain, Checked, Plan, Totals};
use std::path::Path;

/// The verdict lines of both judges, the plain one where it is affordable.
fn verdicts(model: &[u8], question: &[u8]) -> Vec<String> {
    let input = [model, question].concat();
    let mut lines = vec![verdict_line(&input, JudgeKind::Fast)];
    let affordable = read_model(model).ok().and_then(|model| {
        let question = read_question(question, &model).ok()?;
        let cost = plain::cost(&model, &question, &Totals::of(&model));
        (cost < 50_000_000).then_some(())
    });
    if affordable.is_some() {
        lines.push(verdict_line(&input, JudgeKind::Plain));
    }
    lines
}

fn check_questions(folder: &str, fewest: usize) {
    let questions = files(folder, "question");
    assert!(questions.len() >= fewest, "{folder} lacks questions");
    for file in questions {
        let wanted = says(&file, "verdict").expect("a verdict line");
        let parts = pack(&[&named(&file, "model"), &file]);
        for line in verdicts(&parts[0], &parts[1]) {
            assert_eq!(line, wanted, "{}", file.display());
        }
    }
}

#[test]
fn two_shelf_questions() {
    check_questions("two-shelf", 12);
}

#[test]
fn mary_questions() {
    check_questions("mary", 9);
}

/// Document 02, A.1: states without an enabled action.
#[test]
fn silent_questions() {
    check_questions("two-shelf-silent", 24);
    check_questions("silent", 12);
}

/// Mary as she is published, in industry and in a Ph.D. without a move.
#[test]
fn published_mary_questions() {
    check_questions("mary-published", 12);
}

/// Document 02, A.3: expected gains on the two-shelf model, at the ends of what
/// can be gained, by plans that look at the history, on sheets of two blocks.
#[test]
fn expected_gain_questions() {
    check_questions("two-shelf-gains", 52);
    check_questions("toll", 15);
    check_questions("coin", 5);
    check_questions("spread", 2);
}

/// Source document 000, Example 10.
#[test]
fn robot_questions() {
    check_questions("robot", 10);
}

#[test]
fn shelf_questions() {
    check_questions("shelf", 3);
}

#[test]
fn six_tries_questions() {
    check_questions("six-tries", 6);
}

/// Document 02, A.4: totals below, at and above their bounds.
#[test]
fn lamp_questions() {
    check_questions("lamps", 83);
}

/// Document 02, A.5: questions that no plan meets, and some others.
#[test]
fn whynot_questions() {
    check_questions("whynot", 74);
}

#[test]
fn limit_questions() {
    check_questions("limits", 39);
}

/// Document 02, A.6: nodes that the root does not reach, and the same questions
/// without them.
#[test]
fn leftover_questions() {
    check_questions("leftovers", 66);
}

#[test]
fn refused_questions() {
    check_questions("refusals", 36);
}

#[test]
fn refused_models() {
    let models = files("refusals", "model");
    assert!(models.len() >= 25);
    for file in models {
        let parts = pack(&[&file]);
        let answer = Desk::default().load(&parts[0]).map_err(|g| g.number());
        let wanted = says(&file, "load").expect("a load line");
        assert_eq!(
            format!("refused {}", answer.unwrap_err()),
            wanted,
            "{}",
            file.display()
        );
    }
}

#[test]
fn accepted_models() {
    let accepted = files(".", "model")
        .into_iter()
        .chain(files("silent", "model"))
        .chain(files("robot", "model"));
    let mut count = 0;
    for file in accepted {
        let parts = pack(&[&file]);
        let loaded = Desk::default().load(&parts[0]);
        assert_eq!(loaded, Ok(()), "{}", file.display());
        count += 1;
    }
    assert!(count >= 15);
}

fn check_sheet(file: &Path) {
    let parts = pack(&[&named(file, "model"), &named(file, "question"), file]);
    let mut desk = Desk::default();
    desk.load(&parts[0]).expect("model");
    desk.put(&parts[1]).expect("question");
    let said = match desk.check(&parts[2]) {
        Ok(Checked { met: true, lamp }) => format!("accepted met {}", lamp.word()),
        Ok(Checked { met: false, lamp }) => format!("accepted unmet {}", lamp.word()),
        Err(ground) => format!("refused {}", ground.number()),
    };
    assert_eq!(
        said,
        says(file, "check").expect("a check line"),
        "{}",
        file.display()
    );
}

#[test]
fn sheets() {
    let folders = [
        "two-shelf",
        "two-shelf-silent",
        "two-shelf-gains",
        "toll",
        "spread",
        "robot",
        "silent",
        "mary",
        "mary-published",
        "shelf",
        "six-tries",
        "lamps",
        "refusals",
    ];
    let sheets: Vec<_> = folders
        .iter()
        .flat_map(|folder| files(folder, "sheet"))
        .collect();
    assert!(sheets.len() >= 114);
    for file in sheets {
        check_sheet(&file);
    }
}

/// Document 01's two-shelf verdicts, written out once more, so that a fixture
/// cannot drift along with the program.
#[test]
fn two_shelf_table() {
    let next_held = "0 proposition 0\n1 next 0\n2 plan 1 steps 1 ";
    let next_done = "0 proposition 1\n1 next 0\n2 plan 1 steps 1 ";
    let done_in_two = "0 proposition 1\n1 next 0\n2 next 1\n3 plan 2 steps 2 ";
    let held_in_two = "0 proposition 0\n1 next 0\n2 next 1\n3 plan 2 steps 2 ";
    let quick_once = "0 do 1\n1 next 0\n2 not 1\n3 and 0 2\n4 plan 3 steps 2 ";
    let gain_eight = "0 gain 2 steps equal 8\n1 plan 0 steps 2 ";
    let table = [
        (
            next_held,
            "greater 7/10",
            "yes 8/10 above plans 0 choices 0",
        ),
        (next_held, "greater 8/10", "no plans 0 at"),
        (next_held, "equal 5/10", "yes 5/10 at plans 2 choices 1"),
        (
            done_in_two,
            "equal 72/100",
            "yes 72/100 at plans 1 choices 0 2 0",
        ),
        (
            done_in_two,
            "equal 45/100",
            "yes 45/100 at plans 3 choices 1 2 0",
        ),
        (done_in_two, "equal 50/100", "no plans 4"),
        (
            held_in_two,
            "greater 44/100",
            "yes 45/100 above plans 0 choices 1 2 0",
        ),
        (held_in_two, "greater 45/100", "no plans 0 at"),
        (
            held_in_two,
            "less 19/100",
            "yes 18/100 below plans 0 choices 0 2 1",
        ),
        (held_in_two, "less 18/100", "no plans 0 at"),
        (
            gain_eight,
            "greater 71/100",
            "yes 72/100 above plans 0 choices 0 2 0",
        ),
        (gain_eight, "greater 72/100", "no plans 0 at"),
        (
            quick_once,
            "greater 9/10",
            "yes 100/100 above plans 0 choices 1 2 0",
        ),
        (next_done, "equal 0/1", "yes 0/10 at plans 1 choices 0"),
        (next_done, "less 0/1", "no plans 0 at"),
    ];
    let model = pack(&[&common::fixtures().join("two-shelf.model")]).remove(0);
    for (nodes, bound, wanted) in table {
        let text = format!("question start 0\n{nodes}{bound}\n");
        let question = second::text::pack_text(&text).expect("question");
        for line in verdicts(&model, &question) {
            assert_eq!(line, wanted, "{nodes}{bound}");
        }
    }
}

/// Start, steps, bound and the line for "done after these steps".
const WITHOUT_WAIT: [(u8, usize, &str, &str); 8] = [
    (0, 2, "equal 72/100", "yes 72/100 at plans 1 choices 0 2 0"),
    (0, 2, "equal 45/100", "yes 45/100 at plans 3 choices 1 2 0"),
    (0, 2, "equal 50/100", "no plans 4"),
    (
        1,
        2,
        "equal 99/100",
        "yes 99/100 at plans 1 choices 2 255 2",
    ),
    (2, 2, "equal 1/1", "yes 100/100 at plans 1 choices 255 255"),
    // All three drops miss with 1 of 1000.
    (
        1,
        3,
        "less 1/1",
        "yes 999/1000 below plans 0 choices 2 255 255 2 255 2",
    ),
    (
        0,
        3,
        "equal 882/1000",
        "yes 882/1000 at plans 3 choices 0 2 255 2 1 2 0",
    ),
    (
        0,
        3,
        "greater 9/10",
        "yes 936/1000 above plans 0 choices 0 2 255 2 0 2 0",
    ),
];

/// Document 01's verdicts once more without the wait action: from state 0 they
/// are what they were, and where a plan came to wait it now has 255.
#[test]
fn two_shelf_without_wait() {
    let file = |name: &str| pack(&[&common::fixtures().join(name)]).remove(0);
    let (with_255, with_3) = (file("two-shelf-silent.model"), file("two-shelf.model"));
    for (start, steps, bound, wanted) in WITHOUT_WAIT {
        let next = |own: usize| format!("{} next {own}\n", own + 1);
        let nexts: String = (0..steps).map(next).collect();
        let root = format!("{} plan {steps} steps {steps} {bound}", steps + 1);
        let text = format!("question start {start}\n0 proposition 1\n{nexts}{root}\n");
        let question = second::text::pack_text(&text).expect("question");
        for line in verdicts(&with_255, &question) {
            assert_eq!(line, wanted, "{text}");
        }
        for line in verdicts(&with_3, &question) {
            assert_eq!(line, wanted.replace("255", "3"), "{text}");
        }
    }
}

/// 001, Example 3: the paths of Mary's policy and their weights.
#[test]
fn mary_path_distribution() {
    for file in ["mary.model", "mary-published.model"] {
        check_path_distribution(file);
    }
}

fn check_path_distribution(file: &str) {
    let parts = pack(&[&common::fixtures().join(file)]);
    let model = read_model(&parts[0]).expect("mary");
    let plan = Plan::from_choices(&model, 0, 2, &[1, 3, 0]).expect("policy");
    let paths = plan.paths(&model);
    let found: Vec<(Vec<u8>, u64)> = paths.into_iter().map(|p| (p.states, p.weight)).collect();
    let wanted = vec![
        (vec![0, 1, 3], 27),
        (vec![0, 1, 1], 3),
        (vec![0, 0, 1], 56),
        (vec![0, 0, 0], 14),
    ];
    assert_eq!(found, wanted);
}

#[test]
fn inputs_of_wrong_length() {
    let line = |bytes: usize| verdict_line(&vec![0; bytes], JudgeKind::Fast);
    for bytes in [
        0,
        1,
        511,
        512,
        513,
        1024,
        13 * 512 - 1,
        13 * 512 + 1,
        14 * 512,
    ] {
        assert_eq!(line(bytes), "refused 1", "{bytes} bytes");
    }
    // Two to twelve whole blocks before the question are no fault of length.
    assert_eq!(line(3 * 512), "refused 3");
    assert_eq!(line(13 * 512), "refused 3");
}
