//! States where the work is over (document 02, A.1): what is read, shown and
//! accepted there, and that the streams come to such states often.

mod common;

use common::pack;
use second::blocks::{fix_word_sums, read_model, ModelImage, Sheet, BLOCK};
use second::desk::{next_call, Answer, Call, Desk, JudgeKind};
use second::generate::{random_model, stream, Rng, Size};
use second::ground::Ground;
use second::logic::{Checked, Lamp, Model, Totals, SILENT};

fn fixture(name: &str) -> Vec<u8> {
    pack(&[&common::fixtures().join(name)]).remove(0)
}

fn question(text: &str) -> Vec<u8> {
    second::text::pack_text(text).expect("question")
}

fn silent_states(model: &Model) -> Vec<u8> {
    let states = 0..model.states() as u8;
    states.filter(|state| model.is_silent(*state)).collect()
}

/// Every byte of the row of a silent state is spare, in every value tried.
#[test]
fn silent_rows_are_spare() {
    let bytes = fixture("two-shelf-silent.model");
    let row = BLOCK + 4 + 2 * 128;
    for at in row..row + 128 {
        for value in [1, 2, 10, 128, 255] {
            let mut spoiled = bytes.clone();
            spoiled[at] = value;
            fix_word_sums(&mut spoiled);
            let answer = Desk::default().load(&spoiled);
            assert_eq!(answer, Err(Ground::Spare), "byte {at}, value {value}");
        }
    }
}

/// In each state of the two-shelf model without wait, all 256 choice bytes.
#[test]
fn choice_bytes() {
    for (start, accepted) in [(0, vec![0, 1]), (1, vec![2]), (2, vec![SILENT])] {
        for kind in [JudgeKind::Fast, JudgeKind::Plain] {
            let mut desk = Desk::new(kind);
            desk.load(&fixture("two-shelf-silent.model"))
                .expect("model");
            let text =
                format!("question start {start}\n0 false\n1 not 0\n2 plan 1 steps 1 equal 1/1");
            desk.put(&question(&text)).expect("question");
            for choice in 0..=255 {
                let sheet = Sheet {
                    steps: 1,
                    start,
                    total: 10,
                    choices: vec![choice],
                };
                let wanted = match accepted.contains(&choice) {
                    // The whole weight is just that of the bound.
                    true => Ok(Checked {
                        met: true,
                        lamp: Lamp::At,
                    }),
                    false => Err(Ground::Choices),
                };
                assert_eq!(desk.check(&sheet.pack()), wanted, "{start}: {choice}");
            }
        }
    }
}

/// What the judges say of a question on a model, in words.
fn verdicts(model: &str, text: &str) -> [String; 2] {
    [JudgeKind::Fast, JudgeKind::Plain].map(|kind| {
        let input = [fixture(model), question(text)].concat();
        second::desk::verdict_line(&input, kind)
    })
}

/// No "do" is true of a silent step, now or later, for each of eight actions.
#[test]
fn do_is_false() {
    for action in 0..8 {
        let now = format!("question start 1\n0 do {action}\n1 plan 0 steps 1 ");
        let later = format!("question start 0\n0 do {action}\n1 next 0\n2 plan 1 steps 2 ");
        for (text, yes) in [
            (now, "yes 0/10 at plans 1 choices 255"),
            (later, "yes 0/100 at plans 1 choices 0 255"),
        ] {
            for (bound, wanted) in [("equal 0/1", yes), ("greater 0/1", "no plans 0 at")] {
                let lines = verdicts("silent/eight-actions.model", &format!("{text}{bound}"));
                assert_eq!(lines, [wanted; 2], "{text}{bound}");
            }
        }
    }
    let text = "question start 1\n0 raw 5 0 255 0 0 0\n1 plan 0 steps 1 equal 1/1";
    assert_eq!(
        verdicts("silent/eight-actions.model", text),
        ["refused 5"; 2]
    );
}

/// A silent state has one path and one plan of each length.
#[test]
fn one_path_and_one_plan() {
    for name in ["silent/one-state.model", "silent/all-silent.model"] {
        let model = read_model(&fixture(name)).expect("model");
        let totals = Totals::of(&model);
        for state in silent_states(&model) {
            for steps in 0..=6 {
                assert_eq!(totals.paths(steps, state), 1, "{name}");
                assert_eq!(totals.plans(steps, state), 1, "{name}");
            }
        }
    }
}

/// How many of so many random models have silent states, and of what sorts.
#[test]
fn models_with_silent_states() {
    let mut rng = Rng::new(7);
    let (mut some, mut all, mut one, mut eight, mut full) = (0, 0, 0, 0, 0);
    for turn in 0..6_000 {
        let size = if turn % 2 == 0 {
            Size::SMALL
        } else {
            Size::LARGE
        };
        let image = random_model(&mut rng, size);
        let model = read_model(&image.pack()).expect("an accepted model");
        let silent = silent_states(&model).len();
        some += usize::from(silent > 0);
        all += usize::from(silent == model.states());
        one += usize::from(silent == 1 && model.states() == 1);
        eight += usize::from(silent > 0 && model.actions.len() == 8);
        full += usize::from(silent > 0 && image.rows.len() == ModelImage::rows_for(32));
    }
    assert!((1_800..2_700).contains(&some), "{some} with silent states");
    assert!(
        all > 200 && one > 20,
        "{all} all silent, {one} of one state"
    );
    assert!(
        eight > 50 && full > 50,
        "{eight} of 8 actions, {full} of 12 blocks"
    );
}

/// The shown plans of a stream that have silent moves in them, the sheets that
/// are accepted with such moves, and those refused for their choices.
fn shown_and_checked(kind: &str) -> [usize; 3] {
    let bytes = stream(kind, 1, 8_000).expect("kind");
    let mut rest = bytes.as_slice();
    let mut desk = Desk::default();
    let mut counts = [0; 3];
    while let Some(call) = next_call(&mut rest) {
        match (&call, call.make(&mut desk)) {
            (_, Answer::Judge(Ok(judged))) if judged.choices.contains(&SILENT) => counts[0] += 1,
            (Call::Check(sheet), Answer::Check(answer)) => {
                let silent = Sheet::unpack(sheet).choices.contains(&SILENT);
                counts[1] += usize::from(silent && answer.is_ok());
                counts[2] += usize::from(silent && answer == Err(Ground::Choices));
            }
            _ => {}
        }
    }
    counts
}

#[test]
fn streams_come_to_silent_states() {
    for (kind, fewest) in [
        ("small", [100, 0, 0]),
        ("judges", [100, 0, 0]),
        ("sheets", [50, 200, 200]),
        ("lists", [50, 20, 50]),
        ("tight", [100, 300, 0]),
    ] {
        let counts = shown_and_checked(kind);
        let enough = counts
            .iter()
            .zip(fewest)
            .all(|(count, least)| *count >= least);
        assert!(enough, "{kind}: {counts:?}");
    }
}

/// Sheets of one, two and three blocks with silent moves are written.
#[test]
fn long_sheets_with_silent_moves() {
    let bytes = stream("sheets", 1, 20_000).expect("kind");
    let mut rest = bytes.as_slice();
    let mut desk = Desk::default();
    let mut blocks = [0; 4];
    while let Some(call) = next_call(&mut rest) {
        if let Answer::Write(Ok(length), buffer) = call.make(&mut desk) {
            let silent = Sheet::unpack(&buffer[..length]).choices.contains(&SILENT);
            blocks[length / BLOCK] += usize::from(silent);
        }
    }
    assert!(blocks[1..].iter().all(|count| *count >= 5), "{blocks:?}");
}
