//! Lists of calls: what each changes, and demand 3 on the desks they give.

use second::blocks::{Sheet, BLOCK};
use second::desk::{next_call, stored, Answer, Call, Desk};
use second::generate::stream;
use second::ground::Ground;
use second::logic::{check_limits, plain, Checked, Lamp, Model, Plan, PlanNode};
use second::logic::{Question, Relation, Totals, Verdict};
use second::tally::tally;

fn calls(kind: &str, seed: u64, count: usize) -> Vec<Call> {
    let bytes = stream(kind, seed, count).expect("kind");
    let mut rest = bytes.as_slice();
    let list: Vec<Call> = std::iter::from_fn(|| next_call(&mut rest)).collect();
    // Those that write models stand between the others.
    assert!(list.len() >= count, "{kind}");
    list
}

fn refusal(answer: &Answer) -> Option<Ground> {
    match answer {
        Answer::Load(answer) | Answer::Put(answer) => answer.err(),
        Answer::Judge(answer) => answer.as_ref().err().copied(),
        Answer::Write(answer, _) | Answer::WriteModel(answer, _) => answer.err(),
        Answer::Check(answer) => answer.err(),
        Answer::ByHand => None,
    }
}

#[test]
fn refused_calls_change_nothing() {
    let mut desk = Desk::default();
    let mut refused = 0;
    for call in calls("lists", 11, 6_000) {
        let before = desk.clone();
        let answer = call.make(&mut desk);
        let read_only = matches!(call, Call::Write(_) | Call::Check(_) | Call::WriteModel(_));
        let is_refused = refusal(&answer).is_some();
        refused += usize::from(is_refused);
        if is_refused || read_only {
            assert_eq!(desk, before);
        }
        if let (Call::Write(lent), Answer::Write(written, after))
        | (Call::WriteModel(lent), Answer::WriteModel(written, after)) = (&call, &answer)
        {
            let kept = written.unwrap_or(0);
            assert_eq!(lent.get(kept..), after.get(kept..));
        }
    }
    assert!(refused > 1_000);
}

/// Load clears question and verdict, put clears the verdict, judge sets it.
#[test]
fn held_parts() {
    held_parts_of("sheets");
    held_parts_of("lists");
}

fn held_parts_of(kind: &str) {
    let mut desk = Desk::default();
    let buffer = || Call::Write(vec![0; 3 * BLOCK]);
    let mut written = 0;
    for call in calls(kind, 12, 3_000) {
        let answer = call.make(&mut desk);
        let shown = match (&call, &answer) {
            (Call::Load(_), Answer::Load(Ok(()))) => Some(Err(Ground::NoQuestion)),
            (Call::Put(_), Answer::Put(Ok(()))) => Some(Err(Ground::NoShownPlan)),
            (Call::Judge, Answer::Judge(Ok(judged))) => match judged.verdict {
                Verdict::YesPlan(_) => Some(Ok(Sheet::packed_len(judged.choices.len()))),
                _ => Some(Err(Ground::NoShownPlan)),
            },
            _ => None,
        };
        let Some(wanted) = shown else { continue };
        let Answer::Write(found, _) = buffer().make(&mut desk) else {
            panic!("a write answers a write");
        };
        let other_root = found == Err(Ground::RootNotPlan) && wanted != Err(Ground::NoQuestion);
        assert!(found == wanted || other_root, "{found:?} {wanted:?}");
        written += usize::from(found.is_ok());
    }
    assert!(written > 50);
}

/// Demand 3 by trying every plan's sheet on the desks that a list gives.
#[test]
fn demand_three() {
    let mut desk = Desk::default();
    let mut tried = 0;
    for call in calls("lists", 13, 4_000) {
        let answer = call.make(&mut desk);
        if let Answer::Judge(Ok(judged)) = answer {
            tried += usize::from(demand_three_holds(&desk, &judged.verdict));
        }
    }
    assert!(tried > 100, "{tried} desks");
}

/// The same on desks whose model has silent states.
#[test]
fn demand_three_with_silent_states() {
    let mut desk = Desk::default();
    let mut tried = 0;
    for call in calls("lists", 14, 10_000) {
        let answer = call.make(&mut desk);
        let silent = desk.model().is_ok_and(|model| {
            let states = 0..model.states() as u8;
            states.into_iter().any(|state| model.is_silent(state))
        });
        if let (true, Answer::Judge(Ok(judged))) = (silent, answer) {
            tried += usize::from(demand_three_holds(&desk, &judged.verdict));
        }
    }
    assert!(tried > 100, "{tried} desks");
}

/// Tries all plans of the held question, if it is a small plan question.
fn demand_three_holds(desk: &Desk, verdict: &Verdict) -> bool {
    let (Ok(model), Ok(question)) = (desk.model(), desk.question()) else {
        return false;
    };
    let Some(root) = question.root_plan() else {
        return false;
    };
    let totals = Totals::of(model);
    let few = totals.plans(root.steps(), question.start) <= 60;
    if !few || check_limits(question, &totals).is_err() {
        return false;
    }
    if plain::cost(model, question, &totals) > 300_000 {
        return false;
    }
    let mut plan = Plan::first(model, question.start, root.steps());
    let mut answers = vec![accepted_exactly(desk, model, question, &plan)];
    while plan.advance(model) {
        answers.push(accepted_exactly(desk, model, question, &plan));
    }
    let some_met = answers.iter().any(|checked| checked.met);
    assert_eq!(some_met, matches!(verdict, Verdict::YesPlan(_)));
    assert_eq!(
        lamp_of_verdict(verdict),
        lamp_of_all(root.relation, &answers)
    );
    let mut buffer = vec![0; 3 * BLOCK];
    match desk.write(&mut buffer) {
        Ok(bytes) => assert!(desk
            .check(&buffer[..bytes])
            .is_ok_and(|checked| checked.met)),
        Err(ground) => assert_eq!((ground, some_met), (Ground::NoShownPlan, false)),
    }
    true
}

fn lamp_of_verdict(verdict: &Verdict) -> Option<Lamp> {
    match verdict {
        Verdict::YesPlan(record) => Some(record.lamp),
        Verdict::No { lamp, .. } => *lamp,
        Verdict::Yes => None,
    }
}

/// The lamp of a verdict from the answers to all plans' sheets: that of the
/// least total for "less", of the greatest for "greater", and on no to "equal"
/// none. A lesser total never has a higher lamp.
fn lamp_of_all(relation: Relation, answers: &[Checked]) -> Option<Lamp> {
    let lamps = answers.iter().map(|checked| checked.lamp);
    match relation {
        Relation::Less => lamps.min(),
        Relation::Equal => lamps.into_iter().find(|lamp| *lamp == Lamp::At),
        Relation::Greater => lamps.max(),
    }
}

/// The plan's sheet is accepted with its total and with no other; gives the
/// answer, whether it meets the bound and its lamp.
fn accepted_exactly(desk: &Desk, model: &Model, question: &Question, plan: &Plan) -> Checked {
    let root = question.root_plan().expect("a plan root");
    let total = plain::total_of(model, question, &root, plan);
    let mut sheet = Sheet {
        steps: root.steps,
        start: question.start,
        total: stored(total),
        choices: plan.choices(model),
    };
    let lamp = lamp_of(&root, total, model.whole(root.steps()));
    let met = match root.relation {
        Relation::Less => lamp == Lamp::Below,
        Relation::Equal => lamp == Lamp::At,
        Relation::Greater => lamp == Lamp::Above,
    };
    assert_eq!(desk.check(&sheet.pack()), Ok(Checked { met, lamp }));
    let right = sheet.total;
    for wrong in wrong_totals(total).filter(|wrong| *wrong != right) {
        sheet.total = wrong;
        assert_eq!(desk.check(&sheet.pack()), Err(Ground::Total));
    }
    Checked { met, lamp }
}

/// How a total over `whole` compares with the bound, by the sign of how far it
/// lies over it.
fn lamp_of(root: &PlanNode, total: i128, whole: u64) -> Lamp {
    let over = total * i128::from(root.bound.q) - i128::from(root.bound.p) * i128::from(whole);
    match over.signum() {
        -1 => Lamp::Below,
        0 => Lamp::At,
        _ => Lamp::Above,
    }
}

/// Eight bytes that are not a total's, or are so by chance: one off, the sign
/// lost or turned, cut to 32 bits, the top bit turned, all bits set.
fn wrong_totals(total: i128) -> impl Iterator<Item = u64> {
    let right = stored(total);
    let cut = [right & 0xFFFF_FFFF, right as i32 as u64];
    let numbers = [total - 1, total + 1, total.abs(), -total].map(stored);
    let bits = [right ^ 1 << 63, u64::MAX];
    numbers.into_iter().chain(cut).chain(bits)
}

/// Each stream reaches the grounds that it is made for.
#[test]
fn grounds_reached() {
    let wanted: [(&str, &str, &[u8]); 12] = [
        ("models", "load", &[0, 1, 2, 3, 4, 5, 6, 7]),
        ("questions", "put", &[0, 1, 2, 3, 4, 5, 6, 9, 13, 20]),
        ("judges", "put", &[0, 13]),
        ("small", "put", &[0, 13]),
        ("sheets", "put", &[0, 13]),
        ("lists", "put", &[0, 5, 6, 9, 13, 20]),
        ("judges", "judge", &[0, 24, 25]),
        ("sheets", "check", &[0, 1, 2, 3, 4, 5, 6, 10, 11, 20, 22]),
        ("sheets", "write", &[0, 12, 20, 22, 23]),
        ("lists", "check", &[0, 1, 4, 10, 11, 20, 21, 22]),
        ("lists", "write-model", &[0, 12, 20]),
        ("stored", "write-model", &[0, 12, 20]),
    ];
    for (kind, call, numbers) in wanted {
        let counts = tally(&stream(kind, 1, 4_000).expect("kind"));
        for number in numbers {
            let reached = counts.keys().any(|key| key.0 == call && key.1 == *number);
            assert!(reached, "{kind}: {call} never gives {number}");
        }
        assert!(counts.keys().all(|key| key.1 != 8), "{kind}: 8 is given");
    }
}

/// Bytes without any sense are refused and stop nothing.
#[test]
fn senseless_bytes() {
    let mut desk = Desk::default();
    for length in (0..3 * BLOCK).step_by(37) {
        let bytes: Vec<u8> = (0..length).map(|at| (at * at + length) as u8).collect();
        for call in [
            Call::Load(bytes.clone()),
            Call::Put(bytes.clone()),
            Call::Judge,
            Call::Write(bytes.clone()),
            Call::Check(bytes.clone()),
            Call::WriteModel(bytes.clone()),
        ] {
            assert!(refusal(&call.make(&mut desk)).is_some());
        }
        assert_eq!(desk, Desk::default());
    }
}
