//! The streams tell a desk that errs when it writes a model (document 02, A.7)
//! from a right one, and one that errs about desks by hand.

mod common;

use common::{fixtures, pack};
use second::blocks::read_model;
use second::desk::{next_call, Answer, Call, Desk};
use second::generate::stream;
use second::model_faults::{differences, packed, Differences, Fault, ALL};

/// Faults that are told by another call than the one that writes models: by
/// what is left on the desk afterwards.
const AFTERWARDS: [(Fault, &[&str]); 6] = [
    (Fault::VerdictCleared, &["write"]),
    (Fault::QuestionCleared, &["judge", "write", "check"]),
    (
        Fault::ModelCleared,
        &["put", "judge", "write", "check", "write-model"],
    ),
    (Fault::RefusedVerdictCleared, &["write"]),
    (Fault::RefusedQuestionCleared, &["judge", "write", "check"]),
    (
        Fault::RefusedModelCleared,
        &["put", "judge", "write", "check", "write-model"],
    ),
];

/// Faults that are told by every call on a desk by hand.
const BY_HAND: [Fault; 10] = [
    Fault::CountIgnored,
    Fault::CountBySize,
    Fault::CountOfRows,
    Fault::CountInByte,
    Fault::CountInTwoBytes,
    Fault::BytesInFour,
    Fault::CountInFour,
    Fault::BytesInEight,
    Fault::CountOverRefused,
    Fault::HandRefused,
];

/// The calls that tell a fault.
fn told_by(fault: Fault) -> &'static [&'static str] {
    let afterwards = AFTERWARDS.iter().find(|(after, _)| *after == fault);
    match afterwards {
        Some((_, calls)) => calls,
        None if BY_HAND.contains(&fault) => &["put", "judge", "write", "check", "write-model"],
        None => &["write-model"],
    }
}

fn count(counts: &Differences, fault: Fault, call: &'static str) -> usize {
    counts.get(&(fault, call)).copied().unwrap_or(0)
}

/// The number of calls is that of `tests/agree`.
#[test]
fn stored_tells_every_fault() {
    let counts = differences(&stream("stored", 1, 30_000).expect("stored"));
    for fault in ALL {
        for call in told_by(*fault) {
            let fewest = if *call == "write-model" { 40 } else { 8 };
            let found = count(&counts, *fault, call);
            assert!(found >= fewest, "{fault:?}: only {found} of {call}");
        }
    }
    assert!(counts
        .keys()
        .all(|(fault, call)| told_by(*fault).contains(call)));
}

/// `lists` tells most as well; its models have two or three blocks, and its desks
/// by hand are only written.
#[test]
fn lists_tell_faults() {
    let counts = differences(&stream("lists", 1, 50_000).expect("lists"));
    for fault in ALL
        .iter()
        .filter(|fault| **fault != Fault::CountOverRefused)
    {
        let calls = told_by(*fault).iter();
        for call in calls.filter(|call| **call == "write-model" || !BY_HAND.contains(fault)) {
            let found = count(&counts, *fault, call);
            assert!(found >= 5, "{fault:?}: only {found} of {call}");
        }
    }
}

/// Streams in which no model is written tell none of these.
#[test]
fn other_streams_tell_none() {
    for kind in ["models", "judges", "sheets"] {
        let counts = differences(&stream(kind, 1, 1_000).expect("kind"));
        assert!(counts.is_empty(), "{kind}");
    }
}

/// A desk that packs these wrongly writes models that load. They are others, and
/// questions about them get other answers.
#[test]
fn wrong_models_that_load() {
    let faults = [
        Fault::RewardsLost,
        Fault::RewardsUnsigned,
        Fault::WeightsReduced,
        Fault::UnnamedDropped,
    ];
    let bytes = stream("stored", 2, 20_000).expect("stored");
    let (mut rest, mut desk) = (bytes.as_slice(), Desk::default());
    let mut wrong = faults.map(|fault| (fault, Desk::default(), 0));
    while let Some(call) = next_call(&mut rest) {
        let answer = call.make(&mut desk);
        for (fault, other, otherwise) in &mut wrong {
            if let (Answer::Load(Ok(())), Ok(model)) = (&answer, desk.model()) {
                assert_eq!(other.load(&packed(*fault, model)), Ok(()), "{fault:?}");
            } else if call.make(other) != answer {
                *otherwise += usize::from(call == Call::Judge);
            }
        }
    }
    for (fault, _, otherwise) in wrong {
        assert!(otherwise >= 5, "{fault:?}: {otherwise}");
    }
}

/// Every fault of packing shows in one of three models that were made by hand, and
/// another fault in none.
#[test]
fn fixtures_are_packed_otherwise() {
    let names = ["stored/unread", "stored/always", "silent/all-silent"];
    let all = names.map(|name| {
        let file = fixtures().join(format!("{name}.model"));
        pack(&[&file]).remove(0)
    });
    let place = |wanted: Fault| ALL.iter().position(|fault| *fault == wanted);
    let first = place(Fault::HeadSpareFilled).expect("the first");
    let last = place(Fault::UnnamedDropped).expect("the last");
    assert_eq!(ALL[first..=last].len(), 28);
    for (number, fault) in ALL.iter().enumerate() {
        let otherwise = all.iter().any(|bytes| {
            let model = read_model(bytes).expect("a model");
            packed(*fault, &model) != *bytes
        });
        assert_eq!(otherwise, (first..=last).contains(&number), "{fault:?}");
    }
}
