//! The streams tell a judge that errs about silent states from a right one, in
//! every call in which it can err.

use second::faults::{differences, Differences, Fault, ALL};
use second::generate::stream;

/// So many of these calls of a stream a judge with the fault answers wrongly,
/// at least.
const TOLD: [(&str, &str, usize, &[Fault]); 11] = [
    (
        "models",
        "load",
        400,
        &[Fault::StillEight, Fault::RowsUnread],
    ),
    ("questions", "put", 50, &[Fault::DoSilentAsked]),
    ("small", "judge", 20, VERDICTS),
    ("judges", "judge", 20, VERDICTS),
    ("sheets", "check", 10, SHEETS),
    ("lists", "judge", 5, VERDICTS),
    ("lists", "check", 1, SHEETS),
    ("small", "write", 100, &[Fault::ShownAsZero]),
    ("sheets", "write", 100, &[Fault::ShownAsZero]),
    ("judges", "judge", 2, LIMITS),
    ("judges", "check", 2, LIMITS),
];

/// The faults that verdicts tell.
const VERDICTS: &[Fault] = &[
    Fault::ShownAsZero,
    Fault::WeightOne,
    Fault::ToStateZero,
    Fault::StrayReward,
    Fault::DoZeroTrue,
    Fault::DoLastTrue,
    Fault::SearchedEverywhere,
    Fault::PathEnds,
    Fault::NotBelowRoot,
    Fault::UncountedInPlaces,
];

/// The faults that only limits tell.
const LIMITS: &[Fault] = &[Fault::PathsUncounted, Fault::PlansUncounted];

/// The faults that checks tell.
const SHEETS: &[Fault] = &[
    Fault::ShownAsZero,
    Fault::WeightOne,
    Fault::ToStateZero,
    Fault::StrayReward,
    Fault::DoZeroTrue,
    Fault::DoLastTrue,
    Fault::AcceptedEverywhere,
    Fault::ActionsAccepted,
    Fault::NowhereAccepted,
    Fault::PathEnds,
];

#[test]
fn streams_tell_faults() {
    for kind in ["models", "questions", "small", "judges", "sheets", "lists"] {
        // Few of a list's sheets are for the question held.
        let calls = if kind == "lists" { 50_000 } else { 10_000 };
        let counts = differences(&stream(kind, 1, calls).expect("kind"));
        for (_, call, fewest, faults) in TOLD.iter().filter(|row| row.0 == kind) {
            for fault in *faults {
                often(&counts, kind, call, *fault, *fewest);
            }
        }
    }
}

fn often(counts: &Differences, kind: &str, call: &'static str, fault: Fault, fewest: usize) {
    let count = counts.get(&(fault, call)).copied().unwrap_or(0);
    assert!(
        count >= fewest,
        "{fault:?} is wrong on only {count} of the calls {call} of {kind}"
    );
}

/// No fault is left out above.
#[test]
fn every_fault_is_told() {
    for fault in ALL {
        assert!(TOLD.iter().any(|row| row.3.contains(&fault)), "{fault:?}");
    }
}
