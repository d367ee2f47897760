//! The streams tell a judge that errs about expected gains (operator 9) from a
//! right one, in every call in which it can err.

mod common;

use common::{fixtures, named, pack, says};
use second::desk::Call;
use second::gain_faults::{differences, Differences, Fault, ALL};
use second::generate::stream;

/// So many of these calls of a stream a judge with the fault answers wrongly,
/// at least. "Below" means nodes of operator 9 below another root.
const TOLD: [(&str, &str, usize, &[Fault]); 39] = [
    ("questions", "put", 100, SHAPES),
    ("questions", "put", 10, FIELDS),
    ("lists", "put", 1, FIELDS),
    ("small", "judge", 100, SUMS),
    ("small", "judge", 60, SEARCHES),
    ("small", "judge below", 4, SUMS),
    ("small", "judge", 12, PITFALLS),
    ("small", "judge", 8, APART),
    ("small", "judge below", 4, PITFALLS),
    ("small", "judge below", 12, MISREAD),
    ("small", "judge below", 1, APART),
    ("small", "check", 20, &[Fault::SidesSigned]),
    ("small", "check", 2, APART),
    ("small", "write", 100, &[Fault::RootRefused]),
    ("small", "write", 100, WRITTEN),
    ("judges", "judge", 60, SUMS),
    ("judges", "judge", 60, SEARCHES),
    ("judges", "judge below", 4, SUMS),
    ("judges", "judge", 10, PITFALLS),
    ("judges", "judge below", 4, PITFALLS),
    ("judges", "judge below", 12, MISREAD),
    ("judges", "judge", 8, APART),
    ("judges", "check", 20, &[Fault::SidesSigned]),
    ("judges", "judge", 4, LIMITS),
    ("judges", "check", 2, LIMITS),
    ("sheets", "check", 60, SUMS),
    ("sheets", "check", 10, CHECKED),
    ("sheets", "check below", 4, &[Fault::LeftPointedPast]),
    // A list's sheets have one block.
    ("sheets", "check", 20, &[Fault::BlocksUnsigned]),
    ("sheets", "write", 60, WRITTEN),
    ("lists", "judge", 60, SUMS),
    ("lists", "judge", 60, SEARCHES),
    ("lists", "judge below", 4, SUMS),
    ("lists", "judge below", 8, MISREAD),
    ("lists", "check", 10, SUMS),
    ("lists", "check", 1, CHECKED),
    // Dividing first is found out where totals just miss their bound.
    ("tight", "judge", 30, &[Fault::BoundTruncated]),
    ("tight", "judge below", 10, &[Fault::BoundTruncated]),
    ("tight", "check", 30, &[Fault::BoundTruncated]),
];

/// What a node of operator 9 is not.
const SHAPES: &[Fault] = &[
    Fault::NoOperator,
    Fault::PathFormula,
    Fault::DepthIsSteps,
    Fault::LeftIsChild,
    Fault::LastStepRefused,
    Fault::OneStepRefused,
    Fault::PEndsRefused,
    Fault::PAsOfPlans,
    Fault::PAsOfGains,
    Fault::QEndRefused,
    Fault::QAsOfGains,
];

/// Fields that are wrong and accepted.
const FIELDS: &[Fault] = &[
    Fault::StepsUnchecked,
    Fault::FirstZero,
    Fault::FirstOverLast,
    Fault::LastOverSteps,
    Fault::RelationUnchecked,
    Fault::POneBeyond,
    Fault::QZero,
    Fault::QAsOfPlans,
];

/// Wrong sums and wrong comparisons, which verdicts and checks tell.
const SUMS: &[Fault] = &[
    Fault::StepsFromZero,
    Fault::UpToTheEnd,
    Fault::FromTheStart,
    Fault::Unweighted,
    Fault::UnsignedTotals,
    Fault::BoundUnsigned,
    Fault::BoundTurnedOver,
];

/// What a judge that is right of most questions gets wrong.
const PITFALLS: &[Fault] = &[Fault::SidesSigned, Fault::EqualByState];

/// Nodes taken for others because of those beside them. A root of operator 9 has
/// no child, and so it stands alone (document 02, A.6).
const MISREAD: &[Fault] = &[Fault::LeftPointedPast, Fault::WindowRemembered];

/// Sides that lie 2^63 apart or more.
const APART: &[Fault] = &[Fault::DifferenceSigned];

/// Wrong plans and wrong records, which verdicts tell.
const SEARCHES: &[Fault] = &[
    Fault::WrongEnd,
    Fault::LastAmongEquals,
    Fault::FirstThatMeets,
    Fault::NoPlanShown,
    Fault::NotCounted,
    Fault::TotalUnsigned,
];

const LIMITS: &[Fault] = &[
    Fault::PathsUnasked,
    Fault::PlansUnasked,
    Fault::PlansAskedOfAll,
];

const WRITTEN: &[Fault] = &[Fault::TotalUnsigned, Fault::TotalCut];

const CHECKED: &[Fault] = &[
    Fault::RootRefused,
    Fault::TotalUnsigned,
    Fault::TotalCut,
    Fault::TopBitDropped,
];

#[test]
fn streams_tell_faults() {
    for kind in ["questions", "small", "judges", "sheets", "lists", "tight"] {
        // Few of a list's sheets are for the question held.
        let calls = if kind == "lists" { 50_000 } else { 20_000 };
        let counts = differences(&stream(kind, 1, calls).expect("kind"));
        for (_, call, fewest, faults) in TOLD.iter().filter(|row| row.0 == kind) {
            for fault in *faults {
                often(&counts, kind, call, *fault, *fewest);
            }
        }
        // A weight below 2^63 reads the same with a sign and without.
        let signed = counts.keys().filter(|key| key.0 == Fault::WeightSigned);
        assert_eq!(signed.count(), 0, "{kind}");
    }
}

fn often(counts: &Differences, kind: &str, call: &'static str, fault: Fault, fewest: usize) {
    let count = counts.get(&(fault, call)).copied().unwrap_or(0);
    assert!(
        count >= fewest,
        "{fault:?} is wrong on only {count} of the calls {call} of {kind}"
    );
}

/// No fault is left out above, but for the one that is none: 45 of 46 are told.
#[test]
fn every_fault_is_told() {
    let told = |fault: &Fault| TOLD.iter().any(|row| row.3.contains(fault));
    for fault in ALL {
        assert_eq!(told(&fault), fault != Fault::WeightSigned, "{fault:?}");
    }
    assert_eq!(ALL.iter().filter(|fault| told(fault)).count(), 45);
}

/// The fixtures that are there for a fault, and the call in which they tell it.
const FIXTURES: [(&str, &str, Fault); 17] = [
    (GAINS_LEFT[0], "judge below", Fault::LeftPointedPast),
    (GAINS_LEFT[1], "judge below", Fault::LeftPointedPast),
    (GAINS_WINDOW[0], "judge below", Fault::WindowRemembered),
    (GAINS_WINDOW[1], "judge below", Fault::WindowRemembered),
    (GAINS_WINDOW[2], "judge below", Fault::WindowRemembered),
    (TOLL[0], "judge", Fault::SidesSigned),
    (TOLL[0], "judge", Fault::DifferenceSigned),
    (TOLL[1], "judge", Fault::SidesSigned),
    (TOLL[1], "judge", Fault::DifferenceSigned),
    (COIN[0], "judge", Fault::EqualByState),
    (COIN[1], "judge", Fault::EqualByState),
    (COIN[2], "judge below", Fault::EqualByState),
    (SPREAD[0], "check", Fault::BlocksUnsigned),
    (SPREAD[1], "check", Fault::BlocksUnsigned),
    (SPREAD[2], "check", Fault::BlocksUnsigned),
    (
        "toll/least-without-sign.sheet",
        "check",
        Fault::TotalUnsigned,
    ),
    ("toll/least-cut-to-32-bits.sheet", "check", Fault::TotalCut),
];
const GAINS_LEFT: [&str; 2] = [
    "two-shelf-gains/left-byte-of-another-used-window.question",
    "two-shelf-gains/left-byte-of-another-used-window-below.question",
];
const GAINS_WINDOW: [&str; 3] = [
    "two-shelf-gains/step-2-of-two-and-of-three.question",
    "two-shelf-gains/step-2-of-three-and-of-two.question",
    "two-shelf-gains/step-1-of-three-and-of-two.question",
];
const TOLL: [&str; 2] = [
    "toll/greater-minus-6000.question",
    "toll/less-6000.question",
];
const COIN: [&str; 3] = [
    "coin/third-step-equal-1-4.question",
    "coin/third-step-equal-3-4.question",
    "coin/third-step-equal-1-4-below.question",
];
const SPREAD: [&str; 3] = [
    "spread/second-block-sign-lost.sheet",
    "spread/second-block-sign-set.sheet",
    "spread/first-block-sign-set.sheet",
];

#[test]
fn fixtures_tell_faults() {
    for (name, call, fault) in FIXTURES {
        let file = fixtures().join(name);
        let model = named(&file, "model");
        let mut files = vec![model.as_path()];
        let question = says(&file, "question").map(|_| named(&file, "question"));
        files.extend(question.as_deref());
        files.push(&file);
        let mut parts = pack(&files).into_iter();
        let mut calls: Vec<Call> = parts.next().map(Call::Load).into_iter().collect();
        calls.extend(parts.next().map(Call::Put));
        calls.push(parts.next().map_or(Call::Judge, Call::Check));
        let stream: Vec<u8> = calls.iter().flat_map(Call::record).collect();
        let counts = differences(&stream);
        assert_eq!(counts.get(&(fault, call)), Some(&1), "{name} {fault:?}");
    }
}
