//! The streams tell a judge that errs about lamps (document 02, A.4) from a
//! right one, in every answer in which it can err, for both operators.

mod common;

use common::{files, fixtures, named, pack, says};
use second::desk::Call;
use second::generate::stream;
use second::lamp_faults::{differences, Differences, Fault, ALL};
use std::path::Path;

/// The streams of `tests/agree` that have verdicts, with its counts of calls.
const STREAMS: [(&str, usize); 5] = [
    ("small", 50_000),
    ("judges", 50_000),
    ("sheets", 50_000),
    ("lists", 50_000),
    ("tight", 13_000),
];

const YES: &str = "judge yes";
const NO: &str = "judge no";
const CHECK: &str = "check";

/// The streams in which faults are told, each with the least number of the
/// answers that must tell them; the answers; the operators of the root.
struct Row {
    streams: &'static [(&'static str, usize)],
    answers: &'static [&'static str],
    operators: &'static [u8],
    faults: &'static [Fault],
}

const EVERYWHERE: &[(&str, usize)] = &[
    ("small", 50),
    ("judges", 50),
    ("sheets", 50),
    ("lists", 20),
    ("tight", 20),
];
/// Where checks of such questions are few.
const SOME_CHECKS: &[(&str, usize)] = &[("small", 8), ("judges", 8), ("sheets", 25)];
const VERDICTS: &[(&str, usize)] = &[("small", 30), ("judges", 30), ("sheets", 3), ("lists", 10)];
const BOTH: &[u8] = &[8, 9];

const TOLD: [Row; 24] = [
    Row {
        streams: EVERYWHERE,
        answers: &[YES, NO, CHECK],
        operators: BOTH,
        faults: &[Fault::Exchanged, Fault::AtAsAbove, Fault::AtAsBelow],
    },
    Row {
        streams: EVERYWHERE,
        answers: &[NO, CHECK],
        operators: BOTH,
        faults: &[Fault::ByRelation, Fault::MissedIsAt, Fault::MissedIsBeside],
    },
    Row {
        streams: EVERYWHERE,
        answers: &[YES, CHECK],
        operators: BOTH,
        faults: &[Fault::MetIsAt],
    },
    Row {
        streams: &[("small", 5), ("judges", 5), ("sheets", 5), ("lists", 10)],
        answers: &[YES, NO, CHECK],
        operators: BOTH,
        faults: &[Fault::ZeroIsAt],
    },
    Row {
        streams: EVERYWHERE,
        answers: &[YES],
        operators: BOTH,
        faults: &[Fault::NoLampOnYes],
    },
    Row {
        streams: EVERYWHERE,
        answers: &[NO],
        operators: BOTH,
        faults: &[Fault::NoLampOnNo, Fault::LampOnEqual],
    },
    // Another root than 8 and 9.
    Row {
        streams: EVERYWHERE,
        answers: &[YES, NO],
        operators: &[0],
        faults: &[Fault::LampOnOtherRoot],
    },
    Row {
        streams: &[("small", 50), ("judges", 50), ("sheets", 10), ("tight", 5)],
        answers: &[YES, NO],
        operators: BOTH,
        faults: &[
            Fault::FirstPlan,
            Fault::LastPlan,
            Fault::GreatestForAll,
            Fault::LeastForAll,
        ],
    },
    Row {
        streams: &[("small", 20), ("judges", 20), ("sheets", 4), ("tight", 10)],
        answers: &[NO],
        operators: BOTH,
        faults: &[Fault::WrongEnd, Fault::FirstMoveOnly],
    },
    Row {
        streams: VERDICTS,
        answers: &[NO],
        operators: BOTH,
        faults: &[Fault::FromStateZero],
    },
    // A root of operator 9 has no child, and so no plan stands below it.
    Row {
        streams: VERDICTS,
        answers: &[YES, NO],
        operators: &[8],
        faults: &[Fault::OfThePlanBelow, Fault::OtherBound],
    },
    Row {
        streams: &[("sheets", 40)],
        answers: &[CHECK],
        operators: &[8],
        faults: &[Fault::OtherBound],
    },
    // A sheet after a yes, and after a no.
    Row {
        streams: &[("small", 15), ("judges", 15), ("sheets", 50), ("tight", 20)],
        answers: &[CHECK],
        operators: BOTH,
        faults: &[Fault::OfTheYes, Fault::OfTheNo],
    },
    // A silent state gains nothing, so that nothing is lost for operator 9
    // where paths end there.
    Row {
        streams: &[
            ("small", 100),
            ("judges", 100),
            ("sheets", 20),
            ("lists", 50),
            ("tight", 30),
        ],
        answers: &[NO],
        operators: &[8],
        faults: &[Fault::PathsEnd],
    },
    Row {
        streams: &[("small", 3), ("judges", 2)],
        answers: &[NO],
        operators: BOTH,
        faults: &[Fault::SilentPassedOver],
    },
    Row {
        streams: &[
            ("small", 100),
            ("judges", 100),
            ("sheets", 40),
            ("lists", 100),
        ],
        answers: &[NO],
        operators: &[8],
        faults: &[Fault::NestedFalse],
    },
    Row {
        streams: &[
            ("small", 100),
            ("judges", 100),
            ("sheets", 20),
            ("lists", 5),
            ("tight", 10),
        ],
        answers: &[NO],
        operators: &[9],
        faults: &[Fault::BestUnsigned, Fault::BestBySize],
    },
    Row {
        streams: &[
            ("small", 400),
            ("judges", 400),
            ("sheets", 20),
            ("lists", 100),
            ("tight", 10),
        ],
        answers: &[YES, NO],
        operators: BOTH,
        faults: &[Fault::LastKept],
    },
    // A no to "equal", then another root.
    Row {
        streams: &[
            ("small", 400),
            ("judges", 400),
            ("sheets", 20),
            ("lists", 100),
            ("tight", 50),
        ],
        answers: &[NO],
        operators: BOTH,
        faults: &[Fault::LastLeft],
    },
    Row {
        streams: &[
            ("small", 400),
            ("judges", 400),
            ("lists", 100),
            ("tight", 100),
        ],
        answers: &[YES, NO],
        operators: &[0],
        faults: &[Fault::LastLeft],
    },
    Row {
        streams: SOME_CHECKS,
        answers: &[YES, NO, CHECK],
        operators: BOTH,
        faults: &[
            Fault::DividedFirst,
            Fault::ShortTotal,
            Fault::ShortWhole,
            Fault::OneStep,
            Fault::QLeftOut,
            Fault::OneUnitIsAt,
        ],
    },
    // Totals that miss their bound by less than a unit, or by far less.
    Row {
        streams: &[("tight", 10)],
        answers: &[YES, NO, CHECK],
        operators: BOTH,
        faults: &[
            Fault::BoundCut,
            Fault::BoundFloored,
            Fault::NearestIsAt,
            Fault::Millionths,
            Fault::DividedDoubles,
            Fault::MultipliedDoubles,
            Fault::DividedSingles,
            Fault::TotalCut,
            Fault::WholeCut,
        ],
    },
    Row {
        streams: &[("small", 15), ("judges", 15), ("sheets", 15), ("tight", 10)],
        answers: &[YES, NO, CHECK],
        operators: &[9],
        faults: &[Fault::SignsLost, Fault::TotalUnsigned],
    },
    // Sides that lie far apart.
    Row {
        streams: &[("small", 8), ("judges", 8)],
        answers: &[YES, NO, CHECK],
        operators: &[9],
        faults: &[
            Fault::SidesSigned,
            Fault::DifferenceSigned,
            Fault::DifferenceCut,
        ],
    },
];

/// The seeds and the numbers of calls are those of `tests/agree`.
#[test]
fn streams_tell_faults() {
    for seed in 1..=3 {
        for (kind, calls) in STREAMS {
            let counts = differences(&stream(kind, seed, calls).expect("kind"));
            for row in &TOLD {
                let named = row.streams.iter().filter(|(name, _)| *name == kind);
                for (_, fewest) in named {
                    row.told_by(&counts, kind, *fewest);
                }
            }
        }
    }
}

impl Row {
    fn told_by(&self, counts: &Differences, kind: &str, fewest: usize) {
        for fault in self.faults {
            for answer in self.answers {
                for operator in self.operators {
                    let count = counts.get(&(*fault, *answer, *operator)).unwrap_or(&0);
                    assert!(
                        *count >= fewest,
                        "{fault:?} is wrong on only {count} of {answer}, operator {operator}, in {kind}"
                    );
                }
            }
        }
    }
}

/// No fault is left out above.
#[test]
fn every_fault_is_told() {
    for fault in ALL {
        let told = TOLD.iter().any(|row| row.faults.contains(&fault));
        assert!(told, "{fault:?}");
    }
}

/// The calls of a fixture: a question is judged, and a sheet checked after it.
fn calls(file: &Path) -> Vec<Call> {
    let model = named(file, "model");
    let question = says(file, "question").map(|_| named(file, "question"));
    let mut packed = vec![model.as_path()];
    packed.extend(question.as_deref());
    packed.push(file);
    let mut parts = pack(&packed).into_iter();
    let mut calls: Vec<Call> = parts.next().map(Call::Load).into_iter().collect();
    calls.extend(parts.next().map(Call::Put));
    calls.push(Call::Judge);
    calls.extend(parts.next().map(Call::Check));
    calls
}

fn told_by(calls: &[Call]) -> Differences {
    let records = calls.iter().flat_map(Call::record);
    differences(&records.collect::<Vec<u8>>())
}

/// The fixtures that are there for a fault, and the answer in which they tell
/// it.
const FIXTURES: [(&str, &str, Fault); 28] = [
    ("held-less-18-100.question", NO, Fault::FirstPlan),
    ("held-greater-45-100.question", NO, Fault::LastPlan),
    ("held-greater-45-100.question", NO, Fault::WrongEnd),
    ("held-less-18-100.question", NO, Fault::FirstMoveOnly),
    ("held-greater-46-100.question", NO, Fault::OneUnitIsAt),
    ("held-greater-46-100.question", NO, Fault::ByRelation),
    ("held-greater-46-100.question", NO, Fault::MissedIsAt),
    ("held-greater-451-1000.question", NO, Fault::NearestIsAt),
    ("held-equal-29-100.question", NO, Fault::LampOnEqual),
    ("not-greater-44-100.question", NO, Fault::LampOnOtherRoot),
    ("nested-above-root-at.question", NO, Fault::OfThePlanBelow),
    ("nested-gain-root-at.question", NO, Fault::OfThePlanBelow),
    ("one-step-less-minus-7-3.question", NO, Fault::DividedFirst),
    (
        "one-step-less-minus-2001-1000.question",
        NO,
        Fault::BoundCut,
    ),
    ("step-1-greater-minus-99-100.question", NO, Fault::SignsLost),
    (
        "three-steps-next-held-greater-8-10.question",
        NO,
        Fault::ShortTotal,
    ),
    (
        "silent-both-steps-greater-5.question",
        NO,
        Fault::SilentPassedOver,
    ),
    (
        "silent-next-done-greater-1.question",
        NO,
        Fault::SilentPassedOver,
    ),
    (
        "silent-next-not-done-less-0.question",
        NO,
        Fault::SilentPassedOver,
    ),
    ("nested-above-root-at.question", NO, Fault::NestedFalse),
    (
        "step-1-greater-minus-100-100.question",
        NO,
        Fault::BestUnsigned,
    ),
    ("step-1-less-minus-200-100.question", NO, Fault::BestBySize),
    ("greater-24-twenty-four.sheet", CHECK, Fault::OfTheYes),
    ("greater-45-thirty.sheet", CHECK, Fault::OfTheNo),
    ("less-30-thirty.sheet", CHECK, Fault::AtAsBelow),
    ("equal-29-thirty.sheet", CHECK, Fault::OneUnitIsAt),
    ("step-1-at-minus-100.sheet", CHECK, Fault::TotalUnsigned),
    (
        "six-steps-least-for-the-greatest.sheet",
        CHECK,
        Fault::DifferenceSigned,
    ),
];

#[test]
fn fixtures_tell_faults() {
    for (name, answer, fault) in FIXTURES {
        let counts = told_by(&calls(&fixtures().join("lamps").join(name)));
        let told = counts.keys().any(|key| (key.0, key.1) == (fault, answer));
        assert!(told, "{name} {fault:?}");
    }
}

/// All faults but one are told by questions and sheets whose answers were
/// worked out by hand; singles happen to tell them all rightly. A model is
/// loaded once for all fixtures in a row.
#[test]
fn handmade_answers_tell_faults() {
    let folders = ["two-shelf", "two-shelf-gains", "two-shelf-silent", "lamps"];
    let folders = folders.into_iter().chain(["toll", "six-tries", "thirds"]);
    let inputs = folders.flat_map(|folder| [files(folder, "question"), files(folder, "sheet")]);
    let mut made: Vec<Call> = inputs.flatten().flat_map(|file| calls(&file)).collect();
    let mut loaded = None;
    made.retain(|call| match call {
        Call::Load(model) => loaded.replace(model.clone()).as_ref() != Some(model),
        _ => true,
    });
    let counts = told_by(&made);
    for fault in ALL {
        let told = counts.keys().any(|key| key.0 == fault);
        assert_eq!(told, fault != Fault::DividedSingles, "{fault:?}");
    }
}
