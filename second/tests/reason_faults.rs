//! The questions of `tests/agree` tell an explainer that errs (document 02, A.5)
//! from a right one, in every kind of line in which it can err, for both
//! operators.

mod common;

use common::{files, named, pack};
use second::desk::pairs;
use second::generate::stream;
use second::reason_faults::{differences, Differences, Fault, ALL};
use std::collections::BTreeSet;

/// The streams of `tests/agree` whose questions go through the programs whynot,
/// with its counts of calls and of questions.
const STREAMS: [(&str, usize, usize); 4] = [
    ("small", 50_000, 400),
    ("judges", 50_000, 600),
    ("tight", 13_000, 800),
    ("reasons", 9_000, 2_250),
];

/// The kinds of lines that faults change, the operators of the root, and the
/// least number of lines, for each kind and each operator.
struct Row {
    lines: &'static [&'static str],
    operators: &'static [u8],
    fewest: usize,
    faults: &'static [Fault],
}

const PLANS: &[&str] = &["greatest", "least", "below", "above"];
const BEST: &[&str] = &["greatest", "least"];
const SIDES: &[&str] = &["below", "above"];
const NONE: &[&str] = &["below none", "above none"];
const BOTH: &[u8] = &[8, 9];

const TOLD: [Row; 38] = [
    // Which plan of several, and which total.
    Row {
        lines: PLANS,
        operators: BOTH,
        fewest: 40,
        faults: &[
            Fault::LastOfTie,
            Fault::LastAfterDepth,
            Fault::FirstPlan,
            Fault::LastPlan,
            Fault::FirstLeftOut,
            Fault::FirstMoveOnly,
        ],
    },
    Row {
        lines: PLANS,
        operators: BOTH,
        fewest: 2,
        faults: &[Fault::TieFromTheBack],
    },
    Row {
        lines: PLANS,
        operators: BOTH,
        fewest: 12,
        faults: &[
            Fault::LastLeftOut,
            Fault::LastOutcomeOnly,
            Fault::SilentPassedOver,
            Fault::SilentPathsLost,
        ],
    },
    Row {
        lines: NONE,
        operators: BOTH,
        fewest: 80,
        faults: &[Fault::FirstPlan, Fault::LastPlan],
    },
    Row {
        lines: BEST,
        operators: BOTH,
        fewest: 60,
        faults: &[Fault::OtherEnd, Fault::AtLeftOut, Fault::NearestForAll],
    },
    Row {
        lines: BEST,
        operators: &[9],
        fewest: 60,
        faults: &[Fault::BestBySize],
    },
    // The sides of "equal".
    Row {
        lines: SIDES,
        operators: BOTH,
        fewest: 15,
        faults: &[
            Fault::FirstOnSide,
            Fault::LastOnSide,
            Fault::Farthest,
            Fault::OnlyEnds,
            Fault::NearestOfBoth,
            Fault::FirstMoveWithOne,
            Fault::ChoicesExchanged,
            Fault::AlwaysNone,
            Fault::NoneIfOneSided,
        ],
    },
    Row {
        lines: NONE,
        operators: BOTH,
        fewest: 80,
        faults: &[
            Fault::NearestOfBoth,
            Fault::OtherForNone,
            Fault::SideLeftOut,
        ],
    },
    Row {
        lines: &["below", "above", "below none", "above none"],
        operators: BOTH,
        fewest: 80,
        faults: &[
            Fault::SidesExchanged,
            Fault::LinesExchanged,
            Fault::NoReasonForEqual,
        ],
    },
    // The bound: no whole number of units, rounded, another, too far.
    Row {
        lines: &["below", "above", "below none", "above none"],
        operators: BOTH,
        fewest: 30,
        faults: &[Fault::NotWholeNoReason],
    },
    Row {
        lines: SIDES,
        operators: BOTH,
        fewest: 100,
        faults: &[Fault::NotWholeNone],
    },
    Row {
        lines: &["below"],
        operators: BOTH,
        fewest: 20,
        faults: &[Fault::BoundFloored, Fault::BoundCut],
    },
    Row {
        lines: &["above"],
        operators: BOTH,
        fewest: 20,
        faults: &[Fault::BoundCeiled],
    },
    // Towards 0 is downwards for operator 8.
    Row {
        lines: &["above"],
        operators: &[9],
        fewest: 20,
        faults: &[Fault::BoundCut],
    },
    Row {
        lines: SIDES,
        operators: BOTH,
        fewest: 15,
        faults: &[
            Fault::BoundRounded,
            Fault::FlooredIsAbove,
            Fault::CeiledIsBelow,
        ],
    },
    Row {
        lines: &["above none"],
        operators: BOTH,
        fewest: 15,
        faults: &[Fault::FlooredIsAbove],
    },
    Row {
        lines: &["below none"],
        operators: BOTH,
        fewest: 15,
        faults: &[Fault::CeiledIsBelow],
    },
    Row {
        lines: SIDES,
        operators: BOTH,
        fewest: 3,
        faults: &[Fault::Doubles],
    },
    Row {
        lines: &["below", "above", "below none", "above none"],
        operators: BOTH,
        fewest: 4,
        faults: &[Fault::DistanceCut],
    },
    // A root of operator 9 has no child, and so no other plan stands beside it.
    Row {
        lines: &["below", "above", "below none", "above none"],
        operators: &[8],
        fewest: 4,
        faults: &[Fault::OtherBound],
    },
    Row {
        lines: &["below", "above", "below none", "above none"],
        operators: &[9],
        fewest: 3,
        faults: &[Fault::DistanceSigned],
    },
    Row {
        lines: &["below", "above", "below none"],
        operators: &[9],
        fewest: 50,
        faults: &[Fault::BoundSignLost],
    },
    // Totals that stand for something else.
    Row {
        lines: PLANS,
        operators: &[9],
        fewest: 20,
        faults: &[Fault::BegunAtZero, Fault::ZeroIsNone, Fault::TotalsUnsigned],
    },
    Row {
        lines: &["least", "above"],
        operators: &[8],
        fewest: 100,
        faults: &[Fault::BegunAtZero],
    },
    Row {
        lines: &["greatest", "least", "below"],
        operators: &[8],
        fewest: 50,
        faults: &[Fault::ZeroIsNone],
    },
    Row {
        lines: PLANS,
        operators: &[9],
        fewest: 1,
        faults: &[Fault::MinusOneIsNone],
    },
    // Which plans there are.
    Row {
        lines: SIDES,
        operators: BOTH,
        fewest: 4,
        faults: &[Fault::ByState],
    },
    Row {
        lines: SIDES,
        operators: BOTH,
        fewest: 2,
        faults: &[Fault::FirstHundred],
    },
    Row {
        lines: BEST,
        operators: &[9],
        fewest: 2,
        faults: &[Fault::FirstHundred],
    },
    Row {
        lines: PLANS,
        operators: &[9],
        fewest: 20,
        faults: &[Fault::FromTheStart, Fault::UpToTheEnd],
    },
    Row {
        lines: PLANS,
        operators: &[8],
        fewest: 2,
        faults: &[Fault::ListsByState],
    },
    // Only conditions of operator 8 have plans in them.
    Row {
        lines: PLANS,
        operators: &[8],
        fewest: 15,
        faults: &[Fault::NestedFalse],
    },
    Row {
        lines: PLANS,
        operators: BOTH,
        fewest: 20,
        faults: &[
            Fault::FromStateZero,
            Fault::TotalCut,
            Fault::OwnTotal,
            Fault::Unweighted,
        ],
    },
    // What is printed.
    Row {
        lines: PLANS,
        operators: BOTH,
        fewest: 40,
        faults: &[
            Fault::WordsExchanged,
            Fault::Reduced,
            Fault::OverOneStep,
            Fault::ShortTotal,
            Fault::ShortFraction,
            Fault::ChoicesOnlyAsDeep,
            Fault::FirstChoiceOnly,
            Fault::SilentAsZero,
            Fault::SilentNotPrinted,
            Fault::LampInLines,
            Fault::CountInLines,
            Fault::VerdictFirst,
        ],
    },
    Row {
        lines: PLANS,
        operators: BOTH,
        fewest: 4,
        faults: &[Fault::FirstBlockOnly],
    },
    Row {
        lines: PLANS,
        operators: &[9],
        fewest: 40,
        faults: &[
            Fault::RaisedTotals,
            Fault::SignNotPrinted,
            Fault::NoReasonForGains,
        ],
    },
    Row {
        lines: BEST,
        operators: BOTH,
        fewest: 100,
        faults: &[Fault::NoReasonForBest],
    },
    Row {
        lines: PLANS,
        operators: &[8],
        fewest: 1,
        faults: &[Fault::FirstNodeExplained],
    },
];

/// Faults about other answers than the reason of a plan root.
const OTHERS: [(Fault, &str, &[u8], usize); 5] = [
    (Fault::OtherRootExplained, "no reason", &[0], 100),
    (Fault::NoForNoReason, "no reason", &[0], 100),
    (Fault::YesExplained, "yes", BOTH, 100),
    (Fault::LamplessYes, "yes", BOTH, 100),
    // A question that is not put has no root.
    (Fault::RefusalIsNoReason, "refused", &[0], 20),
];

/// A no to "equal" has no plan at its bound, so that it cannot be told on which
/// side such a plan would be put.
const NOT_TOLD: Fault = Fault::AtOnASide;

fn told_in(counts: &Differences, fault: Fault, line: &'static str, operator: u8) -> usize {
    counts.get(&(fault, line, operator)).copied().unwrap_or(0)
}

/// The seeds and the numbers of calls and of questions are those of
/// `tests/agree`.
#[test]
fn questions_tell_faults() {
    for seed in 1..=3 {
        let asked = STREAMS.into_iter().flat_map(|(kind, calls, questions)| {
            pairs(&stream(kind, seed, calls).expect("kind"), questions)
        });
        let counts = differences(&asked.collect::<Vec<_>>());
        let check = |fault: Fault, line: &'static str, operator: u8, fewest: usize| {
            let count = told_in(&counts, fault, line, operator);
            assert!(
                count >= fewest,
                "seed {seed}: {fault:?} is wrong on only {count} of {line}, operator {operator}"
            );
        };
        for row in &TOLD {
            for fault in row.faults {
                for line in row.lines {
                    for operator in row.operators {
                        check(*fault, line, *operator, row.fewest);
                    }
                }
            }
        }
        for (fault, line, operators, fewest) in OTHERS {
            for operator in operators {
                check(fault, line, *operator, fewest);
            }
        }
        assert!(counts.keys().all(|key| key.0 != NOT_TOLD), "seed {seed}");
    }
}

/// No fault is left out above.
#[test]
fn every_fault_is_told() {
    for fault in ALL {
        let told = TOLD.iter().any(|row| row.faults.contains(&fault));
        let told = told || OTHERS.iter().any(|other| other.0 == fault);
        assert_eq!(told, fault != NOT_TOLD, "{fault:?}");
    }
}

/// All faults but these are told by questions whose lines were worked out by
/// hand, or that print as verdict does.
const NOT_BY_HAND: [Fault; 1] = [NOT_TOLD];

#[test]
fn handmade_lines_tell_faults() {
    let folders = [
        "coin",
        "lamps",
        "leftovers",
        "limits",
        "mary",
        "refusals",
        "robot",
        "shelf",
        "silent",
        "six-tries",
        "thirds",
        "toll",
        "two-shelf",
        "two-shelf-gains",
        "two-shelf-silent",
        "whynot",
    ];
    let questions = folders
        .into_iter()
        .flat_map(|folder| files(folder, "question"));
    let said = questions.filter(|file| {
        let has = |field| common::says(file, field).is_some();
        has("whynot") || !common::says(file, "verdict").is_some_and(|line| line.starts_with("no"))
    });
    let asked = said.map(|file| pack(&[&named(&file, "model"), &file]).concat());
    let counts = differences(&asked.collect::<Vec<_>>());
    let told: BTreeSet<Fault> = counts.keys().map(|key| key.0).collect();
    let missed: Vec<Fault> = ALL
        .into_iter()
        .filter(|fault| !told.contains(fault))
        .collect();
    assert_eq!(missed, NOT_BY_HAND);
}
