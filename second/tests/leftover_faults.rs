//! The streams tell a judge that errs about leftover nodes (document 02, A.6) from
//! a right one, in every call in which it can err.

mod common;

use common::{files, named, pack};
use second::desk::Call;
use second::generate::stream;
use second::leftover_faults::{differences, Differences, Fault, ALL};

/// In these streams so many of these calls are answered otherwise, at least.
struct Row {
    streams: &'static [(&'static str, usize)],
    call: &'static str,
    faults: &'static [Fault],
}

const EVERYWHERE: &[(&str, usize)] = &[
    ("questions", 100),
    ("small", 100),
    ("judges", 100),
    ("sheets", 60),
    ("lists", 100),
    ("reasons", 40),
];
const VERDICTS: &[(&str, usize)] = &[("small", 40), ("judges", 40), ("sheets", 20), ("lists", 40)];
const PUTS: &[(&str, usize)] = &[
    ("questions", 10),
    ("small", 10),
    ("judges", 10),
    ("sheets", 5),
    ("lists", 10),
];

const TOLD: [Row; 14] = [
    // Accepted questions are refused, or most leftovers are accepted.
    Row {
        streams: EVERYWHERE,
        call: "put",
        faults: &[
            Fault::NotTested,
            Fault::RightOfAndUnfollowed,
            Fault::LeftOfAndUnfollowed,
            Fault::NotUnfollowed,
            Fault::NextUnfollowed,
            Fault::PlanUnfollowed,
            Fault::LastPlanIsRoot,
            Fault::ChildrenOnly,
            Fault::RootAskedToo,
            Fault::SharedRefused,
            Fault::OnlyPlansAsked,
            Fault::OneAllowed,
        ],
    },
    // Leftovers of one kind are accepted.
    Row {
        streams: &[
            ("questions", 40),
            ("small", 40),
            ("judges", 40),
            ("sheets", 20),
            ("lists", 40),
        ],
        call: "put",
        faults: &[
            Fault::FirstUnasked,
            Fault::BeforeRootUnasked,
            Fault::FalseUnasked,
            Fault::PropositionUnasked,
            Fault::NotUnasked,
            Fault::AndUnasked,
            Fault::DoUnasked,
            Fault::NextUnasked,
            Fault::GainUnasked,
            Fault::PlanUnasked,
            Fault::ExpectedUnasked,
            Fault::TwinPassed,
            Fault::ConnectedPassed,
            Fault::LinkedPassed,
            Fault::ReferencesCounted,
            Fault::PlanRootUnasked,
            Fault::ExpectedRootUnasked,
            Fault::OtherRootUnasked,
            Fault::StartFollowed,
            Fault::SpareFollowed,
            Fault::EveryLeftFollowed,
            Fault::EveryRightFollowed,
        ],
    },
    // A byte that is no child is followed.
    Row {
        streams: PUTS,
        call: "put",
        faults: &[
            Fault::PropositionFollowed,
            Fault::ActionFollowed,
            Fault::WindowFollowed,
            Fault::GainRelationFollowed,
            Fault::PlanRelationFollowed,
            Fault::ExpectedRelationFollowed,
            Fault::GainLeftFollowed,
            Fault::StepsFollowed,
            Fault::PFollowed,
            Fault::QFollowed,
            Fault::MarkedModuloEight,
            Fault::SixLevels,
        ],
    },
    Row {
        streams: &[
            ("questions", 20),
            ("small", 10),
            ("judges", 40),
            ("sheets", 2),
            ("lists", 10),
        ],
        call: "put",
        faults: &[Fault::ThirtyLevels],
    },
    // Few questions have more than 32 nodes.
    Row {
        streams: &[("questions", 2), ("small", 1), ("judges", 4), ("lists", 1)],
        call: "put",
        faults: &[Fault::FromThirtyTwoUnasked, Fault::MarkedModuloThirtyTwo],
    },
    // Other grounds stand beside leftovers where questions are damaged.
    Row {
        streams: &[("questions", 100), ("lists", 4)],
        call: "put",
        faults: &[
            Fault::BeforeFormula,
            Fault::BeforeSpare,
            Fault::BeforeRange,
            Fault::BeforeCounts,
            Fault::BeforeKind,
            Fault::BeforeSum,
        ],
    },
    Row {
        streams: &[("questions", 60), ("lists", 2)],
        call: "put",
        faults: &[
            Fault::FormulaOfReached,
            Fault::SpareOfReached,
            Fault::RangeOfReached,
        ],
    },
    // Only the calls at the start of a list find no model.
    Row {
        streams: &[("questions", 1), ("lists", 1)],
        call: "put",
        faults: &[Fault::BeforeModel],
    },
    Row {
        streams: VERDICTS,
        call: "judge",
        faults: &[Fault::ModelDropped, Fault::QuestionDropped],
    },
    Row {
        streams: VERDICTS,
        call: "write",
        faults: &[
            Fault::ModelDropped,
            Fault::QuestionDropped,
            Fault::VerdictDropped,
            Fault::RefusedHeld,
        ],
    },
    Row {
        streams: VERDICTS,
        call: "judge",
        faults: &[Fault::RefusedHeld],
    },
    Row {
        streams: &[
            ("small", 20),
            ("judges", 20),
            ("sheets", 20),
            ("lists", 100),
        ],
        call: "check",
        faults: &[
            Fault::ModelDropped,
            Fault::QuestionDropped,
            Fault::RefusedHeld,
        ],
    },
    Row {
        streams: &[("questions", 100), ("lists", 100)],
        call: "put",
        faults: &[Fault::ModelDropped],
    },
    // What is gone cannot be written.
    Row {
        streams: &[("lists", 100)],
        call: "write-model",
        faults: &[Fault::ModelDropped],
    },
];

/// The numbers of calls are those of `tests/agree`.
const STREAMS: [(&str, usize); 6] = [
    ("questions", 20_000),
    ("small", 50_000),
    ("judges", 50_000),
    ("sheets", 50_000),
    ("lists", 50_000),
    ("reasons", 9_000),
];

#[test]
fn streams_tell_faults() {
    for (kind, calls) in STREAMS {
        let counts = differences(&stream(kind, 1, calls).expect("kind"));
        for row in &TOLD {
            let named = row.streams.iter().filter(|(name, _)| *name == kind);
            for (_, fewest) in named {
                row.told_by(&counts, kind, *fewest);
            }
        }
    }
}

impl Row {
    fn told_by(&self, counts: &Differences, kind: &str, fewest: usize) {
        for fault in self.faults {
            let count = counts.get(&(*fault, self.call)).copied().unwrap_or(0);
            assert!(
                count >= fewest,
                "{fault:?} is wrong on only {count} of the calls {} of {kind}",
                self.call
            );
        }
    }
}

/// No fault is left out above.
#[test]
fn every_fault_is_told() {
    for fault in ALL {
        let told = TOLD.iter().any(|row| row.faults.contains(&fault));
        assert!(told, "{fault:?}");
    }
}

/// A judge that errs about what a refusal leaves, or about a desk without a model,
/// is found out by lists of calls; all others by questions whose answers were
/// worked out by hand.
const NOT_BY_HAND: [Fault; 5] = [
    Fault::BeforeModel,
    Fault::ModelDropped,
    Fault::QuestionDropped,
    Fault::VerdictDropped,
    Fault::RefusedHeld,
];

#[test]
fn handmade_answers_tell_faults() {
    let mut made = Vec::new();
    for file in files("leftovers", "question") {
        let parts = pack(&[&named(&file, "model"), &file]);
        let [model, question] = [0, 1].map(|part| parts[part].clone());
        made.extend([Call::Load(model), Call::Put(question)]);
    }
    let stream: Vec<u8> = made.iter().flat_map(Call::record).collect();
    let counts = differences(&stream);
    for fault in ALL {
        let told = counts.contains_key(&(fault, "put"));
        assert_eq!(told, !NOT_BY_HAND.contains(&fault), "{fault:?}");
    }
}
