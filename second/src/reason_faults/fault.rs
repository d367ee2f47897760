//! The faults of wrong explainers.

#[derive(Clone, Copy, Debug, PartialEq, Eq, PartialOrd, Ord)]
pub enum Fault {
    /// Of the plans with the total the last is printed.
    LastOfTie,
    /// Of the plans with the total the one whose last choices are the lowest.
    TieFromTheBack,
    /// Beyond the steps that matter the highest choices follow.
    LastAfterDepth,
    /// The least total for "greater", the greatest for "less".
    OtherEnd,
    /// The best total by its distance from 0.
    BestBySize,
    /// The first plan, on whatever side it lies.
    FirstPlan,
    /// The last plan, on whatever side it lies.
    LastPlan,
    /// For "equal" the first plan on the side, near or not.
    FirstOnSide,
    /// For "equal" the last plan on the side, near or not.
    LastOnSide,
    /// For "equal" the farthest total on the side.
    Farthest,
    /// For "equal" only the least and the greatest of all totals are looked at.
    OnlyEnds,
    /// For "equal" the nearest total of both sides, on each.
    NearestOfBoth,
    /// For "equal" the nearest total of the first move that has one on the side.
    FirstMoveWithOne,
    /// For "less" and "greater" a plan at the bound is left out.
    AtLeftOut,
    /// For "equal" a plan at the bound counts as below and as above.
    AtOnASide,
    /// For "equal" there is no plan on any side.
    AlwaysNone,
    /// A side without a plan has that of the other.
    OtherForNone,
    /// Both sides have none where one has none.
    NoneIfOneSided,
    /// A side without a plan has no line.
    SideLeftOut,
    /// Below has the total and the plan of above, and the reverse.
    SidesExchanged,
    /// Above is printed before below.
    LinesExchanged,
    /// The choices of each side stand beside the other's total.
    ChoicesExchanged,
    /// Below is called above and greatest least, and the reverse.
    WordsExchanged,
    /// "Less" and "greater" are explained as "equal" is.
    NearestForAll,
    /// "Equal" is not explained where no total can be at the bound.
    NotWholeNoReason,
    /// There is no plan on any side where no total can be at the bound.
    NotWholeNone,
    /// The bound is rounded down to a total first.
    BoundFloored,
    /// The bound is rounded up to a total first.
    BoundCeiled,
    /// The bound is rounded towards 0 to a total first.
    BoundCut,
    /// The bound is rounded to the nearest total first.
    BoundRounded,
    /// The bound is rounded down, and a total at it counts as above.
    FlooredIsAbove,
    /// The bound is rounded up, and a total at it counts as below.
    CeiledIsBelow,
    /// Sides are told by quotients of doubles.
    Doubles,
    /// Sides and distances are worked out in 32 bits with a sign.
    DistanceCut,
    /// Sides and distances are worked out in 64 bits with a sign.
    DistanceSigned,
    /// The bound is that of the question's first plan node.
    OtherBound,
    /// The sign of the bound is lost.
    BoundSignLost,
    /// The best total so far is 0 before the first plan.
    BegunAtZero,
    /// A total of 0 counts as none.
    ZeroIsNone,
    /// A total of -1 counts as none.
    MinusOneIsNone,
    /// Only the first move is searched, and the lowest choices follow.
    FirstMoveOnly,
    /// Only what follows the last outcome of the first move is searched.
    LastOutcomeOnly,
    /// Only plans that choose by the steps left and the state are searched.
    ByState,
    /// The first plan is not looked at.
    FirstLeftOut,
    /// The last plan is not looked at.
    LastLeftOut,
    /// Only the first hundred plans are looked at.
    FirstHundred,
    /// Plans with silent moves are not looked at.
    SilentPassedOver,
    /// Paths with silent moves do not count.
    SilentPathsLost,
    /// No plan below the root is true.
    NestedFalse,
    /// The plans are those from state 0.
    FromStateZero,
    /// Gains are summed from step 1 and not from step l.
    FromTheStart,
    /// Gains are summed up to step n and not to step u.
    UpToTheEnd,
    /// Each path counts once, whatever its weight.
    Unweighted,
    /// Lists of totals are kept for steps and state, the history forgotten.
    ListsByState,
    /// Totals have no sign.
    TotalsUnsigned,
    /// Totals are cut to 32 bits.
    TotalCut,
    /// The bound's own total is printed, rounded down.
    OwnTotal,
    /// Totals of operator 9 are printed as they are when raised above 0.
    RaisedTotals,
    /// The sign is not printed.
    SignNotPrinted,
    /// The fraction is printed in lowest terms.
    Reduced,
    /// The total is printed over D.
    OverOneStep,
    /// The total of the steps that matter is printed over D to the n.
    ShortTotal,
    /// The total of the steps that matter is printed over D to these.
    ShortFraction,
    /// Only the choices of the steps that matter are printed.
    ChoicesOnlyAsDeep,
    /// Only the first choice is printed.
    FirstChoiceOnly,
    /// Only the choices of a sheet's first block are printed.
    FirstBlockOnly,
    /// The silent move is printed as 0.
    SilentAsZero,
    /// The silent move is not printed.
    SilentNotPrinted,
    /// The total's lamp is printed after the fraction.
    LampInLines,
    /// The count of plans is printed after the fraction.
    CountInLines,
    /// The line of verdict is printed first.
    VerdictFirst,
    /// Operator 9 has no reason.
    NoReasonForGains,
    /// "Equal" has no reason.
    NoReasonForEqual,
    /// "Less" and "greater" have no reason.
    NoReasonForBest,
    /// The question's first plan node is explained and not the root.
    FirstNodeExplained,
    /// Where the root is no plan node, the first plan node is explained.
    OtherRootExplained,
    /// Another root prints as verdict does.
    NoForNoReason,
    /// A yes is explained.
    YesExplained,
    /// A yes has no lamp.
    LamplessYes,
    /// A refusal has no reason.
    RefusalIsNoReason,
}

pub const ALL: [Fault; 80] = [
    Fault::LastOfTie,
    Fault::TieFromTheBack,
    Fault::LastAfterDepth,
    Fault::OtherEnd,
    Fault::BestBySize,
    Fault::FirstPlan,
    Fault::LastPlan,
    Fault::FirstOnSide,
    Fault::LastOnSide,
    Fault::Farthest,
    Fault::OnlyEnds,
    Fault::NearestOfBoth,
    Fault::FirstMoveWithOne,
    Fault::AtLeftOut,
    Fault::AtOnASide,
    Fault::AlwaysNone,
    Fault::OtherForNone,
    Fault::NoneIfOneSided,
    Fault::SideLeftOut,
    Fault::SidesExchanged,
    Fault::LinesExchanged,
    Fault::ChoicesExchanged,
    Fault::WordsExchanged,
    Fault::NearestForAll,
    Fault::NotWholeNoReason,
    Fault::NotWholeNone,
    Fault::BoundFloored,
    Fault::BoundCeiled,
    Fault::BoundCut,
    Fault::BoundRounded,
    Fault::FlooredIsAbove,
    Fault::CeiledIsBelow,
    Fault::Doubles,
    Fault::DistanceCut,
    Fault::DistanceSigned,
    Fault::OtherBound,
    Fault::BoundSignLost,
    Fault::BegunAtZero,
    Fault::ZeroIsNone,
    Fault::MinusOneIsNone,
    Fault::FirstMoveOnly,
    Fault::LastOutcomeOnly,
    Fault::ByState,
    Fault::FirstLeftOut,
    Fault::LastLeftOut,
    Fault::FirstHundred,
    Fault::SilentPassedOver,
    Fault::SilentPathsLost,
    Fault::NestedFalse,
    Fault::FromStateZero,
    Fault::FromTheStart,
    Fault::UpToTheEnd,
    Fault::Unweighted,
    Fault::ListsByState,
    Fault::TotalsUnsigned,
    Fault::TotalCut,
    Fault::OwnTotal,
    Fault::RaisedTotals,
    Fault::SignNotPrinted,
    Fault::Reduced,
    Fault::OverOneStep,
    Fault::ShortTotal,
    Fault::ShortFraction,
    Fault::ChoicesOnlyAsDeep,
    Fault::FirstChoiceOnly,
    Fault::FirstBlockOnly,
    Fault::SilentAsZero,
    Fault::SilentNotPrinted,
    Fault::LampInLines,
    Fault::CountInLines,
    Fault::VerdictFirst,
    Fault::NoReasonForGains,
    Fault::NoReasonForEqual,
    Fault::NoReasonForBest,
    Fault::FirstNodeExplained,
    Fault::OtherRootExplained,
    Fault::NoForNoReason,
    Fault::YesExplained,
    Fault::LamplessYes,
    Fault::RefusalIsNoReason,
];
