//! The faults of wrong puts.

#[derive(Clone, Copy, Debug, PartialEq, Eq, PartialOrd, Ord)]
pub enum Fault {
    /// 13 is never given.
    NotTested,
    /// The right child of "and" is not followed.
    RightOfAndUnfollowed,
    /// The left child of "and" is not followed.
    LeftOfAndUnfollowed,
    /// The child of "not" is not followed.
    NotUnfollowed,
    /// The child of "next" is not followed.
    NextUnfollowed,
    /// The child of "plan" is not followed.
    PlanUnfollowed,
    /// The number of a proposition is followed.
    PropositionFollowed,
    /// The number of an action is followed.
    ActionFollowed,
    /// The left byte of operator 9 is followed.
    WindowFollowed,
    /// The relation of "gain" is followed.
    GainRelationFollowed,
    /// The relation of "plan" is followed.
    PlanRelationFollowed,
    /// The relation of operator 9 is followed.
    ExpectedRelationFollowed,
    /// The spare left byte of "gain" is followed, to node 0.
    GainLeftFollowed,
    /// Spare left and right bytes are followed, to node 0.
    SpareFollowed,
    /// Every left byte is followed.
    EveryLeftFollowed,
    /// Every right byte is followed.
    EveryRightFollowed,
    /// n is followed.
    StepsFollowed,
    /// p is followed.
    PFollowed,
    /// q is followed.
    QFollowed,
    /// The number of the start state is followed.
    StartFollowed,
    /// The last node of operator 8 or 9 is taken for the root.
    LastPlanIsRoot,
    /// Only the root's own children are reached.
    ChildrenOnly,
    /// What is more than six levels below the root is not reached.
    SixLevels,
    /// What is more than thirty levels below it is not reached.
    ThirtyLevels,
    /// The root is asked for a parent as well.
    RootAskedToo,
    /// Node 0 is not asked for.
    FirstUnasked,
    /// The node just before the root is not asked for.
    BeforeRootUnasked,
    /// Nodes from number 32 on are not asked for.
    FromThirtyTwoUnasked,
    /// Nodes are marked in 32 bits: 32 is node 0 again.
    MarkedModuloThirtyTwo,
    /// Nodes are marked in 8 bits: 8 is node 0 again.
    MarkedModuloEight,
    /// Leftovers of operator 1 pass.
    FalseUnasked,
    /// Those of operator 2.
    PropositionUnasked,
    /// Those of operator 3.
    NotUnasked,
    /// Those of operator 4.
    AndUnasked,
    /// Those of operator 5.
    DoUnasked,
    /// Those of operator 6.
    NextUnasked,
    /// Those of operator 7.
    GainUnasked,
    /// Those of operator 8.
    PlanUnasked,
    /// Those of operator 9.
    ExpectedUnasked,
    /// Those of all operators but 8 and 9.
    OnlyPlansAsked,
    /// A single leftover passes.
    OneAllowed,
    /// A leftover with the same bytes as a reached node passes.
    TwinPassed,
    /// A leftover passes that children connect with the root in either
    /// direction.
    ConnectedPassed,
    /// A leftover passes that is a child or has one.
    LinkedPassed,
    /// The children of all nodes are counted, each as often as it is one, and
    /// not which they are.
    ReferencesCounted,
    /// A node that is a child twice is refused.
    SharedRefused,
    /// Questions with a root of operator 8 are not asked.
    PlanRootUnasked,
    /// Those with a root of operator 9.
    ExpectedRootUnasked,
    /// Those with another root.
    OtherRootUnasked,
    /// 13 is tested before 9.
    BeforeFormula,
    /// 13 is tested before 6.
    BeforeSpare,
    /// 13 is tested before 5.
    BeforeRange,
    /// 13 is tested before 4.
    BeforeCounts,
    /// 13 is tested before 3.
    BeforeKind,
    /// 13 is tested before 2.
    BeforeSum,
    /// 13 is tested before 20.
    BeforeModel,
    /// 9 is asked of reached nodes only.
    FormulaOfReached,
    /// 6 is asked of reached nodes only.
    SpareOfReached,
    /// 5 is asked of reached nodes only.
    RangeOfReached,
    /// A put refused with 13 clears the desk.
    ModelDropped,
    /// It clears the question.
    QuestionDropped,
    /// It clears the verdict.
    VerdictDropped,
    /// It is refused, but its question is held.
    RefusedHeld,
}

pub const ALL: [Fault; 63] = [
    Fault::NotTested,
    Fault::RightOfAndUnfollowed,
    Fault::LeftOfAndUnfollowed,
    Fault::NotUnfollowed,
    Fault::NextUnfollowed,
    Fault::PlanUnfollowed,
    Fault::PropositionFollowed,
    Fault::ActionFollowed,
    Fault::WindowFollowed,
    Fault::GainRelationFollowed,
    Fault::PlanRelationFollowed,
    Fault::ExpectedRelationFollowed,
    Fault::GainLeftFollowed,
    Fault::SpareFollowed,
    Fault::EveryLeftFollowed,
    Fault::EveryRightFollowed,
    Fault::StepsFollowed,
    Fault::PFollowed,
    Fault::QFollowed,
    Fault::StartFollowed,
    Fault::LastPlanIsRoot,
    Fault::ChildrenOnly,
    Fault::SixLevels,
    Fault::ThirtyLevels,
    Fault::RootAskedToo,
    Fault::FirstUnasked,
    Fault::BeforeRootUnasked,
    Fault::FromThirtyTwoUnasked,
    Fault::MarkedModuloThirtyTwo,
    Fault::MarkedModuloEight,
    Fault::FalseUnasked,
    Fault::PropositionUnasked,
    Fault::NotUnasked,
    Fault::AndUnasked,
    Fault::DoUnasked,
    Fault::NextUnasked,
    Fault::GainUnasked,
    Fault::PlanUnasked,
    Fault::ExpectedUnasked,
    Fault::OnlyPlansAsked,
    Fault::OneAllowed,
    Fault::TwinPassed,
    Fault::ConnectedPassed,
    Fault::LinkedPassed,
    Fault::ReferencesCounted,
    Fault::SharedRefused,
    Fault::PlanRootUnasked,
    Fault::ExpectedRootUnasked,
    Fault::OtherRootUnasked,
    Fault::BeforeFormula,
    Fault::BeforeSpare,
    Fault::BeforeRange,
    Fault::BeforeCounts,
    Fault::BeforeKind,
    Fault::BeforeSum,
    Fault::BeforeModel,
    Fault::FormulaOfReached,
    Fault::SpareOfReached,
    Fault::RangeOfReached,
    Fault::ModelDropped,
    Fault::QuestionDropped,
    Fault::VerdictDropped,
    Fault::RefusedHeld,
];
