//! The faults of desks that write models wrongly.

/// One list makes both the type and the array of all faults.
macro_rules! faults {
    ($($(#[$says:meta])* $name:ident,)*) => {
        #[derive(Clone, Copy, Debug, PartialEq, Eq, PartialOrd, Ord)]
        pub enum Fault {
            $($(#[$says])* $name,)*
        }

        pub const ALL: &[Fault] = &[$(Fault::$name,)*];
    };
}

faults! {
    // How long a buffer is asked for.
    /// Twelve blocks are asked for and written, zeros behind the model.
    TwelveBlocks,
    /// Twelve blocks are asked for.
    TwelveAsked,
    /// One byte more than the model has is asked for.
    ByteMoreAsked,
    /// One byte less is asked for; what fits is written.
    ByteLessAsked,
    /// A block more is asked for.
    BlockMoreAsked,
    /// A block less is asked for; what fits is written.
    BlockLessAsked,
    /// Any buffer is taken; what fits is written.
    NothingAsked,
    /// An empty buffer is not refused.
    EmptyPassed,
    /// A longer buffer than the model is refused.
    ExactAsked,
    /// A buffer that is no whole number of blocks is refused.
    WholeBlocksAsked,
    /// A buffer of more than twelve blocks is refused.
    LongRefused,
    /// A short buffer is refused with 1.
    ShortIsLength,
    // What is written.
    /// The rest of the buffer is cleared.
    ZerosToEnd,
    /// What of the first twelve blocks is behind the model is cleared.
    ZerosToTwelve,
    /// The block behind the model is cleared.
    ZerosToNextBlock,
    /// The byte behind the model is cleared.
    ZeroBehind,
    /// The last block is left out.
    LastBlockLeftOut,
    /// The last byte is left out.
    LastByteLeftOut,
    /// The head is left out, and its place left as it was.
    HeadLeftOut,
    /// The rows alone are written, from the first byte on.
    RowsAlone,
    /// No more than two blocks are written.
    TwoBlocksAlone,
    /// The last bytes of the buffer are written, and not the first.
    AtTheEnd,
    /// Nothing is written.
    Untouched,
    // What is answered.
    /// The number of blocks.
    BlocksAnswered,
    /// The buffer's length.
    BufferAnswered,
    /// Twelve blocks, always.
    TwelveAnswered,
    /// The bytes of the rows.
    RowsAnswered,
    // Refusals.
    /// A refusal with 12 copies what fits.
    ShortCopied,
    /// It copies the blocks that fit.
    ShortBlocksCopied,
    /// It clears the buffer.
    ShortCleared,
    /// A refusal with 20 clears the buffer.
    EmptyCleared,
    /// 12 is tested before 20: the least model has two blocks.
    ShortFirst,
    /// A desk without a model writes nothing, and does not refuse.
    NoModelPassed,
    /// 21 is given without a question.
    QuestionAsked,
    /// 22 is given where the root is no plan.
    PlanRootAsked,
    /// 23 is given where there is no plan to show.
    VerdictAsked,
    // Which model is written.
    /// The input of a load refused with 1.
    RefusedLengthWritten,
    /// Of one refused with 2.
    RefusedSumWritten,
    /// With 3.
    RefusedKindWritten,
    /// With 4.
    RefusedCountsWritten,
    /// With 5.
    RefusedRangeWritten,
    /// With 6.
    RefusedSpareWritten,
    /// With 7.
    RefusedOutcomesWritten,
    /// The head of any refused load stands before the held model's rows.
    RefusedHeadWritten,
    /// The first model that was loaded.
    FirstWritten,
    /// The model before the last.
    BeforeLastWritten,
    /// Only the first block changes by a load.
    HeadAloneChanges,
    /// Only the first two blocks change by a load.
    TwoBlocksChange,
    /// After a longer model, as many blocks are written as that had.
    CountNeverFalls,
    /// As many blocks are written as the first model had.
    CountStays,
    // How it is packed.
    /// The head's spare bytes are not zero.
    HeadSpareFilled,
    /// Those of the rows are not.
    RowSpareFilled,
    /// Word sums are not made.
    SumsZero,
    /// Those of the rows are not.
    RowSumsZero,
    /// The last word is the sum, and not what it lacks.
    SumsTurned,
    /// The last block's last word makes all blocks sum to zero together.
    SumsTogether,
    /// Row blocks are numbered from 0.
    RowsFromZero,
    /// Actions that are enabled nowhere are packed as zeros.
    NowhereCleared,
    /// The last actions do not count if they are enabled nowhere.
    NowhereUncounted,
    /// Outcomes are packed in reverse.
    OutcomesReversed,
    /// By rising target.
    OutcomesByTarget,
    /// By falling weight.
    OutcomesByWeight,
    /// Rewards lose their sign.
    RewardsUnsigned,
    /// Rewards lose their high byte.
    RewardsCut,
    /// The bytes of rewards are the wrong way round.
    RewardsTurned,
    /// Rewards are not packed.
    RewardsLost,
    /// Masks beyond S are as the last state's.
    MasksBeyond,
    /// Rows beyond S are as the last state's.
    RowsBeyond,
    /// S is a multiple of three.
    StatesRounded,
    /// A and N are exchanged.
    ActionsForPropositions,
    /// N and D are exchanged.
    PropositionsForDenominator,
    /// N is as many as are named or true anywhere.
    PropositionsUsed,
    /// D is what the first enabled action's weights sum to, or 1.
    DenominatorFound,
    /// D and the weights are in lowest terms.
    WeightsReduced,
    /// The silent move is packed as action 0.
    SilentPacked,
    /// What must be true and what must be false are exchanged.
    LiteralsExchanged,
    /// The precondition of an action that is enabled everywhere is dropped.
    AlwaysEnabledFreed,
    /// Truths that no action names are dropped.
    UnnamedDropped,
    // What is left on the desk.
    /// Writing clears the verdict.
    VerdictCleared,
    /// It clears the question.
    QuestionCleared,
    /// It clears the desk.
    ModelCleared,
    /// A refusal with 12 clears the verdict.
    RefusedVerdictCleared,
    /// It clears the question.
    RefusedQuestionCleared,
    /// It clears the desk.
    RefusedModelCleared,
    // Desks by hand.
    /// The count is not looked at: the whole room is taken.
    CountIgnored,
    /// As many blocks are taken as S needs.
    CountBySize,
    /// The count is taken as one of rows.
    CountOfRows,
    /// It is cut to 8 bits.
    CountInByte,
    /// It is cut to 16 bits.
    CountInTwoBytes,
    /// 512 times the count wraps in 32 bits.
    BytesInFour,
    /// The count is cut to 32 bits.
    CountInFour,
    /// 512 times the count wraps in 64 bits.
    BytesInEight,
    /// A count over twelve is refused.
    CountOverRefused,
    /// No model is ever held.
    HandRefused,
    /// The room behind the model is written as well.
    RoomWritten,
    /// The blocks are written whatever they are.
    HandUnasked,
    /// Also where load refuses them with 1.
    HandLengthPassed,
    /// With 2.
    HandSumPassed,
    /// With 3.
    HandKindPassed,
    /// With 4.
    HandCountsPassed,
    /// With 5.
    HandRangePassed,
    /// With 6.
    HandSparePassed,
    /// With 7.
    HandOutcomesPassed,
}
