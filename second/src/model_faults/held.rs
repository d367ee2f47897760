//! Desks that lost something by writing a model, and desks by hand that hold
//! another model than they should.

use super::{hand, Fault};
use crate::desk::{Answer, Call, Desk};
use crate::ground::Ground;

/// The desks that stray by this call. `desk` is the right one after it.
pub(super) fn strayed(call: &Call, right: &Answer, desk: &Desk) -> Vec<(Fault, Desk)> {
    match (call, right) {
        (Call::ByHand(_), _) => hand::desks(call, desk),
        (_, Answer::WriteModel(Ok(_), _)) => lost(&WRITTEN, desk),
        (_, Answer::WriteModel(Err(Ground::ShortBuffer), _)) => lost(&REFUSED, desk),
        _ => Vec::new(),
    }
}

/// What clears the verdict, the question and all.
const WRITTEN: [Fault; 3] = [
    Fault::VerdictCleared,
    Fault::QuestionCleared,
    Fault::ModelCleared,
];
const REFUSED: [Fault; 3] = [
    Fault::RefusedVerdictCleared,
    Fault::RefusedQuestionCleared,
    Fault::RefusedModelCleared,
];

fn lost([verdict, question, model]: &[Fault; 3], desk: &Desk) -> Vec<(Fault, Desk)> {
    vec![
        (*verdict, desk.without_verdict()),
        (*question, desk.without_question()),
        (*model, Desk::default()),
    ]
}
