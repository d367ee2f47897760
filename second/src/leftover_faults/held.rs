//! What a put that is refused with 13 wrongly does to the desk.

use super::Fault;
use crate::blocks::read_formula;
use crate::desk::{Answer, Call, Desk};
use crate::ground::Ground;

/// The desks that stray by this call. `desk` is the right one after it.
pub(super) fn strayed(call: &Call, right: &Answer, desk: &Desk) -> Vec<(Fault, Desk)> {
    match (call, right) {
        (Call::Put(bytes), Answer::Put(Err(Ground::Leftover))) => after_refusal(bytes, desk),
        _ => Vec::new(),
    }
}

/// The desks after the refusal. A write into any buffer tells a verdict that is
/// gone, and a check a question.
fn after_refusal(bytes: &[u8], desk: &Desk) -> Vec<(Fault, Desk)> {
    let Ok(model) = desk.model() else {
        return Vec::new();
    };
    let mut desks = vec![
        (Fault::ModelDropped, Desk::default()),
        (Fault::QuestionDropped, desk.without_question()),
        (Fault::VerdictDropped, desk.without_verdict()),
    ];
    if let Ok(question) = read_formula(bytes, model) {
        let held = Desk::holding(model.clone(), question);
        desks.push((Fault::RefusedHeld, held));
    }
    desks
}
