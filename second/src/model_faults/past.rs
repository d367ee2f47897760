//! What a wrong desk has kept of earlier loads, refused ones too.

use super::fields::wrong_packings;
use super::{filled, Fault, Written};
use crate::blocks::BLOCK;
use crate::desk::{Answer, Call, Desk, ROOM};
use crate::ground::Ground;

#[derive(Default)]
pub(super) struct Past {
    /// The models of the first load done, of the one before the last, of the last.
    first: Vec<u8>,
    before: Vec<u8>,
    last: Vec<u8>,
    /// How many bytes the longest of all has.
    longest: usize,
    /// A room over which each model was laid, and one for each desk on which only
    /// the first blocks of a model are.
    laid: Vec<u8>,
    heads_laid: Vec<u8>,
    two_laid: Vec<u8>,
    /// The last load, if it was refused.
    refused: Option<(Ground, Vec<u8>)>,
    /// The desk by hand, if it has not been loaded since.
    by_hand: Option<Call>,
    /// The faults with which the held model's blocks are packed otherwise.
    fields: Vec<Fault>,
}

/// Lays the first bytes of a model over a room.
fn lay(room: &mut Vec<u8>, model: &[u8], most: usize) {
    room.resize(ROOM, 0);
    for (place, byte) in room.iter_mut().zip(model).take(most) {
        *place = *byte;
    }
}

impl Past {
    pub(super) fn remember(&mut self, call: &Call, answer: &Answer, desk: &Desk) {
        match (call, answer) {
            (Call::Load(bytes), Answer::Load(Ok(()))) => {
                self.loaded(bytes);
                self.fields = desk.model().map(wrong_packings).unwrap_or_default();
            }
            (Call::Load(bytes), Answer::Load(Err(ground))) => {
                self.refused = Some((*ground, bytes.clone()));
            }
            (Call::ByHand(_), _) => {
                self.by_hand = Some(call.clone());
                self.refused = None;
                self.fields = desk.model().map(wrong_packings).unwrap_or_default();
            }
            _ => {}
        }
    }

    fn loaded(&mut self, model: &[u8]) {
        if self.first.is_empty() {
            self.first = model.to_vec();
        }
        self.before = std::mem::replace(&mut self.last, model.to_vec());
        self.longest = self.longest.max(model.len());
        lay(&mut self.laid, model, ROOM);
        lay(&mut self.heads_laid, model, BLOCK);
        lay(&mut self.two_laid, model, 2 * BLOCK);
        self.refused = None;
        self.by_hand = None;
    }

    pub(super) fn by_hand(&self) -> Option<&Call> {
        self.by_hand.as_ref()
    }

    pub(super) fn wrong_fields(&self) -> &[Fault] {
        &self.fields
    }

    /// What a desk with the fault writes; none if the fault is no such one, or
    /// has nothing to show.
    pub(super) fn written(&self, fault: Fault, lent: &[u8]) -> Option<Written> {
        if let Some((ground, bytes)) = &self.refused {
            if written_if_refused(fault) == Some(*ground) {
                return Some(filled(lent, bytes));
            }
        }
        if self.last.is_empty() || self.by_hand.is_some() {
            return None;
        }
        let length = self.last.len();
        let bytes = match fault {
            Fault::RefusedHeadWritten => {
                let head = self.refused.as_ref()?.1.get(..BLOCK)?;
                [head, self.last.get(BLOCK..)?].concat()
            }
            Fault::FirstWritten => self.first.clone(),
            Fault::BeforeLastWritten if !self.before.is_empty() => self.before.clone(),
            Fault::HeadAloneChanges => self.heads_laid.get(..length)?.to_vec(),
            Fault::TwoBlocksChange => self.two_laid.get(..length)?.to_vec(),
            Fault::CountNeverFalls => self.laid.get(..self.longest)?.to_vec(),
            Fault::CountStays => self.laid.get(..self.first.len())?.to_vec(),
            _ => return None,
        };
        Some(filled(lent, &bytes))
    }
}

/// The ground on which a load is refused that the desk with the fault writes.
fn written_if_refused(fault: Fault) -> Option<Ground> {
    Some(match fault {
        Fault::RefusedLengthWritten => Ground::Length,
        Fault::RefusedSumWritten => Ground::WordSum,
        Fault::RefusedKindWritten => Ground::Kind,
        Fault::RefusedCountsWritten => Ground::Counts,
        Fault::RefusedRangeWritten => Ground::Range,
        Fault::RefusedSpareWritten => Ground::Spare,
        Fault::RefusedOutcomesWritten => Ground::Outcomes,
        _ => return None,
    })
}
