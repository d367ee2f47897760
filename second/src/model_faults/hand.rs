//! Desks by hand whose count is taken otherwise, or whose blocks are not asked.

use super::{filled, Fault, Written};
use crate::blocks::{read_model, ModelImage, BLOCK, MODEL_BLOCKS};
use crate::bytes::u8_at;
use crate::desk::{Call, Desk};
use crate::ground::Ground;

/// The ways to take the count.
const COUNTS: [Fault; 10] = [
    Fault::CountIgnored,
    Fault::CountBySize,
    Fault::CountOfRows,
    Fault::CountInByte,
    Fault::CountInTwoBytes,
    Fault::BytesInFour,
    Fault::CountInFour,
    Fault::BytesInEight,
    Fault::CountOverRefused,
    Fault::HandRefused,
];

/// The desks that hold another model, or wrongly one or none. `desk` is the right
/// one.
pub(super) fn desks(call: &Call, desk: &Desk) -> Vec<(Fault, Desk)> {
    let Some((blocks, room)) = call.said() else {
        return Vec::new();
    };
    let made = |fault: Fault| (fault, desk.by_hand(counted(fault, blocks, room), room));
    COUNTS.into_iter().map(made).collect()
}

/// The count that a desk with the fault takes. A block has 2^9 bytes.
fn counted(fault: Fault, blocks: u64, room: &[u8]) -> u64 {
    let most = MODEL_BLOCKS as u64;
    match fault {
        Fault::CountIgnored => most,
        Fault::CountBySize => 1 + ModelImage::rows_for(u8_at(room, 2)) as u64,
        Fault::CountOfRows => blocks.saturating_add(1),
        Fault::CountInByte => blocks % (1 << 8),
        Fault::CountInTwoBytes => blocks % (1 << 16),
        Fault::BytesInFour => blocks % (1 << (32 - 9)),
        Fault::CountInFour => blocks % (1 << 32),
        Fault::BytesInEight => blocks % (1 << (64 - 9)),
        Fault::CountOverRefused if blocks <= most => blocks,
        _ => 0,
    }
}

/// What a desk with the fault writes; none if the fault is no such one, or does
/// not show.
pub(super) fn written(fault: Fault, lent: &[u8], call: &Call) -> Option<Written> {
    let (blocks, room) = call.said()?;
    let blocks = usize::try_from(blocks).unwrap_or(usize::MAX);
    let said = room.get(..blocks.saturating_mul(BLOCK)).unwrap_or(room);
    let ground = read_model(said).err();
    match fault {
        Fault::RoomWritten if ground.is_none() => {
            let length = lent.len().min(room.len());
            let (_, buffer) = filled(lent, room.get(..length)?);
            let (answer, _) = filled(lent, said);
            answer.is_ok().then_some((answer, buffer))
        }
        Fault::HandUnasked => Some(filled(lent, said)),
        _ if ground.is_some() && passed(fault) == ground => Some(filled(lent, said)),
        _ => None,
    }
}

/// The ground that a desk with the fault does not ask for.
fn passed(fault: Fault) -> Option<Ground> {
    Some(match fault {
        Fault::HandLengthPassed => Ground::Length,
        Fault::HandSumPassed => Ground::WordSum,
        Fault::HandKindPassed => Ground::Kind,
        Fault::HandCountsPassed => Ground::Counts,
        Fault::HandRangePassed => Ground::Range,
        Fault::HandSparePassed => Ground::Spare,
        Fault::HandOutcomesPassed => Ground::Outcomes,
        _ => return None,
    })
}
