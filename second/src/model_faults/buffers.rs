//! Wrong lengths, wrong bytes about the model, wrong answers and refusals that do
//! something.

use super::{filled, Fault, Written};
use crate::blocks::BLOCK;
use crate::desk::{Desk, ROOM};
use crate::ground::Ground;
use crate::logic::Verdict;

/// What a desk with the fault answers, where the right one answered so; none if
/// the fault is no such one, or does not show.
pub(super) fn written(fault: Fault, lent: &[u8], right: &Written, desk: &Desk) -> Option<Written> {
    match right {
        (Err(Ground::NoModel), _) => without_model(fault, lent),
        (Err(_), _) => too_short(fault, lent, &blocks(desk)?),
        (Ok(length), after) => {
            let (model, behind) = after.split_at_checked(*length)?;
            otherwise(fault, desk, lent)
                .or_else(|| asked(fault, lent, model.len()))
                .or_else(|| more(fault, model, behind))
                .or_else(|| less(fault, lent, model))
                .or_else(|| Some((Ok(answered(fault, lent.len(), *length)?), after.clone())))
        }
    }
}

/// The held model's blocks, as the right desk writes them.
fn blocks(desk: &Desk) -> Option<Vec<u8>> {
    let mut room = vec![0; ROOM];
    let length = desk.write_model(&mut room).ok()?;
    room.truncate(length);
    Some(room)
}

fn without_model(fault: Fault, lent: &[u8]) -> Option<Written> {
    let short = lent.len() < 2 * BLOCK;
    match fault {
        Fault::EmptyCleared => Some((Err(Ground::NoModel), vec![0; lent.len()])),
        Fault::ShortFirst if short => Some((Err(Ground::ShortBuffer), lent.to_vec())),
        Fault::NoModelPassed => Some((Ok(0), lent.to_vec())),
        _ => None,
    }
}

fn too_short(fault: Fault, lent: &[u8], model: &[u8]) -> Option<Written> {
    let length = model.len();
    let fits =
        |bytes: usize| [model.get(..bytes), lent.get(bytes..)].map(Option::unwrap_or_default);
    let whole = lent.len() / BLOCK * BLOCK;
    let refused = |buffer: Vec<u8>| Some((Err(Ground::ShortBuffer), buffer));
    let passed = |fits: [&[u8]; 2]| Some((Ok(fits[0].len()), fits.concat()));
    match fault {
        Fault::ByteLessAsked if lent.len() + 1 == length => passed(fits(lent.len())),
        Fault::BlockLessAsked if lent.len() + BLOCK >= length => passed(fits(lent.len())),
        Fault::NothingAsked => passed(fits(lent.len())),
        Fault::EmptyPassed if lent.is_empty() => Some((Ok(0), Vec::new())),
        Fault::ShortIsLength => Some((Err(Ground::Length), lent.to_vec())),
        Fault::ShortCopied => refused(fits(lent.len()).concat()),
        Fault::ShortBlocksCopied => refused(fits(whole).concat()),
        Fault::ShortCleared => refused(vec![0; lent.len()]),
        _ => None,
    }
}

/// Grounds that are no concern of this call.
fn otherwise(fault: Fault, desk: &Desk, lent: &[u8]) -> Option<Written> {
    let question = desk.question();
    let root = question.map(|question| question.root_plan());
    let shown = desk.judged().map(|judged| judged.verdict);
    let ground = match fault {
        Fault::QuestionAsked => question.err(),
        Fault::PlanRootAsked if root == Ok(None) => Some(Ground::RootNotPlan),
        Fault::VerdictAsked if !matches!(shown, Some(Verdict::YesPlan(_))) => {
            Some(Ground::NoShownPlan)
        }
        _ => None,
    };
    ground.map(|ground| (Err(ground), lent.to_vec()))
}

/// A buffer that is long enough is refused.
fn asked(fault: Fault, lent: &[u8], model: usize) -> Option<Written> {
    let passes = match fault {
        Fault::TwelveBlocks | Fault::TwelveAsked => lent.len() >= ROOM,
        Fault::ByteMoreAsked => lent.len() > model,
        Fault::BlockMoreAsked => lent.len() >= model + BLOCK,
        Fault::ExactAsked => lent.len() == model,
        Fault::WholeBlocksAsked => lent.len().is_multiple_of(BLOCK),
        Fault::LongRefused => lent.len() <= ROOM,
        _ => true,
    };
    (!passes).then(|| (Err(Ground::ShortBuffer), lent.to_vec()))
}

/// More is written than the model.
fn more(fault: Fault, model: &[u8], behind: &[u8]) -> Option<Written> {
    let cleared = match fault {
        Fault::ZerosToEnd => behind.len(),
        Fault::ZerosToTwelve | Fault::TwelveBlocks => ROOM.saturating_sub(model.len()),
        Fault::ZerosToNextBlock => BLOCK,
        Fault::ZeroBehind => 1,
        _ => return None,
    };
    let mut behind = behind.to_vec();
    behind.iter_mut().take(cleared).for_each(|byte| *byte = 0);
    let length = match fault {
        Fault::TwelveBlocks => ROOM,
        _ => model.len(),
    };
    Some((Ok(length), [model, &behind].concat()))
}

/// Less is written than the model, or in another place.
fn less(fault: Fault, lent: &[u8], model: &[u8]) -> Option<Written> {
    let length = model.len();
    let mut buffer = lent.to_vec();
    let (range, at) = match fault {
        Fault::LastBlockLeftOut => (0..length - BLOCK, 0),
        Fault::LastByteLeftOut => (0..length - 1, 0),
        Fault::HeadLeftOut => (BLOCK..length, BLOCK),
        Fault::RowsAlone => return Some(filled(lent, model.get(BLOCK..)?)),
        Fault::TwoBlocksAlone => (0..2 * BLOCK, 0),
        Fault::AtTheEnd => (0..length, lent.len() - length),
        Fault::Untouched => (0..0, 0),
        _ => return None,
    };
    let part = model.get(range)?;
    buffer.get_mut(at..at + part.len())?.copy_from_slice(part);
    Some((Ok(length), buffer))
}

/// Another number is answered.
fn answered(fault: Fault, lent: usize, model: usize) -> Option<usize> {
    match fault {
        Fault::BlocksAnswered => Some(model / BLOCK),
        Fault::BufferAnswered => Some(lent),
        Fault::TwelveAnswered => Some(ROOM),
        Fault::RowsAnswered => Some(model - BLOCK),
        _ => None,
    }
}
