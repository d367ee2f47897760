//! What judges with faults write, and what they answer to sheets.

use super::misread::misread;
use super::sums::{lamp, Sums};
use super::verdicts::wrong_below;
use super::{gains_root, Fault, ALL};
use crate::blocks::{fix_word_sums, Sheet, BLOCK};
use crate::bytes::{put, u8_at};
use crate::desk::{stored, Desk};
use crate::ground::Ground;
use crate::logic::{fast, Checked, Lamp, Model, Plan, PlanNode, Question, Totals};

/// Whether write is answered otherwise, or other bytes are written.
pub(super) fn write_differs(
    fault: Fault,
    question: &Question,
    right: &Result<usize, Ground>,
    buffer: &[u8],
) -> bool {
    let Some(root) = gains_root(question) else {
        return false;
    };
    match (fault, right) {
        (Fault::RootRefused, _) => true,
        (_, Ok(length)) => {
            let sheet = Sheet::unpack(buffer.get(..*length).unwrap_or(buffer));
            written(fault, root.summed.claimed(sheet.total)) != sheet.total
        }
        _ => false,
    }
}

/// The eight bytes of a total of gains.
fn written(fault: Fault, total: i128) -> u64 {
    match fault {
        Fault::TotalUnsigned => stored(total.abs()),
        Fault::TotalCut => stored(total) & 0xFFFF_FFFF,
        _ => stored(total),
    }
}

/// The faults with which a sheet is checked otherwise.
pub(super) fn wrong_checks(
    model: &Model,
    question: &Question,
    bytes: &[u8],
    right: Result<Checked, Ground>,
) -> Vec<(Fault, &'static str)> {
    let mut found = Vec::new();
    if gains_root(question).is_some() {
        found.push((Fault::RootRefused, "check"));
    }
    if right == Err(Ground::Range) && blind_to_signs(model, question, bytes) != right {
        found.push((Fault::BlocksUnsigned, "check"));
    }
    let (Some(root), Ok(_) | Err(Ground::Total)) = (question.root_plan(), right) else {
        return found;
    };
    let sheet = Sheet::unpack(bytes);
    let plan = Plan::from_choices(model, question.start, root.steps(), &sheet.choices);
    let Some(plan) = plan else {
        return found;
    };
    let claim = Claim {
        root,
        plan,
        stored: sheet.total,
        whole: model.whole(root.steps()),
    };
    let answers: Vec<(Fault, Result<Checked, Ground>)> = match root.sums_gains() {
        true => claim.gains(model, question),
        false => claim.weight(model, question),
    };
    let differing = answers.into_iter().filter(|(_, answer)| *answer != right);
    found.extend(differing.map(|(fault, _)| (fault, "check")));
    if !root.sums_gains() {
        let below = wrong_below(model, question).into_iter();
        let differing = below.filter(|(_, desk)| desk.check(bytes) != right);
        found.extend(differing.map(|(fault, _)| (fault, "check below")));
    }
    found
}

/// The answer to the blocks with the top bit of the first one's total in all of
/// them, and the other bits as they are.
fn blind_to_signs(model: &Model, question: &Question, bytes: &[u8]) -> Result<Checked, Ground> {
    const HIGH_AT: usize = 15;
    let sign = u8_at(bytes, HIGH_AT) & 0x80;
    let mut changed = bytes.to_vec();
    for block in changed.chunks_mut(BLOCK) {
        let high = u8_at(block, HIGH_AT) & 0x7F | sign;
        put(block, HIGH_AT, &[high]);
    }
    fix_word_sums(&mut changed);
    Desk::holding(model.clone(), question.clone()).check(&changed)
}

/// A plan with the eight bytes that its sheet has for its total.
struct Claim {
    root: PlanNode,
    plan: Plan,
    stored: u64,
    whole: u64,
}

impl Claim {
    /// What judges with faults answer where gains are summed.
    fn gains(&self, model: &Model, question: &Question) -> Vec<(Fault, Result<Checked, Ground>)> {
        let sums = Sums::of(model, &self.root, &self.plan);
        let pointed_past = misread(Fault::LeftPointedPast, question, question.root());
        let by_left = pointed_past.map(|node| Sums::of(model, &node, &self.plan));
        let answer = |fault: Fault| {
            let total = match (fault, &by_left) {
                (Fault::LeftPointedPast, Some(sums)) => sums.by(fault),
                _ => sums.by(fault),
            };
            match written(fault, total) == self.stored {
                true => Ok(self.answered(lamp(fault, &self.root, total, self.whole))),
                false => Err(Ground::Total),
            }
        };
        let others = [
            Fault::RootRefused,
            Fault::TopBitDropped,
            Fault::WeightSigned,
        ];
        let asked = ALL.into_iter().filter(|fault| !others.contains(fault));
        asked.map(|fault| (fault, answer(fault))).collect()
    }

    /// The answer about a total with this lamp.
    fn answered(&self, lamp: Lamp) -> Checked {
        Checked {
            met: lamp.meets(self.root.relation),
            lamp,
        }
    }

    /// What they answer for operator 8's weight.
    fn weight(&self, model: &Model, question: &Question) -> Vec<(Fault, Result<Checked, Ground>)> {
        let totals = Totals::of(model);
        let weight = fast::total_of(model, question, &self.root, &self.plan, &totals);
        let answer = |claimed: i128| match claimed == weight {
            true => Ok(Checked::by(&self.root, weight, self.whole)),
            false => Err(Ground::Total),
        };
        let top_bit = 1 << 63;
        vec![
            (
                Fault::TopBitDropped,
                answer((self.stored & !top_bit).into()),
            ),
            (Fault::WeightSigned, answer((self.stored as i64).into())),
        ]
    }
}
