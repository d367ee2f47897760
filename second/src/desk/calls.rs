//! Load, put, judge, write, check and write-model.

use crate::blocks::{read_model, read_question, read_sheet, ModelImage, Sheet, BLOCK};
use crate::ground::{demand, Ground};
use crate::logic::{check_limits, fast, plain, Checked, Judged, Model, Plan, PlanNode};
use crate::logic::{PlanRecord, Question, Reason, Totals, Verdict};

/// Which of the two judges a desk uses.
#[derive(Clone, Copy, Debug, Default, PartialEq, Eq)]
pub enum JudgeKind {
    #[default]
    Fast,
    Plain,
}

/// "Desk" is document 01's word for the judge's state: the model of the last
/// load done, the question of the last put done since, and its verdict once
/// judged. A refused call changes nothing.
#[derive(Clone, Debug, Default, PartialEq, Eq)]
pub struct Desk {
    model: Option<Model>,
    question: Option<Question>,
    judged: Option<Judged>,
    kind: JudgeKind,
}

impl Desk {
    /// The empty desk.
    pub fn new(kind: JudgeKind) -> Desk {
        Desk {
            kind,
            ..Desk::default()
        }
    }

    /// The desk that a caller put together by hand: a room for a model and the
    /// number of blocks that it is said to have, no question and no verdict. It
    /// holds a model if load would accept just these blocks. A number that
    /// passes the room means the whole room.
    pub fn by_hand(&self, blocks: u64, room: &[u8]) -> Desk {
        let blocks = usize::try_from(blocks).unwrap_or(usize::MAX);
        let said = room.get(..blocks.saturating_mul(BLOCK)).unwrap_or(room);
        Desk {
            model: read_model(said).ok(),
            ..Desk::new(self.kind)
        }
    }

    /// A desk that holds a model and a question without having read them, so
    /// that `faults` can lay a wrong model beside a right one.
    pub fn holding(model: Model, question: Question) -> Desk {
        Desk {
            model: Some(model),
            question: Some(question),
            ..Desk::default()
        }
    }

    /// The desk as it would be without its question, or without its verdict, so
    /// that `leftover_faults` can lay desks that lost them beside a right one.
    pub fn without_question(&self) -> Desk {
        Desk {
            question: None,
            ..self.without_verdict()
        }
    }

    pub fn without_verdict(&self) -> Desk {
        Desk {
            judged: None,
            ..self.clone()
        }
    }

    /// The held model.
    pub fn model(&self) -> Result<&Model, Ground> {
        self.model.as_ref().ok_or(Ground::NoModel)
    }

    /// The held question.
    pub fn question(&self) -> Result<&Question, Ground> {
        self.model()?;
        self.question.as_ref().ok_or(Ground::NoQuestion)
    }

    /// The held verdict, if the question was judged.
    pub fn judged(&self) -> Option<&Judged> {
        self.judged.as_ref()
    }

    /// The question's root, which must be a plan node of either kind.
    fn root_plan(&self) -> Result<PlanNode, Ground> {
        self.question()?.root_plan().ok_or(Ground::RootNotPlan)
    }

    /// Loads a model, clearing question and verdict.
    pub fn load(&mut self, bytes: &[u8]) -> Result<(), Ground> {
        let model = read_model(bytes)?;
        *self = Desk {
            model: Some(model),
            ..Desk::new(self.kind)
        };
        Ok(())
    }

    /// Puts a question, clearing the verdict.
    pub fn put(&mut self, bytes: &[u8]) -> Result<(), Ground> {
        let question = read_question(bytes, self.model()?)?;
        self.question = Some(question);
        self.judged = None;
        Ok(())
    }

    /// Judges the held question and holds the verdict.
    pub fn judge(&mut self) -> Result<&Judged, Ground> {
        let model = self.model()?;
        let question = self.question()?;
        let totals = Totals::of(model);
        check_limits(question, &totals)?;
        let judged = match self.kind {
            JudgeKind::Fast => fast::judge(model, question, &totals),
            JudgeKind::Plain => plain::judge(model, question),
        };
        Ok(self.judged.insert(judged))
    }

    /// What the plans of the question's root come to, met or not. Asked after
    /// judging, which sees to the limits.
    pub(super) fn reason(&self) -> Result<Reason, Ground> {
        let root = self.root_plan()?;
        let (model, question) = (self.model()?, self.question()?);
        Ok(match self.kind {
            JudgeKind::Fast => fast::reason(model, question, &root, &Totals::of(model)),
            JudgeKind::Plain => plain::reason(model, question, &root),
        })
    }

    /// Writes the shown plan's sheet into the first blocks of the buffer and
    /// gives the number of bytes written.
    pub fn write(&self, buffer: &mut [u8]) -> Result<usize, Ground> {
        self.root_plan()?;
        let (record, choices) = self.shown().ok_or(Ground::NoShownPlan)?;
        let sheet = Sheet {
            steps: record.steps,
            start: self.question()?.start,
            total: stored(record.total),
            choices: choices.to_vec(),
        };
        fill(buffer, &sheet.pack())
    }

    /// Writes the held model's blocks into the first bytes of the buffer and
    /// gives the number of bytes written. They are packed from the model's
    /// fields; no bytes of a load are kept.
    pub fn write_model(&self, buffer: &mut [u8]) -> Result<usize, Ground> {
        fill(buffer, &ModelImage::from(self.model()?).pack())
    }

    /// The figures and choices of the plan that a yes shows.
    fn shown(&self) -> Option<(PlanRecord, &[u8])> {
        let judged = self.judged()?;
        match judged.verdict {
            Verdict::YesPlan(record) => Some((record, &judged.choices)),
            _ => None,
        }
    }

    /// Checks a sheet; on accepting it, tells whether its total meets the
    /// bound, and its lamp.
    pub fn check(&self, bytes: &[u8]) -> Result<Checked, Ground> {
        let root = self.root_plan()?;
        let (model, question) = (self.model()?, self.question()?);
        let totals = Totals::of(model);
        check_limits(question, &totals)?;
        let sheet = read_sheet(bytes, root.steps, question.start)?;
        let plan = Plan::from_choices(model, question.start, root.steps(), &sheet.choices)
            .ok_or(Ground::Choices)?;
        let total = match self.kind {
            JudgeKind::Fast => fast::total_of(model, question, &root, &plan, &totals),
            JudgeKind::Plain => plain::total_of(model, question, &root, &plan),
        };
        demand(total == root.summed.claimed(sheet.total), Ground::Total)?;
        Ok(Checked::by(&root, total, model.whole(root.steps())))
    }
}

/// Copies packed blocks into the first bytes of a buffer that is long enough.
fn fill(buffer: &mut [u8], packed: &[u8]) -> Result<usize, Ground> {
    let place = buffer.get_mut(..packed.len()).ok_or(Ground::ShortBuffer)?;
    place.copy_from_slice(packed);
    Ok(packed.len())
}

/// A total in a sheet's eight bytes, in two's complement. The largest, of six
/// steps with 6,000 points for 10^12, needs 54 bits.
pub fn stored(total: i128) -> u64 {
    total as u64
}
