//! What the program `verdict` prints.

use super::calls::{Desk, JudgeKind};
use crate::blocks::BLOCK;
use crate::ground::Ground;
use crate::logic::{Judged, Lamp, Verdict};

const MOST_BLOCKS: usize = 13;

/// The line for a model followed by a question, in its last 512 bytes.
pub fn verdict_line(input: &[u8], kind: JudgeKind) -> String {
    match verdict_of(input, kind) {
        Ok(line) => line,
        Err(ground) => format!("refused {}", ground.number()),
    }
}

/// The same, with a refusal kept apart.
pub fn verdict_of(input: &[u8], kind: JudgeKind) -> Result<String, Ground> {
    let desk = judged_desk(input, kind)?;
    let judged = desk.judged().ok_or(Ground::NoShownPlan)?;
    answer_line(&desk, judged)
}

/// The desk after the input was loaded, put and judged.
pub(super) fn judged_desk(input: &[u8], kind: JudgeKind) -> Result<Desk, Ground> {
    if input.len() > MOST_BLOCKS * BLOCK {
        return Err(Ground::Length);
    }
    let split = input.len().checked_sub(BLOCK).ok_or(Ground::Length)?;
    let (model, question) = input.split_at(split);
    let mut desk = Desk::new(kind);
    desk.load(model)?;
    desk.put(question)?;
    desk.judge()?;
    Ok(desk)
}

/// The line for a held verdict.
pub(super) fn answer_line(desk: &Desk, judged: &Judged) -> Result<String, Ground> {
    let root_is_plan = desk.question()?.root_plan().is_some();
    Ok(match judged.verdict {
        Verdict::No { count, lamp } if root_is_plan => {
            format!("no plans {count}{}", lamp_after_count(lamp))
        }
        Verdict::No { .. } => "no".to_string(),
        Verdict::Yes => "yes".to_string(),
        Verdict::YesPlan(record) => {
            let whole = desk.model()?.whole(usize::from(record.steps));
            let (total, lamp, count) = (record.total, record.lamp.word(), record.count);
            let choices = list_choices(&judged.choices);
            format!("yes {total}/{whole} {lamp} plans {count} choices{choices}")
        }
    })
}

/// The lamp of a no after a space, where it has one.
pub(super) fn lamp_after_count(lamp: Option<Lamp>) -> String {
    lamp.map_or_else(String::new, |lamp| format!(" {}", lamp.word()))
}

/// The choices, each after a space.
pub(super) fn list_choices(choices: &[u8]) -> String {
    choices.iter().map(|choice| format!(" {choice}")).collect()
}
