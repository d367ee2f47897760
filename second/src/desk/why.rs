//! What the program `whynot` prints (document 02, A.5), and its plans laid out
//! on sheets again.

use super::calls::{stored, Desk, JudgeKind};
use super::line::{answer_line, judged_desk, list_choices};
use super::list::Call;
use crate::blocks::{QuestionImage, Sheet, BLOCK};
use crate::ground::Ground;
use crate::logic::{Reached, Reason, Verdict};

/// The lines for what `verdict` reads: its own line for a yes or a refusal, the
/// reason for a no.
pub fn whynot_lines(input: &[u8], kind: JudgeKind) -> Vec<String> {
    let desk = judged_desk(input, kind);
    match desk.and_then(|desk| explained(&desk)) {
        Ok(lines) => lines,
        Err(ground) => vec![format!("refused {}", ground.number())],
    }
}

fn explained(desk: &Desk) -> Result<Vec<String>, Ground> {
    let judged = desk.judged().ok_or(Ground::NoShownPlan)?;
    if !matches!(judged.verdict, Verdict::No { .. }) {
        return Ok(vec![answer_line(desk, judged)?]);
    }
    let Some(root) = desk.question()?.root_plan() else {
        return Ok(vec!["no reason".to_string()]);
    };
    let whole = desk.model()?.whole(root.steps());
    Ok(reason_lines(&desk.reason()?, whole))
}

/// The lines of a reason, for totals over `whole`.
pub fn reason_lines(reason: &Reason, whole: u64) -> Vec<String> {
    match reason {
        Reason::Greatest(reached) => vec![reached_line("greatest", Some(reached), whole)],
        Reason::Least(reached) => vec![reached_line("least", Some(reached), whole)],
        Reason::Nearest { below, above } => vec![
            reached_line("below", below.as_ref(), whole),
            reached_line("above", above.as_ref(), whole),
        ],
    }
}

fn reached_line(word: &str, reached: Option<&Reached>, whole: u64) -> String {
    match reached {
        Some(Reached { total, choices }) => {
            format!("{word} {total}/{whole} choices{}", list_choices(choices))
        }
        None => format!("{word} none"),
    }
}

/// The plans that `whynot` printed for a model and a question, each on a sheet
/// with the total beside it, as calls: the two are loaded and put, and the
/// sheets checked. Nothing where no plan was printed.
pub fn reason_calls(pair: &[u8], printed: &str) -> Vec<Call> {
    let (model, question) = pair.split_at(pair.len().saturating_sub(BLOCK));
    let image = QuestionImage::unpack(question);
    let steps = image.counted().last().map_or(0, |root| root.steps);
    let sheets = printed.lines().filter_map(printed_plan);
    let sheets = sheets.map(|reached| {
        let sheet = Sheet {
            steps,
            start: image.start,
            total: stored(reached.total),
            choices: reached.choices,
        };
        Call::Check(sheet.pack())
    });
    let mut calls = vec![Call::Load(model.to_vec()), Call::Put(question.to_vec())];
    calls.extend(sheets);
    if calls.len() == 2 {
        calls.clear();
    }
    calls
}

/// The plan of a line such as `below 45/100 choices 1 2 0`.
fn printed_plan(line: &str) -> Option<Reached> {
    let mut words = line.split(' ');
    if !["greatest", "least", "below", "above"].contains(&words.next()?) {
        return None;
    }
    let (total, _) = words.next()?.split_once('/')?;
    if words.next()? != "choices" {
        return None;
    }
    let choices: Result<Vec<u8>, _> = words.map(str::parse).collect();
    Some(Reached {
        total: total.parse().ok()?,
        choices: choices.ok()?,
    })
}
