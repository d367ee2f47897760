//! Pictures of a model and of the plan shown for a question.

mod model;
mod plan;
mod svg;

use crate::blocks::BLOCK;
use crate::desk::{verdict_line, Desk, JudgeKind};
use crate::ground::Ground;
use svg::Canvas;

const GAP: f64 = 60.0;
const TITLE: f64 = 52.0;

/// An SVG picture of a model followed by a question: the model's moves and,
/// beside them, the tree of the shown plan. Refused as loading, putting and
/// judging are.
pub fn draw(input: &[u8]) -> Result<String, Ground> {
    let split = input.len().checked_sub(BLOCK).ok_or(Ground::Length)?;
    let (model, question) = input.split_at(split);
    let mut desk = Desk::default();
    desk.load(model)?;
    desk.put(question)?;
    let judged = desk.judge()?.clone();
    let mut canvas = Canvas::default();
    let (model, question) = (desk.model()?, desk.question()?);
    canvas.heading(20.0, "The model: state, action, outcome, next state");
    let width = model::draw(&mut canvas, model, TITLE);
    let left = width + GAP;
    canvas.heading(left, &headline(&verdict_line(input, JudgeKind::Fast)));
    if let Some(root) = question.root_plan() {
        plan::draw(
            &mut canvas,
            model,
            question,
            &root,
            &judged.choices,
            left,
            TITLE,
        );
    }
    Ok(canvas.finish())
}

/// The verdict without its choices, which the tree shows.
fn headline(line: &str) -> String {
    let verdict = line.split(" choices").next().unwrap_or(line);
    format!("Verdict: {verdict}")
}
