//! A model as a graph in four columns: each state, its enabled actions, their
//! outcomes, and the states again that these lead to. Edges only run to the
//! right, so that loops need no knots; but a silent move is drawn as a small
//! loop at its state.

use super::svg::{Canvas, Look};
use crate::logic::{Model, Move};

const ROW: f64 = 22.0;
const SPACE: f64 = 12.0;
const STATE_X: f64 = 20.0;
const COLUMN_GAP: f64 = 36.0;
const ACTION_WIDTH: f64 = 44.0;
const LABEL_WIDTH: f64 = 128.0;
const CURVE_WIDTH: f64 = 110.0;

/// Where the columns stand, and where in the last one each state.
struct Columns {
    state_width: f64,
    action_x: f64,
    label_x: f64,
    target_x: f64,
    targets: Vec<f64>,
}

/// Draws the model below `top`; gives the right end.
pub(super) fn draw(canvas: &mut Canvas, model: &Model, top: f64) -> f64 {
    let names: Vec<String> = (0..model.states()).map(|s| state_words(model, s)).collect();
    let longest = names.iter().map(String::len).max().unwrap_or(0);
    let state_width = 7.0 * longest as f64 + 20.0;
    let action_x = STATE_X + state_width + COLUMN_GAP;
    let label_x = action_x + ACTION_WIDTH + COLUMN_GAP;
    let places = places(model, top);
    let columns = Columns {
        state_width,
        action_x,
        label_x,
        target_x: label_x + LABEL_WIDTH + CURVE_WIDTH,
        targets: places.iter().map(|place| place.middle).collect(),
    };
    for ((place, name), moves) in places.iter().zip(&names).zip(&model.moves) {
        for x in [STATE_X, columns.target_x] {
            canvas.boxed(Look::State, x, place.middle, state_width, name);
        }
        state_moves(canvas, model, place, moves, &columns);
    }
    columns.target_x + state_width
}

/// The enabled actions of a state, one below the other, or its silent move.
fn state_moves(
    canvas: &mut Canvas,
    model: &Model,
    place: &Place,
    moves: &[Move],
    columns: &Columns,
) {
    let mut y = place.first;
    for entry in moves {
        if entry.is_silent() {
            silent_move(canvas, model, place, columns);
            continue;
        }
        let middle = y + ROW * (entry.outcomes.len() as f64 - 1.0) / 2.0;
        let out = (STATE_X + columns.state_width, place.middle);
        let action = format!("a{}", entry.action);
        canvas.edge(out, (columns.action_x, middle), false);
        canvas.boxed(
            Look::Action,
            columns.action_x,
            middle,
            ACTION_WIDTH,
            &action,
        );
        outcomes(canvas, model, entry, y, middle, columns);
        y += height_of(entry) + SPACE;
    }
}

/// The loop of a state in which no action is enabled.
fn silent_move(canvas: &mut Canvas, model: &Model, place: &Place, columns: &Columns) {
    let beside = canvas.loop_at(STATE_X + columns.state_width, place.middle);
    let whole = model.denominator;
    let words = format!("silent: {whole}/{whole}, reward 0");
    canvas.words(beside, place.middle, &words);
}

/// The outcomes of a move, a row for each from `first` on.
fn outcomes(
    canvas: &mut Canvas,
    model: &Model,
    entry: &Move,
    first: f64,
    middle: f64,
    columns: &Columns,
) {
    let mut y = first;
    for outcome in &entry.outcomes {
        let (weight, whole) = (outcome.weight, model.denominator);
        let words = format!("{weight}/{whole}, reward {}", outcome.reward);
        let from = (columns.action_x + ACTION_WIDTH, middle);
        canvas.edge(from, (columns.label_x - 4.0, y), false);
        canvas.words(columns.label_x, y, &words);
        let end = columns.label_x + 6.5 * words.len() as f64;
        if let Some(target) = columns.targets.get(usize::from(outcome.target)) {
            canvas.edge((end, y), (columns.target_x, *target), true);
        }
        y += ROW;
    }
}

/// Where a state stands: its first outcome's row and its own middle.
struct Place {
    first: f64,
    middle: f64,
}

fn height_of(entry: &Move) -> f64 {
    ROW * entry.outcomes.len().max(1) as f64
}

fn places(model: &Model, top: f64) -> Vec<Place> {
    let mut y = top + ROW / 2.0;
    let mut found = Vec::new();
    for moves in &model.moves {
        let rows: f64 = moves.iter().map(|entry| height_of(entry) + SPACE).sum();
        found.push(Place {
            first: y,
            middle: y + (rows - SPACE - ROW) / 2.0,
        });
        y += rows + SPACE;
    }
    found
}

/// A state's number and what is true in it.
fn state_words(model: &Model, state: usize) -> String {
    let number = u8::try_from(state).unwrap_or(u8::MAX);
    let truths = (0..model.propositions).filter(|p| model.holds(number, *p));
    let words: String = truths.map(|p| format!(" p{p}")).collect();
    match words.is_empty() {
        true => format!("s{state}"),
        false => format!("s{state}:{words}"),
    }
}
