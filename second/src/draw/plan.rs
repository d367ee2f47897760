//! A shown plan as a tree of choices, from left to right. Where only silent
//! moves are left, the last state has a small loop that stands for them.

use super::svg::{Canvas, Look};
use crate::logic::{plain, Model, Move, Path, Plan, PlanNode, Question, Totals};

const ROW: f64 = 28.0;
const STATE_WIDTH: f64 = 36.0;
const ACTION_WIDTH: f64 = 36.0;
const SHORT_EDGE: f64 = 18.0;
const CURVE: f64 = 40.0;
const LABEL: f64 = 48.0;
const ARROW: f64 = 24.0;
const STEP: f64 = STATE_WIDTH + SHORT_EDGE + ACTION_WIDTH + CURVE + LABEL + ARROW;

/// A tree of more paths than this is cut off where it grows too wide.
const MOST_ROWS: usize = 90;
/// Conditions that take longer to read on each path are not marked.
const AFFORDABLE: u128 = 20_000_000;

/// Draws the plan with these choices; nothing where there are none.
pub(super) fn draw(
    canvas: &mut Canvas,
    model: &Model,
    question: &Question,
    root: &PlanNode,
    choices: &[u8],
    left: f64,
    top: f64,
) {
    let start = question.start;
    let Some(plan) = Plan::from_choices(model, start, root.steps(), choices) else {
        canvas.words(left, top + ROW, "There is no plan to show.");
        return;
    };
    let readable = plain::cost(model, question, &Totals::of(model)) <= AFFORDABLE;
    let mut tree = Tree {
        canvas,
        model,
        question,
        root,
        marks: readable,
        depth: shown_depth(model, &plan, root.steps()),
        next_row: top + ROW / 2.0,
    };
    tree.history(Some(&plan), &Path::standing(start), left);
    let cut = root.steps() - tree.depth;
    if cut > 0 {
        let words = format!("The last {cut} of {} steps are not drawn.", root.steps());
        let y = tree.next_row;
        canvas.words(left, y, &words);
    }
}

/// How many steps can be drawn within the rows.
fn shown_depth(model: &Model, plan: &Plan, steps: usize) -> usize {
    let fits = |depth: &usize| ends(model, plan, *depth) <= MOST_ROWS;
    (1..=steps).take_while(fits).last().unwrap_or(1)
}

/// How many histories of so many steps the plan can meet.
fn ends(model: &Model, plan: &Plan, depth: usize) -> usize {
    let outcomes = plan.chosen(model).map_or(0, |entry| entry.outcomes.len());
    match depth {
        0 => 1,
        1 => outcomes,
        _ => plan.below().iter().map(|p| ends(model, p, depth - 1)).sum(),
    }
}

struct Tree<'a> {
    canvas: &'a mut Canvas,
    model: &'a Model,
    question: &'a Question,
    root: &'a PlanNode,
    marks: bool,
    depth: usize,
    next_row: f64,
}

impl Tree<'_> {
    /// Draws a history and all below it; gives its row.
    fn history(&mut self, plan: Option<&Plan>, so_far: &Path, x: f64) -> f64 {
        let state = so_far.states.last().copied().unwrap_or(0);
        let name = format!("s{state}");
        let chosen = plan.and_then(|plan| Some((plan, plan.chosen(self.model)?)));
        let open = so_far.actions.len() < self.depth;
        let Some((plan, entry)) = chosen.filter(|_| open) else {
            return self.end(so_far, x, &name, 0);
        };
        if entry.is_silent() {
            return self.silent_end(entry, so_far, x, &name);
        }
        let below_x = x + STEP;
        let mut rows = Vec::new();
        for (place, outcome) in entry.outcomes.iter().enumerate() {
            let path = so_far.extended(entry.action, outcome);
            rows.push(self.history(plan.below().get(place), &path, below_x));
        }
        let first = rows.first().copied().unwrap_or(self.next_row);
        let y = (first + rows.last().copied().unwrap_or(first)) / 2.0;
        let action_x = x + STATE_WIDTH + SHORT_EDGE;
        self.canvas.boxed(Look::State, x, y, STATE_WIDTH, &name);
        self.canvas.edge((x + STATE_WIDTH, y), (action_x, y), false);
        let action = format!("a{}", entry.action);
        self.canvas
            .boxed(Look::Action, action_x, y, ACTION_WIDTH, &action);
        for (row, outcome) in rows.iter().zip(&entry.outcomes) {
            let label_x = action_x + ACTION_WIDTH + CURVE;
            let from = (action_x + ACTION_WIDTH, y);
            self.canvas.edge(from, (label_x - 4.0, *row), false);
            let weight = format!("{}/{}", outcome.weight, self.model.denominator);
            self.canvas.words(label_x, *row, &weight);
            self.canvas
                .edge((label_x + LABEL, *row), (below_x, *row), true);
        }
        y
    }

    /// A silent state, which is not left in any of the steps to come.
    fn silent_end(&mut self, entry: &Move, so_far: &Path, x: f64, name: &str) -> f64 {
        let left = self.depth - so_far.actions.len();
        let mut path = so_far.clone();
        for outcome in entry.outcomes.iter().cycle().take(left) {
            path = path.extended(entry.action, outcome);
        }
        self.end(&path, x, name, left)
    }

    /// The end of a path, with its weight; marked if the condition is true, or
    /// with the gain of the steps that the root names. The path's last steps
    /// may be silent.
    fn end(&mut self, path: &Path, x: f64, name: &str, silent: usize) -> f64 {
        let y = self.next_row;
        self.next_row += ROW;
        let whole_path = path.actions.len() == self.root.steps();
        let factor = (self.marks && whole_path)
            .then(|| plain::factor_of(self.model, self.question, self.root, path));
        let met = !self.root.sums_gains() && factor == Some(1);
        let look = if met { Look::Fulfilled } else { Look::State };
        self.canvas.boxed(look, x, y, STATE_WIDTH, name);
        let mut beside = x + STATE_WIDTH + 8.0;
        let mut words = Vec::new();
        if silent > 0 {
            beside = self.canvas.loop_at(x + STATE_WIDTH, y);
            words.push(silent_words(silent));
        }
        if whole_path {
            let whole = self.model.whole(self.root.steps());
            let counted = match factor {
                Some(gain) if self.root.sums_gains() => format!(", gain {gain}"),
                Some(1) => ", condition true".to_string(),
                _ => String::new(),
            };
            words.push(format!("{}/{whole}{counted}", path.weight));
        }
        if !words.is_empty() {
            self.canvas.words(beside, y, &words.join(": "));
        }
        y
    }
}

fn silent_words(steps: usize) -> String {
    match steps {
        1 => "silent for 1 step".to_string(),
        _ => format!("silent for {steps} steps"),
    }
}
