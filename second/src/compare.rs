//! The fast judge against the plain one.

use crate::blocks::{read_model, QuestionImage};
use crate::generate::{random_model, random_question, Rng, Scale, Size, AFFORDABLE};
use crate::logic::{fast, plain, Model, Plan, Question, Totals};
use crate::text::show_blocks;

/// A question on which the judges differ.
#[derive(Debug)]
pub struct Difference {
    /// Model and question as text.
    pub text: String,
    pub fast: String,
    pub plain: String,
}

const SCALE: Scale = Scale {
    nodes: 14,
    paths: 2_000,
    plans: 2_000,
};

/// Compares so many random questions; gives the first difference, if any.
pub fn compare(seed: u64, count: usize) -> Result<usize, Box<Difference>> {
    let mut rng = Rng::new(seed);
    let mut compared = 0;
    while compared < count {
        let size = match rng.once_in(5) {
            true => Size {
                states: 32,
                actions: 8,
                posts: 4,
                ..Size::SMALL
            },
            false => Size::SMALL,
        };
        let packed = random_model(&mut rng, size).pack();
        let Ok(model) = read_model(&packed) else {
            continue;
        };
        let totals = Totals::of(&model);
        for _ in 0..8 {
            let question = random_question(&mut rng, &model, &totals, SCALE);
            if plain::cost(&model, &question, &totals) <= AFFORDABLE {
                compare_one(&model, &question, &totals).map_err(|found| {
                    let question = QuestionImage::from(&question).pack();
                    let text = show_blocks(&[packed.clone(), question].concat());
                    Box::new(Difference { text, ..found })
                })?;
                compared += 1;
            }
        }
    }
    Ok(compared)
}

/// The verdicts, the best plan, met or not, what could have been had instead, and
/// the totals of the first and the shown plan.
fn compare_one(model: &Model, question: &Question, totals: &Totals) -> Result<(), Difference> {
    let quick = fast::judge(model, question, totals);
    same(&quick, &plain::judge(model, question))?;
    let Some(root) = question.root_plan() else {
        return Ok(());
    };
    let best = fast::best_plan(model, question, &root, totals);
    same(&best, &plain::best_plan(model, question, &root))?;
    let reason = fast::reason(model, question, &root, totals);
    same(&reason, &plain::reason(model, question, &root))?;
    let first = Plan::first(model, question.start, root.steps());
    let shown = Plan::from_choices(model, question.start, root.steps(), &quick.choices);
    for plan in std::iter::once(first).chain(shown) {
        let quick = fast::total_of(model, question, &root, &plan, totals);
        same(&quick, &plain::total_of(model, question, &root, &plan))?;
    }
    Ok(())
}

fn same<T: PartialEq + std::fmt::Debug>(fast: &T, plain: &T) -> Result<(), Difference> {
    if fast == plain {
        return Ok(());
    }
    Err(Difference {
        text: String::new(),
        fast: format!("{fast:?}"),
        plain: format!("{plain:?}"),
    })
}
