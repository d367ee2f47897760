//! Random lists of the calls of document 01. `stored_among` puts calls that write
//! models between them.

use super::lamps::cases;
use super::leftovers::left_over;
use super::question::{random_question, Scale};
use super::rng::Rng;
use super::streams::{any_model, any_question, any_sheet, canary};
use super::streams::{few_states, good_model, one_left_over, stretch};
use crate::blocks::QuestionImage;
use crate::desk::Call;

/// What the calls of a stretch of the list draw from.
struct Pool {
    loads: Vec<Vec<u8>>,
    puts: Vec<Vec<u8>>,
    /// Some of these with nodes left over, which leave the desk as it is.
    left_over: Vec<Vec<u8>>,
    /// Sheets with the place of the put that they were made for.
    sheets: Vec<(usize, Vec<u8>)>,
}

const SCALE: Scale = Scale {
    nodes: 8,
    paths: 300,
    plans: 300,
};

/// Stretches of calls, each over a small pool of inputs, so that loads, puts,
/// verdicts and sheets meet in all orders; at first on the empty desk.
pub fn lists(rng: &mut Rng, count: usize) -> Vec<Call> {
    let mut calls = vec![Call::Judge, canary(rng), Call::Judge];
    calls.extend([Call::Put(vec![0; 512]), Call::Check(vec![0; 512])]);
    calls.push(Call::Put(one_left_over()));
    rng.shuffle(&mut calls);
    while calls.len() < count {
        let pool = pool(rng);
        let mut last_put = 0;
        for _ in 0..rng.range(20, 60) {
            calls.push(call(rng, &pool, &mut last_put));
        }
    }
    calls
}

fn pool(rng: &mut Rng) -> Pool {
    let mut pool = Pool {
        loads: Vec::new(),
        puts: Vec::new(),
        left_over: Vec::new(),
        sheets: Vec::new(),
    };
    if rng.below(5) < 2 {
        add_lamps(rng, &mut pool);
    }
    for turn in 0..2 {
        let size = few_states(rng);
        let Some((bytes, model, totals)) = good_model(rng, size) else {
            continue;
        };
        pool.loads.push(bytes);
        for _ in 0..3 {
            let mut question = random_question(rng, &model, &totals, SCALE);
            let place = pool.puts.len();
            for _ in 0..3 {
                let harm = rng.below(100);
                let sheet = any_sheet(rng, &model, &question, &totals, harm);
                pool.sheets.push((place, sheet));
            }
            if rng.once_in(14) {
                stretch(rng, &mut question, &model, &totals);
            }
            pool.left_over.extend(left_over(rng, &question, &model));
            pool.puts.push(QuestionImage::from(&question).pack());
        }
        let harm = rng.below(100) + turn;
        pool.puts.push(any_question(rng, &model, &totals, harm));
        pool.loads.push(any_model(rng, size, harm));
    }
    pool
}

/// Adds a model with questions whose bounds lie next to plans' totals.
fn add_lamps(rng: &mut Rng, pool: &mut Pool) {
    let Some(cases) = cases(rng, 2) else {
        return;
    };
    pool.loads.push(cases.model);
    for (question, sheets) in cases.asked {
        let place = pool.puts.len();
        let placed = sheets.into_iter().map(|sheet| (place, sheet));
        pool.sheets.extend(placed);
        pool.puts.push(question);
    }
}

fn call(rng: &mut Rng, pool: &Pool, last_put: &mut usize) -> Call {
    let one_of = |place: usize, inputs: &[Vec<u8>]| inputs.get(place).cloned().unwrap_or_default();
    match rng.below(25) {
        0 => Call::Load(one_of(rng.below(pool.loads.len()), &pool.loads)),
        24 => Call::Put(one_of(rng.below(pool.left_over.len()), &pool.left_over)),
        1..=6 => {
            *last_put = rng.below(pool.puts.len());
            Call::Put(one_of(*last_put, &pool.puts))
        }
        7..=10 => Call::Judge,
        11..=14 => canary(rng),
        15 => Call::Check(vec![0; rng.below(2000)]),
        choice => {
            let all = pool.sheets.iter();
            let fitting = all.filter(|(place, _)| choice == 16 || place == last_put);
            let sheets: Vec<Vec<u8>> = fitting.map(|(_, sheet)| sheet.clone()).collect();
            Call::Check(one_of(rng.below(sheets.len()), &sheets))
        }
    }
}
