//! Streams of calls for laying two implementations side by side. Everything
//! follows from a seed.

mod bench;
mod bench_asked;
mod bench_equal;
mod bench_everyday;
mod bench_few;
mod bench_gains;
mod bench_models;
mod bench_reasons;
mod bench_skewed;
mod bench_sure;
mod bench_turns;
mod bench_windows;
mod bounds;
mod cases;
mod damage;
mod gain_damage;
mod lamps;
mod leftover_damage;
mod leftovers;
mod lists;
mod model;
mod model_damage;
mod pitfalls;
mod question;
mod question_damage;
mod question_gains;
mod question_pitfalls;
mod question_shapes;
mod reason_models;
mod reasons;
mod rng;
mod sheet_damage;
mod stored;
mod stored_among;
mod stored_hand;
mod stored_models;
mod streams;
mod tight;
mod words;

pub use bench::{bench_cases, Case};
pub use lists::lists;
pub use model::{random_model, Size};
pub use question::{random_question, Scale};
pub use reasons::reasons;
pub use rng::Rng;
pub use stored::stored;
pub use streams::{judges, models, questions, sheets, small, AFFORDABLE};
pub use tight::tight;
pub use words::words;

use crate::desk::Call;
use stored_among::with_models;

/// The stream of a kind, or none if there is no such kind. Beside its so many
/// calls, `lists` has others between them that write the model.
pub fn stream(kind: &str, seed: u64, count: usize) -> Option<Vec<u8>> {
    let mut rng = Rng::new(seed);
    let mut calls = match kind {
        "models" => models(&mut rng, count),
        "questions" => questions(&mut rng, count),
        "judges" => judges(&mut rng, count),
        "small" => small(&mut rng, count),
        "sheets" => sheets(&mut rng, count),
        "lists" => lists(&mut rng, count),
        "tight" => tight(&mut rng, count),
        "words" => words(&mut rng),
        "reasons" => reasons(&mut rng, count),
        "stored" => stored(&mut rng, count),
        _ => return None,
    };
    calls.truncate(count);
    if kind == "lists" {
        calls = with_models(seed, calls);
    }
    Some(calls.iter().flat_map(Call::record).collect())
}
