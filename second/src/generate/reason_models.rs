//! Made-up models in which many plans share a total, and one with the longest
//! plans, for questions that no plan meets.

use super::cases::{pack, POSTS};
use super::rng::Rng;

/// A coin is tossed in each step. D and the rewards are so small that plans
/// often have the same total; the coin may roll away, after which nothing can
/// be done.
pub(super) fn tossed(rng: &mut Rng) -> Vec<u8> {
    let rolls = rng.once_in(3);
    let base = match rolls {
        true => rng.range(3, 5),
        false => rng.pick_or(&[2, 2, 3, 4, 5], 2),
    };
    let mut text = format!("model D {base}\nproposition 0 up\nproposition 1 gone\n");
    text += "state 0:\nstate 1: up\nstate 2: gone\n";
    for action in 0..2 {
        text += &format!("action {action} needs !gone\npost up !gone\npost !up !gone\n");
        text += if rolls { "post gone\n" } else { "" };
    }
    for state in 0..2 {
        for action in 0..2 {
            let up = rng.range(1, base - if rolls { 2 } else { 1 });
            let down = rng.range(1, base - up - usize::from(rolls));
            let down = if rolls { down } else { base - up };
            let mut reward = || rng.range(0, 2) as i32 - 1;
            text += &format!(
                "outcome {state} {action}: 1 weight {up} reward {}, ",
                reward()
            );
            text += &format!("0 weight {down} reward {}", reward());
            let left = base - up - down;
            text += &match rolls {
                true => format!(", 2 weight {left} reward {}\n", reward()),
                false => "\n".to_string(),
            };
        }
    }
    pack(&text)
}

/// Certain moves between two stairs, some of which lead to the end, where there
/// is none. Totals are D to the n times a few points, -1, 0 and 1 among them.
pub(super) fn stairs(rng: &mut Rng) -> Vec<u8> {
    let base = rng.pick_or(&[1, 1, 1, 2, 3, 7], 1);
    let mut text = format!("model D {base}\nproposition 0 up\nproposition 1 over\n");
    text += "state 0:\nstate 1: up\nstate 2: over\n";
    let actions = rng.range(2, 3);
    for action in 0..actions {
        text += &format!("action {action} needs !over\npost always\n");
    }
    for state in 0..2 {
        for action in 0..actions {
            let target = rng.pick_or(&[0, 1, 0, 1, 0, 1, 2], 0);
            let reward = rng.pick_or(&[-1, -1, 0, 1, 2], 0);
            text += &format!("outcome {state} {action}: {target} weight {base} reward {reward}\n");
        }
    }
    pack(&text)
}

/// Plans of six steps with 1,365 choices, the last 1,024 of them silent: four
/// outcomes in each of five steps, begun in one of two ways.
pub(super) fn fan(rng: &mut Rng) -> Vec<u8> {
    let mut text = String::from("model D 10\nproposition 0 b0\nproposition 1 b1\n");
    text += "proposition 2 begun\nproposition 3 over\nstate 0:\n";
    for layer in 0..5 {
        for (number, low) in ["", "b0", "b1", "b0 b1"].iter().enumerate() {
            let over = if layer == 4 { "over" } else { "" };
            text += &format!("state {}: {low} begun {over}\n", 1 + 4 * layer + number);
        }
    }
    for (action, needs) in ["!begun", "!begun", "begun !over"].iter().enumerate() {
        text += &format!("action {action} needs {needs}\n{}", POSTS[3]);
    }
    for (state, action) in [(0, 0), (0, 1)]
        .into_iter()
        .chain((1..17).map(|own| (own, 2)))
    {
        let base = 1 + 4 * u8::div_ceil(state, 4);
        let weights = rng.pick_or(&[[4, 3, 2, 1], [1, 2, 3, 4], [5, 2, 2, 1]], [4, 3, 2, 1]);
        let mut parts = Vec::new();
        for (low, weight) in [3, 1, 2, 0].into_iter().zip(weights) {
            let reward = rng.range(0, 6) as i32 - 3;
            parts.push(format!("{} weight {weight} reward {reward}", base + low));
        }
        text += &format!("outcome {state} {action}: {}\n", parts.join(", "));
    }
    pack(&text)
}
