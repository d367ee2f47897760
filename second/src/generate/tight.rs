//! Totals that meet or miss their bound by less than a double can tell. A
//! pack is tried for six times, and the weights of the tries are chosen so
//! that one plan's total over D to the 6, about 10^12, lies some 10^-18 from
//! p/q, with q near a million, or just at it. Where holding the pack earns r
//! points, the plan's total of gains is r times that total; the points are
//! chosen so that r divides q, and this total lies as near to p over q/r. D is
//! called the base here, for its powers.

use super::bounds::gcd;
use super::cases;
use super::question::random_choices;
use super::rng::Rng;
use crate::blocks::{read_model, read_question, Sheet, BLOCK};
use crate::desk::{stored, Call};
use crate::logic::{fast, Bound, Model, Plan, Question, Relation, Totals, SILENT};
use crate::text::pack_text;

/// A try in each step.
const TRIES: usize = 6;
const MOST_Q: u64 = 1_000_000;
/// The most points for an outcome, and the largest q of operator 9.
const MOST_POINTS: usize = 1_000;

/// A try's weights of holding the pack and of having to try again; the rest
/// of D is the weight of losing it.
#[derive(Clone, Copy)]
struct Try {
    held: u64,
    again: u64,
}

impl Try {
    /// The total from this try on, where `below` is D to the tries after it
    /// and `further` the total from the next one on.
    fn total(self, below: u64, further: u64) -> u64 {
        self.held * below + self.again * further
    }
}

/// Bounds that a plan's totals meet or just miss.
struct Bounds {
    chance: Bound,
    /// The points for holding the pack, and the bound for the expected gain.
    points: i32,
    expected: Bound,
}

impl Bounds {
    /// Those for a total that q times lies near p times D to the 6, or at it,
    /// where points times `expected_q` is q times some number.
    fn of(p: i128, q: i128, points: i128, expected_q: i128) -> Bounds {
        let times = points * expected_q / q;
        Bounds {
            chance: Bound {
                p: p as i32,
                q: q as u32,
            },
            points: points as i32,
            expected: Bound {
                p: (p * times) as i32,
                q: expected_q as u32,
            },
        }
    }

    /// The same with points that are lost and not earned, now and then.
    fn signed(mut self, rng: &mut Rng) -> Bounds {
        if rng.once_in(2) {
            self.points = -self.points;
            self.expected.p = -self.expected.p;
        }
        self
    }
}

/// A model with the plan whose total is tight, and its bounds.
struct Shelf {
    packed: Vec<u8>,
    model: Model,
    choices: Vec<u8>,
    total: u64,
    bounds: Bounds,
}

/// What a question sums: the weights of paths on which the pack is held in
/// the end, or the points for it.
#[derive(Clone, Copy, PartialEq)]
enum Sum {
    Weights,
    Gains,
}

impl Sum {
    fn drawn(rng: &mut Rng) -> Sum {
        match rng.once_in(4) {
            true => Sum::Gains,
            false => Sum::Weights,
        }
    }
}

/// Judges, writes and checks about tight totals, for each relation.
pub fn tight(rng: &mut Rng, count: usize) -> Vec<Call> {
    let mut calls = Vec::new();
    while calls.len() < count {
        if let Some(shelf) = shelf(rng) {
            calls.push(Call::Load(shelf.packed.clone()));
            for relation in [Relation::Less, Relation::Equal, Relation::Greater] {
                calls.extend(root_calls(rng, &shelf, relation));
                calls.extend(inner_calls(rng, &shelf, relation));
            }
        }
    }
    calls
}

/// A random shelf, unless no tries are found for its bound.
fn shelf(rng: &mut Rng) -> Option<Shelf> {
    let base = rng.pick_or(&[100, 100, 100, 99, 98], 100);
    let (tries, bounds) = match rng.below(5) {
        0..=1 => (0..1000).find_map(|_| met(rng, base))?,
        _ => near(rng, base)?,
    };
    let bounds = bounds.signed(rng);
    let total = total(base, &tries);
    let rivals = rivals(rng, base, &tries);
    let swapped: Vec<bool> = rivals
        .iter()
        .map(|rival| rival.is_some() && rng.once_in(2))
        .collect();
    let silent = rng.once_in(3);
    let packed = Text {
        base,
        points: bounds.points,
        swapped: &swapped,
    };
    let packed = pack_text(&packed.of(&tries, &rivals, silent)).ok()?;
    let model = read_model(&packed).ok()?;
    let choices = tight_choices(&model, &swapped, 0, TRIES);
    Some(Shelf {
        packed,
        model,
        choices,
        total,
        bounds,
    })
}

/// The total of these tries, one after another, over D to their number.
fn total(base: u64, tries: &[Try]) -> u64 {
    let (_, total) = tries.iter().rev().fold((1, 0), |(below, further), own| {
        (below * base, own.total(below, further))
    });
    total
}

/// Tries whose total is not at the bound, though the two differ by no more
/// than 3 over q times D to the 6: the total times q is p times D to the 6
/// plus a small gap. q is a product of two numbers of at most 1,000.
fn near(rng: &mut Rng, base: u64) -> Option<(Vec<Try>, Bounds)> {
    let whole = i128::from(base).pow(TRIES as u32);
    let (mut points, mut expected_q) = (0, 0);
    while gcd(points * expected_q, base) != 1 {
        points = rng.range(950, MOST_POINTS) as u64;
        expected_q = rng.range(950, MOST_POINTS) as u64;
    }
    let gap = rng.pick_or(&[-3, -2, -1, 1, 2, 3], 1);
    let q = i128::from(points * expected_q);
    let p = (-gap * inverse(whole, q)).rem_euclid(q);
    let total = (p * whole + gap) / q;
    let bounds = Bounds::of(p, q, points.into(), expected_q.into());
    Some((tries_for(rng, base, TRIES as u32, total as u64)?, bounds))
}

/// The number that times `number` leaves 1 when divided by `modulus`; the two
/// have no common divisor (Euclid's algorithm, keeping one factor).
fn inverse(number: i128, modulus: i128) -> i128 {
    let (mut last, mut rest) = (modulus, number % modulus);
    let (mut last_factor, mut factor) = (0, 1);
    while rest != 0 {
        let times = last / rest;
        (last, rest) = (rest, last - times * rest);
        (last_factor, factor) = (factor, last_factor - times * factor);
    }
    last_factor
}

/// Tries whose total is just at a bound: weights with common divisors, so
/// that the total over D to the 6 has a q of no more than a million.
fn met(rng: &mut Rng, base: u64) -> Option<(Vec<Try>, Bounds)> {
    let divides = |f: &u64| base.is_multiple_of(*f);
    let factors: Vec<u64> = (1..=base / 3).filter(divides).collect();
    let mut tries = Vec::new();
    for _ in 0..TRIES {
        let factor = rng.pick_or(&factors, 1);
        let Try { held, again } = random_try(rng, base / factor);
        tries.push(Try {
            held: factor * held,
            again: factor * again,
        });
    }
    let (total, whole) = (total(base, &tries), base.pow(TRIES as u32));
    let common = gcd(total, whole);
    let (p, q) = (total / common, whole / common);
    // The fewest points with which the expected gain has a q within its range,
    // some times over.
    let few = |points: &u64| q.is_multiple_of(*points) && q / points <= MOST_POINTS as u64;
    let fewest = (1..=MOST_POINTS as u64).find(few)?;
    let points = fewest * rng.range(1, MOST_POINTS / fewest as usize) as u64;
    let bounds = Bounds::of(p.into(), q.into(), points.into(), (q / fewest).into());
    (q <= MOST_Q).then_some((tries, bounds))
}

/// So many tries that hold the pack with just this total, if some are found.
/// Where the weight of trying again has no divisor in common with D, one
/// weight of holding leaves a multiple of it for the tries after this one.
fn tries_for(rng: &mut Rng, base: u64, left: u32, total: u64) -> Option<Vec<Try>> {
    let below = base.pow(left - 1);
    let mut agains: Vec<u64> = (1..base - 1).filter(|a| gcd(*a, base) == 1).collect();
    rng.shuffle(&mut agains);
    for again in agains {
        let most = total / below;
        let mut near_total = (most + 1).saturating_sub(again)..=most;
        let held = match left {
            1 => Some(total),
            _ => near_total.find(|held| (total - held * below).is_multiple_of(again)),
        };
        let Some(held) = held.filter(|held| (1..base - again).contains(held)) else {
            continue;
        };
        let mut found = vec![Try { held, again }];
        if left > 1 {
            let Some(rest) = tries_for(rng, base, left - 1, (total - held * below) / again) else {
                continue;
            };
            found.extend(rest);
        }
        return Some(found);
    }
    None
}

/// Other weights to choose instead, in some of the tries: mostly so that the
/// tight total is the greatest, or the least, of all plans' totals.
fn rivals(rng: &mut Rng, base: u64, tries: &[Try]) -> Vec<Option<Try>> {
    let side = match rng.below(5) {
        0..=1 => Relation::Less,
        2..=3 => Relation::Greater,
        _ => Relation::Equal,
    };
    let (mut below, mut further) = (1, 0);
    let mut found = Vec::new();
    for own in tries.iter().rev() {
        let total = own.total(below, further);
        let drawn: Vec<Try> = (0..20).map(|_| random_try(rng, base)).collect();
        let fits = |rival: &&Try| {
            side == Relation::Equal || side.relates(total, rival.total(below, further))
        };
        let rival = drawn.iter().find(fits).copied();
        found.insert(0, rival.filter(|_| rng.once_in(2)));
        (below, further) = (below * base, total);
    }
    found
}

fn random_try(rng: &mut Rng, base: u64) -> Try {
    let held = rng.range(1, base as usize - 2) as u64;
    let again = rng.range(1, (base - held) as usize - 1) as u64;
    Try { held, again }
}

/// How a model is written: D, the points for holding the pack, and where the
/// rival comes before the try.
struct Text<'a> {
    base: u64,
    points: i32,
    swapped: &'a [bool],
}

impl Text<'_> {
    /// The model as text: states 0 to 5 before each try, 6 with the pack held,
    /// 7 with it lost. Actions 0 and 1 are the try and its rival, or the other
    /// way round where they are swapped. In the end there is action 2, or
    /// nothing to do.
    fn of(&self, tries: &[Try], rivals: &[Option<Try>], silent: bool) -> String {
        let posts = "post held over\npost !over\npost !held over\n";
        let mut text = format!("model D {}\n", self.base);
        text += "proposition 0 held\nproposition 1 over\nproposition 2 two\n";
        for (state, rival) in rivals.iter().enumerate() {
            let two = if rival.is_some() { "two" } else { "" };
            text += &format!("state {state}: {two}\n");
        }
        text += "state 6: held over\nstate 7: over\n";
        text += &format!("action 0 needs !over\n{posts}action 1 needs !over two\n{posts}");
        for (state, own) in tries.iter().enumerate() {
            let tight = usize::from(self.swapped[state]);
            text += &self.outcome_line(state, tight, own);
            if let Some(rival) = &rivals[state] {
                text += &self.outcome_line(state, 1 - tight, rival);
            }
        }
        if !silent {
            let base = self.base;
            text += "action 2 needs over\npost over\n";
            text += &format!("outcome 6 2: 6 weight {base}\noutcome 7 2: 7 weight {base}\n");
        }
        text
    }

    /// After the last try, trying again leads nowhere.
    fn outcome_line(&self, state: usize, action: usize, weights: &Try) -> String {
        let Try { held, again } = weights;
        let next = (state + 1).min(TRIES - 1);
        let (points, lost) = (self.points, self.base - held - again);
        let outcomes =
            format!("6 weight {held} reward {points}, {next} weight {again}, 7 weight {lost}");
        format!("outcome {state} {action}: {outcomes}\n")
    }
}

/// The choices of the plan that takes the tight try in each state.
fn tight_choices(model: &Model, swapped: &[bool], state: u8, steps: usize) -> Vec<u8> {
    let in_the_end = if model.is_silent(state) { SILENT } else { 2 };
    let action = swapped
        .get(usize::from(state))
        .map_or(in_the_end, |swap| u8::from(*swap));
    let mut choices = vec![action];
    if steps > 1 {
        for outcome in model.outcomes(state, action) {
            choices.extend(tight_choices(model, swapped, outcome.target, steps - 1));
        }
    }
    choices
}

/// Nodes that ask for a plan under which the pack is held in the end, or for
/// what it then earns.
fn nodes(rng: &mut Rng, shelf: &Shelf, sum: Sum, relation: Relation) -> Vec<String> {
    let word = relation.word();
    if sum == Sum::Gains {
        let Bound { p, q } = shelf.bounds.expected;
        return vec![format!("plan gain 1 to 6 steps 6 {word} {p}/{q}")];
    }
    let mut nodes = condition(rng, shelf.bounds.points);
    let condition = nodes.len() - 1;
    let Bound { p, q } = shelf.bounds.chance;
    nodes.push(format!("plan {condition} steps 6 {word} {p}/{q}"));
    nodes
}

/// Nodes that say that the pack is held in the end.
fn condition(rng: &mut Rng, points: i32) -> Vec<String> {
    if rng.once_in(3) {
        let earned = if points > 0 { "greater" } else { "less" };
        return vec![format!("gain 6 steps {earned} 0")];
    }
    let mut nodes = vec!["proposition 0".to_string()];
    nodes.extend((0..TRIES).map(|own| format!("next {own}")));
    nodes
}

/// A question with a tight root, and sheets: of the tight plan, the same with
/// a total off by one, and of some plan.
fn root_calls(rng: &mut Rng, shelf: &Shelf, relation: Relation) -> Vec<Call> {
    let sum = Sum::drawn(rng);
    let packed = cases::question(0, &nodes(rng, shelf, sum, relation));
    let Ok(question) = read_question(&packed, &shelf.model) else {
        return Vec::new();
    };
    let mut calls = vec![Call::Put(packed), Call::Judge];
    calls.push(Call::Write(vec![0; 3 * BLOCK]));
    let total = match sum {
        Sum::Weights => i128::from(shelf.total),
        Sum::Gains => i128::from(shelf.total) * i128::from(shelf.bounds.points),
    };
    let mut sheet = Sheet {
        steps: TRIES as u8,
        start: 0,
        total: stored(total),
        choices: shelf.choices.clone(),
    };
    calls.push(Call::Check(sheet.pack()));
    sheet.total = stored(total + rng.pick_or(&[-1, 1], 1));
    calls.push(Call::Check(sheet.pack()));
    sheet.choices = random_choices(rng, &shelf.model, 0, TRIES);
    sheet.total = stored(total_of(&shelf.model, &question, &sheet.choices));
    calls.push(Call::Check(sheet.pack()));
    calls
}

/// The total of the root's plan with these choices.
fn total_of(model: &Model, question: &Question, choices: &[u8]) -> i128 {
    let plan = Plan::from_choices(model, question.start, TRIES, choices);
    match (question.root_plan(), plan) {
        (Some(root), Some(plan)) => {
            fast::total_of(model, question, &root, &plan, &Totals::of(model))
        }
        _ => 0,
    }
}

/// A question with a tight node below its root.
fn inner_calls(rng: &mut Rng, shelf: &Shelf, relation: Relation) -> Vec<Call> {
    let sum = Sum::drawn(rng);
    let mut nodes = nodes(rng, shelf, sum, relation);
    let tight = nodes.len() - 1;
    nodes.push(match rng.once_in(2) {
        true => format!("not {tight}"),
        false => format!("plan {tight} steps 1 greater 1/2"),
    });
    vec![Call::Put(cases::question(0, &nodes)), Call::Judge]
}
