//! Ways to damage a model, at least one for each side of each ground.

use super::damage::Patches;
use super::rng::Rng;
use crate::blocks::{ModelImage, OutcomeImage, BLOCK};
use crate::ground::Ground;
use crate::logic::Literals;

/// A model that is being damaged.
#[derive(Clone)]
pub(super) struct Draft {
    pub(super) image: ModelImage,
    patches: Patches,
}

impl Draft {
    pub(super) fn of(image: ModelImage) -> Draft {
        Draft {
            image,
            patches: Patches::default(),
        }
    }

    pub(super) fn pack(&self) -> Vec<u8> {
        self.patches.apply(self.image.pack())
    }

    fn len(&self) -> usize {
        BLOCK * (1 + self.image.rows.len())
    }

    fn states(&self) -> usize {
        usize::from(self.image.states).clamp(1, 32)
    }

    fn actions(&self) -> usize {
        usize::from(self.image.actions).clamp(1, 8)
    }

    fn is_enabled(&self, state: usize, action: usize) -> bool {
        let precondition = self.image.moves[action].precondition;
        precondition.true_in(self.image.masks[state])
    }

    /// Whether no action is enabled in a state.
    fn is_silent(&self, state: usize) -> bool {
        !(0..self.actions()).any(|action| self.is_enabled(state, action))
    }

    /// A bit from N up, or just below.
    fn bit_beyond(&self, rng: &mut Rng) -> u32 {
        let first = u32::from(self.image.propositions);
        let bits = [first.saturating_sub(1), first, first + 1, 31];
        1u32.checked_shl(rng.pick_or(&bits, 31)).unwrap_or(1 << 31)
    }

    /// One of the model's preconditions and postconditions.
    fn literals(&mut self, rng: &mut Rng) -> &mut Literals {
        let action = rng.below(self.actions());
        let entry = &mut self.image.moves[action];
        match rng.below(1 + usize::from(entry.count).clamp(1, 4)) {
            0 => &mut entry.precondition,
            number => &mut entry.posts[number - 1],
        }
    }

    /// The outcomes of some action in some state where it is enabled or, if
    /// so asked, where it is not.
    fn pair(&self, rng: &mut Rng, enabled: bool) -> Option<(usize, usize)> {
        let mut pairs = Vec::new();
        for state in 0..self.states() {
            for action in 0..self.actions() {
                if self.is_enabled(state, action) == enabled {
                    pairs.push((state, action));
                }
            }
        }
        rng.pick(&pairs)
    }

    /// A used outcome.
    fn outcome(&mut self, rng: &mut Rng) -> Option<&mut OutcomeImage> {
        let (state, action) = self.pair(rng, true)?;
        let count = usize::from(self.image.moves[action].count).clamp(1, 4);
        let post = rng.below(count);
        self.image.outcomes_mut(state, action)?.get_mut(post)
    }
}

pub(super) type Harm = fn(&mut Rng, &mut Draft);

/// All ways, in the order of the grounds they mostly lead to.
pub(super) const HARMS: &[Harm] = &[
    |rng, draft| draft.patches.relength(rng),
    |rng, draft| draft.patches.relength(rng),
    |rng, draft| draft.patches.break_sum(rng, draft.len()),
    |rng, draft| draft.patches.swap_words(rng, draft.len()),
    wrong_label,
    rows_swapped,
    |rng, draft| draft.image.states = size(rng, draft.image.states, 32),
    |rng, draft| draft.image.actions = size(rng, draft.image.actions, 8),
    |rng, draft| draft.image.propositions = size(rng, draft.image.propositions, 32),
    |rng, draft| draft.image.denominator = size(rng, draft.image.denominator, 100),
    |_, draft| draft.image.rows.push(Default::default()),
    |_, draft| {
        draft.image.rows.pop();
    },
    state_bit,
    literal_bit,
    literal_both_ways,
    post_count,
    |rng, draft| set_target(rng, draft),
    |rng, draft| set_weight(rng, draft),
    |rng, draft| set_reward(rng, draft),
    head_spare,
    mask_beyond_states,
    action_beyond_actions,
    post_beyond_count,
    action_spare,
    row_spare,
    row_beyond_states,
    row_beyond_actions,
    outcome_not_enabled,
    outcome_beyond_count,
    posts_agree,
    post_literal_dropped,
    target_elsewhere,
    weight_off_by_one,
    state_silenced,
    state_silenced_row_left,
    silent_row,
    silent_row,
    any_byte,
];

/// Those that mostly lead to a ground.
pub(super) fn harms_towards(ground: Ground) -> &'static [Harm] {
    let places = match ground {
        Ground::Length => 0..2,
        Ground::WordSum => 2..3,
        Ground::Kind => 4..6,
        Ground::Counts => 6..12,
        Ground::Range => 12..19,
        Ground::Spare => 19..29,
        Ground::Outcomes => 29..33,
        _ => 0..HARMS.len(),
    };
    HARMS.get(places).unwrap_or(HARMS)
}

/// A count at or about the ends of its range.
fn size(rng: &mut Rng, now: u8, most: u8) -> u8 {
    let about = [
        0,
        1,
        most,
        most + 1,
        255,
        now.wrapping_add(1),
        now.wrapping_sub(1),
        now.wrapping_add(3),
    ];
    rng.pick_or(&about, 0)
}

fn wrong_label(rng: &mut Rng, draft: &mut Draft) {
    let block = rng.below(1 + draft.image.rows.len());
    let value = rng.byte(0, 6);
    draft.patches.set(BLOCK * block + rng.below(2), value);
}

fn rows_swapped(rng: &mut Rng, draft: &mut Draft) {
    let block = rng.range(1, draft.image.rows.len().max(1));
    let number = rng.range(0, 12) as u8;
    draft.patches.set(BLOCK * block + 1, number);
}

fn state_bit(rng: &mut Rng, draft: &mut Draft) {
    let state = rng.below(draft.states());
    draft.image.masks[state] |= draft.bit_beyond(rng);
}

fn literal_bit(rng: &mut Rng, draft: &mut Draft) {
    let bit = draft.bit_beyond(rng);
    let as_true = rng.once_in(2);
    let literals = draft.literals(rng);
    match as_true {
        true => literals.demanded_true |= bit,
        false => literals.demanded_false |= bit,
    }
}

fn literal_both_ways(rng: &mut Rng, draft: &mut Draft) {
    let bit = 1u32 << rng.below(usize::from(draft.image.propositions).clamp(1, 32));
    let literals = draft.literals(rng);
    literals.demanded_true |= bit;
    literals.demanded_false |= bit;
}

fn post_count(rng: &mut Rng, draft: &mut Draft) {
    let action = rng.below(draft.actions());
    let count = draft.image.moves[action].count;
    let about = [0, 5, 255, count.wrapping_add(1), count.wrapping_sub(1)];
    draft.image.moves[action].count = rng.pick_or(&about, 0);
}

fn set_target(rng: &mut Rng, draft: &mut Draft) {
    let states = draft.image.states;
    let target = rng.pick_or(&[states, states.wrapping_sub(1), 32, 255, 0], 0);
    if let Some(outcome) = draft.outcome(rng) {
        outcome.target = target;
    }
}

fn set_weight(rng: &mut Rng, draft: &mut Draft) {
    let weight = rng.pick_or(&[0, 1, 100, 101, 255], 0);
    if let Some(outcome) = draft.outcome(rng) {
        outcome.weight = weight;
    }
}

fn set_reward(rng: &mut Rng, draft: &mut Draft) {
    let ends = [1000, -1000, 1001, -1001, i16::MAX, i16::MIN, 0];
    let reward = rng.pick_or(&ends, 0);
    if let Some(outcome) = draft.outcome(rng) {
        outcome.reward = reward;
    }
}

/// Bytes 6, 7 and 488 to 509 of the head.
fn head_spare(rng: &mut Rng, draft: &mut Draft) {
    let region = rng.pick_or(&[(6, 8), (488, 510)], (6, 8));
    draft.patches.spoil(rng, region.0..region.1);
}

fn mask_beyond_states(rng: &mut Rng, draft: &mut Draft) {
    let first = 8 + 4 * draft.states();
    if first < 136 {
        draft.patches.spoil(rng, first..136);
    }
}

fn action_beyond_actions(rng: &mut Rng, draft: &mut Draft) {
    let first = 136 + 44 * draft.actions();
    if first < 488 {
        draft.patches.spoil(rng, first..488);
    }
}

fn post_beyond_count(rng: &mut Rng, draft: &mut Draft) {
    let action = rng.below(draft.actions());
    let count = usize::from(draft.image.moves[action].count).min(4);
    let base = 136 + 44 * action;
    if count < 4 {
        draft.patches.spoil(rng, base + 12 + 8 * count..base + 44);
    }
}

/// The three bytes after an action's count.
fn action_spare(rng: &mut Rng, draft: &mut Draft) {
    let base = 136 + 44 * rng.below(draft.actions());
    draft.patches.spoil(rng, base + 9..base + 12);
}

/// Bytes 2, 3 and 388 to 509 of a row block.
fn row_spare(rng: &mut Rng, draft: &mut Draft) {
    let base = BLOCK * rng.range(1, draft.image.rows.len().max(1));
    let region = rng.pick_or(&[(2, 4), (388, 510)], (2, 4));
    draft.patches.spoil(rng, base + region.0..base + region.1);
}

/// Where in the blocks the outcomes of a state begin.
fn state_row(state: usize) -> usize {
    BLOCK * (1 + state / 3) + 4 + 128 * (state % 3)
}

fn row_beyond_states(rng: &mut Rng, draft: &mut Draft) {
    let states = draft.states();
    if !states.is_multiple_of(3) {
        let last_end = BLOCK * (1 + states / 3) + 4 + 3 * 128;
        draft.patches.spoil(rng, state_row(states)..last_end);
    }
}

fn row_beyond_actions(rng: &mut Rng, draft: &mut Draft) {
    let base = state_row(rng.below(draft.states()));
    let used = 16 * draft.actions();
    if used < 128 {
        draft.patches.spoil(rng, base + used..base + 128);
    }
}

fn outcome_not_enabled(rng: &mut Rng, draft: &mut Draft) {
    if let Some((state, action)) = draft.pair(rng, false) {
        let base = state_row(state) + 16 * action;
        draft.patches.spoil(rng, base..base + 16);
    }
}

fn outcome_beyond_count(rng: &mut Rng, draft: &mut Draft) {
    if let Some((state, action)) = draft.pair(rng, true) {
        let count = usize::from(draft.image.moves[action].count).min(4);
        let base = state_row(state) + 16 * action;
        if count < 4 {
            draft.patches.spoil(rng, base + 4 * count..base + 16);
        }
    }
}

/// One postcondition in place of another.
fn posts_agree(rng: &mut Rng, draft: &mut Draft) {
    let action = rng.below(draft.actions());
    let entry = &mut draft.image.moves[action];
    let count = usize::from(entry.count).clamp(1, 4);
    entry.posts[rng.below(count)] = entry.posts[rng.below(count)];
}

/// A postcondition without one of its literals.
fn post_literal_dropped(rng: &mut Rng, draft: &mut Draft) {
    let action = rng.below(draft.actions());
    let entry = &mut draft.image.moves[action];
    let post = &mut entry.posts[rng.below(usize::from(entry.count).clamp(1, 4))];
    match post.demanded_true {
        0 => post.demanded_false &= post.demanded_false.wrapping_sub(1),
        _ => post.demanded_true &= post.demanded_true.wrapping_sub(1),
    }
}

fn target_elsewhere(rng: &mut Rng, draft: &mut Draft) {
    let states = draft.states();
    let target = rng.below(states) as u8;
    if let Some(outcome) = draft.outcome(rng) {
        outcome.target = target;
    }
}

fn weight_off_by_one(rng: &mut Rng, draft: &mut Draft) {
    let up = rng.once_in(2);
    if let Some(outcome) = draft.outcome(rng) {
        outcome.weight = match up {
            true => outcome.weight.saturating_add(1),
            false => outcome.weight.saturating_sub(1),
        };
    }
}

/// A state in which every precondition becomes false. Outcomes that are then
/// spare are cleared, so that the model is accepted: before request A.1 this
/// was ground 8.
fn state_silenced(rng: &mut Rng, draft: &mut Draft) {
    let state = rng.below(draft.states());
    silence(rng, draft, state);
    clear_spare_outcomes(draft, None);
}

/// The same, but the state's own row stays as it was.
fn state_silenced_row_left(rng: &mut Rng, draft: &mut Draft) {
    let state = rng.below(draft.states());
    silence(rng, draft, state);
    clear_spare_outcomes(draft, Some(state));
}

/// A byte in the row of a silent state: of a target, a weight or a reward, of
/// an action that the model has, or of none.
fn silent_row(rng: &mut Rng, draft: &mut Draft) {
    let silent = (0..draft.states()).filter(|state| draft.is_silent(*state));
    let silent: Vec<usize> = silent.collect();
    let state = rng.pick(&silent).unwrap_or(0);
    if silent.is_empty() {
        silence(rng, draft, state);
        clear_spare_outcomes(draft, None);
    }
    if !draft.is_silent(state) {
        return;
    }
    let action = match rng.once_in(4) {
        true => rng.below(8),
        false => rng.below(draft.actions()),
    };
    let post = if rng.once_in(2) { 0 } else { rng.below(4) };
    let at = state_row(state) + 16 * action + 4 * post + rng.below(4);
    let value = rng.pick_or(&[1, 1, 10, 255, 128], 1);
    draft.patches.set(at, value);
}

/// Adds to each precondition that is true in a state a literal that is not,
/// if it leaves a proposition to speak of. It is then true in no other state
/// where it was not, so that no outcomes are wanted that are not there.
fn silence(rng: &mut Rng, draft: &mut Draft, state: usize) {
    let mask = draft.image.masks[state];
    let propositions = u32::from(draft.image.propositions).clamp(1, 32);
    let actions = draft.actions();
    for action in &mut draft.image.moves[..actions] {
        let precondition = &mut action.precondition;
        let named = precondition.demanded_true | precondition.demanded_false;
        let bits = (0..propositions).map(|p| 1u32 << p);
        let free: Vec<u32> = bits.filter(|bit| named & bit == 0).collect();
        if let (true, Some(bit)) = (precondition.true_in(mask), rng.pick(&free)) {
            match mask & bit {
                0 => precondition.demanded_true |= bit,
                _ => precondition.demanded_false |= bit,
            }
        }
    }
}

/// Clears the outcomes of actions that are not enabled, but for one state's.
fn clear_spare_outcomes(draft: &mut Draft, kept: Option<usize>) {
    for state in (0..draft.states()).filter(|state| Some(*state) != kept) {
        for action in 0..draft.actions() {
            let enabled = draft.is_enabled(state, action);
            if let (false, Some(places)) = (enabled, draft.image.outcomes_mut(state, action)) {
                *places = Default::default();
            }
        }
    }
}

fn any_byte(rng: &mut Rng, draft: &mut Draft) {
    let at = rng.below(draft.len());
    let value = rng.byte(0, 255);
    draft.patches.set(at, value);
}

#[cfg(test)]
mod tests {
    use super::*;
    use crate::blocks::read_model;
    use crate::generate::{random_model, Size};
    use crate::ground::OF_LOADS;

    /// What loading says of random models after a harm, for those that had an
    /// action in each state.
    fn after(harm: Harm) -> Vec<Result<bool, Ground>> {
        let mut rng = Rng::new(3);
        let mut answers = Vec::new();
        for _ in 0..300 {
            let mut draft = Draft::of(random_model(&mut rng, Size::SMALL));
            if (0..draft.states()).any(|state| draft.is_silent(state)) {
                continue;
            }
            harm(&mut rng, &mut draft);
            let silent = (0..draft.states()).any(|state| draft.is_silent(state));
            answers.push(read_model(&draft.pack()).map(|_| silent));
        }
        assert!(answers.len() > 100);
        answers
    }

    /// Each ground is one that those harms lead to which are said to.
    #[test]
    fn harms_lead_to_their_grounds() {
        for ground in OF_LOADS {
            for harm in harms_towards(ground) {
                assert!(after(*harm).contains(&Err(ground)), "{ground:?}");
            }
        }
    }

    /// A precondition that names all propositions cannot be changed so; where
    /// none can, nothing is harmed.
    #[test]
    fn silenced_states() {
        let spare = Err(Ground::Spare);
        for (harm, wanted) in [
            (state_silenced as Harm, Ok(true)),
            (state_silenced_row_left, spare),
            (silent_row, spare),
        ] {
            let answers = after(harm);
            let met = answers.iter().filter(|answer| **answer == wanted).count();
            assert!(answers
                .iter()
                .all(|answer| *answer == wanted || answer.is_ok()));
            assert!(met > answers.len() * 3 / 4, "{met} of {}", answers.len());
        }
    }
}
