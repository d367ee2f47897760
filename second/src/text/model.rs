//! The lines of a model.

use super::names::ModelNames;
use super::words::Words;
use crate::blocks::{ActionImage, ModelImage, OutcomeImage};
use crate::logic::Literals;

/// A text may ask for no more blocks than this.
const MOST_BLOCKS: usize = 100;

/// A model as its lines have told so far.
#[derive(Default)]
pub(super) struct ModelText {
    image: ModelImage,
    states: Option<u8>,
    actions: Option<u8>,
    propositions: Option<u8>,
    blocks: Option<usize>,
    /// The action that `post` lines belong to, with its postconditions so far.
    current: Option<(usize, usize)>,
    outcomes: Vec<(usize, usize, Vec<OutcomeImage>)>,
}

impl ModelText {
    /// `model D 10`, with S, A, N or blocks where they are not what the lines
    /// below add up to.
    pub(super) fn begin(words: &mut Words) -> Result<ModelText, String> {
        let mut text = ModelText::default();
        while let Some(field) = words.peek().map(str::to_string) {
            words.take("a field")?;
            match field.as_str() {
                "D" => text.image.denominator = words.take_number("D")?,
                "S" => text.states = Some(words.take_number("S")?),
                "A" => text.actions = Some(words.take_number("A")?),
                "N" => text.propositions = Some(words.take_number("N")?),
                "blocks" => text.blocks = Some(words.take_number("blocks")?),
                _ => return Err(format!("'{field}' is no field of a model")),
            }
        }
        if text.blocks.is_some_and(|blocks| blocks > MOST_BLOCKS) {
            return Err(format!("a text has at most {MOST_BLOCKS} blocks"));
        }
        Ok(text)
    }

    /// A line within the model.
    pub(super) fn line(&mut self, words: &mut Words, names: &mut ModelNames) -> Result<(), String> {
        let keyword = words.take("a word")?;
        match keyword.as_str() {
            "proposition" => proposition_line(words, names)?,
            "state" => self.state_line(words, names)?,
            "action" => self.action_line(words, names)?,
            "post" => self.post_line(words, names)?,
            "posts" => self.posts_line(words)?,
            "outcome" => self.outcome_line(words, names)?,
            _ => return Err(format!("'{keyword}' begins no line of a model")),
        }
        words.end()
    }

    /// `state 1 loaded: held`: a number, a name if it likes, what is true.
    fn state_line(&mut self, words: &mut Words, names: &mut ModelNames) -> Result<(), String> {
        let number: u8 = words.take_number("the state")?;
        names.states.declare(number, self.image.masks.len())?;
        if words.ahead(1) == Some(":") {
            names.states.name(&words.take("a name")?, number)?;
            words.take_word(":")?;
        } else {
            words.take_if(":");
        }
        let mut mask = 0;
        while words.peek().is_some() {
            mask |= names.bit(&words.take("a proposition")?)?;
        }
        if let Some(place) = self.image.masks.get_mut(usize::from(number)) {
            *place = mask;
        }
        Ok(())
    }

    /// `action 0 grip needs !held !done`: a number, a name if it likes, and a
    /// precondition.
    fn action_line(&mut self, words: &mut Words, names: &mut ModelNames) -> Result<(), String> {
        let number: u8 = words.take_number("the action")?;
        names.actions.declare(number, self.image.moves.len())?;
        if words.peek().is_some_and(|word| word != "needs") {
            names.actions.name(&words.take("a name")?, number)?;
        }
        let mut entry = ActionImage::default();
        if words.take_if("needs") {
            entry.precondition = literals(words, names)?;
        }
        let place = usize::from(number);
        self.current = Some((place, 0));
        if let Some(action) = self.image.moves.get_mut(place) {
            *action = entry;
        }
        Ok(())
    }

    /// `post held`: the next postcondition of the action above.
    fn post_line(&mut self, words: &mut Words, names: &ModelNames) -> Result<(), String> {
        let (action, number) = self.current.ok_or("no action stands above")?;
        let found = literals(words, names)?;
        let entry = self.image.moves.get_mut(action);
        let place = entry.and_then(|entry| {
            entry.count = entry.count.saturating_add(1);
            entry.posts.get_mut(number)
        });
        *place.ok_or("the blocks have room for 4 postconditions")? = found;
        self.current = Some((action, number + 1));
        Ok(())
    }

    /// `posts 5`: a count that is not the number of `post` lines.
    fn posts_line(&mut self, words: &mut Words) -> Result<(), String> {
        let (action, _) = self.current.ok_or("no action stands above")?;
        let count = words.take_number("the count of postconditions")?;
        if let Some(entry) = self.image.moves.get_mut(action) {
            entry.count = count;
        }
        Ok(())
    }

    /// `outcome 0 grip: 1 weight 8 reward -2, 0 weight 2`.
    fn outcome_line(&mut self, words: &mut Words, names: &ModelNames) -> Result<(), String> {
        let state = names.states.number(&words.take("the state")?)?;
        let action = names.actions.number(&words.take("the action")?)?;
        words.take_word(":")?;
        let mut list = vec![outcome(words, names)?];
        while words.take_if(",") {
            list.push(outcome(words, names)?);
        }
        if list.len() > 4 {
            return Err("the blocks have room for 4 outcomes".to_string());
        }
        let place = (usize::from(state), usize::from(action));
        if place.1 >= self.image.moves.len() {
            return Err("the blocks have room for 8 actions".to_string());
        }
        self.outcomes.push((place.0, place.1, list));
        Ok(())
    }

    /// The blocks, laid out.
    pub(super) fn pack(mut self, names: &ModelNames) -> Result<Vec<u8>, String> {
        let image = &mut self.image;
        image.states = self.states.unwrap_or(names.states.count);
        image.actions = self.actions.unwrap_or(names.actions.count);
        image.propositions = self.propositions.unwrap_or(names.propositions.count);
        let rows = ModelImage::rows_for(image.states);
        let blocks = self.blocks.unwrap_or(1 + rows);
        image.rows = vec![Default::default(); blocks.saturating_sub(1)];
        for (state, action, list) in &self.outcomes {
            let places = image.outcomes_mut(*state, *action);
            let places = places.ok_or_else(|| format!("no row block has state {state}"))?;
            for (place, outcome) in places.iter_mut().zip(list) {
                *place = *outcome;
            }
        }
        Ok(image.pack())
    }
}

/// `proposition 0 held`: a number and, if it likes, a name.
fn proposition_line(words: &mut Words, names: &mut ModelNames) -> Result<(), String> {
    let number: u8 = words.take_number("the proposition")?;
    names.propositions.declare(number, 32)?;
    match words.peek() {
        Some(_) => names.propositions.name(&words.take("a name")?, number),
        None => Ok(()),
    }
}

/// The literals up to the line's end; `always` is the empty conjunction.
fn literals(words: &mut Words, names: &ModelNames) -> Result<Literals, String> {
    let mut found = Literals::default();
    if words.take_if("always") {
        return Ok(found);
    }
    while words.peek().is_some() {
        names.add_literal(&words.take("a literal")?, &mut found)?;
    }
    Ok(found)
}

/// `1 weight 8 reward -2`; the reward may be left out where it is 0.
fn outcome(words: &mut Words, names: &ModelNames) -> Result<OutcomeImage, String> {
    let target = names.states.number(&words.take("the target")?)?;
    words.take_word("weight")?;
    let weight = words.take_number("the weight")?;
    let reward = match words.take_if("reward") {
        true => words.take_number("the reward")?,
        false => 0,
    };
    Ok(OutcomeImage {
        target,
        weight,
        reward,
    })
}
