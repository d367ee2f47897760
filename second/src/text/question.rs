//! The lines of a question.

use super::names::ModelNames;
use super::words::{number, Words};
use crate::blocks::{NodeImage, QuestionImage};

/// A question as its lines have told so far.
#[derive(Default)]
pub(super) struct QuestionText {
    image: QuestionImage,
    nodes: Option<u8>,
}

impl QuestionText {
    /// `question start 0`, with `nodes` where the count is not that of the
    /// lines below.
    pub(super) fn begin(words: &mut Words, names: &ModelNames) -> Result<QuestionText, String> {
        let mut text = QuestionText::default();
        words.take_word("start")?;
        text.image.start = names.states.number(&words.take("the start state")?)?;
        if words.take_if("nodes") {
            text.nodes = Some(words.take_number("the count of nodes")?);
        }
        words.end()?;
        Ok(text)
    }

    /// A node, which begins with its number.
    pub(super) fn line(&mut self, words: &mut Words, names: &ModelNames) -> Result<(), String> {
        let own: usize = words.take_number("the node's own number")?;
        let node = node(words, names)?;
        words.end()?;
        let place = self.image.nodes.get_mut(own);
        *place.ok_or("the block has room for nodes 0 to 39")? = node;
        let count = u8::try_from(own + 1).unwrap_or(u8::MAX);
        self.image.count = self.image.count.max(count);
        Ok(())
    }

    /// The block, laid out.
    pub(super) fn pack(mut self) -> Vec<u8> {
        self.image.count = self.nodes.unwrap_or(self.image.count);
        self.image.pack()
    }
}

/// A node without its own number.
pub(super) fn node(words: &mut Words, names: &ModelNames) -> Result<NodeImage, String> {
    let operator = words.take("an operator")?;
    let mut node = NodeImage::default();
    match operator.as_str() {
        "false" => node.operator = 1,
        "proposition" => {
            node.operator = 2;
            node.left = names.propositions.number(&words.take("a proposition")?)?;
        }
        "not" => child(words, &mut node, 3)?,
        "and" => {
            child(words, &mut node, 4)?;
            node.right = words.take_number("a node")?;
        }
        "do" => {
            node.operator = 5;
            node.left = names.actions.number(&words.take("an action")?)?;
        }
        "next" => child(words, &mut node, 6)?,
        "gain" => gain(words, &mut node)?,
        "plan" => plan(words, &mut node)?,
        "raw" => raw(words, &mut node)?,
        _ => return Err(format!("'{operator}' is no operator")),
    }
    Ok(node)
}

fn child(words: &mut Words, node: &mut NodeImage, operator: u8) -> Result<(), String> {
    node.operator = operator;
    node.left = words.take_number("a node")?;
    Ok(())
}

/// `gain 2 steps equal 8`.
fn gain(words: &mut Words, node: &mut NodeImage) -> Result<(), String> {
    node.operator = 7;
    node.steps = words.take_number("the steps")?;
    words.take_word("steps")?;
    node.right = relation(words)?;
    node.p = words.take_number("the bound")?;
    node.q = 1;
    Ok(())
}

/// `plan 2 steps 2 equal 45/100`: the condition's node, then the steps; or
/// `plan gain 1 to 2 steps 2 greater 6/1`, with the first and the last of the
/// steps whose gains are summed in its place.
fn plan(words: &mut Words, node: &mut NodeImage) -> Result<(), String> {
    match words.take_if("gain") {
        true => window(words, node)?,
        false => child(words, node, 8)?,
    }
    words.take_word("steps")?;
    node.steps = words.take_number("the steps")?;
    node.right = relation(words)?;
    let bound = words.take("the bound")?;
    let (p, q) = bound.split_once('/').ok_or("a bound is written p/q")?;
    node.p = number(p, "p")?;
    node.q = number(q, "q")?;
    Ok(())
}

/// `1 to 2`. The left byte has room for a first step of 0 to 7 and a last one
/// of 0 to 31.
fn window(words: &mut Words, node: &mut NodeImage) -> Result<(), String> {
    node.operator = 9;
    let first: u8 = words.take_number("the first step")?;
    words.take_word("to")?;
    let last: u8 = words.take_number("the last step")?;
    let left = last.checked_mul(8).filter(|_| first < 8);
    node.left = first + left.ok_or("the byte has room for steps 0 to 7 and 0 to 31")?;
    Ok(())
}

/// `raw 10 0 1 2 -3 4`: operator, n, left, right, p and q, right or wrong.
fn raw(words: &mut Words, node: &mut NodeImage) -> Result<(), String> {
    node.operator = words.take_number("the operator")?;
    node.steps = words.take_number("n")?;
    node.left = words.take_number("left")?;
    node.right = words.take_number("right")?;
    node.p = words.take_number("p")?;
    node.q = words.take_number("q")?;
    Ok(())
}

fn relation(words: &mut Words) -> Result<u8, String> {
    let word = words.take("a relation")?;
    match word.as_str() {
        "less" => Ok(1),
        "equal" => Ok(2),
        "greater" => Ok(3),
        _ => Err(format!("'{word}' is not less, equal or greater")),
    }
}
