//! A condition as rules, each worked out once at the step where it becomes
//! known. Following the formula on every path instead would double the work
//! at each shared node.

use super::need::{places_of, PLACES};
use crate::logic::{Node, Question, Relation};

/// How a value is found when a history has reached its step.
#[derive(Clone, Copy, Debug)]
pub(super) enum Rule {
    /// The state reached is in this set.
    InSet(u32),
    Not(usize),
    And(usize, usize),
    /// The last step was this action; a silent step was none.
    Did(u8),
    /// The rewards since a step relate to a bound.
    Gained {
        since: usize,
        relation: Relation,
        bound: i32,
    },
}

/// The rules of a condition by step, and which value answers it.
pub(super) struct Program {
    /// For each step from 0 on, the values that become known there in order.
    steps: Vec<Vec<(usize, Rule)>>,
    answer: usize,
    values: usize,
}

impl Program {
    /// `true_in` has the states where each earlier state formula is true.
    pub(super) fn of(
        question: &Question,
        condition: usize,
        depths: &[usize],
        path_formulas: &[bool],
        true_in: &[u32],
    ) -> Program {
        let places = places_of(question, condition, path_formulas);
        let mut maker = Maker {
            program: Program {
                steps: vec![Vec::new(); depths[condition] + 1],
                answer: 0,
                values: 0,
            },
            value_of: vec![[0; PLACES]; condition + 1],
        };
        for (number, places) in places.iter().enumerate() {
            let in_set = (!path_formulas[number]).then(|| true_in[number]);
            for place in (0..PLACES).filter(|place| places >> place & 1 == 1) {
                let known = place + depths[number];
                let value = maker.value(question.nodes[number], in_set, place, known);
                maker.value_of[number][place] = value;
            }
        }
        maker.program.answer = maker.value_of[condition][0];
        maker.program
    }

    /// How many steps must be seen before the condition is decided.
    pub(super) fn depth(&self) -> usize {
        self.steps.len() - 1
    }

    pub(super) fn values(&self) -> usize {
        self.values
    }

    /// The value that answers the condition.
    pub(super) fn answer(&self) -> usize {
        self.answer
    }

    /// The values that become known at a step.
    pub(super) fn known_at(&self, step: usize) -> &[(usize, Rule)] {
        &self.steps[step]
    }
}

struct Maker {
    program: Program,
    /// The value of each node at each place.
    value_of: Vec<[usize; PLACES]>,
}

impl Maker {
    /// The value of a node at a place, with a new rule where it needs one.
    fn value(&mut self, node: Node, in_set: Option<u32>, place: usize, known: usize) -> usize {
        let of = |child: u8, place: usize| self.value_of[usize::from(child)][place];
        let rule = match (in_set, node) {
            (Some(set), _) => Rule::InSet(set),
            (None, Node::Next(child)) => return of(child, place + 1),
            (None, Node::And(left, right)) if of(left, place) == of(right, place) => {
                return of(left, place)
            }
            (None, Node::And(left, right)) => Rule::And(of(left, place), of(right, place)),
            (None, Node::Not(child)) => Rule::Not(of(child, place)),
            (None, Node::Do(action)) => Rule::Did(action),
            (
                None,
                Node::Gain {
                    relation, bound, ..
                },
            ) => Rule::Gained {
                since: place,
                relation,
                bound,
            },
            // These are state formulas and so have a set.
            (None, Node::False | Node::Proposition(_) | Node::Plan(_)) => Rule::InSet(0),
        };
        let value = self.program.values;
        self.program.values += 1;
        self.program.steps[known].push((value, rule));
        value
    }
}
