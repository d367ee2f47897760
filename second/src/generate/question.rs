//! Random questions that are accepted, with bounds that are met, missed or
//! just missed.

use super::bounds;
use super::rng::Rng;
use crate::blocks::{read_question, QuestionImage};
use crate::logic::{fast, Bound, Model, Node, Outcome, Path, Plan, PlanNode};
use crate::logic::{Question, Relation, Summed, Totals};

/// How large the plans of a random question may be.
#[derive(Clone, Copy)]
pub struct Scale {
    pub nodes: usize,
    pub paths: u64,
    pub plans: u64,
}

/// Draws nodes one after another; children are any earlier nodes, so that
/// nodes are shared. Those that the root does not reach are dropped in the end.
pub fn random_question(rng: &mut Rng, model: &Model, totals: &Totals, scale: Scale) -> Question {
    let start = random_start(rng, model);
    let mut drawer = Drawer {
        rng,
        model,
        totals,
        scale,
        question: Question {
            start,
            nodes: Vec::new(),
        },
    };
    let silent = (0..model.states()).any(|state| model.is_silent(state as u8));
    let root = match drawer.rng.below(49) {
        0..=13 => drawer.gains_root(),
        14..=18 => drawer.about_gains(),
        19..=21 => drawer.one_window(),
        22..=23 => drawer.left_of_an_and(),
        24 => drawer.tower(),
        25 => drawer.chain(),
        26 => drawer.shared(),
        _ if silent && drawer.rng.below(16) < 8 => drawer.about_silent_steps(),
        _ => drawer.any_root(),
    };
    drawer.question.nodes.push(root);
    used(&drawer.question, model)
}

/// The question without the nodes that are not reached.
fn used(question: &Question, model: &Model) -> Question {
    let packed = QuestionImage::from(question).used_only().pack();
    read_question(&packed, model).unwrap_or(Question {
        start: question.start,
        nodes: vec![Node::False],
    })
}

/// Any state, but mostly one in which there is something to choose.
fn random_start(rng: &mut Rng, model: &Model) -> u8 {
    let start = rng.below(model.states()) as u8;
    let live: Vec<u8> = (0..model.states() as u8)
        .filter(|state| !model.is_silent(*state))
        .collect();
    match model.is_silent(start) && !rng.once_in(3) {
        true => rng.pick_or(&live, start),
        false => start,
    }
}

pub(super) struct Drawer<'a> {
    pub(super) rng: &'a mut Rng,
    model: &'a Model,
    totals: &'a Totals,
    scale: Scale,
    pub(super) question: Question,
}

impl Drawer<'_> {
    /// Draws nodes of all kinds, and a root over them.
    fn any_root(&mut self) -> Node {
        let least = if self.rng.once_in(8) { 1 } else { 4 };
        for _ in 1..self.rng.range(least, self.scale.nodes) {
            let node = self.node();
            self.question.nodes.push(node);
        }
        if self.rng.once_in(2) {
            self.gather();
        }
        self.root()
    }

    /// An earlier node, mostly a late one, or one that is no child so far.
    fn child(&mut self) -> Option<u8> {
        if self.rng.once_in(2) {
            let unused = self.unused();
            return self.rng.pick(&unused);
        }
        let count = self.question.nodes.len();
        let near = count.saturating_sub(3);
        let first = if self.rng.once_in(3) { 0 } else { near };
        (count > 0).then(|| self.rng.range(first, count - 1) as u8)
    }

    pub(super) fn relation(&mut self) -> Relation {
        let all = [Relation::Less, Relation::Equal, Relation::Greater];
        self.rng.pick_or(&all, Relation::Equal)
    }

    pub(super) fn node(&mut self) -> Node {
        let drawn = match self.rng.below(32) {
            0 => Some(Node::False),
            1..=6 => self.child().map(Node::Not),
            7..=11 => self.both(),
            12..=15 => Some(self.act()),
            16..=22 => self.child().map(Node::Next),
            23..=25 => Some(self.gain()),
            26..=27 => self.plan_over_any(),
            28 => self.gains_from(self.question.start),
            _ => None,
        };
        drawn.unwrap_or_else(|| self.proposition())
    }

    pub(super) fn proposition(&mut self) -> Node {
        Node::Proposition(self.rng.below(self.model.propositions.into()) as u8)
    }

    /// A plan over a "do", a gain or a proposition, at the start or some steps
    /// on; on the way also as what some plan from there could do.
    fn about_silent_steps(&mut self) -> Node {
        let nexts = self.rng.below(4);
        let first = match self.rng.below(5) {
            0..=1 => self.act_at_an_end(),
            2..=3 => self.close_gain(nexts),
            _ => self.proposition(),
        };
        self.question.nodes.push(first);
        if self.rng.once_in(3) {
            self.add_over(Node::Not);
        }
        if self.rng.once_in(2) {
            let inner = self.plan_over(self.question.root() as u8);
            self.question.nodes.extend(inner);
        }
        for _ in 0..nexts {
            self.add_over(Node::Next);
        }
        let condition = self.question.root() as u8;
        self.plan_over(condition).unwrap_or(Node::False)
    }

    /// Adds a node over the last one.
    pub(super) fn add_over(&mut self, node: fn(u8) -> Node) {
        let last = self.question.root() as u8;
        self.question.nodes.push(node(last));
    }

    fn both(&mut self) -> Option<Node> {
        Some(Node::And(self.child()?, self.child()?))
    }

    pub(super) fn act(&mut self) -> Node {
        Node::Do(self.rng.below(self.model.actions.len()) as u8)
    }

    /// A "do" of the first or the last action, or of any.
    fn act_at_an_end(&mut self) -> Node {
        let last = self.model.actions.len().saturating_sub(1) as u8;
        match self.rng.below(3) {
            0 => Node::Do(0),
            1 => Node::Do(last),
            _ => self.act(),
        }
    }

    fn gain(&mut self) -> Node {
        let bounds = [-6000, -1000, -3, -2, -1, 0, 0, 0, 1, 2, 3, 1000, 6000];
        let steps = self.rng.byte(1, 6);
        Node::Gain {
            steps: self.rng.byte(1, steps),
            relation: self.relation(),
            bound: self.rng.pick_or(&bounds, 0),
        }
    }

    /// A gain at, just below or just above what some path gains from a place
    /// on.
    pub(super) fn close_gain(&mut self, place: usize) -> Node {
        let steps = self.rng.range(1, 6 - place.min(5));
        let path = self.random_path(place + steps);
        Node::Gain {
            steps: steps as u8,
            relation: self.relation(),
            bound: path.gain(place, steps) + self.rng.pick_or(&[0, 0, 0, -1, 1], 0),
        }
    }

    /// A path of so many steps from the question's start.
    pub(super) fn random_path(&mut self, steps: usize) -> Path {
        let mut path = Path::standing(self.question.start);
        for _ in 0..steps {
            let state = path.states.last().copied().unwrap_or(0);
            let moves = self.model.moves(state);
            let Some(entry) = moves.get(self.rng.below(moves.len())) else {
                break;
            };
            let outcome = self.rng.pick_or(&entry.outcomes, Outcome::default());
            path = path.extended(entry.action, &outcome);
        }
        path
    }

    /// The root: mostly a plan over a condition that tells plans apart.
    fn root(&mut self) -> Node {
        let path_formulas = self.question.path_formulas();
        let numbered = (0u8..).zip(&path_formulas);
        let conditions: Vec<u8> = numbered.filter(|n| *n.1).map(|n| n.0).collect();
        if let (true, Some(false)) = (self.rng.once_in(8), path_formulas.last()) {
            return Node::Not(path_formulas.len() as u8 - 1);
        }
        let mut root = None;
        for _ in 0..8 {
            // The last one mostly has the most nodes below it.
            let last = conditions.last().copied();
            let condition = last.filter(|_| self.rng.once_in(2));
            root = match condition.or(self.rng.pick(&conditions)) {
                Some(condition) => self.plan_over(condition),
                None => self.plan_over_any(),
            };
            if matches!(root, Some(Node::Plan(plan)) if self.tells_apart(&plan)) {
                break;
            }
        }
        root.unwrap_or(Node::False)
    }

    /// Whether two of some random plans differ in their totals.
    pub(super) fn tells_apart(&mut self, plan: &PlanNode) -> bool {
        let start = self.question.start;
        let first = self.random_total(plan, start);
        (0..4).any(|_| self.random_total(plan, start) != first)
    }

    fn plan_over_any(&mut self) -> Option<Node> {
        let condition = self.child()?;
        self.plan_over(condition)
    }

    /// A plan node over a condition, if some number of steps serves.
    pub(super) fn plan_over(&mut self, condition: u8) -> Option<Node> {
        let depths = self.question.depths();
        let depth = depths.get(usize::from(condition)).copied()?;
        let relation = self.relation();
        let serving = self.serving(relation, depth as u8);
        let mut plan = PlanNode {
            steps: self.rng.pick(&serving)?,
            summed: Summed::Weights { condition },
            relation,
            bound: Bound { p: 0, q: 1 },
        };
        plan.bound = self.bound(&plan, self.question.start);
        Some(Node::Plan(plan))
    }

    /// The numbers of steps, from `least` on, whose plans stay within the scale.
    pub(super) fn serving(&self, relation: Relation, least: u8) -> Vec<u8> {
        let steps = least.max(1)..=6;
        steps.filter(|steps| self.fits(*steps, relation)).collect()
    }

    /// Whether plans of so many steps stay within the scale.
    fn fits(&self, steps: u8, relation: Relation) -> bool {
        let steps = usize::from(steps);
        let states = 0..self.model.states() as u8;
        let counts = |state| {
            (
                self.totals.paths(steps, state),
                self.totals.plans(steps, state),
            )
        };
        states.map(counts).all(|(paths, plans)| {
            paths <= self.scale.paths && (relation != Relation::Equal || plans <= self.scale.plans)
        })
    }

    /// A loose bound for a plan node, or one close to the total of some plan
    /// from a state.
    pub(super) fn bound(&mut self, plan: &PlanNode, state: u8) -> Bound {
        if self.rng.once_in(3) {
            return bounds::loose(self.rng, plan.summed);
        }
        let whole = self.model.whole(plan.steps());
        let total = self.random_total(plan, state);
        bounds::close(self.rng, plan.summed, total, whole)
    }

    /// The total of some plan from a state.
    fn random_total(&mut self, node: &PlanNode, state: u8) -> i128 {
        let mut question = self.question.clone();
        question.start = state;
        question.nodes.push(Node::Plan(*node));
        let choices = random_choices(self.rng, self.model, state, node.steps());
        let plan = Plan::from_choices(self.model, state, node.steps(), &choices);
        plan.map_or(0, |plan| {
            fast::total_of(self.model, &question, node, &plan, self.totals)
        })
    }
}

/// The choices of a random plan.
pub(super) fn random_choices(rng: &mut Rng, model: &Model, state: u8, steps: usize) -> Vec<u8> {
    let moves = model.moves(state);
    let Some(entry) = moves.get(rng.below(moves.len())) else {
        return Vec::new();
    };
    let mut choices = vec![entry.action];
    if steps > 1 {
        for outcome in &entry.outcomes {
            choices.extend(random_choices(rng, model, outcome.target, steps - 1));
        }
    }
    choices
}
