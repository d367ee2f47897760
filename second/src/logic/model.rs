//! Models: Markov decision processes with pre- and postconditions (source
//! document 001, Definition 1) and a reward on each outcome.

/// A conjunction of literals. Bit i stands for proposition i; two zero masks
/// are the empty conjunction, which is always true.
#[derive(Clone, Copy, Debug, Default, PartialEq, Eq)]
pub struct Literals {
    pub demanded_true: u32,
    pub demanded_false: u32,
}

impl Literals {
    /// Whether the conjunction is true where exactly these propositions are.
    pub fn true_in(self, truths: u32) -> bool {
        truths & self.demanded_true == self.demanded_true && truths & self.demanded_false == 0
    }

    /// Whether one demands true what the other demands false.
    pub fn contradicts(&self, other: &Literals) -> bool {
        self.demanded_true & other.demanded_false != 0
            || self.demanded_false & other.demanded_true != 0
    }
}

/// An action's precondition and its possible outcomes as postconditions.
#[derive(Clone, Debug, PartialEq, Eq)]
pub struct Action {
    pub precondition: Literals,
    pub postconditions: Vec<Literals>,
}

/// Where a postcondition leads from a state, how likely and for what reward.
#[derive(Clone, Copy, Debug, Default, PartialEq, Eq)]
pub struct Outcome {
    pub target: u8,
    pub weight: u8,
    pub reward: i16,
}

/// The choice byte of the silent move (document 02, A.1), which is no action.
pub const SILENT: u8 = 255;

/// What can be chosen in a state: an enabled action with its outcomes in
/// postcondition order or, where none is enabled, the silent move.
#[derive(Clone, Debug, PartialEq, Eq)]
pub struct Move {
    /// The action's number, or `SILENT`.
    pub action: u8,
    pub outcomes: Vec<Outcome>,
}

impl Move {
    /// The silent move of a state: back to itself with the whole weight and
    /// no reward.
    pub fn silent(state: u8, denominator: u8) -> Move {
        Move {
            action: SILENT,
            outcomes: vec![Outcome {
                target: state,
                weight: denominator,
                reward: 0,
            }],
        }
    }

    pub fn is_silent(&self) -> bool {
        self.action == SILENT
    }
}

/// An accepted model. Probabilities are weights over one denominator.
#[derive(Clone, Debug, PartialEq, Eq)]
pub struct Model {
    pub propositions: u8,
    pub denominator: u8,
    /// The true propositions of each state, as a mask.
    pub valuation: Vec<u32>,
    pub actions: Vec<Action>,
    /// The enabled actions of each state, in rising order; the silent move
    /// alone where there are none. So no state is without a move.
    pub moves: Vec<Vec<Move>>,
}

impl Model {
    pub fn states(&self) -> usize {
        self.valuation.len()
    }

    /// The moves that can be chosen in a state.
    pub fn moves(&self, state: u8) -> &[Move] {
        self.moves
            .get(usize::from(state))
            .map_or(&[], Vec::as_slice)
    }

    /// Whether no action is enabled in a state.
    pub fn is_silent(&self, state: u8) -> bool {
        self.moves(state).iter().any(Move::is_silent)
    }

    /// What a choice leads to from a state where it can be made.
    pub fn outcomes(&self, state: u8, action: u8) -> &[Outcome] {
        let mut moves = self.moves(state).iter();
        moves
            .find(|entry| entry.action == action)
            .map_or(&[], |entry| entry.outcomes.as_slice())
    }

    /// Whether a proposition is true in a state.
    pub fn holds(&self, state: u8, proposition: u8) -> bool {
        let truths = self.valuation.get(usize::from(state));
        truths.is_some_and(|mask| u64::from(*mask) >> proposition.min(63) & 1 == 1)
    }

    /// The weight of all paths of so many steps together: D to that power.
    pub fn whole(&self, steps: usize) -> u64 {
        (0..steps).fold(1, |product: u64, _| {
            product.saturating_mul(u64::from(self.denominator))
        })
    }
}
