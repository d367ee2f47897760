//! The logic of bounded policies with rewards along a path: models, formulas,
//! plans and two judges of plan questions.

mod formula;
mod lamp;
mod limits;
mod model;
mod path;
mod plan;
mod reason;
mod verdict;

pub mod fast;
pub mod plain;

pub use formula::{Bound, Node, PlanNode, Question, Relation, Summed};
pub use lamp::Lamp;
pub use limits::{check_limits, Totals, MOST_PATHS, MOST_PLANS};
pub use model::{Action, Literals, Model, Move, Outcome, SILENT};
pub use path::Path;
pub use plan::Plan;
pub use reason::{Reached, Reason};
pub use verdict::{Checked, Judged, PlanRecord, Verdict};
