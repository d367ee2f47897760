//! The desk and its six calls, and lists of calls.

mod c_call;
mod calls;
mod line;
mod list;
mod pairs;
mod why;

pub use c_call::c_calls;
pub use calls::{stored, Desk, JudgeKind};
pub use line::{verdict_line, verdict_of};
pub use list::{adler, next_call, replay, Answer, Call, ROOM};
pub use pairs::pairs;
pub use why::{reason_calls, reason_lines, whynot_lines};
