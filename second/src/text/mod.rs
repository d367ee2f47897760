//! A readable text form of models, questions and sheets; `TEXT-FORM.md` has
//! its grammar. Packing is structural: it lays out wrong things as well, for
//! the judge to refuse.

mod damage;
mod model;
mod names;
mod pack;
mod question;
mod sheet;
mod show;
mod words;

pub use pack::{pack_text, Packer, Part, TextError};
pub use show::{show_blocks, show_question};
