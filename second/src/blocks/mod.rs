//! Stored blocks of 512 bytes: models, questions and sheets, read and packed.
//!
//! An *image* holds the fields of a stored thing as they stand in its blocks,
//! right or wrong. Readers judge an image ground by ground; packing lays any
//! image out, so that wrong blocks can be made as well.

mod frame;
mod model_grounds;
mod model_image;
mod model_packed;
mod question_grounds;
mod question_image;
mod sheet;

pub use frame::{fix_word_sum, fix_word_sums, word_sum, BLOCK};
pub use model_grounds::read_model;
pub use model_image::{ActionImage, ModelImage, OutcomeImage, RowBlock, MODEL_BLOCKS};
pub use question_grounds::{read_formula, read_question};
pub use question_image::{NodeImage, QuestionImage};
pub use sheet::{read_sheet, Sheet, SHEET_CHOICES};
