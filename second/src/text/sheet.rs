//! The lines of a sheet.

use super::names::ModelNames;
use super::words::Words;
use crate::blocks::Sheet;
use crate::logic::SILENT;

/// A sheet has room for no more choices than its three blocks; a text may
/// make a fourth block to be refused.
const MOST_CHOICES: usize = 4 * 490;

/// `sheet n 2 start 0 weight 45`, or with `total -20` for a total of gains,
/// which has a sign.
pub(super) fn begin(words: &mut Words, names: &ModelNames) -> Result<Sheet, String> {
    words.take_word("n")?;
    let steps = words.take_number("n")?;
    words.take_word("start")?;
    let start = names.states.number(&words.take("the start state")?)?;
    let total = match words.take_if("total") {
        true => words.take_number::<i64>("the total")? as u64,
        false => {
            words.take_word("weight")?;
            words.take_number("the weight")?
        }
    };
    words.end()?;
    Ok(Sheet {
        steps,
        start,
        total,
        choices: Vec::new(),
    })
}

/// The word for the choice byte 255.
pub(super) const SILENT_WORD: &str = "silent";

/// `choices 1 2 silent`: further choices, by number or name.
pub(super) fn line(sheet: &mut Sheet, words: &mut Words, names: &ModelNames) -> Result<(), String> {
    words.take_word("choices")?;
    while words.peek().is_some() {
        let word = words.take("a choice")?;
        sheet.choices.push(match word.as_str() {
            SILENT_WORD => SILENT,
            _ => names.actions.number(&word)?,
        });
    }
    if sheet.choices.len() > MOST_CHOICES {
        return Err(format!("a text has at most {MOST_CHOICES} choices"));
    }
    Ok(())
}
