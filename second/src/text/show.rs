//! From blocks to text. What lines cannot tell is told by directives, so that
//! packing the text gives back the very bytes, accepted or not.

use super::names::ModelNames;
use super::pack::pack_text;
use super::question::node;
use super::sheet::SILENT_WORD;
use super::words::Words;
use crate::blocks::{word_sum, ModelImage, NodeImage, QuestionImage, Sheet, BLOCK};
use crate::bytes::u8_at;
use crate::logic::{Literals, Question, SILENT};

/// The text of a stream of models, questions and sheets.
pub fn show_blocks(bytes: &[u8]) -> String {
    let mut text = String::new();
    let mut rest = bytes;
    while !rest.is_empty() {
        let (section, after) = rest.split_at(section_len(rest));
        text.push_str(&section_text(section));
        rest = after;
    }
    text
}

/// Lines in words, with directives for the bytes that they do not tell; or
/// else plain bytes.
fn section_text(section: &[u8]) -> String {
    let lines = match (u8_at(section, 0), section.len() % BLOCK) {
        (1, 0) => model_lines(&ModelImage::unpack(section)),
        (3, 0) => question_lines(&QuestionImage::unpack(section)),
        (4, 0) => sheet_lines(&Sheet::unpack(section)),
        _ => return bytes_lines(section),
    };
    match pack_text(&lines) {
        Ok(packed) if packed.len() == section.len() => lines + &repairs(&packed, section),
        _ => bytes_lines(section),
    }
}

/// The text of a question.
pub fn show_question(question: &Question) -> String {
    question_lines(&QuestionImage::from(question))
}

/// How many bytes belong to the thing that begins here: a head with the rows
/// after it, a question, a sheet with its further blocks, or a lone block.
fn section_len(bytes: &[u8]) -> usize {
    let follows = |block: &[u8]| match u8_at(bytes, 0) {
        1 => block.len() == BLOCK && u8_at(block, 0) == 2,
        4 => block.len() == BLOCK && u8_at(block, 0) == 4 && u8_at(block, 1) != 0,
        _ => false,
    };
    let mut blocks = bytes.chunks(BLOCK).skip(1);
    let more = blocks.position(|block| !follows(block));
    let all = bytes.len().div_ceil(BLOCK) - 1;
    (BLOCK * (1 + more.unwrap_or(all))).min(bytes.len())
}

/// Directives for each byte in which the packed lines differ.
fn repairs(packed: &[u8], section: &[u8]) -> String {
    let mut text = String::new();
    let blocks = section.chunks(BLOCK).zip(packed.chunks(BLOCK));
    for (number, (block, made)) in blocks.enumerate() {
        for offset in (0..BLOCK - 2).filter(|at| u8_at(block, *at) != u8_at(made, *at)) {
            let value = u8_at(block, offset);
            text += &format!("byte {} {value}\n", BLOCK * number + offset);
        }
        if block.len() == BLOCK && word_sum(block) != 0 {
            for offset in [BLOCK - 2, BLOCK - 1] {
                let value = u8_at(block, offset);
                text += &format!("raw-byte {} {value}\n", BLOCK * number + offset);
            }
        }
    }
    text
}

fn bytes_lines(bytes: &[u8]) -> String {
    let line = |part: &[u8]| {
        let words: String = part.iter().map(|byte| format!(" {byte:02x}")).collect();
        format!("bytes{words}\n")
    };
    bytes.chunks(32).map(line).collect()
}

fn model_lines(image: &ModelImage) -> String {
    let (states, actions) = (image.states.min(32), image.actions.min(8));
    let propositions = image.propositions.min(32);
    let mut text = format!("model D {}", image.denominator);
    let counts = [
        ("S", image.states, states),
        ("A", image.actions, actions),
        ("N", image.propositions, propositions),
    ];
    for (field, stored, told) in counts {
        if stored != told {
            text += &format!(" {field} {stored}");
        }
    }
    if image.rows.len() != ModelImage::rows_for(image.states) {
        text += &format!(" blocks {}", 1 + image.rows.len());
    }
    text.push('\n');
    for number in 0..propositions {
        text += &format!("proposition {number} p{number}\n");
    }
    for (number, mask) in (0..states).zip(image.masks) {
        let truths = proposition_words(mask, propositions, "");
        text += &format!("state {number} s{number}:{truths}\n");
    }
    for number in 0..actions {
        text += &action_lines(image, number, propositions);
    }
    for state in 0..states {
        for action in 0..actions {
            text += &outcome_line(image, state, action);
        }
    }
    text
}

/// The propositions of a mask as words, each after a space.
fn proposition_words(mask: u32, propositions: u8, sign: &str) -> String {
    let listed = (0..propositions).filter(|number| u64::from(mask) >> number & 1 == 1);
    listed.map(|number| format!(" {sign}p{number}")).collect()
}

fn literal_words(literals: &Literals, propositions: u8) -> String {
    let words = proposition_words(literals.demanded_true, propositions, "")
        + &proposition_words(literals.demanded_false, propositions, "!");
    match words.is_empty() {
        true => " always".to_string(),
        false => words,
    }
}

fn action_lines(image: &ModelImage, number: u8, propositions: u8) -> String {
    let Some(action) = image.moves.get(usize::from(number)) else {
        return String::new();
    };
    let needs = literal_words(&action.precondition, propositions);
    let mut text = format!("action {number} a{number} needs{needs}\n");
    for post in action.posts.iter().take(action.count.into()) {
        text += &format!("  post{}\n", literal_words(post, propositions));
    }
    if usize::from(action.count) > action.posts.len() {
        text += &format!("  posts {}\n", action.count);
    }
    text
}

/// The outcomes of an action where it is enabled.
fn outcome_line(image: &ModelImage, state: u8, action: u8) -> String {
    let mask = image.masks.get(usize::from(state));
    let entry = image.moves.get(usize::from(action));
    let (Some(mask), Some(entry)) = (mask, entry) else {
        return String::new();
    };
    let stored = image.rows.len() > usize::from(state) / 3;
    if !entry.precondition.true_in(*mask) || entry.count == 0 || !stored {
        return String::new();
    }
    let outcomes = image.outcomes(usize::from(state), usize::from(action));
    let named = |target: u8| match target < image.states.min(32) {
        true => format!("s{target}"),
        false => target.to_string(),
    };
    let words: Vec<String> = outcomes
        .iter()
        .take(usize::from(entry.count))
        .map(|o| {
            format!(
                "{} weight {} reward {}",
                named(o.target),
                o.weight,
                o.reward
            )
        })
        .collect();
    format!("outcome s{state} a{action}: {}\n", words.join(", "))
}

fn question_lines(image: &QuestionImage) -> String {
    let counted = image.counted();
    let mut text = format!("question start {}", image.start);
    if usize::from(image.count) != counted.len() {
        text += &format!(" nodes {}", image.count);
    }
    text.push('\n');
    for (number, node) in counted.iter().enumerate() {
        text += &format!("{number} {}\n", node_words(node));
    }
    text
}

/// The node in words, or as raw fields where no words pack to it.
fn node_words(image: &NodeImage) -> String {
    let NodeImage {
        operator,
        steps,
        left,
        right,
        p,
        q,
    } = *image;
    let relation = match right {
        1 => "less",
        2 => "equal",
        _ => "greater",
    };
    let words = match operator {
        1 => "false".to_string(),
        2 => format!("proposition {left}"),
        3 => format!("not {left}"),
        4 => format!("and {left} {right}"),
        5 => format!("do {left}"),
        6 => format!("next {left}"),
        7 => format!("gain {steps} steps {relation} {p}"),
        9 => {
            let (first, last) = (left % 8, left / 8);
            format!("plan gain {first} to {last} steps {steps} {relation} {p}/{q}")
        }
        _ => format!("plan {left} steps {steps} {relation} {p}/{q}"),
    };
    let packed = node(&mut Words::of(&words), &ModelNames::default());
    match packed.as_ref() == Ok(image) {
        true => words,
        false => format!("raw {operator} {steps} {left} {right} {p} {q}"),
    }
}

fn sheet_lines(sheet: &Sheet) -> String {
    let (steps, start) = (sheet.steps, sheet.start);
    let total = total_words(sheet.total);
    let mut text = format!("sheet n {steps} start {start} {total}\n");
    for part in sheet.choices.chunks(30) {
        let words: String = part.iter().map(|choice| choice_word(*choice)).collect();
        text += &format!("choices{words}\n");
    }
    text
}

/// A sheet does not tell which of the two its bytes are. No weight is so great
/// that they could be a negative total as well.
fn total_words(stored: u64) -> String {
    match stored as i64 {
        total if total < 0 => format!("total {total}"),
        _ => format!("weight {stored}"),
    }
}

/// A choice after a space.
fn choice_word(choice: u8) -> String {
    match choice {
        SILENT => format!(" {SILENT_WORD}"),
        action => format!(" {action}"),
    }
}
