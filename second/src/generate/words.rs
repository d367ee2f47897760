//! Inputs for the word sum (ground 2): each word of a model, a question and
//! some sheets changed alone, so that no place of a block can be left out of a
//! sum unseen, and blocks whose sums are right or wrong whatever they mean.

use super::cases::{self, Ends};
use super::model::Size;
use super::rng::Rng;
use super::streams::good_model;
use crate::blocks::{fix_word_sums, BLOCK};
use crate::bytes::{put, u16_at};
use crate::desk::{Call, Desk};
use std::ops::RangeInclusive;

/// The words of a block.
const WORDS: usize = BLOCK / 2;

/// Makes a call of its input.
type Make = fn(Vec<u8>) -> Call;

/// The one list of a seed; it has 5,111 calls, whatever the seed. All the words
/// of a model of 12 blocks are changed in turn, from the empty desk on, then
/// all those of a question and of the sheet of 3 blocks that answers it, then
/// those of a sheet of 2 blocks and of 1. Blocks that mean nothing come last,
/// while a model and a question are held.
pub fn words(rng: &mut Rng) -> Vec<Call> {
    let model = full_model(rng);
    let mut calls = each_word_changed(rng, &model, Call::Load);
    let asked = Asked::drawn(rng, 1365);
    calls.push(Call::Load(asked.model.clone()));
    calls.extend(each_word_changed(rng, &asked.question, Call::Put));
    calls.extend(asked.sheet_calls(rng));
    for size in [980, 490] {
        let asked = Asked::drawn(rng, size);
        calls.push(Call::Load(asked.model.clone()));
        calls.push(Call::Put(asked.question.clone()));
        calls.extend(asked.sheet_calls(rng));
    }
    for (call, counts) in TAKEN {
        calls.extend(meaningless(rng, counts).map(call));
    }
    calls
}

/// A random model of 32 states, which take 12 blocks, the most. One in seven
/// has so many.
fn full_model(rng: &mut Rng) -> Vec<u8> {
    let mut models = (0..1000).filter_map(|_| good_model(rng, Size::LARGE));
    let full = models.find(|(_, model, _)| model.states() == 32);
    full.map(|(bytes, _, _)| bytes).unwrap_or_default()
}

/// A model, a question that is judged yes on it, and the sheet then written.
#[derive(Default)]
struct Asked {
    model: Vec<u8>,
    question: Vec<u8>,
    sheet: Vec<u8>,
}

impl Asked {
    /// One whose plans have so many choices. Few bounds are too high for a yes.
    fn drawn(rng: &mut Rng, size: usize) -> Asked {
        let (model, start) = cases::plan_of_size(size, 6, Ends::Never);
        let questions = (0..100).map(|_| cases::question(start, &nodes(rng)));
        let mut asked = questions.map(|question| Asked::with_yes(&model, question));
        asked.find_map(|found| found).unwrap_or_default()
    }

    /// One with this question, if it is judged yes.
    fn with_yes(model: &[u8], question: Vec<u8>) -> Option<Asked> {
        let mut desk = Desk::default();
        desk.load(model).ok()?;
        desk.put(&question).ok()?;
        desk.judge().ok()?;
        let mut sheet = vec![0; 3 * BLOCK];
        let written = desk.write(&mut sheet).ok()?;
        sheet.truncate(written);
        Some(Asked {
            model: model.to_vec(),
            question,
            sheet,
        })
    }

    /// The question judged, its sheet written, and each word of that changed.
    fn sheet_calls(&self, rng: &mut Rng) -> Vec<Call> {
        let mut calls = vec![Call::Judge, Call::Write(vec![7; 3 * BLOCK])];
        calls.extend(each_word_changed(rng, &self.sheet, Call::Check));
        calls
    }
}

/// The nodes of a question that fills its block, so that its words sum to
/// several times 65,536: a gain, in 38 conjunctions with itself, and a plan.
fn nodes(rng: &mut Rng) -> Vec<String> {
    let gain = rng.range(0, 8) as i32 - 4;
    let mut nodes = vec![format!("gain 6 steps greater {gain}")];
    for own in 1..39 {
        nodes.push(format!("and {} {}", own - 1, rng.below(own)));
    }
    let q = rng.range(900_000, 1_000_000);
    let p = rng.below(q / 2);
    nodes.push(format!("plan 38 steps 6 greater {p}/{q}"));
    nodes
}

/// A way to change a word. It gives another word than it gets.
type Way = fn(&mut Rng, u16) -> u16;

/// The low byte, the high byte, both, 1 more, 1 less, the top bit, all bits,
/// the bytes exchanged.
const WAYS: [Way; 8] = [
    |rng, word| word ^ other_bits(rng),
    |rng, word| word ^ other_bits(rng) << 8,
    both_bytes,
    |_, word| word.wrapping_add(1),
    |_, word| word.wrapping_sub(1),
    |_, word| word ^ 0x8000,
    |_, word| !word,
    bytes_exchanged,
];

/// Some bits of a byte, at least one.
fn other_bits(rng: &mut Rng) -> u16 {
    rng.byte(1, 255).into()
}

fn both_bytes(rng: &mut Rng, word: u16) -> u16 {
    word ^ other_bits(rng) ^ other_bits(rng) << 8
}

/// Where the bytes are the same, which exchanging leaves, both are changed.
fn bytes_exchanged(rng: &mut Rng, word: u16) -> u16 {
    match word.swap_bytes() {
        same if same == word => both_bytes(rng, word),
        exchanged => exchanged,
    }
}

/// Calls with an input as it is, with each of its words changed alone, and as
/// it is again. Every eight words are changed in all eight ways, in an order
/// that is drawn anew.
fn each_word_changed(rng: &mut Rng, input: &[u8], call: Make) -> Vec<Call> {
    let mut calls = vec![call(input.to_vec())];
    let mut ways = WAYS;
    for place in 0..input.len() / 2 {
        let turn = place % ways.len();
        if turn == 0 {
            rng.shuffle(&mut ways);
        }
        let word = ways[turn](rng, u16_at(input, 2 * place));
        calls.push(call(with_words(input, &[(place, word)])));
    }
    calls.push(call(input.to_vec()));
    calls
}

/// The input with other words in some places.
fn with_words(input: &[u8], words: &[(usize, u16)]) -> Vec<u8> {
    let mut changed = input.to_vec();
    for (place, word) in words {
        put(&mut changed, 2 * place, &word.to_le_bytes());
    }
    changed
}

/// The calls that read blocks, each with the numbers of blocks that it takes.
const TAKEN: [(Make, RangeInclusive<usize>); 3] = [
    (Call::Load, 2..=12),
    (Call::Put, 1..=1),
    (Call::Check, 1..=3),
];

/// Inputs of no kind for a call that takes so many blocks: of right length,
/// with right sums (3) or wrong ones (2), and of wrong length and sums (1).
fn meaningless(rng: &mut Rng, counts: RangeInclusive<usize>) -> impl Iterator<Item = Vec<u8>> {
    let mut inputs = Vec::new();
    for blocks in 1..=13 {
        match counts.contains(&blocks) {
            true => inputs.extend(summed_blocks(rng, blocks)),
            false => inputs.push(vec![255; BLOCK * blocks]),
        }
    }
    let lengths = [BLOCK - 1, BLOCK + 1, 2 * BLOCK - 1];
    inputs.extend(lengths.map(|length| vec![255; length]));
    inputs.into_iter()
}

/// So many blocks of zeros; of 255s, whose sums are wrong; of 255s with sums
/// made right; of zeros but for one word, whose block's sum is wrong; and, if
/// there are two blocks, of zeros but for one word in the first and one in the
/// last, whose sums are wrong although all words together sum to zero.
fn summed_blocks(rng: &mut Rng, blocks: usize) -> Vec<Vec<u8>> {
    let zeros = vec![0; BLOCK * blocks];
    let full = vec![255; BLOCK * blocks];
    let mut mended = full.clone();
    fix_word_sums(&mut mended);
    let mut inputs = vec![zeros.clone(), full, mended];
    let last = WORDS * blocks - 1;
    for word in [1, 0x8000, 0xFFFF] {
        let places = [0, rng.range(1, last - 1), last];
        inputs.extend(places.map(|place| with_words(&zeros, &[(place, word)])));
    }
    if blocks > 1 {
        let early = rng.below(WORDS);
        let late = last - rng.below(WORDS);
        inputs.push(with_words(&zeros, &[(early, 1), (late, 0xFFFF)]));
    }
    inputs
}
