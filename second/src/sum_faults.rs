//! Judges that sum the words of a block wrongly, each in one way, and are right
//! in all else: which calls of a stream they answer otherwise than a right one
//! does. A stream in which they answer all alike cannot tell them from it.

use crate::blocks::BLOCK;
use crate::bytes::u16_at;
use crate::desk::{replay, Answer, Call};
use crate::ground::Ground;
use std::collections::BTreeMap;

/// How a judge sums the words of blocks.
#[derive(Clone, Copy, Debug, PartialEq, Eq, PartialOrd, Ord)]
pub enum WordSum {
    /// As document 01 says. It is told from a right one by no call.
    Right,
    LastWordOut,
    FirstWordOut,
    /// The last word but one is left out. It is spare in blocks of every kind,
    /// so that only a change of just this word tells.
    SpareWordOut,
    OnlyFirstBlock,
    LastBlockOut,
    /// The words of all blocks are summed together, and not block by block.
    BlocksTogether,
    Modulo65535,
    /// The top bit is not seen.
    Modulo32768,
    /// Only the low bytes are seen.
    Modulo256,
    /// 65,536 is taken off once at the end, and not as often as it can be.
    TakenOffOnce,
    /// The first byte of a word is taken for the high one.
    BytesSwapped,
    BytesForWords,
    Xored,
    /// The sum stops at 65,535.
    Saturating,
    /// What is over 65,535 is added at the low end.
    EndAroundCarry,
}

pub const ALL: [WordSum; 16] = [
    WordSum::Right,
    WordSum::LastWordOut,
    WordSum::FirstWordOut,
    WordSum::SpareWordOut,
    WordSum::OnlyFirstBlock,
    WordSum::LastBlockOut,
    WordSum::BlocksTogether,
    WordSum::Modulo65535,
    WordSum::Modulo32768,
    WordSum::Modulo256,
    WordSum::TakenOffOnce,
    WordSum::BytesSwapped,
    WordSum::BytesForWords,
    WordSum::Xored,
    WordSum::Saturating,
    WordSum::EndAroundCarry,
];

/// How often a judge with such a sum answers otherwise, for each call.
pub type Differences = BTreeMap<(WordSum, &'static str), usize>;

/// Replays a stream from the empty desk beside a judge with each sum. Each of
/// their calls is made on what the right desk holds.
pub fn differences(stream: &[u8]) -> Differences {
    let mut counts = Differences::new();
    replay(stream, |call, answer, _| {
        let Some((blocks, refusal)) = summed(call, answer) else {
            return;
        };
        let right = refusal != Some(Ground::WordSum);
        for sum in ALL {
            // A wrong sum decides between ground 2 and all that comes after it.
            // Nothing there reads the last words, which only the sum uses: it
            // is the answer to the input with its sums made right, and not 2.
            if sum.passes(blocks) != right {
                *counts.entry((sum, call.name())).or_default() += 1;
            }
        }
    });
    counts
}

/// The blocks that a call comes to sum, and its refusal. State and length are
/// tested before.
fn summed<'a>(call: &'a Call, answer: &Answer) -> Option<(&'a [u8], Option<Ground>)> {
    let (bytes, refusal) = match (call, answer) {
        (Call::Load(bytes), Answer::Load(answer)) => (bytes, answer.err()),
        (Call::Put(bytes), Answer::Put(answer)) => (bytes, answer.err()),
        (Call::Check(bytes), Answer::Check(answer)) => (bytes, answer.err()),
        _ => return None,
    };
    let before = |ground| ground == Ground::Length || ground >= Ground::NoModel;
    (!refusal.is_some_and(before)).then_some((bytes, refusal))
}

impl WordSum {
    /// Whether a judge with this sum finds no ground 2 against whole blocks.
    fn passes(self, bytes: &[u8]) -> bool {
        let count = bytes.len() / BLOCK;
        let (size, parts) = match self {
            WordSum::OnlyFirstBlock => (BLOCK, 1),
            WordSum::LastBlockOut => (BLOCK, count.saturating_sub(1)),
            WordSum::BlocksTogether => (bytes.len().max(BLOCK), 1),
            _ => (BLOCK, count),
        };
        let mut parts = bytes.chunks(size).take(parts);
        parts.all(|part| self.of(part) == 0)
    }

    /// What is taken for the sum of some blocks.
    fn of(self, blocks: &[u8]) -> u32 {
        const WORDS: usize = BLOCK / 2;
        let words = || blocks.chunks(2).map(|word| u16_at(word, 0));
        let all = || words().map(u32::from);
        let but = |place| all().take(place).chain(all().skip(place + 1));
        let around = |sum: u32| sum % 65_536 + sum / 65_536;
        match self {
            WordSum::Right
            | WordSum::OnlyFirstBlock
            | WordSum::LastBlockOut
            | WordSum::BlocksTogether => all().sum::<u32>() % 65_536,
            WordSum::LastWordOut => but(WORDS - 1).sum::<u32>() % 65_536,
            WordSum::FirstWordOut => but(0).sum::<u32>() % 65_536,
            WordSum::SpareWordOut => but(WORDS - 2).sum::<u32>() % 65_536,
            WordSum::Modulo65535 => all().sum::<u32>() % 65_535,
            WordSum::Modulo32768 => all().sum::<u32>() % 32_768,
            WordSum::Modulo256 => all().sum::<u32>() % 256,
            WordSum::TakenOffOnce => match all().sum::<u32>() {
                sum if sum < 65_536 => sum,
                sum => sum - 65_536,
            },
            WordSum::BytesSwapped => {
                let swapped = words().map(|word| u32::from(word.swap_bytes()));
                swapped.sum::<u32>() % 65_536
            }
            WordSum::BytesForWords => blocks.iter().copied().map(u32::from).sum::<u32>() % 65_536,
            WordSum::Xored => all().fold(0, |sum, word| sum ^ word),
            WordSum::Saturating => words().fold(0, u16::saturating_add).into(),
            WordSum::EndAroundCarry => all().fold(0, |sum, word| around(sum + word)),
        }
    }
}
