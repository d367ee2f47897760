//! The stream `words` tells a judge with a wrong word sum from a right one, in
//! every call that reads blocks.

use second::generate::stream;
use second::sum_faults::{differences, Differences, WordSum, ALL};

const CALLS: [&str; 3] = ["load", "put", "check"];

/// Sums that accepted blocks do not pass are told by each accepted input and,
/// for each length, by the 255s whose sum is made right.
const REFUSING: [usize; 3] = [5 + 11, 4 + 1, 6 + 3];

/// So many loads, puts and checks of a seed's list a judge with this sum
/// answers wrongly, at least; 0 where it cannot err. The list has 12 blocks for
/// load, 1 for put and 6 in sheets whose words are all changed; inputs of no
/// kind in 11, 1 and 3 lengths; every way to change a word is taken once in
/// eight words.
const TOLD: [(WordSum, [usize; 3]); 16] = [
    (WordSum::Right, [0, 0, 0]),
    (WordSum::LastWordOut, REFUSING),
    (WordSum::FirstWordOut, REFUSING),
    // One word of each block, and the 255s made right.
    (WordSum::SpareWordOut, [12 + 11, 1 + 1, 6 + 3]),
    // All blocks but the first of each input, and the last word of zeros. The
    // input of put is one block.
    (
        WordSum::OnlyFirstBlock,
        [11 * 256 + 3 * 11, 0, (2 + 1) * 256 + 3 * 2],
    ),
    // The last block of each input, and the last word of zeros; of one block
    // everything.
    (
        WordSum::LastBlockOut,
        [256 + 3 * 11, 256 + (1 + 9), 3 * 256 + (1 + 9) + 3 * 2],
    ),
    // Two words that make up for each other. The input of put is one block.
    (WordSum::BlocksTogether, [11, 0, 2]),
    // Also 255s, and zeros with 65,535 in three places.
    (
        WordSum::Modulo65535,
        [16 + 11 * (1 + 3), 5 + (1 + 3), 9 + 3 * (1 + 3)],
    ),
    // The top bit, and zeros with 32,768 in three places.
    (
        WordSum::Modulo32768,
        [12 * 32 + 11 * 3, 32 + 3, 6 * 32 + 3 * 3],
    ),
    // The top bit and the high byte; zeros with 32,768; 255s.
    (
        WordSum::Modulo256,
        [12 * 64 + 11 * (3 + 1), 64 + (3 + 1), 6 * 64 + 3 * (3 + 1)],
    ),
    (WordSum::TakenOffOnce, REFUSING),
    (WordSum::BytesSwapped, REFUSING),
    (WordSum::BytesForWords, REFUSING),
    // Also 255s.
    (WordSum::Xored, [16 + 11, 5 + 1, 9 + 3]),
    (WordSum::Saturating, REFUSING),
    (WordSum::EndAroundCarry, REFUSING),
];

#[test]
fn words_tell_wrong_sums() {
    for seed in 1..=3 {
        let counts = differences(&stream("words", seed, usize::MAX).expect("kind"));
        for (sum, fewest) in TOLD {
            for (call, fewest) in CALLS.into_iter().zip(fewest) {
                told(&counts, sum, call, fewest);
            }
        }
    }
}

fn told(counts: &Differences, sum: WordSum, call: &'static str, fewest: usize) {
    let count = counts.get(&(sum, call)).copied().unwrap_or(0);
    assert!(
        count >= fewest,
        "{sum:?} is wrong on only {count} of the calls {call}"
    );
    assert!(fewest > 0 || count == 0, "{sum:?} is wrong on {call}");
}

/// No sum is left out above.
#[test]
fn every_sum_is_there() {
    assert_eq!(TOLD.map(|(sum, _)| sum), ALL);
}

/// A right sum is told by no call, also where others are refused before it.
#[test]
fn a_right_sum_is_not_told() {
    for kind in ["models", "questions", "sheets", "lists"] {
        let counts = differences(&stream(kind, 1, 2_000).expect("kind"));
        assert!(
            counts.keys().all(|(sum, _)| *sum != WordSum::Right),
            "{kind}"
        );
        assert!(!counts.is_empty(), "{kind}");
    }
}
