//! The stream `words`: which words it changes, and how it is answered.

use second::blocks::BLOCK;
use second::desk::{replay, Call};
use second::generate::stream;
use std::collections::BTreeMap;
use std::ops::RangeInclusive;
use std::sync::LazyLock;

/// A call and the line that answers it.
type Answered = (Call, String);

/// The lists of the seeds 1, 2 and 3.
static LISTS: LazyLock<[Vec<Answered>; 3]> = LazyLock::new(|| {
    [1, 2, 3].map(|seed| {
        let mut list = Vec::new();
        replay(&whole_stream(seed), |call, answer, _| {
            list.push((call.clone(), answer.to_string()));
        });
        list
    })
});

fn whole_stream(seed: u64) -> Vec<u8> {
    stream("words", seed, usize::MAX).expect("kind")
}

fn input(call: &Call) -> &[u8] {
    match call {
        Call::Load(bytes) | Call::Put(bytes) | Call::Check(bytes) => bytes,
        Call::Judge | Call::Write(_) | Call::WriteModel(_) | Call::ByHand(_) => &[],
    }
}

fn words(bytes: &[u8]) -> Vec<u16> {
    let pairs = bytes.chunks_exact(2);
    pairs
        .map(|pair| u16::from_le_bytes([pair[0], pair[1]]))
        .collect()
}

/// The calls whose inputs have each word changed, with the inputs' blocks.
const ROUNDS: [(&str, usize); 5] = [
    ("load", 12),
    ("put", 1),
    ("check", 3),
    ("check", 2),
    ("check", 1),
];

/// The stretches of a list between an input and the same input after one call
/// for each of its words; and all other calls.
fn rounds(list: &[Answered]) -> (Vec<&[Answered]>, Vec<&Answered>) {
    let (mut rounds, mut others) = (Vec::new(), Vec::new());
    let mut at = 0;
    while at < list.len() {
        let words = input(&list[at].0).len() / 2;
        let end = at + words + 1;
        let again = list.get(end).is_some_and(|last| last.0 == list[at].0);
        if words > 0 && again {
            rounds.push(&list[at..=end]);
            at = end + 1;
        } else {
            others.push(&list[at]);
            at += 1;
        }
    }
    (rounds, others)
}

/// The place, the old and the new word of each change in a round. Each changed
/// input differs from the unchanged one in a single word.
fn changes(round: &[Answered]) -> Vec<(usize, u16, u16)> {
    let old = words(input(&round[0].0));
    let change = |(call, _): &Answered| {
        let new = words(input(call));
        assert_eq!(call.name(), round[0].0.name());
        assert_eq!(new.len(), old.len());
        let differing = (0..old.len()).filter(|place| old[*place] != new[*place]);
        let [place] = differing.collect::<Vec<_>>()[..] else {
            panic!("not one word is changed");
        };
        (place, old[place], new[place])
    };
    round[1..round.len() - 1].iter().map(change).collect()
}

#[test]
fn each_word_is_changed_once() {
    for list in LISTS.iter() {
        let (found, _) = rounds(list);
        assert_eq!(
            found[0][0], list[0],
            "the first call is made on the empty desk"
        );
        let shape = |round: &&[Answered]| (round[0].0.name(), input(&round[0].0).len() / BLOCK);
        assert_eq!(found.iter().map(shape).collect::<Vec<_>>(), ROUNDS);
        for (round, (_, blocks)) in found.iter().zip(ROUNDS) {
            let mut places: Vec<usize> = changes(round).iter().map(|change| change.0).collect();
            places.sort();
            assert_eq!(places, (0..256 * blocks).collect::<Vec<_>>());
        }
    }
}

#[test]
fn each_changed_word_is_refused_with_2() {
    for list in LISTS.iter() {
        for round in rounds(list).0 {
            let name = round[0].0.name();
            let accepted = match name {
                "check" => "check accepted met above".to_string(),
                _ => format!("{name} done"),
            };
            assert_eq!(round[0].1, accepted);
            assert_eq!(round[round.len() - 1].1, accepted);
            for (_, line) in &round[1..round.len() - 1] {
                assert_eq!(*line, format!("{name} refused 2"));
            }
        }
    }
}

const WAYS: [&str; 8] = [
    "1 more",
    "1 less",
    "top bit",
    "all bits",
    "exchanged",
    "low byte",
    "high byte",
    "both bytes",
];

/// How a word was changed, by the first of the ways that fits.
fn way(old: u16, new: u16) -> &'static str {
    let fits = [
        new == old.wrapping_add(1),
        new == old.wrapping_sub(1),
        new == old ^ 0x8000,
        new == !old,
        new == old.swap_bytes(),
        new >> 8 == old >> 8,
        new & 255 == old & 255,
        true,
    ];
    let first = fits.iter().position(|fits| *fits);
    WAYS[first.expect("the last always fits")]
}

/// Each way is often taken, in each of load, put and check. Words that were
/// zero are left aside: 1 less than zero is also zero with all bits changed.
#[test]
fn words_are_changed_in_all_ways() {
    let mut counts: BTreeMap<(&str, &str), usize> = BTreeMap::new();
    for round in LISTS.iter().flat_map(|list| rounds(list).0) {
        let name = round[0].0.name();
        for (_, old, new) in changes(round).into_iter().filter(|change| change.1 != 0) {
            *counts.entry((name, way(old, new))).or_default() += 1;
        }
    }
    for name in ["load", "put", "check"] {
        for way in WAYS {
            let count = counts.get(&(name, way)).copied().unwrap_or(0);
            assert!(count >= 20, "{name}: only {count} words changed by {way}");
        }
    }
}

type Make = fn(Vec<u8>) -> Call;

/// The calls that read blocks, and the numbers of blocks that they take.
const TAKEN: [(Make, RangeInclusive<usize>); 3] = [
    (Call::Load, 2..=12),
    (Call::Put, 1..=1),
    (Call::Check, 1..=3),
];

/// The words that the inputs of no kind have among zeros.
const AMONG_ZEROS: [u16; 3] = [1, 32_768, 65_535];

/// So many blocks that are zero but for one word.
fn zeros_but(blocks: usize, place: usize, word: u16) -> Vec<u8> {
    let mut bytes = vec![0; BLOCK * blocks];
    bytes[2 * place..2 * place + 2].copy_from_slice(&word.to_le_bytes());
    bytes
}

/// Zeros (3), 255s (2), and 255s with the sum made right (3): 255 times 65,535
/// and 255 is 255 times 65,536. Zeros with one other word in the first and in
/// the last place (2). Lengths that the call does not take (1).
#[test]
fn blocks_of_no_kind() {
    for list in LISTS.iter() {
        let (_, others) = rounds(list);
        for (call, counts) in TAKEN {
            let answered = |bytes: Vec<u8>, ground: u8| {
                let call = call(bytes);
                let line = format!("{} refused {ground}", call.name());
                assert!(others.contains(&&(call, line)), "{counts:?}: {ground}");
            };
            for blocks in counts.clone() {
                let mut full = vec![255; BLOCK * blocks];
                answered(full.clone(), 2);
                full.chunks_mut(BLOCK).for_each(|block| block[511] = 0);
                answered(full, 3);
                answered(vec![0; BLOCK * blocks], 3);
                for word in AMONG_ZEROS {
                    answered(zeros_but(blocks, 0, word), 2);
                    answered(zeros_but(blocks, 256 * blocks - 1, word), 2);
                }
            }
            for blocks in (1..=13).filter(|blocks| !counts.contains(blocks)) {
                answered(vec![255; BLOCK * blocks], 1);
            }
            for length in [511, 513, 1023] {
                answered(vec![255; length], 1);
            }
        }
    }
}

/// The words other than zero, with their places, of each of the inputs of so
/// many blocks with which a call is refused with 2.
fn among_zeros(calls: &[&Answered], name: &str, blocks: usize) -> Vec<Vec<(usize, u16)>> {
    let refused = format!("{name} refused 2");
    let fitting = |(call, line): &&&Answered| {
        let length = input(call).len();
        length == BLOCK * blocks && *line == refused
    };
    let other_words = |(call, _): &&Answered| {
        let numbered = words(input(call)).into_iter().enumerate();
        numbered.filter(|(_, word)| *word != 0).collect()
    };
    calls.iter().filter(fitting).map(other_words).collect()
}

/// For each length also zeros with one other word in between (2) and, from two
/// blocks on, with two that make up for each other, in the first block and in
/// the last (2).
#[test]
fn words_in_between_and_in_two_blocks() {
    for list in LISTS.iter() {
        let (_, others) = rounds(list);
        for (call, counts) in TAKEN {
            let name = call(Vec::new()).name();
            for blocks in counts {
                let found = among_zeros(&others, name, blocks);
                let last = 256 * blocks - 1;
                for wanted in AMONG_ZEROS {
                    let between = found.iter().any(|words| match words[..] {
                        [(place, word)] => word == wanted && place > 0 && place < last,
                        _ => false,
                    });
                    assert!(between, "{name}: {blocks} blocks, {wanted}");
                }
                let in_two = found.iter().any(|words| match words[..] {
                    [(early, 1), (late, 65_535)] => early < 256 && late > last - 256,
                    _ => false,
                });
                assert_eq!(in_two, blocks > 1, "{name}: {blocks} blocks");
            }
        }
    }
}

/// How many calls have each answer. Load takes 11 lengths of whole blocks, put
/// 1, check 3; for each there are 255s and 9 inputs with one word (2), for all
/// but one block also an input with two words (2), and zeros and 255s made
/// right (3).
#[test]
fn answers_counted() {
    let wanted = [
        ("load done", 2 + 3),
        ("load refused 1", 2 + 3),
        ("load refused 2", 12 * 256 + 11 * (1 + 9 + 1)),
        ("load refused 3", 11 * 2),
        ("put done", 2 + 2),
        ("put refused 1", 12 + 3),
        ("put refused 2", 256 + (1 + 9)),
        ("put refused 3", 2),
        ("check accepted met above", 3 * 2),
        ("check refused 1", 10 + 3),
        ("check refused 2", (3 + 2 + 1) * 256 + 3 * (1 + 9) + 2),
        ("check refused 3", 3 * 2),
    ];
    for list in LISTS.iter() {
        for (answer, count) in wanted {
            let found = list.iter().filter(|(_, line)| line == answer).count();
            assert_eq!(found, count, "{answer}");
        }
        let judged = list.iter().filter(|(call, _)| *call == Call::Judge);
        let plans: Vec<usize> = judged.map(|(_, line)| choices(line)).collect();
        assert_eq!(plans, [1365, 980, 490]);
        let written: Vec<&str> = list.iter().filter_map(|(_, line)| written(line)).collect();
        assert_eq!(written, ["1536", "1024", "512"]);
        let all: usize = wanted.iter().map(|(_, count)| count).sum();
        assert_eq!(list.len(), all + 3 + 3);
    }
}

/// The number of choices that a verdict shows.
fn choices(line: &str) -> usize {
    let shown = line.split_once("choices");
    shown.map_or(0, |(_, choices)| choices.split_whitespace().count())
}

/// The number of bytes that a write says it wrote.
fn written(line: &str) -> Option<&str> {
    line.strip_prefix("write ")?.split(' ').next()
}

/// A list asked for with a smaller count is the same list, cut off.
#[test]
fn counts_only_cut() {
    let whole = whole_stream(1);
    for count in [0, 1, 100, 4_000] {
        let cut = stream("words", 1, count).expect("kind");
        let records = LISTS[0][..count].iter().map(|(call, _)| call.record());
        assert_eq!(cut.len(), records.map(|record| record.len()).sum());
        assert!(whole.starts_with(&cut));
    }
    // The length that `src/generate/words.rs` gives.
    assert_eq!(LISTS[0].len(), 5_111);
}
