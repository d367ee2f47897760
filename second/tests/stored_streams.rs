//! The streams that write models (document 02, A.7): what each model written must
//! be, and what `stored` has.

use second::blocks::{read_model, ModelImage};
use second::desk::{next_call, Answer, Call, Desk, ROOM};
use second::generate::stream;
use second::ground::Ground;
use second::tally::{tally, Tally};

/// Every accepted model, also with fields that no verdict reads, is given back by
/// its decoded form.
#[test]
fn decoded_models_have_all_fields() {
    let mut accepted = 0;
    for (kind, count) in [("models", 4_000), ("stored", 3_000), ("judges", 500)] {
        let bytes = stream(kind, 21, count).expect("kind");
        let mut rest = bytes.as_slice();
        while let Some(call) = next_call(&mut rest) {
            let Call::Load(bytes) = call else { continue };
            if let Ok(model) = read_model(&bytes) {
                assert_eq!(ModelImage::from(&model).pack(), bytes);
                accepted += 1;
            }
        }
    }
    assert!(accepted > 1_500, "{accepted}");
}

/// What must be written, kept by this test and not by a desk: the bytes of the
/// last load done, or of a desk by hand that would load.
fn keep(kept: &mut Option<Vec<u8>>, call: &Call, answer: &Answer) {
    if let (Call::Load(bytes), Answer::Load(Ok(()))) = (call, answer) {
        *kept = Some(bytes.clone());
    }
    if let Some((blocks, room)) = call.said() {
        let length = (512 * u128::from(blocks)).min(6_144) as usize;
        let accepted = Desk::default().load(&room[..length]).is_ok();
        *kept = accepted.then(|| room[..length].to_vec());
    }
}

#[test]
fn streams_write_what_was_loaded() {
    for (kind, seed) in [("stored", 1), ("stored", 5), ("lists", 1), ("lists", 5)] {
        let bytes = stream(kind, seed, 20_000).expect("kind");
        let (mut rest, mut desk) = (bytes.as_slice(), Desk::default());
        let mut kept = None;
        let mut written = 0;
        while let Some(call) = next_call(&mut rest) {
            let answer = call.make(&mut desk);
            keep(&mut kept, &call, &answer);
            if let (Call::WriteModel(lent), Answer::WriteModel(found, after)) = (&call, &answer) {
                let (wanted, bytes) = wanted(kept.as_deref(), lent);
                assert_eq!((*found, after), (wanted, &bytes));
                written += usize::from(found.is_ok());
            }
        }
        assert!(written > 2_000, "{kind}: {written}");
    }
}

fn wanted(kept: Option<&[u8]>, lent: &[u8]) -> (Result<usize, Ground>, Vec<u8>) {
    match kept {
        None => (Err(Ground::NoModel), lent.to_vec()),
        Some(model) if model.len() > lent.len() => (Err(Ground::ShortBuffer), lent.to_vec()),
        Some(model) => (Ok(model.len()), [model, &lent[model.len()..]].concat()),
    }
}

/// A second desk that loads only what the first one wrote answers every call as
/// the first one does.
#[test]
fn written_models_answer_as_the_loaded_ones() {
    let bytes = stream("stored", 6, 8_000).expect("stored");
    let (mut rest, mut desk, mut other) = (bytes.as_slice(), Desk::default(), Desk::default());
    let mut verdicts = 0;
    while let Some(call) = next_call(&mut rest) {
        let answer = call.make(&mut desk);
        if let Answer::Load(Ok(())) = answer {
            let mut buffer = vec![0; ROOM];
            let length = desk.write_model(&mut buffer).expect("a model");
            assert_eq!(other.load(&buffer[..length]), Ok(()));
        } else {
            assert_eq!(call.make(&mut other), answer);
        }
        assert_eq!(desk, other);
        verdicts += usize::from(matches!(answer, Answer::Judge(Ok(_))));
    }
    assert!(verdicts > 200, "{verdicts}");
}

/// What the calls of `stored` must be about, whatever the number of blocks.
const ABOUT: &[&str] = &[
    "an exact buffer",
    "one byte longer",
    "a block longer",
    "a buffer of more than 12 blocks",
    "a second time",
    "a question is held",
    "a verdict is held",
    "silent states",
    "silent states only",
    "an action enabled nowhere",
    "an unused proposition",
    "reward -1000",
    "reward 1000",
    "after a model of the same length",
    "by hand, a model, the right count",
];

/// The ways to come by a model, each with some number of blocks.
const SOMEWHERE: &[&str] = &[
    "2 blocks: one state",
    "2 blocks: after a longer model",
    "12 blocks: after a shorter model",
    "12 blocks: 32 states",
    "12 blocks: by hand, a model, a count over 12",
    "12 blocks: by hand, a model, a count over 255",
    "refused 12: one byte short",
    "refused 12: a block short",
    "refused 12: an empty buffer",
    "refused 20: a long buffer",
    "refused 20: an empty buffer",
    "refused 20: by hand, no model, the right count",
    "refused 20: by hand, no model, another count",
    "refused 20: by hand, no model, a count over 12",
    "refused 20: by hand, no model, a count over 255",
];

#[test]
fn stored_has_all_there_is() {
    let counts = tally(&stream("stored", 1, 30_000).expect("stored"));
    for blocks in 2..=12 {
        let said = format!("{blocks} blocks");
        assert!(times(&counts, "write-model", &said) >= 200, "{said}");
        occurs(&counts, &format!("refused 12: {said}"));
        for about in ABOUT {
            occurs(&counts, &format!("{said}: {about}"));
        }
        for ground in 1..=7 {
            let after = format!("after a load refused with {ground}");
            occurs(&counts, &format!("{said}: {after}"));
            occurs(&counts, &format!("refused 20: {after}"));
        }
    }
    for words in SOMEWHERE {
        occurs(&counts, words);
    }
}

fn times(counts: &Tally, call: &str, words: &str) -> usize {
    let found = counts
        .iter()
        .filter(|(key, _)| key.0 == call && key.2 == words);
    found.map(|(_, count)| count).sum()
}

fn occurs(counts: &Tally, words: &str) {
    assert!(times(counts, "write-model", words) >= 4, "{words}");
}
