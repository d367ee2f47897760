//! How often each call got each answer, and what it was about.

mod details;
mod lamps;
mod leftovers;
mod reasons;
mod stored;

pub use reasons::reason_tally;

use crate::blocks::BLOCK;
use crate::desk::{replay, Answer};
use crate::logic::{Checked, Judged, Verdict};
use std::collections::BTreeMap;

/// Counts of (call, answer), in order of call and answer number. An answer is
/// counted by itself and, after a colon, with each thing that it was about.
pub type Tally = BTreeMap<(&'static str, u8, String), usize>;

/// Replays a stream from the empty desk and counts its answers.
pub fn tally(stream: &[u8]) -> Tally {
    let mut counts = Tally::new();
    let mut past = stored::Past::default();
    replay(stream, |call, answer, desk| {
        let (name, number, words) = key(answer);
        let mut found = details::details(call, answer, desk);
        found.extend(past.words(call, answer, desk));
        for about in found {
            let words = format!("{words}: {about}");
            *counts.entry((name, number, words)).or_default() += 1;
        }
        *counts.entry((name, number, words)).or_default() += 1;
    });
    counts
}

/// The call, the number of its refusal or 0, and the answer in words.
fn key(answer: &Answer) -> (&'static str, u8, String) {
    let blocks;
    let (call, refusal, words) = match answer {
        Answer::Load(answer) => ("load", answer.err(), "done"),
        Answer::Put(answer) => ("put", answer.err(), "done"),
        Answer::Judge(Ok(judged)) => ("judge", None, verdict_words(judged)),
        Answer::Judge(Err(ground)) => ("judge", Some(*ground), ""),
        Answer::Write(Ok(512), _) => ("write", None, "1 block"),
        Answer::Write(Ok(1024), _) => ("write", None, "2 blocks"),
        Answer::Write(answer, _) => ("write", answer.err(), "3 blocks"),
        Answer::Check(Ok(Checked { met: true, .. })) => ("check", None, "accepted met"),
        Answer::Check(answer) => ("check", answer.err(), "accepted unmet"),
        Answer::WriteModel(answer, _) => {
            blocks = format!("{} blocks", answer.unwrap_or(0) / BLOCK);
            ("write-model", answer.err(), blocks.as_str())
        }
        Answer::ByHand => ("desk", None, "by hand"),
    };
    match refusal {
        None => (call, 0, words.to_string()),
        Some(ground) => (
            call,
            ground.number(),
            format!("refused {}", ground.number()),
        ),
    }
}

fn verdict_words(judged: &Judged) -> &'static str {
    match judged.verdict {
        Verdict::No { count: 0, .. } => "no",
        Verdict::No { .. } => "no, plans counted",
        Verdict::Yes => "yes",
        Verdict::YesPlan(record) if record.count == 0 => "yes with plan",
        Verdict::YesPlan(_) => "yes with plan, counted",
    }
}
