//! Judges that err about leftover nodes (document 02, A.6), as none should, to
//! see that the streams tell them from a right one.

mod fault;
mod held;
mod marks;
mod order;

pub use fault::{Fault, ALL};

use crate::blocks::{QuestionImage, BLOCK};
use crate::desk::{replay, Answer, Call, Desk};
use crate::ground::Ground;
use crate::strays::Strays;
use held::strayed;
use std::collections::BTreeMap;

/// How often a judge with a fault answers otherwise, for each call.
pub type Differences = BTreeMap<(Fault, &'static str), usize>;

/// Replays a stream from the empty desk beside a judge of each fault. Each put is
/// made on what the right desk holds; what a wrong refusal leaves on the desk is
/// carried along until it holds the same as the right one again.
pub fn differences(stream: &[u8]) -> Differences {
    let mut counts = Differences::new();
    let mut strays = Strays::default();
    replay(stream, |call, answer, desk| {
        let mut found = strays.wrong(call, answer);
        strays.follow(strayed(call, answer, desk), desk);
        if let (Call::Put(bytes), Answer::Put(right)) = (call, answer) {
            found.extend(wrong_puts(bytes, *right, desk));
        }
        for (fault, call) in found {
            *counts.entry((fault, call)).or_default() += 1;
        }
    });
    counts
}

/// The faults with which a put is answered otherwise. `desk` is the right one
/// after the call.
fn wrong_puts(bytes: &[u8], right: Result<(), Ground>, desk: &Desk) -> Vec<(Fault, &'static str)> {
    let image = QuestionImage::unpack(bytes);
    let whole = bytes.len() == BLOCK && (1..=40).contains(&image.count);
    let differs = |fault: &Fault| match right {
        Ok(()) => !marks::passes(*fault, &image),
        Err(Ground::Leftover) => marks::passes(*fault, &image),
        Err(ground) => whole && order::differs(*fault, ground, &image, desk),
    };
    let found = ALL.into_iter().filter(differs);
    found.map(|fault| (fault, "put")).collect()
}
