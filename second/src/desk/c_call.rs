//! The C call of document 01: load, put, judge and, on yes with a "plan"
//! root, write, on an empty desk, up to the first refusal.

use super::calls::{Desk, JudgeKind};
use super::list::{adler, next_call, Call};
use crate::ground::Ground;
use crate::logic::Verdict;

/// The lengths of the lent buffer to try: around each block boundary.
const LENGTHS: [usize; 12] = [
    0, 1, 511, 512, 513, 1023, 1024, 1025, 1535, 1536, 1537, 1700,
];

/// 0 for no, 1 for yes, 100 plus the refusal.
fn c_call(kind: JudgeKind, model: &[u8], question: &[u8], sheet: &mut [u8]) -> u32 {
    match steps(&mut Desk::new(kind), model, question, sheet) {
        Ok(yes) => u32::from(yes),
        Err(ground) => 100 + u32::from(ground.number()),
    }
}

fn steps(desk: &mut Desk, model: &[u8], question: &[u8], sheet: &mut [u8]) -> Result<bool, Ground> {
    desk.load(model)?;
    desk.put(question)?;
    match desk.judge()?.verdict {
        Verdict::No { .. } => Ok(false),
        Verdict::Yes => Ok(true),
        Verdict::YesPlan(_) => desk.write(sheet).map(|_| true),
    }
}

/// The C call on what a stream of calls loads and puts: after each load once
/// with no question and no buffer, after each put with buffers of many lengths.
pub fn c_calls(kind: JudgeKind, stream: &[u8]) -> Vec<String> {
    let mut rest = stream;
    let mut model = Vec::new();
    let mut lines = Vec::new();
    while let Some(call) = next_call(&mut rest) {
        match call {
            Call::Load(bytes) => {
                model = bytes;
                lines.push(line(kind, &model, &[], 0));
            }
            Call::Put(question) => {
                lines.extend(LENGTHS.map(|length| line(kind, &model, &question, length)));
            }
            _ => {}
        }
    }
    lines
}

fn line(kind: JudgeKind, model: &[u8], question: &[u8], length: usize) -> String {
    let mut sheet: Vec<u8> = (0..length).map(|i| (7 * i + 3) as u8).collect();
    let answer = c_call(kind, model, question, &mut sheet);
    let (a, b) = adler(&sheet);
    format!("call {length} {answer} {a} {b}")
}
