//! Lists of calls as a stream of bytes, and the line that answers each.

use super::calls::Desk;
use super::line::{lamp_after_count, list_choices};
use crate::blocks::{BLOCK, MODEL_BLOCKS};
use crate::bytes::{u32_at, u64_at};
use crate::ground::Ground;
use crate::logic::{Checked, Judged, Verdict};
use std::fmt;

/// A call with its input.
#[derive(Clone, Debug, PartialEq, Eq)]
pub enum Call {
    Load(Vec<u8>),
    Put(Vec<u8>),
    Judge,
    /// With the lent buffer as it was before.
    Write(Vec<u8>),
    Check(Vec<u8>),
    /// With the lent buffer as it was before.
    WriteModel(Vec<u8>),
    /// No call of the documents: from here on the desk is one put together by
    /// hand. Eight bytes say how many blocks its model has, the others are its
    /// room for a model.
    ByHand(Vec<u8>),
}

/// The bytes of a desk by hand that say how many blocks its model has, and those
/// of its room for one.
const SAID: usize = 8;
pub const ROOM: usize = MODEL_BLOCKS * BLOCK;

/// The bytes before a record's input: the operation and a length.
const RECORD_HEAD: usize = 5;

/// Takes the next whole record off the stream. A record that is cut short, of no
/// known operation, or of a desk by hand with another length, ends it.
pub fn next_call(stream: &mut &[u8]) -> Option<Call> {
    let operation = *stream.first()?;
    let length = usize::try_from(u32_at(stream.get(..RECORD_HEAD)?, 1)).ok()?;
    let end = RECORD_HEAD.checked_add(length)?;
    let input = stream.get(RECORD_HEAD..end)?.to_vec();
    *stream = stream.get(end..)?;
    match operation {
        1 => Some(Call::Load(input)),
        2 => Some(Call::Put(input)),
        3 => Some(Call::Judge),
        4 => Some(Call::Write(input)),
        5 => Some(Call::Check(input)),
        6 => Some(Call::WriteModel(input)),
        7 if input.len() == SAID + ROOM => Some(Call::ByHand(input)),
        _ => None,
    }
}

/// Makes the calls of a stream one after the other from the empty desk; `seen`
/// gets each call, its answer and the desk after it.
pub fn replay(stream: &[u8], mut seen: impl FnMut(&Call, &Answer, &Desk)) {
    let mut rest = stream;
    let mut desk = Desk::default();
    while let Some(call) = next_call(&mut rest) {
        let answer = call.make(&mut desk);
        seen(&call, &answer, &desk);
    }
}

impl Call {
    /// The call's name, as it stands before its answer.
    pub fn name(&self) -> &'static str {
        match self {
            Call::Load(_) => "load",
            Call::Put(_) => "put",
            Call::Judge => "judge",
            Call::Write(_) => "write",
            Call::Check(_) => "check",
            Call::WriteModel(_) => "write-model",
            Call::ByHand(_) => "desk",
        }
    }

    /// A desk by hand whose model is said to have so many blocks. A room that is
    /// too short is filled with zeros, one that is too long is cut.
    pub fn by_hand(blocks: u64, room: &[u8]) -> Call {
        let mut input = [&blocks.to_le_bytes(), room].concat();
        input.resize(SAID + ROOM, 0);
        Call::ByHand(input)
    }

    /// What a desk by hand says of its blocks, and its room; none for a call.
    pub fn said(&self) -> Option<(u64, &[u8])> {
        match self {
            Call::ByHand(input) => Some((u64_at(input, 0), input.get(SAID..)?)),
            _ => None,
        }
    }

    /// The call as a record of the stream.
    pub fn record(&self) -> Vec<u8> {
        let (operation, input): (u8, &[u8]) = match self {
            Call::Load(bytes) => (1, bytes),
            Call::Put(bytes) => (2, bytes),
            Call::Judge => (3, &[]),
            Call::Write(bytes) => (4, bytes),
            Call::Check(bytes) => (5, bytes),
            Call::WriteModel(bytes) => (6, bytes),
            Call::ByHand(bytes) => (7, bytes),
        };
        let length = u32::try_from(input.len()).unwrap_or(u32::MAX);
        let mut record = vec![operation];
        record.extend(length.to_le_bytes());
        record.extend(input);
        record
    }

    /// Makes the call on a desk.
    pub fn make(&self, desk: &mut Desk) -> Answer {
        match self {
            Call::Load(bytes) => Answer::Load(desk.load(bytes)),
            Call::Put(bytes) => Answer::Put(desk.put(bytes)),
            Call::Judge => Answer::Judge(desk.judge().cloned()),
            Call::Write(before) => {
                let mut buffer = before.clone();
                let written = desk.write(&mut buffer);
                Answer::Write(written, buffer)
            }
            Call::Check(bytes) => Answer::Check(desk.check(bytes)),
            Call::WriteModel(before) => {
                let mut buffer = before.clone();
                let written = desk.write_model(&mut buffer);
                Answer::WriteModel(written, buffer)
            }
            Call::ByHand(_) => {
                let (blocks, room) = self.said().unwrap_or_default();
                *desk = desk.by_hand(blocks, room);
                Answer::ByHand
            }
        }
    }
}

/// What a call answers; what writes, with the buffer after it.
#[derive(Clone, Debug, PartialEq, Eq)]
pub enum Answer {
    Load(Result<(), Ground>),
    Put(Result<(), Ground>),
    Judge(Result<Judged, Ground>),
    Write(Result<usize, Ground>, Vec<u8>),
    Check(Result<Checked, Ground>),
    WriteModel(Result<usize, Ground>, Vec<u8>),
    /// A desk by hand answers nothing.
    ByHand,
}

impl fmt::Display for Answer {
    fn fmt(&self, out: &mut fmt::Formatter) -> fmt::Result {
        match self {
            Answer::Load(answer) => write!(out, "load {}", done(answer)),
            Answer::Put(answer) => write!(out, "put {}", done(answer)),
            Answer::Judge(Ok(judged)) => write!(out, "judge {}", verdict_words(judged)),
            Answer::Judge(Err(ground)) => write!(out, "judge {}", refused(*ground)),
            Answer::Write(answer, buffer) => write!(out, "write {}", written(answer, buffer)),
            Answer::WriteModel(answer, buffer) => {
                write!(out, "write-model {}", written(answer, buffer))
            }
            Answer::ByHand => write!(out, "desk"),
            Answer::Check(Ok(checked)) => {
                let met = if checked.met { "met" } else { "unmet" };
                write!(out, "check accepted {met} {}", checked.lamp.word())
            }
            Answer::Check(Err(ground)) => write!(out, "check {}", refused(*ground)),
        }
    }
}

fn refused(ground: Ground) -> String {
    format!("refused {}", ground.number())
}

fn done(answer: &Result<(), Ground>) -> String {
    answer.map_or_else(refused, |()| "done".to_string())
}

/// The number of bytes written, or the refusal, and the sums of the buffer.
fn written(answer: &Result<usize, Ground>, buffer: &[u8]) -> String {
    let (a, b) = adler(buffer);
    let words = answer.map_or_else(refused, |bytes| bytes.to_string());
    format!("{words} {a} {b}")
}

fn verdict_words(judged: &Judged) -> String {
    match judged.verdict {
        Verdict::No { count, lamp } => format!("no {count}{}", lamp_after_count(lamp)),
        Verdict::Yes => "yes".to_string(),
        Verdict::YesPlan(record) => {
            let (total, steps, count) = (record.total, record.steps, record.count);
            let (lamp, choices) = (record.lamp.word(), list_choices(&judged.choices));
            format!("yes {total} {steps} {lamp} {count} choices{choices}")
        }
    }
}

/// The two Adler sums of a buffer: a short stand-in for its bytes.
pub fn adler(bytes: &[u8]) -> (u32, u32) {
    bytes.iter().fold((1, 0), |(a, b), byte| {
        let a = (a + u32::from(*byte)) % 65_521;
        (a, (b + a) % 65_521)
    })
}
