//! Writing models (document 02, A.7), and desks put together by hand.

mod common;

use common::{files, fixtures, pack, says};
use second::blocks::{fix_word_sums, BLOCK};
use second::desk::{adler, next_call, Call, Desk, JudgeKind, ROOM};
use second::ground::Ground;
use std::path::PathBuf;

/// All model fixtures, and whether they load.
fn models() -> Vec<(PathBuf, bool)> {
    let folders = [
        "", "lamps", "limits", "refusals", "robot", "silent", "stored", "whynot",
    ];
    let all = folders
        .into_iter()
        .flat_map(|folder| files(folder, "model"));
    let loads = |file: &PathBuf| says(file, "load").is_none_or(|said| said == "done");
    all.map(|file| (file.clone(), loads(&file))).collect()
}

fn bytes_of(name: &str) -> Vec<u8> {
    pack(&[&fixtures().join(name)]).remove(0)
}

fn loaded(bytes: &[u8]) -> Desk {
    let mut desk = Desk::default();
    desk.load(bytes).expect("a model");
    desk
}

/// A buffer of so many marked bytes, no two neighbours alike.
fn marks(length: usize) -> Vec<u8> {
    (0..length)
        .map(|at| (at * 7 + at / 256 + 5) as u8)
        .collect()
}

/// The model is written into a buffer of so many bytes, and nothing else is.
fn written_whole(desk: &Desk, model: &[u8], length: usize) {
    let mut buffer = marks(length);
    assert_eq!(desk.write_model(&mut buffer), Ok(model.len()));
    assert_eq!(&buffer[..model.len()], model);
    assert_eq!(buffer[model.len()..], marks(length)[model.len()..]);
}

fn refused(desk: &Desk, length: usize, ground: Ground) {
    let mut buffer = marks(length);
    assert_eq!(desk.write_model(&mut buffer), Err(ground), "{length}");
    assert_eq!(buffer, marks(length));
}

#[test]
fn fixtures_are_written_as_they_were_loaded() {
    let mut lengths = Vec::new();
    for (file, _) in models().iter().filter(|(_, loads)| *loads) {
        let model = pack(&[file]).remove(0);
        let desk = loaded(&model);
        let own = model.len();
        for more in [0, 1, 2, BLOCK - 1, BLOCK, BLOCK + 1, ROOM, 16_384 - own] {
            written_whole(&desk, &model, own + more);
        }
        for length in [0, 1, BLOCK, own - BLOCK, own - 2, own - 1] {
            refused(&desk, length, Ground::ShortBuffer);
        }
        let mut buffer = vec![255; own];
        assert_eq!(desk.write_model(&mut buffer), Ok(own));
        assert_eq!(loaded(&buffer), desk, "{}", file.display());
        lengths.push(own / BLOCK);
    }
    assert!(lengths.len() >= 30);
    assert!(lengths.contains(&2) && lengths.contains(&12));
}

#[test]
fn without_a_model() {
    let mut desk = Desk::default();
    for length in [0, 1, 2 * BLOCK - 1, 2 * BLOCK, ROOM, 16_384] {
        refused(&desk, length, Ground::NoModel);
    }
    for (file, _) in models().iter().filter(|(_, loads)| !loads) {
        let input = pack(&[file]).concat();
        assert!(desk.load(&input).is_err());
        refused(&desk, ROOM, Ground::NoModel);
    }
    assert_eq!(desk, Desk::default());
}

/// A refused load, on whatever ground, leaves the model that is written, and the
/// question and the verdict beside it.
#[test]
fn after_refused_loads() {
    let model = bytes_of("two-shelf.model");
    let before = judged(&model);
    let mut desk = before.clone();
    let mut grounds = Vec::new();
    for (file, _) in models().iter().filter(|(_, loads)| !loads) {
        grounds.extend(desk.load(&pack(&[file]).concat()).err());
        written_whole(&desk, &model, ROOM);
        refused(&desk, model.len() - 1, Ground::ShortBuffer);
        assert_eq!(desk, before);
    }
    grounds.sort();
    grounds.dedup();
    assert_eq!(grounds.len(), 7);
}

/// The desk after the question of document 01's printed line was judged.
fn judged(model: &[u8]) -> Desk {
    let question = fixtures().join("two-shelf/next-next-done-equal-45-100.question");
    let question = pack(&[&fixtures().join("two-shelf.model"), &question]).remove(1);
    let mut desk = loaded(model);
    desk.put(&question).expect("a question");
    assert_eq!(
        desk.judge().map(|judged| judged.choices.clone()),
        Ok(vec![1, 2, 0])
    );
    desk
}

/// What is written is the model of the last load done, whatever its length.
#[test]
fn one_model_after_the_other() {
    let (short, long) = (bytes_of("two-shelf.model"), bytes_of("full.model"));
    let mut desk = Desk::default();
    for model in [&short, &long, &short, &short, &long] {
        desk.load(model).expect("a model");
        for length in [ROOM, ROOM + 1, model.len()] {
            written_whole(&desk, model, length);
            written_whole(&desk, model, length);
        }
        refused(&desk, model.len() - 1, Ground::ShortBuffer);
    }
}

/// For a count in each place: whether a desk with a model of two blocks in its
/// room, and whether one with a model of twelve, holds it.
const COUNTS: [(u64, bool, bool); 24] = [
    (0, false, false),
    (1, false, false),
    (2, true, false),
    (3, false, false),
    (11, false, false),
    (12, false, true),
    (13, false, true),
    (14, false, true),
    (255, false, true),
    (256, false, true),
    ((1 << 8) + 2, false, true),
    ((1 << 16) + 2, false, true),
    ((1 << 23) + 2, false, true),
    ((1 << 31) + 2, false, true),
    (1 << 32, false, true),
    ((1 << 32) + 2, false, true),
    ((1 << 32) + 12, false, true),
    ((1 << 55) - 1, false, true),
    (1 << 55, false, true),
    ((1 << 55) + 2, false, true),
    ((1 << 55) + 12, false, true),
    ((1 << 63) + 2, false, true),
    (u64::MAX - 1, false, true),
    (u64::MAX, false, true),
];

#[test]
fn counts_of_desks_by_hand() {
    let (short, long) = (bytes_of("two-shelf.model"), bytes_of("full.model"));
    let behind = [&short[..], &marks(ROOM)].concat();
    let again: Vec<u8> = short.iter().copied().cycle().take(ROOM).collect();
    for (blocks, holds_short, holds_long) in COUNTS {
        for room in [&short, &behind, &again] {
            held_by_hand(blocks, room, holds_short.then_some(&short));
        }
        held_by_hand(blocks, &long, holds_long.then_some(&long));
        for byte in [0, 1, 255] {
            held_by_hand(blocks, &[byte; ROOM], None);
        }
    }
}

/// A desk by hand is the same as one that loaded just this model, or as the empty
/// one; what the desk was before does not matter.
fn held_by_hand(blocks: u64, room: &[u8], model: Option<&Vec<u8>>) {
    let mut desk = judged(&bytes_of("two-shelf.model"));
    let made = Call::by_hand(blocks, room).make(&mut desk);
    assert_eq!(made.to_string(), "desk");
    match model {
        Some(model) => {
            assert_eq!(desk, loaded(model), "{blocks}");
            written_whole(&desk, model, 16_384);
            refused(&desk, model.len() - 1, Ground::ShortBuffer);
        }
        None => {
            assert_eq!(desk, Desk::default(), "{blocks}");
            refused(&desk, 16_384, Ground::NoModel);
        }
    }
    assert_eq!(desk.load(&bytes_of("full.model")), Ok(()));
    written_whole(&desk, &bytes_of("full.model"), ROOM);
}

/// The bytes of a desk by hand are asked anew, on every ground.
#[test]
fn damaged_rooms() {
    let model = bytes_of("two-shelf.model");
    for at in 0..model.len() {
        let mut room = model.clone();
        room[at] ^= 1;
        held_by_hand(2, &room, None);
    }
    for (file, _) in models().iter().filter(|(_, loads)| !loads) {
        let room = pack(&[file]).concat();
        held_by_hand((room.len() / BLOCK) as u64, &room, None);
    }
    let mut rewarded = model.clone();
    rewarded[BLOCK + 4 + 2] ^= 1;
    fix_word_sums(&mut rewarded);
    held_by_hand(2, &rewarded, Some(&rewarded));
}

#[test]
fn lines_and_records() {
    let model = bytes_of("two-shelf.model");
    let (a, b) = adler(&model);
    let (zeros_a, zeros_b) = adler(&[0; 1023]);
    let list = [
        (
            Call::WriteModel(Vec::new()),
            "write-model refused 20 1 0".to_string(),
        ),
        (Call::Load(model.clone()), "load done".to_string()),
        (
            Call::WriteModel(vec![9; 1024]),
            format!("write-model 1024 {a} {b}"),
        ),
        (
            Call::WriteModel(vec![0; 1023]),
            format!("write-model refused 12 {zeros_a} {zeros_b}"),
        ),
        (Call::by_hand(0, &model), "desk".to_string()),
        (Call::Judge, "judge refused 20".to_string()),
    ];
    let bytes: Vec<u8> = list.iter().flat_map(|(call, _)| call.record()).collect();
    let (mut rest, mut desk) = (bytes.as_slice(), Desk::new(JudgeKind::Plain));
    for (call, line) in &list {
        assert_eq!(next_call(&mut rest).as_ref(), Some(call));
        assert_eq!(call.make(&mut desk).to_string(), *line);
    }
    assert_eq!(next_call(&mut rest), None);
}

/// A desk by hand of another length, and an operation that is none, end a stream.
#[test]
fn ends_of_streams() {
    let record = |operation: u8, length: usize| {
        let mut bytes = vec![operation];
        bytes.extend((length as u32).to_le_bytes());
        bytes.resize(5 + length, 0);
        bytes
    };
    let taken = |bytes: Vec<u8>| next_call(&mut bytes.as_slice());
    for length in [0, 7, 8, ROOM, ROOM + 7, ROOM + 9, 2 * ROOM] {
        assert_eq!(taken(record(7, length)), None, "{length}");
        assert_eq!(
            taken(record(6, length)),
            Some(Call::WriteModel(vec![0; length]))
        );
        assert_eq!(taken(record(8, length)), None);
    }
    assert_eq!(taken(record(7, ROOM + 8)), Some(Call::by_hand(0, &[])));
    let cut = record(7, ROOM + 8)[..ROOM + 12].to_vec();
    assert_eq!(taken(cut), None);
}
