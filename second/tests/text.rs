//! The text form: packing what was shown gives back the blocks.

use second::desk::{next_call, Call};
use second::generate::stream;
use second::text::{pack_text, show_blocks};

fn round_trip(bytes: &[u8]) {
    let text = show_blocks(bytes);
    let packed = pack_text(&text).unwrap_or_else(|error| panic!("{error}\n{text}"));
    assert!(packed == bytes, "{text}");
}

/// Every input of a stream, accepted or refused.
#[test]
fn shown_and_packed() {
    for kind in ["models", "questions", "sheets", "lists"] {
        let bytes = stream(kind, 21, 2_000).expect("kind");
        let mut rest = bytes.as_slice();
        while let Some(call) = next_call(&mut rest) {
            match call {
                Call::Load(input) | Call::Put(input) | Call::Check(input) => round_trip(&input),
                Call::Judge | Call::Write(_) | Call::WriteModel(_) | Call::ByHand(_) => {}
            }
        }
    }
}

/// The silent move's choice is told by a word, and 255 is read as well.
#[test]
fn silent_choices() {
    let by_word = pack_text("sheet n 2 start 1 weight 99\nchoices 2 silent 2").expect("text");
    let by_number = pack_text("sheet n 2 start 1 weight 99\nchoices 2 255 2").expect("text");
    assert_eq!(by_word, by_number);
    assert_eq!(by_word[18..21], [2, 255, 2]);
    assert!(show_blocks(&by_word).contains("choices 2 silent 2\n"));
}

/// States and propositions may have any name.
#[test]
fn silent_as_a_name() {
    let text = "model D 1\nproposition 0 silent\nstate 0 silent: silent\n";
    assert!(pack_text(text).is_ok());
}

/// Accepted inputs are told in words alone.
#[test]
fn accepted_without_directives() {
    let bytes = stream("judges", 22, 400).expect("kind");
    let mut rest = bytes.as_slice();
    while let Some(call) = next_call(&mut rest) {
        if let Call::Load(input) | Call::Put(input) = call {
            let text = show_blocks(&input);
            assert!(!text.contains("byte") && !text.contains("raw"), "{text}");
        }
    }
}

#[test]
fn faults_by_line() {
    let faults = [
        (
            "state 0",
            1,
            "'state' stands before any model, question or sheet",
        ),
        (
            "model D 10\nstate 0: held",
            2,
            "no proposition is named 'held'",
        ),
        (
            "model D ten",
            1,
            "D must be a number that fits its field, not 'ten'",
        ),
        (
            "model D 10\n\nstate 32",
            3,
            "the blocks have room for 32 states",
        ),
        ("model D 10\nfoo 1", 2, "'foo' begins no line of a model"),
        ("model D 10\npost always", 2, "no action stands above"),
        (
            "question start 0\n0 perhaps 1",
            2,
            "'perhaps' is no operator",
        ),
        ("question start 0\n0 false 1", 2, "'1' is left over"),
        (
            "question start 0\n40 false",
            2,
            "the block has room for nodes 0 to 39",
        ),
        (
            "question start 0\n0 plan 0 steps 1 above 1/2",
            2,
            "'above' is not less, equal or greater",
        ),
        (
            "question start 0\n0 plan 0 steps 1 less 12",
            2,
            "a bound is written p/q",
        ),
        ("sheet n 2 start 0", 1, "'weight' is missing"),
        (
            "model D 10\naction 0 silent",
            2,
            "no action can be named 'silent'",
        ),
        (
            "question start 0\n0 do silent",
            2,
            "no action is named 'silent'",
        ),
        (
            "sheet n 2 start 0 weight 1\nbyte 0 256",
            2,
            "the value must be a number that fits its field, not '256'",
        ),
    ];
    for (text, line, reason) in faults {
        let error = pack_text(text).expect_err(text);
        assert_eq!((error.line, error.reason.as_str()), (line, reason));
        assert_eq!(error.to_string(), format!("line {line}: {reason}"));
    }
}
