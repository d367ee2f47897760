//! Pictures: every state, action and outcome is there, and the plan's paths.

mod common;

use common::{named, pack};
use second::desk::{next_call, Call};
use second::draw::draw;
use second::generate::stream;
use second::ground::Ground;

fn picture(question: &str) -> Result<String, Ground> {
    let file = common::fixtures().join(question);
    draw(&pack(&[&named(&file, "model"), &file]).concat())
}

fn count(text: &str, part: &str) -> usize {
    text.matches(part).count()
}

#[test]
fn two_shelf_picture() {
    let svg = picture("two-shelf/next-next-done-equal-45-100.question").expect("a picture");
    // Three states twice, and the plan's seven: four of them ends.
    let states = count(&svg, "class=\"state\"") + count(&svg, "class=\"fulfilled\"");
    assert_eq!(states, 6 + 7);
    assert_eq!(count(&svg, "class=\"action\""), 4 + 3);
    assert_eq!(count(&svg, ", reward "), 7);
    assert_eq!(count(&svg, "45/100, condition true"), 1);
    assert!(svg.contains("Verdict: yes 45/100 at plans 3<"));
}

/// Silent moves are loops: one at the state over, one where the plan comes to
/// it, and no action box for either.
#[test]
fn silent_picture() {
    let question = "two-shelf-silent/three-steps-done-equal-855-1000.question";
    let svg = picture(question).expect("a picture");
    assert_eq!(count(&svg, "silent: 10/10, reward 0"), 1);
    assert_eq!(
        count(&svg, "silent for 1 step: 450/1000, condition true"),
        1
    );
    assert_eq!(count(&svg, "class=\"action\""), 3 + 6);
    assert!(!svg.contains("a255"));
    let svg = picture("two-shelf-silent/six-silent-steps.question").expect("a picture");
    let words = "silent for 6 steps: 1000000/1000000, condition true";
    assert_eq!(count(&svg, words), 1);
    assert_eq!(count(&svg, "class=\"fulfilled\""), 1);
    assert!(picture("silent/all-silent-gain.question").is_ok());
}

#[test]
fn picture_without_a_plan() {
    let svg = picture("two-shelf/next-next-done-equal-50-100.question").expect("a picture");
    assert!(svg.contains("Verdict: no plans 4<") && svg.contains("There is no plan to show."));
}

#[test]
fn refused_picture() {
    assert_eq!(
        picture("refusals/next-in-next.question"),
        Err(Ground::Formula)
    );
    assert_eq!(draw(&[]), Err(Ground::Length));
}

/// Pictures of whatever can be judged; `lists` has refused inputs too.
#[test]
fn many_pictures() {
    let mut drawn = 0;
    for kind in ["judges", "lists"] {
        let bytes = stream(kind, 31, 250).expect("kind");
        let mut rest = bytes.as_slice();
        let mut model = Vec::new();
        while let Some(call) = next_call(&mut rest) {
            match call {
                Call::Load(input) => model = input,
                Call::Put(input) => {
                    let picture = draw(&[model.clone(), input].concat());
                    drawn += usize::from(picture.is_ok_and(|svg| svg.ends_with("</svg>\n")));
                }
                _ => {}
            }
        }
    }
    assert!(drawn > 60, "{drawn}");
}
