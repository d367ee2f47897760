//! Worst cases for `whynot` (document 02, A.5): questions that no plan meets,
//! with a million paths or 65,536 plans. Where no total can be at a bound, a
//! verdict on "equal" needs no list of plans, and the reason does.

use super::bench::{equal_levels, ten_outcomes, words, Case};
use super::cases::{most_plans, question};

/// A condition on all six steps that tells 65,536 plans apart by the choices of
/// the third.
fn third_choices(bound: &str) -> Vec<String> {
    words(&[
        "do 1",
        "next 0",
        "next 1",
        "gain 6 steps greater 6",
        "and 2 3",
        &format!("plan 4 steps 6 {bound}"),
    ])
}

fn chance(bound: &str) -> Vec<String> {
    let root = format!("plan 0 steps 6 {bound}");
    words(&["gain 6 steps greater 6", &root])
}

fn expected(bound: &str) -> Vec<String> {
    words(&[&format!("plan gain 1 to 6 steps 6 {bound}")])
}

/// Each has a plan on every side that there is.
pub(super) fn cases() -> Vec<Case> {
    let (ten, levels) = (ten_outcomes(), equal_levels());
    let gained = most_plans(false, false);
    let rows = [
        (
            "no-equal-whole",
            &levels,
            third_choices("equal 130001/1000000"),
        ),
        (
            "no-equal-not-whole",
            &levels,
            third_choices("equal 130001/999983"),
        ),
        ("no-expected-whole", &gained, expected("equal 2505/1000")),
        ("no-expected-not-whole", &gained, expected("equal 2505/997")),
        ("no-greater-million", &ten, chance("greater 1/1")),
        ("no-less-million", &ten, chance("less 0/1")),
        ("no-expected-greater", &ten, expected("greater 6000/1")),
        ("no-expected-less", &ten, expected("less -6000/1")),
    ];
    let case = |(name, model, nodes): (&'static str, &Vec<u8>, Vec<String>)| Case {
        name,
        model: model.clone(),
        question: question(0, &nodes),
    };
    rows.into_iter().map(case).collect()
}

#[cfg(test)]
mod tests {
    use crate::desk::{verdict_line, whynot_lines, JudgeKind};
    use crate::generate::bench_cases;

    /// All are answered with no, and "equal" has a plan on either side.
    #[test]
    fn no_plan_meets_them() {
        let cases = bench_cases().into_iter();
        let cases: Vec<_> = cases.filter(|case| case.name.starts_with("no-")).collect();
        assert_eq!(cases.len(), 8);
        for case in cases {
            let input = [case.model, case.question].concat();
            let verdict = verdict_line(&input, JudgeKind::Fast);
            assert!(verdict.starts_with("no plans "), "{}", case.name);
            let equal = verdict == "no plans 65536";
            let lines = whynot_lines(&input, JudgeKind::Fast);
            assert_eq!(lines.len(), if equal { 2 } else { 1 }, "{}", case.name);
            assert!(lines.iter().all(|line| line.contains('/')), "{}", case.name);
        }
    }
}
