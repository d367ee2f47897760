//! The two judges against each other, and the plain one against a third way
//! of counting.

use second::blocks::read_model;
use second::compare::compare;
use second::generate::{random_model, Rng, Size};
use second::logic::{Plan, Totals};

#[test]
fn fast_and_plain_agree() {
    for seed in 100..104 {
        if let Err(found) = compare(seed, 2_000) {
            panic!("{}\nfast {}\nplain {}", found.text, found.fast, found.plain);
        }
    }
}

/// Plans come in dictionary order, all of them, and every plan's paths weigh
/// D to the n together.
#[test]
fn plans_in_order() {
    let mut rng = Rng::new(5);
    let mut seen = 0;
    while seen < 60 {
        let model = read_model(&random_model(&mut rng, Size::SMALL).pack()).expect("model");
        let totals = Totals::of(&model);
        let steps = rng.range(1, 3);
        if totals.plans(steps, 0) > 3_000 {
            continue;
        }
        seen += 1;
        let mut plan = Plan::first(&model, 0, steps);
        let mut count = 1;
        loop {
            let weights = plan.paths(&model).into_iter().map(|path| path.weight);
            assert_eq!(weights.sum::<u64>(), model.whole(steps));
            let before = plan.choices(&model);
            let again = Plan::from_choices(&model, 0, steps, &before);
            assert_eq!(again.as_ref(), Some(&plan));
            if !plan.advance(&model) {
                break;
            }
            assert!(before < plan.choices(&model));
            count += 1;
        }
        assert_eq!(count, totals.plans(steps, 0));
    }
}
