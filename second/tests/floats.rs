//! The stream `tight` tells a judge in floats from one in whole numbers. The
//! ordinary streams do not: this test fails on them.

mod common;

use common::{files, named, pack};
use second::desk::Call;
use second::floats::{differences, Arithmetic, Asked, Differences};
use second::generate::stream;
use second::logic::Relation;
use std::ops::RangeInclusive;
use std::path::PathBuf;

/// Operators with so many calls at least that a judge in floats gets wrong, of
/// each sort. A quarter of the questions of `tight` is about gains.
const FEWEST: [(u8, usize); 2] = [(8, 30), (9, 8)];

const RELATIONS: [Relation; 3] = [Relation::Less, Relation::Equal, Relation::Greater];

/// The counts of the streams of these seeds together.
fn replayed(kind: &str, seeds: RangeInclusive<u64>, count: usize) -> Differences {
    let mut counts = Differences::new();
    for seed in seeds {
        for (key, more) in differences(&stream(kind, seed, count).expect("kind")) {
            *counts.entry(key).or_default() += more;
        }
    }
    counts
}

/// How often an arithmetic is wrong where the right answer is the given one.
struct Wrong<'a> {
    counts: &'a Differences,
    arithmetic: Arithmetic,
    operator: u8,
    fewest: usize,
}

impl Wrong<'_> {
    fn count(&self, asked: Asked, relation: Relation, right: bool) -> usize {
        let key = (self.arithmetic, asked, self.operator, relation, right);
        self.counts.get(&key).copied().unwrap_or(0)
    }

    fn often(&self, asked: Asked, relation: Relation, right: bool) {
        let count = self.count(asked, relation, right);
        let Wrong {
            arithmetic,
            operator,
            ..
        } = self;
        assert!(
            count >= self.fewest,
            "{arithmetic:?} is wrong on only {count} of {asked:?} {operator} {relation:?}, rightly {right}"
        );
    }

    fn never(&self, asked: Asked, relation: Relation, right: bool) {
        assert_eq!(self.count(asked, relation, right), 0);
    }
}

/// Verdicts and sheets about a tight node, yes and no, are wrong often.
fn wrong_both_ways(wrong: &Wrong) {
    for asked in [Asked::Root, Asked::Inner, Asked::Met] {
        for relation in RELATIONS {
            wrong.often(asked, relation, true);
            wrong.often(asked, relation, false);
        }
    }
}

/// Rounding each side once keeps their order, so that such a judge can only
/// take for equal what is not: "less" and "greater" get a wrong no, "equal" a
/// wrong yes, and nothing else. Below the root, a "not" makes either of each.
fn wrong_by_equality(wrong: &Wrong) {
    for relation in RELATIONS {
        let right = relation != Relation::Equal;
        for asked in [Asked::Root, Asked::Met] {
            wrong.often(asked, relation, right);
            wrong.never(asked, relation, !right);
        }
        wrong.often(Asked::Inner, relation, true);
        wrong.often(Asked::Inner, relation, false);
    }
}

/// The seeds and the number of calls are those of `tests/agree`.
#[test]
fn tight_tells_floats() {
    let counts = replayed("tight", 1..=3, 13_000);
    for (operator, fewest) in FEWEST {
        told_by(&|arithmetic| Wrong {
            counts: &counts,
            arithmetic,
            operator,
            fewest,
        });
    }
}

fn told_by<'a>(wrong: &dyn Fn(Arithmetic) -> Wrong<'a>) {
    wrong_by_equality(&wrong(Arithmetic::DividedDoubles));
    wrong_by_equality(&wrong(Arithmetic::RoundedSingles));
    wrong_by_equality(&wrong(Arithmetic::MultipliedDoubles));
    wrong_both_ways(&wrong(Arithmetic::DividedSingles));
    wrong_both_ways(&wrong(Arithmetic::MultipliedSingles));
    wrong_both_ways(&wrong(Arithmetic::AddedDoubles));
    wrong_both_ways(&wrong(Arithmetic::AddedSingles));
    wrong_both_ways(&wrong(Arithmetic::FusedDoubles));
    for relation in RELATIONS {
        wrong(Arithmetic::RoundedSingles).often(Asked::Claim, relation, false);
        wrong(Arithmetic::AddedDoubles).often(Asked::Claim, relation, true);
    }
}

/// What the stream is for: elsewhere doubles, divided or multiplied, pass.
#[test]
fn ordinary_streams_do_not() {
    for kind in ["small", "judges", "lists"] {
        // In a list few calls are about a question with a close bound.
        let calls = if kind == "lists" { 20_000 } else { 2_000 };
        let counts = replayed(kind, 1..=1, calls);
        let passing = [Arithmetic::DividedDoubles, Arithmetic::MultipliedDoubles];
        assert!(counts.keys().all(|key| !passing.contains(&key.0)), "{kind}");
        assert!(!counts.is_empty(), "{kind}: no judge in floats is wrong");
    }
}

/// The judges in floats that are wrong on a fixture's question.
fn wrong_on(folder: &str, name: &str) -> Vec<Arithmetic> {
    let questions = files(folder, "question");
    let named_so = |file: &&PathBuf| file.file_stem().is_some_and(|stem| stem == name);
    let file = questions.iter().find(named_so).expect(name);
    let mut parts = pack(&[&named(file, "model"), file]).into_iter();
    let mut part = || parts.next().expect("a model and a question");
    let calls = [Call::Load(part()), Call::Put(part()), Call::Judge];
    let stream: Vec<u8> = calls.iter().flat_map(Call::record).collect();
    differences(&stream).keys().map(|key| key.0).collect()
}

/// The pharmacist's shelf, as in `tests/shelf`: just the fused build is wrong.
#[test]
fn shelf_tells_the_fused_build() {
    for name in ["two-tries-at-least-935-1000", "two-tries-equal-935-1000"] {
        assert_eq!(wrong_on("shelf", name), [Arithmetic::FusedDoubles]);
    }
}

/// Fixtures that a judge in doubles gets wrong, for each relation.
#[test]
fn six_tries_tell_doubles() {
    for name in [
        "held-greater-928982-999987",
        "held-equal-928982-999987",
        "not-held-less-71005-999987",
    ] {
        let wrong = wrong_on("six-tries", name);
        assert!(wrong.contains(&Arithmetic::DividedDoubles), "{name}");
        assert!(wrong.contains(&Arithmetic::RoundedSingles), "{name}");
        assert!(wrong.contains(&Arithmetic::MultipliedDoubles), "{name}");
    }
}
