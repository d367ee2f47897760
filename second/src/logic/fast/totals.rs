//! All totals in dictionary order of their plans, for "equal".

use super::walk::Walk;
use crate::logic::Move;

/// The number, from 0, of the first plan of the condition's depth with this
/// total. The root's own list is searched as it arises, not kept.
pub(super) fn first_with(walk: &mut Walk, wanted: i64) -> Option<u64> {
    if walk.program.depth() == 0 {
        return (i64::from(walk.answer()) == wanted).then_some(0);
    }
    let mut passed = 0;
    for entry in walk.model.moves(walk.start) {
        match find_sum(lists_below(walk, 0, entry), wanted) {
            Ok(place) => return Some(passed + place),
            Err(count) => passed += count,
        }
    }
    None
}

/// Shows the totals of all plans of the condition's depth in dictionary order.
/// The root's own list is not kept.
pub(super) fn each(walk: &mut Walk, seen: &mut impl FnMut(i64)) {
    if walk.program.depth() == 0 {
        return seen(i64::from(walk.answer()));
    }
    for entry in walk.model.moves(walk.start) {
        each_sum(lists_below(walk, 0, entry), seen);
    }
}

/// Shows the sums of one number from each list, the last list changing fastest.
pub(super) fn each_sum(mut lists: Vec<Vec<i64>>, seen: &mut impl FnMut(i64)) {
    let last = lists.pop().unwrap_or_default();
    for first in combine(&lists) {
        last.iter().for_each(|second| seen(first + second));
    }
}

/// The place, from 0, of the first of the sums of one number from each list
/// that is the wanted one, the last list changing fastest; if there is none,
/// how many sums there are.
pub(super) fn find_sum(mut lists: Vec<Vec<i64>>, wanted: i64) -> Result<u64, u64> {
    let last = lists.pop().unwrap_or_default();
    let mut passed = 0;
    for first in combine(&lists) {
        let found = last.iter().position(|second| first + second == wanted);
        if let Some(place) = found {
            return Ok(passed + place as u64);
        }
        passed += last.len() as u64;
    }
    Err(passed)
}

/// The totals of all plans on from here.
fn totals_from(walk: &mut Walk, step: usize, state: u8) -> Vec<i64> {
    if step == walk.program.depth() {
        return vec![i64::from(walk.answer())];
    }
    let mut totals = Vec::new();
    for entry in walk.model.moves(state) {
        totals.append(&mut combine(&lists_below(walk, step, entry)));
    }
    totals
}

/// For each outcome of a move, the totals of all plans below it times its
/// weight.
fn lists_below(walk: &mut Walk, step: usize, entry: &Move) -> Vec<Vec<i64>> {
    let mut lists = Vec::with_capacity(entry.outcomes.len());
    for outcome in &entry.outcomes {
        walk.enter(step, entry.action, outcome);
        let mut list = totals_from(walk, step + 1, outcome.target);
        for total in &mut list {
            *total *= i64::from(outcome.weight);
        }
        lists.push(list);
    }
    lists
}

/// The sums of one total from each list, the last list changing fastest.
pub(super) fn combine(lists: &[Vec<i64>]) -> Vec<i64> {
    let mut sums = vec![0];
    for list in lists {
        let pairs = |sum: i64| list.iter().map(move |total| sum + total);
        sums = sums.into_iter().flat_map(pairs).collect();
    }
    sums
}
