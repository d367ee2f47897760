//! How wrong explainers print.

use super::listed::Listed;
use super::picks::Line;
use super::{Case, Fault};
use crate::logic::{PlanNode, Summed, SILENT};

/// The choices in a sheet's first block.
const FIRST_BLOCK: usize = 490;

impl Case<'_> {
    /// A line as an explainer with the fault prints it.
    pub(super) fn printed(&self, root: &PlanNode, fault: Fault, line: &Line) -> String {
        let word = match (fault, line.word) {
            (Fault::WordsExchanged, "below") => "above",
            (Fault::WordsExchanged, "above") => "below",
            (Fault::WordsExchanged, "greatest") => "least",
            (Fault::WordsExchanged, "least") => "greatest",
            (_, word) => word,
        };
        let Some(listed) = &line.plan else {
            return format!("{word} none");
        };
        let fraction = self.fraction(root, fault, listed.total);
        let more = match fault {
            Fault::LampInLines => format!(" {}", root.lamp(listed.total, self.whole).word()),
            Fault::CountInLines => format!(" plans {}", self.plans.len()),
            _ => String::new(),
        };
        let choices = self.choices(root, fault, listed).into_iter();
        let choices: String = choices.map(|choice| format!(" {choice}")).collect();
        format!("{word} {fraction}{more} choices{choices}")
    }

    fn fraction(&self, root: &PlanNode, fault: Fault, total: i128) -> String {
        let whole = i128::from(self.whole);
        let base = i128::from(self.model.denominator);
        let depth = u32::try_from(self.depth(root)).unwrap_or(0);
        let short = base.pow(depth);
        let (total, whole) = match (fault, root.summed) {
            (Fault::OwnTotal, _) => (self.product().div_euclid(root.bound.q.into()), whole),
            (Fault::RaisedTotals, Summed::Gains { first, last }) => {
                (total + 1000 * i128::from(last + 1 - first) * whole, whole)
            }
            (Fault::SignNotPrinted, _) => (total.abs(), whole),
            (Fault::Reduced, _) => {
                let common = gcd(total.abs(), whole).max(1);
                (total / common, whole / common)
            }
            (Fault::OverOneStep, _) => (total, base),
            (Fault::ShortTotal, _) => (total * short / whole, whole),
            (Fault::ShortFraction, _) => (total * short / whole, short),
            _ => (total, whole),
        };
        format!("{total}/{whole}")
    }

    fn choices(&self, root: &PlanNode, fault: Fault, listed: &Listed) -> Vec<u8> {
        let mut choices = listed.choices.clone();
        match fault {
            Fault::ChoicesOnlyAsDeep => {
                return self.first_choices(&listed.plan, self.depth(root));
            }
            Fault::FirstChoiceOnly => choices.truncate(1),
            Fault::FirstBlockOnly => choices.truncate(FIRST_BLOCK),
            Fault::SilentAsZero => {
                let silent = choices.iter_mut().filter(|choice| **choice == SILENT);
                silent.for_each(|choice| *choice = 0);
            }
            Fault::SilentNotPrinted => choices.retain(|choice| *choice != SILENT),
            _ => {}
        }
        choices
    }
}

fn gcd(a: i128, b: i128) -> i128 {
    if b == 0 {
        a
    } else {
        gcd(b, a % b)
    }
}
