//! How judges with faults compare a total with its bound.

use super::Fault;
use crate::gain_faults::raised;
use crate::logic::{Bound, Lamp, PlanNode, Relation};
use std::cmp::Ordering;

/// A root's total and what it is compared with, rightly and wrongly.
pub(super) struct Sides {
    pub(super) root: PlanNode,
    pub(super) total: i128,
    /// D.
    pub(super) base: i128,
    /// The steps after which no total changes but by a factor of D for each.
    pub(super) matter: u32,
    /// The bound of the question's first plan node.
    pub(super) other: Bound,
}

impl Sides {
    /// The lamp of the total to a judge with the fault.
    pub(super) fn lamp(&self, fault: Fault) -> Lamp {
        let right = self.right();
        let relation = self.root.relation;
        let met = right.meets(relation);
        match (fault, right) {
            (Fault::Exchanged, Lamp::Below) | (Fault::AtAsAbove, Lamp::At) => Lamp::Above,
            (Fault::Exchanged, Lamp::Above) | (Fault::AtAsBelow, Lamp::At) => Lamp::Below,
            (Fault::ZeroIsAt, _) if self.total == 0 => Lamp::At,
            (Fault::ByRelation, _) => met_lamp(relation),
            (Fault::MissedIsAt, _) if !met => Lamp::At,
            (Fault::MissedIsBeside, _) if !met => beside(relation),
            (Fault::MetIsAt, _) if met => Lamp::At,
            _ => self.compared(fault).map_or(right, Lamp::of),
        }
    }

    /// The total's lamp.
    pub(super) fn right(&self) -> Lamp {
        Lamp::of(self.over(self.root.bound).cmp(&0))
    }

    /// The same root with another total.
    pub(super) fn with(&self, total: i128) -> Sides {
        Sides { total, ..*self }
    }

    /// By how much the total times q is over p times D to the n.
    fn over(&self, bound: Bound) -> i128 {
        self.total * i128::from(bound.q) - i128::from(bound.p) * self.whole()
    }

    /// D to the n.
    fn whole(&self) -> i128 {
        self.base.pow(self.root.steps.into())
    }

    /// The comparison of a judge with the fault, if it compares otherwise.
    fn compared(&self, fault: Fault) -> Option<Ordering> {
        let Bound { p, q } = self.root.bound;
        let (p, q, total) = (i128::from(p), i128::from(q), self.total);
        let whole = self.whole();
        let short = self.base.pow(self.matter);
        Some(match fault {
            Fault::OtherBound => self.over(self.other).cmp(&0),
            Fault::DividedFirst => (total / whole).cmp(&(p / q)),
            Fault::BoundCut => total.cmp(&(p * whole / q)),
            Fault::BoundFloored => total.cmp(&(p * whole).div_euclid(q)),
            Fault::Millionths => (total * 1_000_000 / whole).cmp(&(p * 1_000_000 / q)),
            Fault::DividedDoubles => double(total, whole).total_cmp(&double(p, q)),
            Fault::MultipliedDoubles => {
                (total as f64 * q as f64).total_cmp(&(p as f64 * whole as f64))
            }
            Fault::DividedSingles => single(total, whole).total_cmp(&single(p, q)),
            Fault::TotalCut => (i128::from(total as i32) * q).cmp(&(p * whole)),
            Fault::WholeCut => (total * q).cmp(&(p * i128::from(whole as u32))),
            Fault::SignsLost => (total.abs() * q).cmp(&(p.abs() * whole)),
            Fault::TotalUnsigned => (i128::from(total as u64) * q).cmp(&(p * whole)),
            Fault::ShortTotal => (total * short / whole * q).cmp(&(p * whole)),
            Fault::ShortWhole => (total * q).cmp(&(p * short)),
            Fault::OneStep => (total * q).cmp(&(p * self.base)),
            Fault::QLeftOut => total.cmp(&(p * whole)),
            Fault::SidesSigned => {
                let (left, right) = raised(&self.root, total, whole);
                (left as i64).cmp(&(right as i64))
            }
            _ => return by_difference(fault, self.over(self.root.bound), q),
        })
    }
}

/// The same where it errs about how far the total, times q, lies over the
/// bound. A unit is q there.
fn by_difference(fault: Fault, over: i128, q: i128) -> Option<Ordering> {
    match fault {
        Fault::OneUnitIsAt if over.abs() <= q => Some(Ordering::Equal),
        Fault::NearestIsAt if over.abs() < q => Some(Ordering::Equal),
        Fault::DifferenceSigned => Some((over as i64).cmp(&0)),
        Fault::DifferenceCut => Some((over as i32).cmp(&0)),
        _ => None,
    }
}

fn double(p: i128, q: i128) -> f64 {
    p as f64 / q as f64
}

fn single(p: i128, q: i128) -> f32 {
    p as f32 / q as f32
}

/// The lamp with which a bound is met.
fn met_lamp(relation: Relation) -> Lamp {
    match relation {
        Relation::Less => Lamp::Below,
        Relation::Equal => Lamp::At,
        Relation::Greater => Lamp::Above,
    }
}

/// A lamp with which it is missed, and not just so.
fn beside(relation: Relation) -> Lamp {
    match relation {
        Relation::Less => Lamp::Above,
        Relation::Equal | Relation::Greater => Lamp::Below,
    }
}
