//! Desks that came to hold something else than a right one, carried along beside
//! it: what they answer otherwise tells the fault that they came by.

use crate::desk::{Answer, Call, Desk};

/// Desks with their faults, as long as they hold something else than the right one.
pub(crate) struct Strays<F> {
    desks: Vec<(F, Desk)>,
}

impl<F> Default for Strays<F> {
    fn default() -> Self {
        Strays { desks: Vec::new() }
    }
}

impl<F: Copy + PartialEq> Strays<F> {
    /// The faults with which the call is answered otherwise.
    pub(crate) fn wrong(&mut self, call: &Call, right: &Answer) -> Vec<(F, &'static str)> {
        let mut found = Vec::new();
        for (fault, wrong) in &mut self.desks {
            if call.make(wrong) != *right {
                found.push((*fault, call.name()));
            }
        }
        found
    }

    /// Takes in the desks that strayed by the call just made, each in the place of
    /// the one with the same fault, and lets go those that hold what `desk` does,
    /// the right one after the call.
    pub(crate) fn follow(&mut self, made: Vec<(F, Desk)>, desk: &Desk) {
        self.desks
            .retain(|(fault, _)| made.iter().all(|(again, _)| again != fault));
        self.desks.extend(made);
        self.desks.retain(|(_, wrong)| wrong != desk);
    }
}
