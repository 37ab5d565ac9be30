//! What one step of a run was, seen from the states before and after it, and what it adds to the tally.

use reference::machine::State;
use reference::program::CHECKPOINT;

/// What a step did.
#[derive(Clone, Copy, Debug, PartialEq, Eq)]
pub(crate) enum Step {
    Command,
    PassedOver,
    Began,
    Stored,
    StoredLast,
    Erased,
}

impl Step {
    /// What the step between two states was. The plan's byte at the place tells a CHECKPOINT.
    pub(crate) fn between(plan: &[u8], before: &State, after: &State) -> Step {
        let is_checkpoint = plan.get(before.place as usize) == Some(&CHECKPOINT);
        match (before.erase, before.saving, after.saving) {
            (1.., _, _) => Step::Erased,
            (0, Some(_), Some(_)) => Step::Stored,
            (0, Some(_), None) => Step::StoredLast,
            (0, None, Some(_)) => Step::Began,
            (0, None, None) if is_checkpoint => Step::PassedOver,
            (0, None, None) => Step::Command,
        }
    }

    /// What the step adds to the tally: "each command executed, a stop too, adds 1; a CHECKPOINT whose save fits adds
    /// it only with the save's final byte".
    pub(crate) fn adds(self) -> usize {
        match self {
            Step::Command | Step::PassedOver | Step::StoredLast => 1,
            Step::Began | Step::Stored | Step::Erased => 0,
        }
    }
}
