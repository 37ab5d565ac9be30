//! The sentences that the watch checks, and their violations.

use std::fmt;

use reference::journal::ERASED;

/// What a list may violate: the sentences of document 01's section in their order, then what the
/// harness takes for granted in them, then what document 02 says of folding, of marks
/// and of notes.
#[derive(Clone, Copy, Debug, PartialEq, Eq, PartialOrd, Ord)]
pub enum Sentence {
    /// "After each accepted call that no cut ended, place .. are the uncut run's".
    Place,
    /// "counts ..".
    Counts,
    /// "kind of stop ..".
    Stop,
    /// "and every cell not dead before that place".
    Cells,
    /// "Each accepted run, cut or not, takes the readings .. that the uncut run has between the tallies".
    Readings,
    /// "and writes the outputs, numbers and order included".
    Outputs,
    /// "Repetitions aside, the outputs so far are the uncut run's up to the highest tally, after a stop all of them."
    SoFar,
    /// "recovery never gives 12"; nor another number, of which the list gives no ground: "A restart is
    /// promised, never 15 or 16, for a chip without A2 marks and the very plan that wrote it".
    RecoveryRefused,
    /// "a run never gives 10"; nor another number.
    RunRefused,
    /// "at most n plus twice the chip's length steps follow an accepted recovery before the next".
    StepBound,
    /// "so accepted runs given budget, readings and room, with no recovery between, reach that stop".
    StopReached,
    /// A refused call alters nothing that was lent.
    RefusedCall,
    /// Recovery stores nothing on the chip.
    ChipByRecovery,
    /// A run is its steps, whatever calls they are taken in.
    StepsOfRun,
    /// A fold is refused that gives no ground: of a chip that a list left, onto one that is long
    /// enough and begins as the number says.
    FoldRefused,
    /// "The old chip is never altered".
    OldChip,
    /// "stores the next bytes upward until budget or save is spent", whatever calls they are stored
    /// in, so that "a cut .. leaves the new chip with a beginning of that save, or the whole". As a
    /// fold with budget stores a byte or is finished, it ends.
    FoldBytes,
    /// "recovering old or finished new must give the same state except for write position and bytes
    /// to erase", and of an old chip with A2 marks "the state that the old one gave until now".
    FoldedState,
    /// "Recovery of an old chip with A2 marks, accepted until now, is refused": with 15, or with 12
    /// where its only mark is a torn A2.
    OldMarks,
    /// A place for a note is told where "the four value bytes of any record, in a whole save, whose
    /// cell is dead at the CHECKPOINT of the last whole save" stand, of a chip that recovery takes;
    /// and who asks alters nothing.
    Spent,
}

/// A sentence that a list violates, and where.
#[derive(Clone, Debug)]
pub struct Violation {
    pub sentence: Sentence,
    pub text: String,
}

impl fmt::Display for Violation {
    fn fmt(&self, text: &mut fmt::Formatter) -> fmt::Result {
        write!(text, "{:?}: {}", self.sentence, self.text)
    }
}

/// The violation of a sentence, unless what it says holds.
pub(crate) fn hold(
    holds: bool,
    sentence: Sentence,
    text: impl FnOnce() -> String,
) -> Result<(), Violation> {
    match holds {
        true => Ok(()),
        false => Err(Violation {
            sentence,
            text: text(),
        }),
    }
}

/// A chip's length, and its bytes without trailing FF.
pub(crate) fn shown(chip: &[u8]) -> String {
    let last = chip.iter().rposition(|&byte| byte != ERASED);
    let stored = &chip[..last.map_or(0, |last| last + 1)];
    format!("of {} bytes, {stored:02X?}", chip.len())
}
