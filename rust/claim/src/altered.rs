//! Engines with one error each, on which the watch has to fail. Each is a sound engine in a wrapper
//! that lets it take its steps one by one and alters one thing: the sets, a recovery, a step, an
//! answer, a fold (`misfolds`), or a place told for a note.

use reference::analysis::analyse_with;
use reference::folding::Folded;
use reference::journal::{owner, read, read_as, Kind, ERASED, MARK_END};
use reference::machine::{Ended, Mark, State, Stop};
use reference::program::{Instruction, CHECKPOINT, EXCLUDE};
use reference::refusal::{CHIP_DAMAGED, OLD_MARKS, OTHER_PLAN, STATE_NOT_SOUND};

use crate::engine::{fill, Engine, Lent, LentFold, LentPlace, Ran, UNTIL};
use crate::marks::{owned, owned_but_last};

/// What is altered.
#[derive(Clone, Copy, Debug, PartialEq, Eq)]
pub enum Alter {
    Nothing,
    /// Document 001's rule: a Dead cell that becomes read-only stays Dead.
    DeadStaysDead,
    /// A save that is passed over makes Pending cells Kept.
    KeptByPassedOver,
    /// The analysis takes a PUT for a sure write of its whole table.
    SurePut,
    /// It takes one to a table of two cells for a sure write of both.
    SurePutOfTwo,
    /// It takes one to a table of one cell for a sure write of the cell after it.
    SurePutBeside,
    /// The torn pages are erased from the lowest address on.
    EraseUpward,
    /// Recovery takes a save for whole that lacks its last page, or a part of it.
    WholeBefore5A,
    /// EMIT raises the count, and where the budget ends there the value is never handed on.
    CountedBeforeGiven,
    /// After the first save the engine only says that it stores.
    OnlySaysSo,
    /// Recovery gives a count of outputs that is 1 too high.
    CountsAhead,
    /// Every stop is a divisor's.
    OtherStop,
    /// The answer has a reading too many.
    TakesOneMore,
    /// A run is refused while a save is at work.
    RefusesSaving,
    /// A byte erased leaves as many to erase.
    ErasesForever,
    /// A run answers spent before its first step.
    SpentAtOnce,
    /// A refused call clears the state, a refused fold the new chip.
    RefusedClears,
    /// Recovery itself erases the torn bytes.
    RecoveryErases,
    /// The answer of a run of several steps has one more.
    InventsAStep,
    /// Behind its MARK the page of a save is filled with 00.
    FillsWithZeros,
    /// Recovery counts the torn bytes and not their pages.
    TornBytes,
    /// Recovery goes on right behind the last MARK.
    GoesOnBehindMark,
    /// Recovery goes on a page later where the last MARK ends one.
    GoesOnPageLater,
    /// Recovery leaves the torn bytes to be stored over and not erased.
    LeavesTorn,
    /// Recovery takes a chip for damaged whose last save holds a cell that is Dead by the sets.
    RefusesDeadCells,
    /// A fold leaves out the cell of the highest number.
    FoldDropsLast,
    /// A fold stores the first mark's fields.
    FoldFirstMark,
    /// A fold stores the first saved value of each cell.
    FoldFirstValues,
    /// A fold takes in the whole records of a torn save.
    FoldTorn,
    /// A fold is finished without the save's last byte.
    FoldEndsEarly,
    /// A fold stores the records by falling number.
    FoldFalling,
    /// A fold stores every cell that was saved, also one of value 0.
    FoldZeros,
    /// A fold erases the old chip.
    FoldErasesOld,
    /// A fold stores a byte more than the budget says.
    FoldOverspends,
    /// A fold is refused where bytes are stored already.
    FoldRefusesBegun,
    /// A fold never answers that it is finished.
    FoldNeverEnds,
    /// Recovery takes a chip with A2 marks, as until Q-8.
    TakesA2,
    /// Recovery takes a chip whose only mark is a torn A2, as until Q-8.
    TakesTornA2,
    /// Recovery asks no mark for its plan.
    AsksNoOwner,
    /// Recovery asks the last mark alone for its plan.
    AsksLastOwner,
    /// A save's mark has a sum that is 1 too high.
    SavesOtherSum,
    /// A fold writes an A2 mark, as until Q-8.
    FoldWritesA2,
    /// A fold writes a sum that is 1 too high.
    FoldOtherSum,
    /// A fold writes a length that is 1 too high.
    FoldOtherLength,
    /// A fold writes what the old mark names, zeros where that is A2.
    FoldKeepsOwner,
    /// A fold takes a chip with A2 marks for one without a save.
    FoldLosesA2,
    /// A fold refuses a chip with A2 marks with 15.
    FoldRefusesA2,
    /// A fold refuses a chip whose only mark is a torn A2 with 12, as recovery does.
    FoldRefusesTornA2,
    /// A fold asks no mark for its plan.
    FoldAsksNoOwner,
    /// A fold asks the last mark alone for its plan.
    FoldAsksLastOwner,
    /// No place is told for a note.
    SpentNowhere,
    /// A place is told for a note on a chip with A2 marks.
    SpentTakesA2,
    /// Who asks for a place loses the chip.
    SpentErases,
}

impl Alter {
    /// Which cells a command must write, where the analysis goes by another rule.
    fn must_write(self) -> Option<fn(Instruction, u8) -> bool> {
        match self {
            Alter::SurePut => Some(Instruction::may_write),
            Alter::SurePutOfTwo => Some(|instruction, cell| match instruction {
                Instruction::Put { table, .. } if table.len == 2 => table.contains(cell),
                _ => instruction.must_write(cell),
            }),
            Alter::SurePutBeside => Some(|instruction, cell| match instruction {
                Instruction::Put { table, .. } if table.len == 1 => {
                    table.base.checked_add(1) == Some(cell)
                }
                _ => instruction.must_write(cell),
            }),
            _ => None,
        }
    }
}

/// A sound engine with the alteration.
pub struct Altered<E> {
    pub engine: E,
    pub alter: Alter,
}

impl<E: Engine> Engine for Altered<E> {
    fn analyse(&self, plan: &[u8], sets: &mut [u64]) {
        let Some(must_write) = self.alter.must_write() else {
            return self.engine.analyse(plan, sets);
        };
        let found = analyse_with(plan, must_write);
        fill(sets, &found.expect("the plan is accepted"));
    }

    fn recover(&self, lent: Lent) -> Result<(), u32> {
        let (plan, page) = (lent.plan, lent.page);
        let (chip, state) = (lent.chip, lent.state);
        let before = state.to_vec();
        let mut seen = chip.to_vec();
        if self.alter == Alter::WholeBefore5A {
            add_final_page(plan, page, &mut seen);
        }
        let mut answer = self.engine.recover(Lent {
            chip: &mut seen,
            state,
            ..lent
        });
        if let Some(engine) = self.takes_refused(plan, page, &mut seen, answer) {
            answer = engine.recover(Lent {
                chip: &mut seen,
                state,
                ..lent
            });
        }
        match answer {
            Ok(()) if self.takes_for_damaged(plan, page, chip, state) => {
                state.copy_from_slice(&before);
                return Err(CHIP_DAMAGED);
            }
            Ok(()) => self.alter_recovered(page, chip, state),
            Err(_) => self.alter_refused(state),
        }
        answer
    }

    fn run(
        &self,
        lent: Lent,
        readings: &[i32],
        outputs: &mut [i32],
        budget: u64,
    ) -> Result<Ran, u32> {
        let (plan, sets, page) = (lent.plan, lent.sets, lent.page);
        let (chip, state) = (lent.chip, lent.state);
        let budget = self.alter_budget(budget, state)?;
        let mut ran = Ran::default();
        let mut gave = false;
        loop {
            let before = Before::of(chip, state);
            let lent = Lent {
                plan,
                sets,
                page,
                chip,
                state,
            };
            let one = (budget - ran.steps).min(1);
            let room = &mut outputs[ran.written..];
            let answer = self.engine.run(lent, &readings[ran.taken..], room, one);
            let next = answer.inspect_err(|_| self.alter_refused(state))?;
            ran = ran.then(next);
            if next.steps == 0 {
                return Ok(self.altered_answer(ran, gave));
            }
            self.alter_step(plan, page, &before, chip, state);
            gave = next.written > 0;
        }
    }

    fn fold(&self, lent: LentFold) -> Result<Folded, u32> {
        let new = lent.new;
        let answer = self.altered_fold(LentFold { new, ..lent });
        answer.inspect_err(|_| self.alter_refused(new))
    }

    fn spent(&self, lent: LentPlace) -> Result<bool, u32> {
        let chip = lent.chip;
        let answer = self.engine.spent(LentPlace { chip, ..lent });
        match (self.alter, answer) {
            (Alter::SpentNowhere, Ok(_)) => return Ok(false),
            (Alter::SpentTakesA2, Err(OLD_MARKS)) => return Ok(true),
            (Alter::SpentErases, Ok(_)) => chip.fill(ERASED),
            _ => {}
        }
        answer
    }
}

/// Chip and state before a step; no state where the bytes are none, which every engine refuses.
struct Before {
    chip: Vec<u8>,
    state: Option<State>,
}

impl Before {
    fn of(chip: &[u8], state: &[u8]) -> Before {
        Before {
            chip: chip.to_vec(),
            state: State::from_bytes(state),
        }
    }
}

impl<E: Engine> Altered<E> {
    /// Where a recovery is refused that the altered one takes: the engine that takes it, of the chip as
    /// it then reads it.
    fn takes_refused(
        &self,
        plan: &[u8],
        page: usize,
        chip: &mut Vec<u8>,
        answer: Result<(), u32>,
    ) -> Option<&dyn Engine> {
        let is_a2 = |chip: &[u8]| read_as(plan, chip, page, Kind::A2).is_ok();
        match (self.alter, answer.err()?) {
            (Alter::TakesA2, OLD_MARKS) => Some(&UNTIL),
            (Alter::TakesTornA2, CHIP_DAMAGED) if is_a2(chip) => Some(&UNTIL),
            (Alter::AsksNoOwner, OTHER_PLAN) => {
                *chip = owned(plan, chip, page);
                Some(&self.engine)
            }
            (Alter::AsksLastOwner, OTHER_PLAN) => {
                *chip = owned_but_last(plan, chip, page);
                Some(&self.engine)
            }
            _ => None,
        }
    }
}

impl<E> Altered<E> {
    fn alter_budget(&self, budget: u64, state: &[u8]) -> Result<u64, u32> {
        let is_saving = || State::from_bytes(state).is_some_and(|state| state.saving.is_some());
        match self.alter {
            Alter::SpentAtOnce => Ok(0),
            Alter::RefusesSaving if is_saving() => Err(STATE_NOT_SOUND),
            _ => Ok(budget),
        }
    }

    fn alter_refused(&self, lent: &mut [u8]) {
        if self.alter == Alter::RefusedClears {
            lent.fill(0);
        }
    }

    /// Where that is what is altered: whether the chip's last save holds a cell that the state recovered from it marks
    /// Dead.
    fn takes_for_damaged(&self, plan: &[u8], page: usize, chip: &[u8], state: &[u8]) -> bool {
        if self.alter != Alter::RefusesDeadCells {
            return false;
        }
        let held = read(plan, chip, page).expect("recovery took the chip");
        let state = State::from_bytes(state).expect("recovery leaves a state");
        let is_dead = |(cell, _): &(u8, i32)| state.marks[usize::from(*cell)] == Mark::Dead;
        let last = held.saves.last();
        last.is_some_and(|save| save.records.iter().any(is_dead))
    }

    fn alter_recovered(&self, page: usize, chip: &mut [u8], state: &mut [u8]) {
        let mut recovered = State::from_bytes(state).expect("recovery leaves a state");
        let (saves, rest) = chip.split_at(recovered.write as usize);
        let torn = without_trailing_ff(rest);
        match self.alter {
            Alter::TornBytes => recovered.erase = torn as u32,
            Alter::LeavesTorn => recovered.erase = 0,
            Alter::GoesOnBehindMark => recovered.write = without_trailing_ff(saves) as u32,
            Alter::GoesOnPageLater if saves.last() == Some(&MARK_END) => {
                recovered.write += page as u32;
            }
            Alter::CountsAhead => recovered.outputs = recovered.outputs.wrapping_add(1),
            Alter::RecoveryErases => chip[recovered.write as usize..].fill(ERASED),
            _ => {}
        }
        state.copy_from_slice(&recovered.to_bytes());
    }

    fn alter_step(
        &self,
        plan: &[u8],
        page: usize,
        before: &Before,
        chip: &mut [u8],
        bytes: &mut [u8],
    ) {
        let after = State::from_bytes(bytes).expect("a step leaves a state");
        let Some(state) = &before.state else { return };
        let mut altered = after.clone();
        let command = command_due(plan, state);
        let write = state.write as usize;
        match (self.alter, state.saving) {
            (Alter::DeadStaysDead, _) if command == EXCLUDE => {
                keep_dead(&state.marks, &mut altered.marks);
            }
            (Alter::KeptByPassedOver, _) if command == CHECKPOINT && after.saving.is_none() => {
                keep_pending(&mut altered.marks);
            }
            (Alter::EraseUpward, _) if state.erase > 0 => {
                chip[write..].copy_from_slice(&before.chip[write..]);
                erase_lowest(page, &mut chip[write..]);
            }
            (Alter::OnlySaysSo, Some(stored)) if stored < state.write => {
                chip[write..].copy_from_slice(&before.chip[write..]);
            }
            (Alter::FillsWithZeros, Some(_)) if after.saving.is_none() => {
                let last = &mut chip[write..write + page];
                let filling = without_trailing_ff(last);
                last[filling..].fill(0x00);
            }
            (Alter::SavesOtherSum, Some(_)) if after.saving.is_none() => raise_sum(&after, chip),
            (Alter::ErasesForever, _) => altered.erase = state.erase,
            (Alter::OtherStop, _) => altered.stop = after.stop.map(|_| Stop::Divisor),
            _ => {}
        }
        bytes.copy_from_slice(&altered.to_bytes());
    }

    /// The answer, where `gave` says whether the last step gave an output.
    fn altered_answer(&self, mut ran: Ran, gave: bool) -> Ran {
        match self.alter {
            Alter::CountedBeforeGiven if gave && ran.ended == Ended::Spent.number() => {
                ran.written -= 1;
            }
            Alter::TakesOneMore if ran.taken > 0 => ran.taken += 1,
            Alter::InventsAStep if ran.steps > 1 => ran.steps += 1,
            _ => {}
        }
        ran
    }
}

/// Makes the sum of the save that ends at the write position another; it stands right before 5A.
fn raise_sum(state: &State, chip: &mut [u8]) {
    let end = without_trailing_ff(&chip[..state.write as usize]);
    chip[end - 3] = chip[end - 3].wrapping_add(1);
}

/// The command byte that is due, or 0 while pages are to be erased or stored.
fn command_due(plan: &[u8], state: &State) -> u8 {
    match state.erase == 0 && state.saving.is_none() {
        true => plan[state.place as usize],
        false => 0,
    }
}

fn keep_dead(before: &[Mark], after: &mut [Mark]) {
    for (before, after) in before.iter().zip(after) {
        if (*before, *after) == (Mark::Dead, Mark::Pending) {
            *after = Mark::Dead;
        }
    }
}

fn keep_pending(marks: &mut [Mark]) {
    for mark in marks.iter_mut().filter(|mark| **mark == Mark::Pending) {
        *mark = Mark::Kept;
    }
}

/// How many bytes there are up to the last that is not FF.
pub(crate) fn without_trailing_ff(bytes: &[u8]) -> usize {
    let last = bytes.iter().rposition(|&byte| byte != ERASED);
    last.map_or(0, |last| last + 1)
}

fn erase_lowest(page: usize, chip: &mut [u8]) {
    let is_stored = |page: &&mut [u8]| page.iter().any(|&byte| byte != ERASED);
    if let Some(lowest) = chip.chunks_exact_mut(page).find(is_stored) {
        lowest.fill(ERASED);
    }
}

/// Makes the torn bytes a whole save where at most a page, of zeros, what names the plan and the final 5A, does it.
fn add_final_page(plan: &[u8], page: usize, chip: &mut [u8]) {
    let saves = |chip: &[u8]| read(plan, chip, page).map(|held| held.saves.len());
    let stored = without_trailing_ff(chip);
    let end = [&owner(plan).to_le_bytes()[..], &[MARK_END]].concat();
    let whole = (1..=page.min(chip.len() - stored)).find_map(|missing| {
        let mut ended = chip.to_vec();
        let added = &mut ended[stored..stored + missing];
        added.fill(0x00);
        let of_end = missing.min(end.len());
        added[missing - of_end..].copy_from_slice(&end[end.len() - of_end..]);
        (saves(&ended).ok()? > saves(chip).ok()?).then_some(ended)
    });
    if let Some(whole) = whole {
        chip.copy_from_slice(&whole);
    }
}
