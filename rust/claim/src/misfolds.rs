//! Folds with one error each: to another save than document 02 names, or by other calls.

use std::collections::BTreeSet;

use reference::folding::{folded, read_old, store, Folded};
use reference::journal::{read, read_as, Chip, Kind, BYTE_CHIP, ERASED, RECORD};
use reference::refusal::{CHIP_DAMAGED, NEW_CHIP_DIFFERS, OLD_MARKS, OTHER_PLAN};

use crate::altered::{Alter, Altered};
use crate::engine::{Engine, LentFold};
use crate::marks::{owned, owned_but_last};

/// The bytes of a record.
const RECORD_LEN: usize = 6;

impl Alter {
    /// The bytes that the old chip is folded to, where they are others.
    fn folded(self, plan: &[u8], old: &[u8], held: &Chip) -> Option<Vec<u8>> {
        let mut save = folded(plan, held, Kind::A3)?;
        let (own, last) = (save.mark.owner?, held.last());
        match self {
            Alter::FoldWritesA2 => save.mark.owner = None,
            Alter::FoldOtherSum => save.mark.owner = Some(own.wrapping_add(1 << 16)),
            Alter::FoldOtherLength => save.mark.owner = Some(own + 1),
            Alter::FoldKeepsOwner => save.mark.owner = Some(last.owner.unwrap_or(0)),
            Alter::FoldLosesA2 if last.kind() == Kind::A2 => return Some(vec![]),
            Alter::FoldDropsLast => drop(save.records.pop()),
            Alter::FoldFirstMark => {
                save.mark = held.saves[0].mark;
                save.mark.owner = Some(own);
            }
            Alter::FoldFirstValues => save.records = first_values(held),
            Alter::FoldTorn => {
                let torn = torn_records(&old[held.end..held.end + held.torn]);
                save.records
                    .retain(|(cell, _)| torn.iter().all(|(other, _)| other != cell));
                save.records.extend(torn);
            }
            Alter::FoldEndsEarly => {
                let bytes = save.bytes();
                return Some(bytes[..bytes.len() - 1].to_vec());
            }
            Alter::FoldFalling => save.records.reverse(),
            Alter::FoldZeros => {
                let all = saved_cells(held).into_iter();
                save.records = all.map(|cell| (cell, held.value(cell))).collect();
            }
            _ => return None,
        }
        Some(save.bytes())
    }
}

/// The cells of all saves, rising.
fn saved_cells(held: &Chip) -> BTreeSet<u8> {
    let records = held.saves.iter().flat_map(|save| &save.records);
    records.map(|(cell, _)| *cell).collect()
}

/// Each cell with the first of its values, unless that is 0.
fn first_values(held: &Chip) -> Vec<(u8, i32)> {
    let first = |cell: u8| {
        let mut records = held.saves.iter().flat_map(|save| &save.records);
        records.find(|(other, _)| *other == cell).copied()
    };
    let values = saved_cells(held).into_iter().filter_map(first);
    values.filter(|(_, value)| *value != 0).collect()
}

/// The whole records of a torn save.
fn torn_records(torn: &[u8]) -> Vec<(u8, i32)> {
    let (records, _) = torn.as_chunks::<RECORD_LEN>();
    let records = records.iter().take_while(|record| record[0] == RECORD);
    records
        .map(|&[_, cell, a, b, c, d]| (cell, i32::from_le_bytes([a, b, c, d])))
        .collect()
}

impl<E: Engine> Altered<E> {
    pub(crate) fn altered_fold(&self, lent: LentFold) -> Result<Folded, u32> {
        let words = lent.sets.len();
        let held = read_old(lent.plan, words, lent.old, lent.new.len());
        if let Some(number) = self.refuses_old(lent.plan, lent.old, &held) {
            return Err(number);
        }
        if let Some(mut old) = self.takes_other(lent.plan, lent.old, &held) {
            let old = &mut old;
            return self.engine.fold(LentFold { old, ..lent });
        }
        let held = held.ok();
        match held.and_then(|held| self.alter.folded(lent.plan, lent.old, &held)) {
            Some(save) => store(&save, lent.new, lent.stored, lent.budget),
            None => self.fold_by_bytes(lent),
        }
    }

    /// The refusal of an old chip, where it is one that should be taken.
    fn refuses_old(&self, plan: &[u8], old: &[u8], held: &Result<Chip, u32>) -> Option<u32> {
        let held = held.as_ref().ok()?;
        let is_a2 = read_as(plan, old, BYTE_CHIP, Kind::A3).is_err();
        match (self.alter, held.saves.is_empty()) {
            (Alter::FoldRefusesA2, false) if is_a2 => Some(OLD_MARKS),
            (Alter::FoldRefusesTornA2, true) if is_a2 => Some(CHIP_DAMAGED),
            _ => None,
        }
    }

    /// The old chip as it is taken, where it should be refused with 16.
    fn takes_other(&self, plan: &[u8], old: &[u8], held: &Result<Chip, u32>) -> Option<Vec<u8>> {
        let is_other = *held == Err(OTHER_PLAN) && read(plan, old, BYTE_CHIP).is_ok();
        match self.alter {
            Alter::FoldAsksNoOwner if is_other => Some(owned(plan, old, BYTE_CHIP)),
            Alter::FoldAsksLastOwner if is_other => Some(owned_but_last(plan, old, BYTE_CHIP)),
            _ => None,
        }
    }

    /// The engine's own fold, a byte a call. The first has no budget, and tests all that is lent.
    fn fold_by_bytes(&self, lent: LentFold) -> Result<Folded, u32> {
        let (plan, sets, old, new) = (lent.plan, lent.sets, lent.old, lent.new);
        let mut call = |stored, budget| {
            self.engine.fold(LentFold {
                plan,
                sets,
                old,
                new,
                stored,
                budget,
            })
        };
        let mut answer = call(lent.stored, 0)?;
        let budget = self.altered_budget(lent.stored, lent.budget)?;
        while !answer.finished && answer.stored - lent.stored < budget {
            answer = call(answer.stored, 1)?;
        }
        if self.alter == Alter::FoldErasesOld {
            old.fill(ERASED);
        }
        answer.finished &= self.alter != Alter::FoldNeverEnds;
        Ok(answer)
    }

    fn altered_budget(&self, stored: u64, budget: u64) -> Result<u64, u32> {
        match self.alter {
            Alter::FoldRefusesBegun if stored > 0 => Err(NEW_CHIP_DIFFERS),
            Alter::FoldOverspends => Ok(budget.saturating_add(1)),
            _ => Ok(budget),
        }
    }
}
