//! The two days of document 02's request Q-3: until then a PUT must write nothing, since then one with len 1 must write
//! its base. A list may be begun under the sets that the analysis found until then and go on under those found now: "A
//! chip saved until now by a list as 01 has it is recovered under the new sets, and the outputs, as the list goes on,
//! must still be those of the uncut run."

use std::collections::BTreeMap;

use reference::journal::read;
use reference::machine::{Mark, State};
use reference::program::{Instruction, FIRST_INSTRUCTION};
use reference::{analyse, analyse_until, Analysis, Set};

use crate::met::Met;
use crate::step::Step;

/// Which day's sets the accepted calls of a list get.
#[derive(Clone, Copy, Debug, PartialEq, Eq)]
pub enum Days {
    /// Today's, as the engine's own analysis finds them.
    Today,
    /// At first those until Q-3, by the reference. From some call on, before which the state is spoiled, today's.
    Change,
    /// Each call those of either day, drawn at random.
    Either,
}

/// The dead cells before each command, by its offset.
pub(crate) type DeadSets = BTreeMap<u32, Set>;

pub(crate) fn dead_sets(plan: &[u8], analysis: &Analysis) -> DeadSets {
    let mut offset = FIRST_INSTRUCTION;
    let mut sets = BTreeMap::new();
    for dead in &analysis.dead {
        let (_, length) = Instruction::decode(&plan[offset..]).expect("the plan is accepted");
        sets.insert(offset as u32, dead.clone());
        offset += length;
    }
    sets
}

/// What the reference finds for a plan on either day, and what a list over both is seen to meet.
pub struct TwoDays {
    pub(crate) until: Analysis,
    pub(crate) today: Analysis,
    /// Of each EXCLUDE, by its offset, the cells in DE since Q-3, those of RO left out: until then each save behind it
    /// held them.
    since: BTreeMap<u32, Vec<u8>>,
    /// Where the list changed the days on torn bytes: their first address and they themselves, until a save is stored.
    torn: Option<(usize, Vec<u8>)>,
    /// Whether they are still to be erased.
    is_torn: bool,
}

impl TwoDays {
    pub fn of(plan: &[u8]) -> TwoDays {
        let until = analyse_until(plan).expect("the plan is accepted");
        let today = analyse(plan).expect("the plan is accepted");
        let before = until.excludes.iter().map(|(_, de, _)| de);
        let since = today.excludes.iter().zip(before);
        let since = since
            .map(|((offset, de, ro), before)| {
                let is_since = |cell: &&u8| !before.contains(cell) && !ro.contains(cell);
                (
                    *offset as u32,
                    de.iter().filter(is_since).copied().collect(),
                )
            })
            .collect();
        TwoDays {
            until,
            today,
            since,
            torn: None,
            is_torn: false,
        }
    }

    /// Counts the list among those whose sets differ, if they do.
    pub(crate) fn count_list(&self, met: &mut Met) {
        if self.until.excludes != self.today.excludes {
            met.count("lists whose DE grew");
        }
    }

    /// The cells in DE since Q-3 at this EXCLUDE; none where it is 0.
    fn since_at(&self, exclude: u32) -> &[u8] {
        self.since.get(&exclude).map_or(&[], Vec::as_slice)
    }

    /// Whether the state marks the cells in DE since Q-3 Dead, if its last EXCLUDE has any.
    fn are_dead(&self, state: &State) -> Option<bool> {
        let since = self.since_at(state.exclude);
        let is_dead = |&cell: &u8| state.marks[usize::from(cell)] == Mark::Dead;
        (!since.is_empty()).then(|| since.iter().all(is_dead))
    }

    /// Notes with what on the chip the days change.
    pub(crate) fn change(&mut self, plan: &[u8], page: usize, chip: &[u8], met: &mut Met) {
        met.count("changes of day");
        let Ok(held) = read(plan, chip, page) else {
            return;
        };
        if let Some(save) = held.saves.last() {
            met.count("changes on a whole save");
            let has = |cell: &u8| save.records.iter().any(|(other, _)| other == cell);
            if self.since_at(save.mark.exclude.into()).iter().any(has) {
                met.count("changes on a whole save with a cell in DE since");
            }
        }
        if held.torn > 0 {
            met.count("changes on torn bytes");
            let torn = chip[held.end..held.end + held.torn].to_vec();
            self.torn = Some((held.end, torn));
            self.is_torn = true;
        }
    }

    /// Notes that the list goes on with a folded chip, which has no torn bytes.
    pub(crate) fn fold(&mut self) {
        (self.torn, self.is_torn) = (None, false);
    }

    /// Notes how a recovery marked the cells in DE since Q-3.
    pub(crate) fn recovered(&self, state: &[u8], met: &mut Met) {
        let marked = State::from_bytes(state).and_then(|state| self.are_dead(&state));
        match marked {
            Some(true) => met.count("recoveries that mark a cell Dead since"),
            Some(false) => met.count("recoveries that mark it as until Q-3"),
            None => {}
        }
    }

    /// Notes what a step did.
    pub(crate) fn step(&mut self, step: Step, states: [&State; 2], chip: &[u8], met: &mut Met) {
        let [before, after] = states;
        match step {
            Step::Erased if after.erase == 0 && self.is_torn => {
                met.count("torn bytes of before the change erased");
                self.is_torn = false;
            }
            Step::StoredLast => {
                match self.are_dead(before) {
                    Some(true) => met.count("saves without a cell in DE since"),
                    Some(false) => met.count("saves with a cell in DE since"),
                    None => {}
                }
                self.stored(chip, met);
            }
            _ => {}
        }
    }

    /// Notes the first save behind a change on torn bytes.
    fn stored(&mut self, chip: &[u8], met: &mut Met) {
        if let Some((first, torn)) = self.torn.take() {
            if !chip[first..].starts_with(&torn) {
                met.count("saves with other bytes than were torn there");
            }
        }
    }
}
