//! Wrong answers to a question for the place of a note (document 02, Q-14), each with one error,
//! which the calls drawn from seeds have to find.

use claim::marks::remarked;
use reference::analysis::is_dead;
use reference::journal::{owner, read, Chip, Kind, BYTE_CHIP};
use reference::notes::{last_checkpoint, spent, values, Value};
use reference::refusal::{OLD_MARKS, OTHER_PLAN};

use crate::call::{set_lower, Call, Callee};
use crate::places::torn_values;

/// What is wrong.
#[derive(Clone, Copy, Debug, PartialEq, Eq)]
pub enum Misspent {
    Nothing,
    /// The value of a live cell is a place too.
    Live,
    /// Each save's own CHECKPOINT decides.
    OwnCheckpoint,
    /// The first save's CHECKPOINT decides.
    FirstCheckpoint,
    /// The last save alone has places.
    LastSave,
    /// The place of a value is the byte of its cell number.
    CellNumber,
    /// Every byte of a value is a place.
    AnyByte,
    /// A torn save's records have places too.
    Torn,
    /// Of the place 32 bits are read.
    Narrow,
    /// On a page chip a save is looked for right behind a MARK.
    NoFilling,
    /// A chip with A2 marks is taken.
    TakesA2,
    /// No mark is asked for its plan.
    AsksNoOwner,
    /// A refused call answers 0.
    RefusedClears,
    /// An answer has all 64 bits of the number.
    Wide,
}

impl Misspent {
    pub const ALL: [Misspent; 13] = [
        Misspent::Live,
        Misspent::OwnCheckpoint,
        Misspent::FirstCheckpoint,
        Misspent::LastSave,
        Misspent::CellNumber,
        Misspent::AnyByte,
        Misspent::Torn,
        Misspent::Narrow,
        Misspent::NoFilling,
        Misspent::TakesA2,
        Misspent::AsksNoOwner,
        Misspent::RefusedClears,
        Misspent::Wide,
    ];
}

impl Callee for Misspent {
    fn answer(&self, call: &mut Call) -> u32 {
        let answer = self.told(call);
        match answer {
            Ok(may) if *self == Misspent::Wide => call.numbers[0] = may.into(),
            Ok(may) => set_lower(&mut call.numbers[0], may.into()),
            Err(_) if *self == Misspent::RefusedClears => set_lower(&mut call.numbers[0], 0),
            Err(_) => {}
        }
        answer.err().unwrap_or(0)
    }
}

impl Misspent {
    fn told(self, call: &Call) -> Result<bool, u32> {
        let (plan, chip, page) = (call.plan.lent(), call.chip.lent(), call.entry.page());
        let right = |chip: &[u8], kind, place| spent(plan, chip, page, kind, place);
        match (self, right(chip, Kind::A3, call.place)) {
            (Misspent::TakesA2, Err(OLD_MARKS)) => right(chip, Kind::A2, call.place),
            (Misspent::AsksNoOwner, Err(OTHER_PLAN)) => {
                let own = remarked(plan, chip, page, |_, _| Some(owner(plan)));
                right(&own.expect("it has a mark"), Kind::A3, call.place)
            }
            (_, Err(refusal)) => Err(refusal),
            (_, Ok(may)) => self.told_of(call, may),
        }
    }

    /// What is told of a chip that recovery takes, where that is right or not.
    fn told_of(self, call: &Call, may: bool) -> Result<bool, u32> {
        let (plan, chip, page) = (call.plan.lent(), call.chip.lent(), call.entry.page());
        let held = read(plan, chip, page)?;
        let found = |page, place: u64| {
            let mut values = values(&held, page).into_iter();
            values.find(|value| value.at as u64 == place)
        };
        let is_spent = |page, place, checkpoint: &dyn Fn(Value) -> usize| match found(page, place) {
            Some(value) => is_dead(plan, value.cell, checkpoint(value)),
            None => Ok(false),
        };
        let last = |_| last_checkpoint(&held);
        let first = |_| usize::from(held.saves[0].mark.place) - 1;
        match self {
            Misspent::Live => Ok(found(page, call.place).is_some()),
            Misspent::OwnCheckpoint => is_spent(page, call.place, &|value| value.checkpoint),
            Misspent::FirstCheckpoint => is_spent(page, call.place, &first),
            Misspent::LastSave => Ok(may && call.place >= begin_of_last(&held, page)),
            Misspent::CellNumber => is_spent(page, call.place.wrapping_add(1), &last),
            Misspent::AnyByte => (0..4)
                .map(|before| is_spent(page, call.place.wrapping_sub(before), &last))
                .try_fold(false, |any, may| Ok(any || may?)),
            Misspent::Torn => Ok(may || is_torn_value(&held, call)),
            Misspent::Narrow => is_spent(page, call.place % (1 << 32), &last),
            Misspent::NoFilling => is_spent(BYTE_CHIP, call.place, &last),
            _ => Ok(may),
        }
    }
}

/// Where the last whole save begins.
fn begin_of_last(held: &Chip, page: usize) -> u64 {
    let last = held.saves.last().map_or(0, |save| save.pages(page).len());
    (held.end - last) as u64
}

/// Whether the place is the value of a record in the torn save, of a cell that is dead at the last
/// CHECKPOINT.
fn is_torn_value(held: &Chip, call: &Call) -> bool {
    let (plan, chip) = (call.plan.lent(), call.chip.lent());
    let mut torn = torn_values(held, chip).into_iter();
    let found = torn.find(|at| *at as u64 == call.place);
    let cell = found.and_then(|at| chip.get(at - 1));
    let is_spent = |&cell: &u8| is_dead(plan, cell, last_checkpoint(held)) == Ok(true);
    !held.saves.is_empty() && cell.is_some_and(is_spent)
}
