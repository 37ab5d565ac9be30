//! The marks of document 02's request Q-8: until then they were A2, since then they are A3 and name
//! their plan. A list may be begun as document 01 has it, on a byte chip, and go on since: "folding
//! reads such a byte chip and writes A3, so no batch on one is lost". And chips whose marks are
//! others than the engine writes.

use reference::journal::{owner, read, read_as, Kind, Mark, Save, BYTE_CHIP, ERASED};
use reference::refusal::{CHIP_DAMAGED, OLD_MARKS};

use crate::met::Met;

/// Which marks the accepted calls of a list write.
#[derive(Clone, Copy, Debug, PartialEq, Eq)]
pub enum Marks {
    /// A3, as every engine since Q-8.
    A3,
    /// A2 to the end, for an engine as until Q-8.
    A2,
    /// At first A2, by the reference as until Q-8. From some call on the engine goes on, once it
    /// has folded the chip.
    Change,
}

/// What recovery answers since Q-8 of a byte chip that a list until Q-8 left: 15, 12 where its only
/// mark is a torn A2, or none where no mark byte stands on it.
pub(crate) fn refusal_of_old(plan: &[u8], chip: &[u8]) -> Option<u32> {
    let held = read_as(plan, chip, BYTE_CHIP, Kind::A2).expect("a list leaves a sound chip");
    match held.saves.is_empty() {
        false => Some(OLD_MARKS),
        true => read_as(plan, chip, BYTE_CHIP, Kind::A3)
            .err()
            .map(|_| CHIP_DAMAGED),
    }
}

/// Counts with what on the chip a list goes over to A3 marks.
pub(crate) fn count_change(plan: &[u8], chip: &[u8], met: &mut Met) {
    let held = read_as(plan, chip, BYTE_CHIP, Kind::A2).expect("a list leaves a sound chip");
    let refusal = refusal_of_old(plan, chip);
    let named = [
        ("changes of marks", true),
        ("changes on A2 marks", refusal == Some(OLD_MARKS)),
        ("changes on several A2 marks", held.saves.len() > 1),
        (
            "changes on A2 marks and torn bytes",
            !held.saves.is_empty() && held.torn > 0,
        ),
        ("changes on a torn A2 alone", refusal == Some(CHIP_DAMAGED)),
        ("changes on a chip without a mark", refusal.is_none()),
    ];
    for (name, is_met) in named {
        met.add(name, u64::from(is_met));
    }
}

/// The chip with other marks in its whole saves, by their numbers and what they name. What stands
/// behind them stays, but where a mark is of the other kind it is erased; the chip is then as long,
/// or longer where the marks need it. None where it has no whole save.
pub fn remarked(
    plan: &[u8],
    chip: &[u8],
    page: usize,
    owner: impl Fn(usize, Mark) -> Option<u32>,
) -> Option<Vec<u8>> {
    let held = read(plan, chip, page).ok()?;
    if held.saves.is_empty() {
        return None;
    }
    let mut other = Vec::new();
    let mut same_kind = true;
    for (number, save) in held.saves.into_iter().enumerate() {
        let owner = owner(number, save.mark);
        let mark = Mark { owner, ..save.mark };
        same_kind &= mark.kind() == save.mark.kind();
        other.extend(Save { mark, ..save }.pages(page));
    }
    match same_kind {
        true => other.extend(&chip[held.end..]),
        false => other.resize(chip.len().max(other.len()), ERASED),
    }
    Some(other)
}

/// The chip with A2 marks.
pub fn with_a2(plan: &[u8], chip: &[u8], page: usize) -> Option<Vec<u8>> {
    remarked(plan, chip, page, |_, _| None)
}

/// The chip as the plan's own, which it may be already.
pub(crate) fn owned(plan: &[u8], chip: &[u8], page: usize) -> Vec<u8> {
    let own = remarked(plan, chip, page, |_, _| Some(owner(plan)));
    own.unwrap_or_else(|| chip.to_vec())
}

/// The same, but of its last mark, which names what it did.
pub(crate) fn owned_but_last(plan: &[u8], chip: &[u8], page: usize) -> Vec<u8> {
    let saves = read(plan, chip, page).map_or(0, |held| held.saves.len());
    let own = remarked(plan, chip, page, |number, mark| {
        let is_last = number + 1 == saves;
        if is_last {
            mark.owner
        } else {
            Some(owner(plan))
        }
    });
    own.unwrap_or_else(|| chip.to_vec())
}
