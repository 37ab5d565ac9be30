//! Folding in plain Rust, as one would write it who wants it fast but simple: the old chip is read
//! as recovery reads it, or with A2 marks, the bytes of the save are made in one go, and those due are
//! copied.

use reference::folding::Folded;
use reference::journal::{BYTE_CHIP, ERASED, MARK_A3, MARK_END, MAX_CHIP, RECORD};
use reference::refusal::{
    BUFFER_TOO_SHORT, CHIP_LENGTH, NEW_CHIP_DIFFERS, OTHER_PLAN, SAVE_TOO_LONG,
};

use crate::baseline::{check, SET_WORDS};
use crate::journals::{owner, read, Held, MARK_LEN};

/// The most bytes that a save has.
pub const MAX_SAVE: usize = 6 * 256 + MARK_LEN;

/// Stores the next bytes on the new chip, or gives the refusal.
pub fn fold(
    plan: &[u8],
    set_words: usize,
    old: &[u8],
    new: &mut [u8],
    stored: u64,
    budget: u64,
) -> Result<Folded, u32> {
    let cells = check(plan)?.cells as usize;
    if set_words < SET_WORDS {
        return Err(BUFFER_TOO_SHORT);
    }
    if old.len() > MAX_CHIP || new.len() > MAX_CHIP {
        return Err(CHIP_LENGTH);
    }
    let owner = owner(plan);
    let held = read::<BYTE_CHIP>(plan, cells, old, owner)?;
    if held.is_other {
        return Err(OTHER_PLAN);
    }
    let mut bytes = [0; MAX_SAVE];
    let save = make_save(&held, owner, &mut bytes);
    if stored > save.len().min(new.len()) as u64 {
        return Err(NEW_CHIP_DIFFERS);
    }
    let from = stored as usize;
    if new[..from] != save[..from] || !is_blank(&new[from..]) {
        return Err(NEW_CHIP_DIFFERS);
    }
    if save.len() > new.len() {
        return Err(SAVE_TOO_LONG);
    }
    let to = from + budget.min((save.len() - from) as u64) as usize;
    new[from..to].copy_from_slice(&save[from..to]);
    Ok(Folded {
        stored: to as u64,
        finished: to == save.len(),
    })
}

/// Whether all bytes are erased; without an early way out, so that many are taken at a time.
fn is_blank(bytes: &[u8]) -> bool {
    bytes.iter().fold(ERASED, |all, byte| all & byte) == ERASED
}

/// Makes the save of what the old chip holds, which is empty where it has no whole one.
fn make_save<'a>(held: &Held, owner: u32, bytes: &'a mut [u8; MAX_SAVE]) -> &'a [u8] {
    if held.end == 0 {
        return &[];
    }
    let mut end = 0;
    for (cell, value) in held.values.iter().enumerate() {
        if *value != 0 {
            let [a, b, c, d] = value.to_le_bytes();
            bytes[end..end + 6].copy_from_slice(&[RECORD, cell as u8, a, b, c, d]);
            end += 6;
        }
    }
    let mark = &mut bytes[end..end + MARK_LEN];
    mark[0] = MARK_A3;
    mark[1..3].copy_from_slice(&held.last.place.to_le_bytes());
    mark[3..5].copy_from_slice(&held.last.exclude.to_le_bytes());
    mark[5..9].copy_from_slice(&held.last.readings.to_le_bytes());
    mark[9..13].copy_from_slice(&held.last.outputs.to_le_bytes());
    mark[13..17].copy_from_slice(&owner.to_le_bytes());
    mark[17] = MARK_END;
    &bytes[..end + MARK_LEN]
}
