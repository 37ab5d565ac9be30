//! Telling whether a note may stand at a place, in plain Rust, as one would write it who wants it
//! fast but simple: the chip is read as recovery reads it, its whole saves are walked, and the
//! plan's dead sets are found where the place is a record's value.

use reference::journal::RECORD;
use reference::program::{FIRST_INSTRUCTION, LENGTHS};

use crate::baseline::{analyse, check, DEAD_WORDS, SET_WORDS};
use crate::journals::{owner, read_for_recovery, MARK_LEN, RECORD_LEN};

/// The bytes of a record before its value.
const BEFORE_VALUE: usize = 2;

/// Whether a note may stand there, or the refusal.
pub fn spent<const PAGE: usize>(plan: &[u8], chip: &[u8], place: u64) -> Result<bool, u32> {
    let cells = check(plan)?.cells as usize;
    let held = read_for_recovery::<PAGE>(plan, cells, chip, owner(plan))?;
    let Some(cell) = cell_at::<PAGE>(&chip[..held.end], place) else {
        return Ok(false);
    };
    let (mut dead, mut sets) = ([0; DEAD_WORDS], [0; SET_WORDS]);
    analyse(plan, &mut dead, &mut sets)?;
    // A mark has the offset behind its CHECKPOINT.
    let command = command_at(plan, usize::from(held.last.place) - 1);
    let word = dead[4 * command + usize::from(cell / 64)];
    Ok(word >> (cell % 64) & 1 == 1)
}

/// The cell of the record in these whole saves whose value stands there.
fn cell_at<const PAGE: usize>(saves: &[u8], place: u64) -> Option<u8> {
    let mut at = 0;
    while at < saves.len() {
        while saves[at] == RECORD {
            if (at + BEFORE_VALUE) as u64 == place {
                return Some(saves[at + 1]);
            }
            at += RECORD_LEN;
        }
        at = (at + MARK_LEN).next_multiple_of(PAGE);
    }
    None
}

/// The number of the command at this offset, from 0.
fn command_at(plan: &[u8], offset: usize) -> usize {
    let (mut at, mut command) = (FIRST_INSTRUCTION, 0);
    while at < offset {
        at += LENGTHS[usize::from(plan[at])];
        command += 1;
    }
    command
}
