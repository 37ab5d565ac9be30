//! Reading a chip in plain Rust, as one would write it who wants it fast but simple, and the chips
//! that are timed. The page length is a constant, so that a byte chip's code has no trace of pages,
//! and so is the kind of mark.

use reference::journal::{
    Mark, Save, BYTE_CHIP, ERASED, MARK_A2, MARK_A3, MARK_END, MAX_CHIP, PAGE_CHIP, RECORD,
};
use reference::program::{CHECKPOINT, EXCLUDE, FIRST_INSTRUCTION, LENGTHS, MAX_BYTES};
use reference::refusal::{CHIP_DAMAGED, CHIP_LENGTH, OLD_MARKS, OTHER_PLAN};

pub const RECORD_LEN: usize = 6;
/// The bytes of an A3 mark, and those of an A2 mark.
pub const MARK_LEN: usize = 18;
const OLD_MARK_LEN: usize = 14;

const AFTER_CHECKPOINT: u8 = 1;
const AT_EXCLUDE: u8 = 2;

/// What a chip that is not damaged holds: where the pages of its whole saves end, how many bytes the
/// torn pages behind them have, the last mark, whether a whole mark names another plan, whether the
/// marks are A2, and the value of each cell.
#[derive(Clone, Debug, PartialEq, Eq)]
pub struct Held {
    pub end: usize,
    pub torn: usize,
    pub last: Mark,
    pub is_other: bool,
    pub is_old: bool,
    pub values: [u32; 256],
}

/// By what an A3 mark names the plan: its length and the sum of its bytes.
pub fn owner(plan: &[u8]) -> u32 {
    let sum = plan.iter().fold(0_u32, |sum, byte| sum + u32::from(*byte));
    plan.len() as u32 | sum << 16
}

/// Reads a chip as recovery does, or gives the refusal.
pub fn read_for_recovery<const PAGE: usize>(
    plan: &[u8],
    cells: usize,
    chip: &[u8],
    owner: u32,
) -> Result<Held, u32> {
    let held = read::<PAGE>(plan, cells, chip, owner)?;
    match (held.is_old, held.end) {
        (true, 0) => Err(CHIP_DAMAGED),
        (true, _) => Err(OLD_MARKS),
        (false, _) if held.is_other => Err(OTHER_PLAN),
        (false, _) => Ok(held),
    }
}

/// Reads a chip for an accepted plan of so many cells, which its marks should name: as one with A3
/// marks and, where it is none, as one with A2 marks.
pub fn read<const PAGE: usize>(
    plan: &[u8],
    cells: usize,
    chip: &[u8],
    owner: u32,
) -> Result<Held, u32> {
    if chip.len() > MAX_CHIP || !chip.len().is_multiple_of(PAGE) {
        return Err(CHIP_LENGTH);
    }
    let places = places(plan);
    let torn_end = chip.iter().rposition(|&byte| byte != ERASED);
    let chip = &chip[..torn_end.map_or(0, |last| last + 1)];
    match read_as::<PAGE, MARK_LEN>(cells, &places, chip, owner) {
        Err(_) => read_as::<PAGE, OLD_MARK_LEN>(cells, &places, chip, owner),
        held => held,
    }
}

/// Reads the bytes of a chip, without FF at their end, with marks of this length.
fn read_as<const PAGE: usize, const LEN: usize>(
    cells: usize,
    places: &[u8; MAX_BYTES],
    chip: &[u8],
    owner: u32,
) -> Result<Held, u32> {
    let mut held = Held {
        end: 0,
        torn: 0,
        last: Mark::FIRST,
        is_other: false,
        is_old: LEN == OLD_MARK_LEN,
        values: [0; 256],
    };
    while held.end < chip.len() {
        let mut seen = [0_u64; 4];
        let records_end = records_end(chip, held.end, cells, &mut seen);
        let Some(mark) = mark_at::<LEN>(chip, records_end, places, held.last) else {
            if !begins::<LEN>(&chip[records_end..], cells, &seen, places, held.last) {
                return Err(CHIP_DAMAGED);
            }
            held.torn = (chip.len() - held.end).next_multiple_of(PAGE);
            return Ok(held);
        };
        for record in chip[held.end..records_end].chunks_exact(RECORD_LEN) {
            held.values[usize::from(record[1])] = word(&record[2..]);
        }
        held.is_other |= mark.owner.is_some_and(|other| other != owner);
        held.last = mark;
        held.end = pages_end::<PAGE>(chip, records_end + LEN).ok_or(CHIP_DAMAGED)?;
    }
    Ok(held)
}

/// Where the pages of a save end whose mark ends there, if FF fills the last.
fn pages_end<const PAGE: usize>(chip: &[u8], mark_end: usize) -> Option<usize> {
    let end = mark_end.next_multiple_of(PAGE);
    let filling = &chip[mark_end..end.min(chip.len())];
    filling.iter().all(|&byte| byte == ERASED).then_some(end)
}

/// Of each offset whether it stands behind a CHECKPOINT and whether an EXCLUDE stands there; as the
/// last EXCLUDE of a mark, 0 counts as one.
fn places(plan: &[u8]) -> [u8; MAX_BYTES] {
    let mut places = [0; MAX_BYTES];
    places[0] = AT_EXCLUDE;
    let mut offset = FIRST_INSTRUCTION;
    while offset < plan.len() {
        match plan[offset] {
            CHECKPOINT => places[offset + 1] |= AFTER_CHECKPOINT,
            EXCLUDE => places[offset] |= AT_EXCLUDE,
            _ => {}
        }
        offset += LENGTHS[usize::from(plan[offset])];
    }
    places
}

/// Where the whole records of fresh cells end.
fn records_end(chip: &[u8], from: usize, cells: usize, seen: &mut [u64; 4]) -> usize {
    let mut at = from;
    while let Some(&[RECORD, cell, ..]) = chip.get(at..at + RECORD_LEN) {
        let cell = usize::from(cell);
        let bit = 1 << (cell % 64);
        if cell >= cells || seen[cell / 64] & bit != 0 {
            break;
        }
        seen[cell / 64] |= bit;
        at += RECORD_LEN;
    }
    at
}

fn word(bytes: &[u8]) -> u32 {
    u32::from_le_bytes([bytes[0], bytes[1], bytes[2], bytes[3]])
}

fn place(places: &[u8; MAX_BYTES], offset: u16, kind: u8) -> bool {
    places
        .get(usize::from(offset))
        .is_some_and(|place| place & kind != 0)
}

/// The first byte of a mark of this length.
const fn tag(mark_len: usize) -> u8 {
    match mark_len {
        OLD_MARK_LEN => MARK_A2,
        _ => MARK_A3,
    }
}

/// The sound whole mark of this length that stands there, if one does.
fn mark_at<const LEN: usize>(
    chip: &[u8],
    at: usize,
    places: &[u8; MAX_BYTES],
    previous: Mark,
) -> Option<Mark> {
    let bytes = chip.get(at..at + LEN)?;
    let mark = Mark {
        place: u16::from_le_bytes([bytes[1], bytes[2]]),
        exclude: u16::from_le_bytes([bytes[3], bytes[4]]),
        readings: word(&bytes[5..]),
        outputs: word(&bytes[9..]),
        owner: match LEN {
            MARK_LEN => Some(word(&bytes[13..])),
            _ => None,
        },
    };
    let sound = bytes[0] == tag(LEN)
        && bytes[LEN - 1] == MARK_END
        && place(places, mark.place, AFTER_CHECKPOINT)
        && place(places, mark.exclude, AT_EXCLUDE)
        && mark.readings >= previous.readings
        && mark.outputs >= previous.outputs;
    sound.then_some(mark)
}

/// Whether the bytes behind the whole records of a save begin what may follow them.
fn begins<const LEN: usize>(
    rest: &[u8],
    cells: usize,
    seen: &[u64; 4],
    places: &[u8; MAX_BYTES],
    previous: Mark,
) -> bool {
    let fresh = |cell: usize| cell < cells && seen[cell / 64] >> (cell % 64) & 1 == 0;
    let offset = |kind: u8, bytes: &[u8]| {
        (0..MAX_BYTES as u16).any(|offset| {
            place(places, offset, kind)
                && offset.to_le_bytes().iter().zip(bytes).all(|(a, b)| a == b)
        })
    };
    let count = |least: u32, bytes: &[u8]| {
        let byte = |k: usize| bytes.get(k).copied().unwrap_or(0xFF);
        u32::from_le_bytes([byte(0), byte(1), byte(2), byte(3)]) >= least
    };
    let from = |k: usize| rest.get(k..).unwrap_or(&[]);
    if !offset(AFTER_CHECKPOINT, &[]) {
        return false;
    }
    match rest {
        [] => true,
        [RECORD] => (0..cells).any(fresh),
        [RECORD, cell, ..] => fresh(usize::from(*cell)),
        [first, ..] if *first == tag(LEN) => {
            offset(AFTER_CHECKPOINT, from(1))
                && offset(AT_EXCLUDE, from(3))
                && count(previous.readings, from(5))
                && count(previous.outputs, from(9))
                && rest.get(LEN - 1).is_none_or(|&end| end == MARK_END)
        }
        _ => false,
    }
}

/// A plan of 256 cells with an EXCLUDE at offset 1 and a CHECKPOINT before offset 3.
pub const PLAN: &[u8] = &[0xFF, EXCLUDE, CHECKPOINT, 0x01];

/// Byte chips with their names: as many whole saves of so many cells as they hold, and FF. The shorter ones show how the
/// time grows with the length.
pub fn byte_chips() -> Vec<(&'static str, Vec<u8>)> {
    let named = [
        ("256 cells", 256, MAX_CHIP),
        ("16 cells", 16, MAX_CHIP),
        ("16 cells, half", 16, MAX_CHIP / 2),
        ("16 cells, quarter", 16, MAX_CHIP / 4),
        ("1 cell", 1, MAX_CHIP),
        ("no cell", 0, MAX_CHIP),
    ];
    named
        .map(|(name, cells, length)| (name, full(cells, length, BYTE_CHIP)))
        .into()
}

/// Page chips, as full.
pub fn page_chips() -> Vec<(&'static str, Vec<u8>)> {
    [("page chip, 16 cells", 16), ("page chip, no cell", 0)]
        .map(|(name, cells)| (name, full(cells, MAX_CHIP, PAGE_CHIP)))
        .into()
}

fn full(cells: usize, length: usize, page: usize) -> Vec<u8> {
    let mut chip = Vec::new();
    loop {
        let taken = chip.len() as u32;
        // All 256 cells in turn, none near the one before.
        let record = |k: usize| {
            (
                (taken as usize + k).wrapping_mul(91) as u8,
                taken as i32 ^ k as i32,
            )
        };
        let save = Save {
            records: (0..cells).map(record).collect(),
            mark: Mark {
                place: 3,
                exclude: 1,
                readings: taken,
                outputs: taken / 2,
                owner: Some(owner(PLAN)),
            },
        };
        let pages = save.pages(page);
        if chip.len() + pages.len() > length {
            chip.resize(length, ERASED);
            return chip;
        }
        chip.extend(pages);
    }
}
