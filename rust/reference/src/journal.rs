//! The chip (document 01, 'Marks, steps and the chip'; document 02, Q-4 and Q-8): the saves that stand
//! on it, read as recovery reads them. A chip has a page length: a step stores or erases one page, and
//! a save fills whole pages. And it has one kind of mark: A2, as document 01 has it, or A3, which names
//! its plan.
//!
//! One automaton takes a save byte by byte. After each byte it knows whether the bytes so far begin
//! some sound save, so the whole saves are those that it takes to their end, and a remainder is torn
//! where it takes all of it.

use crate::check::{check, instructions};
use crate::program::Instruction;
use crate::refusal::{CHIP_DAMAGED, CHIP_LENGTH, OLD_MARKS, OTHER_PLAN};

pub const MAX_CHIP: usize = 65_536;
/// The page length of a byte chip, and that of a page chip.
pub const BYTE_CHIP: usize = 1;
pub const PAGE_CHIP: usize = 16;
pub const ERASED: u8 = 0xFF;
pub const RECORD: u8 = 0xA1;
pub const MARK_A2: u8 = 0xA2;
pub const MARK_A3: u8 = 0xA3;
pub const MARK_END: u8 = 0x5A;

/// The kind of a MARK: A2 as document 01 has it, A3 since Q-8. The engine writes A3 only.
#[derive(Clone, Copy, Debug, PartialEq, Eq)]
pub enum Kind {
    A2,
    A3,
}

impl Kind {
    pub const ALL: [Kind; 2] = [Kind::A2, Kind::A3];

    /// The first byte of such a MARK, by which a torn one counts.
    pub fn tag(self) -> u8 {
        match self {
            Kind::A2 => MARK_A2,
            Kind::A3 => MARK_A3,
        }
    }

    /// The bytes of such a MARK.
    pub fn mark_len(self) -> usize {
        match self {
            Kind::A2 => 14,
            Kind::A3 => 18,
        }
    }

    /// By what a MARK of this kind names the plan that wrote it: an A2 mark names none.
    pub fn owner(self, plan: &[u8]) -> Option<u32> {
        match self {
            Kind::A2 => None,
            Kind::A3 => Some(owner(plan)),
        }
    }
}

/// "plan length (2), sum of all plan bytes modulo 65,536 (2)" as one number, the length in its lower
/// half, so that its bytes, the lowest first, are the fields.
pub fn owner(plan: &[u8]) -> u32 {
    let sum = plan.iter().map(|&byte| u32::from(byte)).sum::<u32>() % 65_536;
    plan.len() as u32 + 65_536 * sum
}

/// The fields of a MARK; `owner` is none in an A2 mark.
#[derive(Clone, Copy, Debug, PartialEq, Eq)]
pub struct Mark {
    pub place: u16,
    pub exclude: u16,
    pub readings: u32,
    pub outputs: u32,
    pub owner: Option<u32>,
}

impl Mark {
    /// What counts as the mark before the first save: "offset 1 and zeros".
    pub const FIRST: Mark = Mark {
        place: 1,
        exclude: 0,
        readings: 0,
        outputs: 0,
        owner: None,
    };

    pub fn kind(&self) -> Kind {
        match self.owner {
            None => Kind::A2,
            Some(_) => Kind::A3,
        }
    }

    pub fn bytes(&self) -> Vec<u8> {
        let mut bytes = vec![self.kind().tag()];
        bytes.extend(self.place.to_le_bytes());
        bytes.extend(self.exclude.to_le_bytes());
        bytes.extend(self.readings.to_le_bytes());
        bytes.extend(self.outputs.to_le_bytes());
        if let Some(owner) = self.owner {
            bytes.extend(owner.to_le_bytes());
        }
        bytes.push(MARK_END);
        bytes
    }
}

/// A whole save: its cells with their values, in the order they stand in, and its MARK.
#[derive(Clone, Debug, PartialEq, Eq)]
pub struct Save {
    pub records: Vec<(u8, i32)>,
    pub mark: Mark,
}

impl Save {
    pub fn bytes(&self) -> Vec<u8> {
        let mut bytes = Vec::new();
        for (cell, value) in &self.records {
            bytes.extend([RECORD, *cell]);
            bytes.extend(value.to_le_bytes());
        }
        bytes.extend(self.mark.bytes());
        bytes
    }

    /// The pages that hold it: "behind its MARK the page is filled with FF".
    pub fn pages(&self, page: usize) -> Vec<u8> {
        let mut bytes = self.bytes();
        bytes.resize(bytes.len().next_multiple_of(page), ERASED);
        bytes
    }
}

/// What an accepted chip holds: its whole saves, where their pages end, and how many bytes the torn
/// pages behind them have.
#[derive(Clone, Debug, PartialEq, Eq)]
pub struct Chip {
    pub saves: Vec<Save>,
    pub end: usize,
    pub torn: usize,
}

impl Chip {
    /// The last mark, or "offset 1 and zeros".
    pub fn last(&self) -> Mark {
        self.saves.last().map_or(Mark::FIRST, |save| save.mark)
    }

    /// "Each cell's last saved value in whole saves, or 0".
    pub fn value(&self, cell: u8) -> i32 {
        let mut records = self.saves.iter().rev().flat_map(|save| &save.records);
        records.find(|(c, _)| *c == cell).map_or(0, |(_, v)| *v)
    }

    /// Whether the whole marks, where they name a plan, name this one: "16 where a whole mark's length
    /// or sum is not the plan's", so every one is asked.
    pub fn check_owner(&self, plan: &[u8]) -> Result<(), u32> {
        let is_other = |owner: u32| owner != self::owner(plan);
        let mut owners = self.saves.iter().filter_map(|save| save.mark.owner);
        match owners.any(is_other) {
            true => Err(OTHER_PLAN),
            false => Ok(()),
        }
    }
}

/// Reads a chip of a page length for an accepted plan, with marks of this kind and no other: 11, 12, or
/// what it holds.
pub fn read_as(plan: &[u8], chip: &[u8], page: usize, kind: Kind) -> Result<Chip, u32> {
    check_length(chip.len(), page)?;
    let places = Places::of(plan, kind)?;
    let mut found = Chip {
        saves: Vec::new(),
        end: 0,
        torn: 0,
    };
    while let Some(save) = whole_save(&places, found.last(), &chip[found.end..]) {
        let mark_end = found.end + save.bytes().len();
        // The chip ends with a page, so the filling lies on it.
        found.end = mark_end.next_multiple_of(page);
        if !without_trailing_ff(&chip[mark_end..found.end]).is_empty() {
            return Err(CHIP_DAMAGED);
        }
        found.saves.push(save);
    }
    let remainder = without_trailing_ff(&chip[found.end..]);
    // "a page with any torn byte counts whole among the bytes to erase"
    found.torn = remainder.len().next_multiple_of(page);
    match begins_save(&places, found.last(), remainder) {
        true => Ok(found),
        false => Err(CHIP_DAMAGED),
    }
}

/// Reads a chip with marks of either kind, of which it may have one: 11, 12, or what it holds. "A chip
/// with both marks is damaged", and so is one that is damaged for both; one without a mark reads both
/// ways alike.
pub fn read(plan: &[u8], chip: &[u8], page: usize) -> Result<Chip, u32> {
    match read_as(plan, chip, page, Kind::A3) {
        Err(CHIP_DAMAGED) => read_as(plan, chip, page, Kind::A2),
        answer => answer,
    }
}

/// Reads a chip as recovery does since Q-8: 11, 12, 15, 16, or what it holds. "If the chip isn't
/// damaged, recovery gives 15 where every mark is A2, and otherwise 16 ..; a chip without whole marks
/// meets neither", but "a chip whose only mark is a torn A2 is damaged for recovery".
pub fn read_for_recovery(plan: &[u8], chip: &[u8], page: usize) -> Result<Chip, u32> {
    match read_as(plan, chip, page, Kind::A3) {
        Ok(held) => held.check_owner(plan).map(|()| held),
        Err(CHIP_DAMAGED) => {
            let old = read_as(plan, chip, page, Kind::A2)?;
            Err(match old.saves.is_empty() {
                true => CHIP_DAMAGED,
                false => OLD_MARKS,
            })
        }
        Err(number) => Err(number),
    }
}

/// The refusal 11.
pub(crate) fn check_length(bytes: usize, page: usize) -> Result<(), u32> {
    match bytes <= MAX_CHIP && bytes.is_multiple_of(page) {
        true => Ok(()),
        false => Err(CHIP_LENGTH),
    }
}

fn without_trailing_ff(bytes: &[u8]) -> &[u8] {
    let last = bytes.iter().rposition(|&byte| byte != ERASED);
    &bytes[..last.map_or(0, |last| last + 1)]
}

/// What decides whether a save is sound: the kind of its mark, and of a plan its cells and places.
struct Places {
    kind: Kind,
    cells: usize,
    after_checkpoint: Vec<u16>,
    excludes: Vec<u16>,
}

impl Places {
    fn of(plan: &[u8], kind: Kind) -> Result<Places, u32> {
        let cells = check(plan)?.cells as usize;
        let commands = instructions(plan, cells)?;
        let all = |wanted: Instruction| {
            let of_kind = commands
                .iter()
                .filter(move |(_, command)| *command == wanted);
            of_kind.map(|(offset, _)| *offset as u16)
        };
        Ok(Places {
            kind,
            cells,
            after_checkpoint: all(Instruction::Checkpoint)
                .map(|offset| offset + 1)
                .collect(),
            excludes: all(Instruction::Exclude).chain([0]).collect(),
        })
    }
}

/// A save that is taken in byte by byte.
struct Taking<'a> {
    places: &'a Places,
    previous: Mark,
    records: Vec<(u8, i32)>,
    recorded: [bool; 256],
    /// The bytes of the record or MARK at work.
    item: Vec<u8>,
}

/// What came of a byte.
enum Step {
    /// The bytes so far begin no sound save.
    Unsound,
    /// They begin one.
    Begun,
    /// They are one.
    Whole(Save),
}

impl<'a> Taking<'a> {
    fn new(places: &'a Places, previous: Mark) -> Self {
        Taking {
            places,
            previous,
            records: Vec::new(),
            recorded: [false; 256],
            item: Vec::new(),
        }
    }

    fn take(&mut self, byte: u8) -> Step {
        self.item.push(byte);
        if !self.can_end() {
            return Step::Unsound;
        }
        match *self.item {
            [RECORD, cell, a, b, c, d] => {
                self.records.push((cell, i32::from_le_bytes([a, b, c, d])));
                self.recorded[usize::from(cell)] = true;
                self.item.clear();
                Step::Begun
            }
            // A record is shorter than either mark.
            _ if self.item.len() == self.places.kind.mark_len() => Step::Whole(Save {
                records: self.records.clone(),
                mark: mark_of(&self.item),
            }),
            _ => Step::Begun,
        }
    }

    /// Whether some bytes after those of the item make it and the save sound.
    fn can_end(&self) -> bool {
        if self.places.after_checkpoint.is_empty() {
            return false;
        }
        match self.item.split_first() {
            Some((&RECORD, cell_and_value)) => (0..self.places.cells)
                .any(|cell| !self.recorded[cell] && agree(&[cell as u8], cell_and_value)),
            Some((&tag, fields)) if tag == self.places.kind.tag() => self.mark_can_end(fields),
            _ => false,
        }
    }

    /// Of an A3 mark's length and sum nothing is asked here, so torn ones may be anything.
    fn mark_can_end(&self, fields: &[u8]) -> bool {
        let part = |from: usize| &fields[from.min(fields.len())..];
        let offset = |offsets: &[u16], from| {
            let mut offsets = offsets.iter();
            offsets.any(|offset| agree(&offset.to_le_bytes(), part(from)))
        };
        let count = |least, from| largest_count(part(from)) >= least;
        offset(&self.places.after_checkpoint, 0)
            && offset(&self.places.excludes, 2)
            && count(self.previous.readings, 4)
            && count(self.previous.outputs, 8)
            && agree(&[MARK_END], part(self.places.kind.mark_len() - 2))
    }
}

/// The fields of a whole MARK of either kind.
fn mark_of(bytes: &[u8]) -> Mark {
    let two = |at: usize| u16::from_le_bytes([bytes[at], bytes[at + 1]]);
    let four = |at: usize| u32::from(two(at)) + 65_536 * u32::from(two(at + 2));
    Mark {
        place: two(1),
        exclude: two(3),
        readings: four(5),
        outputs: four(9),
        owner: (bytes[0] == MARK_A3).then(|| four(13)),
    }
}

/// Whether two stretches of bytes are the same as far as both go.
fn agree(a: &[u8], b: &[u8]) -> bool {
    a.iter().zip(b).all(|(x, y)| x == y)
}

/// The largest count whose bytes, the lowest first, begin so.
fn largest_count(bytes: &[u8]) -> u32 {
    let mut largest = [0xFF; 4];
    for (to, from) in largest.iter_mut().zip(bytes) {
        *to = *from;
    }
    u32::from_le_bytes(largest)
}

/// The sound save that stands whole at the front of the bytes, if one does.
fn whole_save(places: &Places, previous: Mark, bytes: &[u8]) -> Option<Save> {
    let mut taking = Taking::new(places, previous);
    for &byte in bytes {
        match taking.take(byte) {
            Step::Unsound => return None,
            Step::Begun => {}
            Step::Whole(save) => return Some(save),
        }
    }
    None
}

/// Whether the bytes, unless there are none, begin some sound save, fitting the chip or not.
fn begins_save(places: &Places, previous: Mark, bytes: &[u8]) -> bool {
    let mut taking = Taking::new(places, previous);
    bytes
        .iter()
        .all(|&byte| !matches!(taking.take(byte), Step::Unsound))
}

#[cfg(test)]
mod tests {
    use super::*;

    /// Document 01's small plan, and its first save.
    const SMALL: &[u8] = &[
        0x02, 0x02, 0x00, 0x00, 0x00, 0x00, 0x00, 0x07, 0x01, 0x04, 0x00, 0x00, 0x01, 0x08, 0x00,
        0x0D, 0x0E, 0x09, 0x07, 0x00,
    ];
    const FIRST: &[u8] = &[
        0xA1, 0x00, 0x05, 0x00, 0x00, 0x00, 0xA3, 0x11, 0x00, 0x0F, 0x00, 0x01, 0x00, 0x00, 0x00,
        0x01, 0x00, 0x00, 0x00, 0x14, 0x00, 0x44, 0x00, 0x5A,
    ];
    /// The same until Q-8.
    const FIRST_A2: &[u8] = &[
        0xA1, 0x00, 0x05, 0x00, 0x00, 0x00, 0xA2, 0x11, 0x00, 0x0F, 0x00, 0x01, 0x00, 0x00, 0x00,
        0x01, 0x00, 0x00, 0x00, 0x5A,
    ];
    /// A plan of one cell and no CHECKPOINT, and one with a CHECKPOINT before offset 2.
    const NO_CHECKPOINT: &[u8] = &[0x00, 0x01];
    const ONE_CELL: &[u8] = &[0x00, 0x0E, 0x01];

    fn joined(parts: &[&[u8]]) -> Vec<u8> {
        parts.concat()
    }

    fn erased(chip: &[u8], length: usize) -> Vec<u8> {
        let mut chip = chip.to_vec();
        chip.resize(length, ERASED);
        chip
    }

    /// A mark of the small plan.
    fn mark(place: u16, exclude: u16, readings: u32, outputs: u32) -> Vec<u8> {
        mark_named(place, exclude, [readings, outputs], Some(0x0044_0014))
    }

    fn mark_named(place: u16, exclude: u16, counts: [u32; 2], owner: Option<u32>) -> Vec<u8> {
        let mark = Mark {
            place,
            exclude,
            readings: counts[0],
            outputs: counts[1],
            owner,
        };
        mark.bytes()
    }

    /// The end of the whole saves and the number of torn bytes of a byte chip, or the refusal.
    fn ends(plan: &[u8], chip: &[u8]) -> Result<(usize, usize), u32> {
        ends_of(plan, chip, BYTE_CHIP)
    }

    fn ends_of(plan: &[u8], chip: &[u8], page: usize) -> Result<(usize, usize), u32> {
        read(plan, chip, page).map(|chip| (chip.end, chip.torn))
    }

    #[test]
    fn an_erased_chip_of_any_length_holds_nothing() {
        for length in [0, 1, 20, MAX_CHIP] {
            let chip = read(SMALL, &erased(&[], length), BYTE_CHIP).unwrap();
            assert_eq!((chip.end, chip.torn, chip.saves.len()), (0, 0, 0));
            assert_eq!((chip.last().place, chip.value(0)), (1, 0));
        }
        assert_eq!(ends(SMALL, &erased(&[], MAX_CHIP + 1)), Err(CHIP_LENGTH));
    }

    #[test]
    fn the_first_save_is_whole_with_its_last_byte_and_torn_before() {
        for first in [FIRST, FIRST_A2] {
            for stored in 0..first.len() {
                let chip = erased(&first[..stored], 24);
                assert_eq!(ends(SMALL, &chip), Ok((0, stored)));
            }
            let chip = read(SMALL, first, BYTE_CHIP).unwrap();
            assert_eq!((chip.end, chip.torn, chip.value(0)), (first.len(), 0, 5));
            assert_eq!(chip.saves[0].bytes(), first);
        }
    }

    #[test]
    fn cut_after_33_bytes_the_first_save_is_taken_up() {
        let second = [0xA1, 0x00, 0x0C, 0x00, 0x00, 0x00, 0xA3, 0x11, 0x00];
        let chip = read(SMALL, &erased(&joined(&[FIRST, &second]), 60), BYTE_CHIP).unwrap();
        assert_eq!((chip.end, chip.torn, chip.value(0)), (24, 9, 5));
        assert_eq!((chip.last().readings, chip.last().outputs), (1, 1));
    }

    #[test]
    fn the_last_value_of_a_cell_counts() {
        let record = |cell, value: i32| joined(&[&[RECORD, cell], &value.to_le_bytes()]);
        let saves = [
            joined(&[&record(0, 5), &record(2, -1), &mark(17, 15, 1, 1)]),
            joined(&[&record(2, 7), &mark(17, 0, 1, 1)]),
            joined(&[&record(0, 9), &record(1, 9)]),
        ];
        let chip = read(SMALL, &erased(&saves.concat(), 100), BYTE_CHIP).unwrap();
        assert_eq!((chip.end, chip.torn), (54, 12));
        assert_eq!([chip.value(0), chip.value(1), chip.value(2)], [5, 0, 7]);
        assert_eq!(chip.last().exclude, 0);
    }

    #[test]
    fn a_wrong_byte_of_the_mark_is_damage() {
        // Of the high byte of an offset, of a count and of 5A as well: nothing can follow it.
        for (first, end) in [(FIRST, 23), (FIRST_A2, 19)] {
            for at in [0, 6, 7, 8, 9, 10, end] {
                let mut chip = first.to_vec();
                chip[at] ^= 0x40;
                assert_eq!(ends(SMALL, &chip), Err(CHIP_DAMAGED), "byte {at}");
            }
        }
    }

    #[test]
    fn the_owner_is_length_and_sum() {
        assert_eq!(owner(SMALL), 20 + 65_536 * 0x44);
        assert_eq!(owner(ONE_CELL), 3 + 65_536 * 15);
        // The sum is 2,048 times 255 less 7 times 65,536.
        assert_eq!(owner(&[0xFF; 2_048]), 2_048 + 65_536 * (522_240 - 458_752));
        assert_eq!(Kind::A2.owner(SMALL), None);
    }

    #[test]
    fn no_byte_of_the_owner_is_damage() {
        for at in 19..23 {
            for byte in 0..=0xFF {
                let mut chip = FIRST.to_vec();
                chip[at] = byte;
                assert_eq!(ends(SMALL, &chip), Ok((24, 0)), "byte {at}");
                // Torn there, FF at the end is dropped.
                let torn = without_trailing_ff(&chip[..=at]).len();
                assert_eq!(ends(SMALL, &chip[..=at]), Ok((0, torn)), "byte {at}");
            }
        }
    }

    #[test]
    fn a_chip_has_one_kind_of_mark() {
        let marks = Kind::ALL.map(|kind| {
            let owner = kind.owner(SMALL);
            mark_named(17, 15, [1, 1], owner)
        });
        for (kind, own) in Kind::ALL.into_iter().zip(&marks) {
            for (other_kind, other) in Kind::ALL.into_iter().zip(&marks) {
                for stored in 0..=other.len() {
                    let chip = joined(&[own, &other[..stored]]);
                    let is_one = kind == other_kind || stored == 0;
                    let answer = ends(SMALL, &chip);
                    assert_eq!(answer.is_ok(), is_one, "{kind:?} and {stored} bytes");
                    assert_eq!(read_as(SMALL, &chip, BYTE_CHIP, kind).is_ok(), is_one);
                    let as_other = read_as(SMALL, &chip, BYTE_CHIP, other_kind);
                    assert_eq!(as_other.is_ok(), is_one && kind == other_kind);
                }
            }
        }
    }

    #[test]
    fn without_a_mark_byte_a_chip_reads_both_ways() {
        // Up to the first record of two, and up to behind both.
        let records = [RECORD, 0, MARK_A2, 0, 0, 0, RECORD, 2, MARK_A3, 0, 0, 0];
        for stored in 0..=records.len() {
            for kind in Kind::ALL {
                let chip = erased(&records[..stored], 40);
                let held = read_as(SMALL, &chip, BYTE_CHIP, kind).unwrap();
                assert_eq!((held.saves.len(), held.end), (0, 0));
                assert_eq!(read_for_recovery(SMALL, &chip, BYTE_CHIP), Ok(held));
            }
        }
    }

    /// The refusal of a recovery, or 0.
    fn refused(plan: &[u8], chip: &[u8], page: usize) -> u32 {
        read_for_recovery(plan, chip, page).err().unwrap_or(0)
    }

    #[test]
    fn with_a2_marks_a_chip_gives_15_and_with_a_torn_one_alone_12() {
        for stored in 0..=FIRST_A2.len() {
            let result = match stored {
                0..=6 => 0,
                7..20 => 12,
                _ => 15,
            };
            for (page, length) in [(BYTE_CHIP, 60), (PAGE_CHIP, 64)] {
                let chip = erased(&FIRST_A2[..stored], length);
                assert_eq!(refused(SMALL, &chip, page), result, "{stored} bytes");
            }
            let behind = joined(&[FIRST_A2, &FIRST_A2[..stored]]);
            assert_eq!(refused(SMALL, &behind, BYTE_CHIP), 15);
        }
    }

    #[test]
    fn every_whole_mark_names_the_plan() {
        let own = mark(17, 15, 1, 1);
        for at in 13..17 {
            let mut other = own.clone();
            other[at] ^= 0x01;
            for (marks, result) in [
                (vec![&own, &own, &own], 0),
                (vec![&other], 16),
                (vec![&own, &own, &other], 16),
                (vec![&other, &own, &own], 16),
                (vec![&own, &other, &own], 16),
            ] {
                let chip: Vec<u8> = marks.into_iter().flatten().copied().collect();
                assert_eq!(refused(SMALL, &chip, BYTE_CHIP), result, "byte {at}");
                // Damage goes before it.
                let damaged = joined(&[&chip, &[0x00]]);
                assert_eq!(refused(SMALL, &damaged, BYTE_CHIP), 12);
            }
            // A torn one names nobody.
            let torn = joined(&[&own, &other[..17]]);
            assert_eq!(refused(SMALL, &torn, BYTE_CHIP), 0);
        }
    }

    #[test]
    fn a_mark_of_no_bytes_and_sum_0_is_no_a2_mark() {
        let nobody = mark_named(17, 15, [1, 1], Some(0));
        assert_eq!(nobody.len(), 18);
        assert_eq!(refused(SMALL, &nobody, BYTE_CHIP), 16);
    }

    #[test]
    fn a_chip_of_another_plan() {
        // CHECKPOINT at the same offset, the same length and sum: not told apart.
        let alike = [
            0x02, 0x02, 0x00, 0x00, 0x00, 0x00, 0x00, 0x07, 0x01, 0x04, 0x00, 0x01, 0x00, 0x08,
            0x00, 0x0D, 0x0E, 0x09, 0x07, 0x00,
        ];
        assert_eq!(refused(&alike, FIRST, BYTE_CHIP), 0);
        // SET 0 to 1: the sum is another.
        let mut other_sum = SMALL.to_vec();
        other_sum[3] = 1;
        assert_eq!(refused(&other_sum, FIRST, BYTE_CHIP), 16);
        // END behind it: the length and the sum are others.
        let longer = joined(&[SMALL, &[0x01]]);
        assert_eq!(refused(&longer, FIRST, BYTE_CHIP), 16);
        // No CHECKPOINT before offset 17: the places do not fit, so the chip is damaged.
        assert_eq!(refused(ONE_CELL, FIRST, BYTE_CHIP), 12);
    }

    #[test]
    fn a_cell_exists_and_stands_once() {
        let twice = joined(&[&FIRST[..6], FIRST]);
        assert_eq!(ends(SMALL, &twice), Err(CHIP_DAMAGED));
        let mut missing = FIRST.to_vec();
        missing[1] = 3;
        assert_eq!(ends(SMALL, &missing), Err(CHIP_DAMAGED));
        missing[1] = 2;
        assert_eq!(ends(SMALL, &missing), Ok((24, 0)));
    }

    #[test]
    fn a_count_may_stay_and_not_fall() {
        for (readings, outputs, answer) in [
            (1, 1, Ok((42, 0))),
            (2, 1, Ok((42, 0))),
            (0, 1, Err(CHIP_DAMAGED)),
            (1, 0, Err(CHIP_DAMAGED)),
        ] {
            let chip = joined(&[FIRST, &mark(17, 15, readings, outputs)]);
            assert_eq!(ends(SMALL, &chip), answer);
        }
    }

    #[test]
    fn without_a_checkpoint_any_remainder_is_damage() {
        for byte in [0x00, RECORD, MARK_A2, MARK_A3] {
            assert_eq!(ends(NO_CHECKPOINT, &[byte]), Err(CHIP_DAMAGED));
        }
        assert_eq!(ends(NO_CHECKPOINT, &[ERASED]), Ok((0, 0)));
    }

    #[test]
    fn after_all_cells_only_a_mark_follows() {
        let all = [RECORD, 0, 1, 2, 3, 4];
        assert_eq!(ends(ONE_CELL, &all), Ok((0, 6)));
        for tag in [MARK_A2, MARK_A3] {
            assert_eq!(ends(ONE_CELL, &joined(&[&all, &[tag]])), Ok((0, 7)));
        }
        let again = joined(&[&all, &[RECORD]]);
        assert_eq!(ends(ONE_CELL, &again), Err(CHIP_DAMAGED));
    }

    #[test]
    fn the_low_byte_of_an_offset_counts_by_itself() {
        for tag in [MARK_A2, MARK_A3] {
            assert_eq!(ends(SMALL, &[tag, 0x11]), Ok((0, 2)));
            assert_eq!(ends(SMALL, &[tag, 0x10]), Err(CHIP_DAMAGED));
            assert_eq!(ends(SMALL, &[tag, 0x11, 0x00, 0x0F]), Ok((0, 4)));
            assert_eq!(ends(SMALL, &[tag, 0x11, 0x00, 0x00]), Ok((0, 4)));
            let no_exclude = [tag, 0x11, 0x00, 0x0E];
            assert_eq!(ends(SMALL, &no_exclude), Err(CHIP_DAMAGED));
        }
    }

    #[test]
    fn a_torn_count_is_damage_if_ff_cannot_lift_it() {
        let before = mark(17, 15, 0xFFFF_0100, 0);
        let torn = |count: &[u8]| joined(&[&before, &[MARK_A3, 0x11, 0x00, 0x0F, 0x00], count]);
        assert_eq!(ends(SMALL, &torn(&[0x00])), Ok((18, 6)));
        assert_eq!(ends(SMALL, &torn(&[0x00, 0x00])), Err(CHIP_DAMAGED));
        assert_eq!(ends(SMALL, &torn(&[0x00, 0x01, 0xFE])), Err(CHIP_DAMAGED));
        assert_eq!(ends(SMALL, &torn(&[0x00, 0x01])), Ok((18, 7)));
    }

    #[test]
    fn what_begins_no_save_is_damage() {
        assert_eq!(ends(SMALL, &erased(&[0x00], 20)), Err(CHIP_DAMAGED));
        assert_eq!(ends(SMALL, &joined(&[FIRST, &[0x00]])), Err(CHIP_DAMAGED));
        // A sound save behind an unsound one is never reached.
        let behind = joined(&[&mark(17, 14, 0, 0), FIRST]);
        assert_eq!(ends(SMALL, &behind), Err(CHIP_DAMAGED));
    }

    #[test]
    fn ff_inside_a_torn_value_is_dropped_at_its_end_alone() {
        let value = [RECORD, 0x00, ERASED, 0x07, ERASED, ERASED];
        assert_eq!(ends(SMALL, &erased(&value, 20)), Ok((0, 4)));
        assert_eq!(ends(SMALL, &erased(&[RECORD, 0x00], 20)), Ok((0, 2)));
    }

    /// The small plan's first save on a page chip: 24 bytes and 8 of FF.
    fn first_pages() -> Vec<u8> {
        erased(FIRST, 32)
    }

    #[test]
    fn the_pages_of_a_save_end_with_ff() {
        let held = read(SMALL, &first_pages(), PAGE_CHIP).unwrap();
        assert_eq!((held.end, held.torn, held.value(0)), (32, 0, 5));
        assert_eq!(held.saves[0].pages(PAGE_CHIP), first_pages());
        assert_eq!(held.saves[0].pages(BYTE_CHIP), FIRST);
    }

    #[test]
    fn a_page_chip_is_a_number_of_whole_pages() {
        for (length, answer) in [
            (0, Ok((0, 0))),
            (15, Err(CHIP_LENGTH)),
            (16, Ok((0, 0))),
            (17, Err(CHIP_LENGTH)),
            (31, Err(CHIP_LENGTH)),
            (MAX_CHIP - 16, Ok((0, 0))),
            (MAX_CHIP - 1, Err(CHIP_LENGTH)),
            (MAX_CHIP, Ok((0, 0))),
            (MAX_CHIP + 16, Err(CHIP_LENGTH)),
        ] {
            let chip = vec![ERASED; length];
            assert_eq!(ends_of(SMALL, &chip, PAGE_CHIP), answer, "{length} bytes");
        }
        // The length is tried before the content.
        assert_eq!(ends_of(SMALL, &[0x00; 17], PAGE_CHIP), Err(CHIP_LENGTH));
        assert_eq!(ends_of(SMALL, &[0x00; 16], PAGE_CHIP), Err(CHIP_DAMAGED));
    }

    #[test]
    fn the_filling_is_ff_behind_every_save() {
        let one = erased(&first_pages(), 64);
        let two = joined(&[&first_pages(), &first_pages()]);
        for (chip, second) in [(one, 0..0), (two, 56..64)] {
            assert!(ends_of(SMALL, &chip, PAGE_CHIP).is_ok());
            for at in (24..32).chain(second) {
                for byte in [0x00, RECORD, MARK_A3, 0xFE] {
                    let mut chip = chip.clone();
                    chip[at] = byte;
                    let answer = ends_of(SMALL, &chip, PAGE_CHIP);
                    assert_eq!(answer, Err(CHIP_DAMAGED), "byte {at}");
                }
            }
        }
    }

    #[test]
    fn the_next_save_begins_with_a_page() {
        let next = mark(17, 15, 1, 1);
        let chip = erased(&joined(&[&first_pages(), &next]), 64);
        assert_eq!(ends_of(SMALL, &chip, PAGE_CHIP), Ok((64, 0)));
        // As a byte chip has them, the second stands in the filling of the first.
        let chip = erased(&joined(&[FIRST, &next]), 64);
        assert_eq!(ends_of(SMALL, &chip, PAGE_CHIP), Err(CHIP_DAMAGED));
    }

    #[test]
    fn a_mark_that_ends_a_page_has_no_filling() {
        // EXCLUDE, CHECKPOINT, END with five cells: 18 bytes and five records are 48.
        let plan = [0x04, 0x0D, 0x0E, 0x01];
        let records: Vec<u8> = (0..5).flat_map(|cell| [RECORD, cell, 9, 0, 0, 0]).collect();
        let mark = mark_named(3, 1, [0, 0], Some(owner(&plan)));
        let save = joined(&[&records, &mark]);
        let chip = joined(&[&save, &save]);
        assert_eq!(ends_of(&plan, &chip, PAGE_CHIP), Ok((96, 0)));
        let torn = erased(&joined(&[&save, &[RECORD]]), 64);
        assert_eq!(ends_of(&plan, &torn, PAGE_CHIP), Ok((48, 16)));
        // Until Q-8 14 bytes and three records were 32.
        let old = joined(&[&records[..18], &mark_named(3, 1, [0, 0], None)]);
        let chip = joined(&[&old, &old]);
        assert_eq!(ends_of(&plan, &chip, PAGE_CHIP), Ok((64, 0)));
    }

    #[test]
    fn torn_pages_count_whole_wherever_the_remainder_ends() {
        for stored in 1..24 {
            let torn = if stored <= 16 { 16 } else { 32 };
            let chip = erased(&FIRST[..stored], 48);
            let behind = joined(&[&first_pages(), &chip]);
            assert_eq!(ends_of(SMALL, &chip, PAGE_CHIP), Ok((0, torn)));
            assert_eq!(ends_of(SMALL, &behind, PAGE_CHIP), Ok((32, torn)));
        }
    }

    #[test]
    fn pages_of_any_length() {
        for page in 1..=16 {
            let save = FIRST.len().next_multiple_of(page);
            let chip = erased(FIRST, 2 * save);
            assert_eq!(
                ends_of(SMALL, &chip, page),
                Ok((save, 0)),
                "pages of {page}"
            );
            let torn = joined(&[&chip[..save], &FIRST[..7], &vec![ERASED; save - 7]]);
            let answer = Ok((save, 7_usize.next_multiple_of(page)));
            assert_eq!(ends_of(SMALL, &torn, page), answer, "pages of {page}");
        }
    }
}
