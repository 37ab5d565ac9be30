//! Notes in spent cells (document 02, Q-14): where on a chip stand "the four value bytes of any
//! record, in a whole save, whose cell is dead at the CHECKPOINT of the last whole save". There the
//! service desk may write what it likes.

use crate::analysis::is_dead;
use crate::check::check;
use crate::journal::{read_as, read_for_recovery, Chip, Kind};

/// The bytes of a record before its value, A1 and the cell, and all of its bytes.
const BEFORE_VALUE: usize = 2;
const RECORD_LEN: usize = 6;

/// The value of a record in a whole save: the address of its first byte, the record's cell, and the
/// offset of the CHECKPOINT that stored it.
#[derive(Clone, Copy, Debug, PartialEq, Eq)]
pub struct Value {
    pub at: usize,
    pub cell: u8,
    pub checkpoint: usize,
}

/// Whether a note may stand at the four bytes from this place on; or recovery's refusal, 1 to 8,
/// 11, 12, 15 or 16, since it is asked of a chip that recovery takes. With A2 marks it is of a chip
/// as document 01 has it, which is folded before it is recovered.
pub fn spent(plan: &[u8], chip: &[u8], page: usize, kind: Kind, place: u64) -> Result<bool, u32> {
    let held = held(plan, chip, page, kind)?;
    let mut values = values(&held, page).into_iter();
    match values.find(|value| value.at as u64 == place) {
        Some(value) => is_dead(plan, value.cell, last_checkpoint(&held)),
        None => Ok(false),
    }
}

/// All the values that a note may replace, rising by their address, or the refusal.
pub fn spent_values(plan: &[u8], chip: &[u8], page: usize, kind: Kind) -> Result<Vec<Value>, u32> {
    let held = held(plan, chip, page, kind)?;
    let mut spent = Vec::new();
    for value in values(&held, page) {
        if is_dead(plan, value.cell, last_checkpoint(&held))? {
            spent.push(value);
        }
    }
    Ok(spent)
}

/// What recovery finds on the chip. The plan comes first, and its length and bytes after it.
fn held(plan: &[u8], chip: &[u8], page: usize, kind: Kind) -> Result<Chip, u32> {
    check(plan)?;
    match kind {
        Kind::A2 => read_as(plan, chip, page, Kind::A2),
        Kind::A3 => read_for_recovery(plan, chip, page),
    }
}

/// The values of all records in whole saves, rising by their address. What is torn is no save.
pub fn values(held: &Chip, page: usize) -> Vec<Value> {
    let mut values = Vec::new();
    let mut begin = 0;
    for save in &held.saves {
        for (number, (cell, _)) in save.records.iter().enumerate() {
            values.push(Value {
                at: begin + RECORD_LEN * number + BEFORE_VALUE,
                cell: *cell,
                checkpoint: checkpoint_before(save.mark.place),
            });
        }
        begin += save.pages(page).len();
    }
    values
}

/// "the CHECKPOINT of the last whole save", by its offset, of a chip that has one.
pub fn last_checkpoint(held: &Chip) -> usize {
    checkpoint_before(held.last().place)
}

/// A mark has the offset after its CHECKPOINT, which is a byte long.
fn checkpoint_before(place: u16) -> usize {
    usize::from(place) - 1
}

#[cfg(test)]
mod tests {
    use super::*;
    use crate::journal::{Mark, Save, BYTE_CHIP, ERASED, MAX_CHIP, PAGE_CHIP};

    /// CHECKPOINT, READ 1, EMIT 0, CHECKPOINT, READ 0, EMIT 1, JUMP to the first, with three cells.
    /// Cell 1 is dead at the first CHECKPOINT and live at the second, cell 0 the other way round,
    /// and cell 2 is dead at both.
    const TURNS: [u8; 14] = [
        0x02, 0x0E, 0x07, 1, 0x08, 0, 0x0E, 0x07, 0, 0x08, 1, 0x09, 1, 0,
    ];
    /// The offsets after its CHECKPOINTs.
    const FIRST: u16 = 2;
    const SECOND: u16 = 7;

    /// Its save with these cells at a CHECKPOINT, of value 5 each.
    fn save(place: u16, cells: &[u8], kind: Kind) -> Save {
        Save {
            records: cells.iter().map(|&cell| (cell, 5)).collect(),
            mark: Mark {
                place,
                exclude: 0,
                readings: 0,
                outputs: 0,
                owner: kind.owner(&TURNS),
            },
        }
    }

    /// The saves' pages, and FF up to 96 bytes.
    fn chip(page: usize, saves: &[Save]) -> Vec<u8> {
        let mut chip: Vec<u8> = saves.iter().flat_map(|save| save.pages(page)).collect();
        chip.resize(96, ERASED);
        chip
    }

    /// The places of the chip where a note may stand, of all that it has and some behind it.
    #[track_caller]
    fn places(page: usize, chip: &[u8]) -> Vec<u64> {
        let may = |place: &u64| spent(&TURNS, chip, page, Kind::A3, *place).expect("accepted");
        let places = (0..chip.len() as u64 + 9).filter(may).collect();
        let values = spent_values(&TURNS, chip, page, Kind::A3).expect("accepted");
        let listed: Vec<u64> = values.iter().map(|value| value.at as u64).collect();
        assert_eq!(places, listed);
        places
    }

    fn refused(plan: &[u8], chip: &[u8], page: usize) -> u32 {
        let listed = spent_values(plan, chip, page, Kind::A3).expect_err("refused");
        for place in [0, 2, u64::MAX] {
            assert_eq!(spent(plan, chip, page, Kind::A3, place), Err(listed));
        }
        listed
    }

    #[test]
    fn of_two_records_the_one_whose_cell_is_dead() {
        let of = |place| chip(BYTE_CHIP, &[save(place, &[0, 1], Kind::A3)]);
        assert_eq!(places(BYTE_CHIP, &of(FIRST)), [8]);
        assert_eq!(places(BYTE_CHIP, &of(SECOND)), [2]);
    }

    #[test]
    fn records_count_in_any_order() {
        let of = |cells: &[u8]| chip(BYTE_CHIP, &[save(FIRST, cells, Kind::A3)]);
        assert_eq!(places(BYTE_CHIP, &of(&[2, 0, 1])), [2, 14]);
        assert_eq!(places(BYTE_CHIP, &of(&[0, 1, 2])), [8, 14]);
        assert_eq!(places(BYTE_CHIP, &of(&[0])), []);
        assert_eq!(places(BYTE_CHIP, &of(&[])), []);
    }

    /// The first save has 30 bytes: its records' values stand at 2 and 8, those of the next at 32
    /// and 38.
    #[test]
    fn the_last_checkpoint_decides_for_earlier_saves_too() {
        let of = |places: [u16; 2]| {
            let saves = places.map(|place| save(place, &[0, 1], Kind::A3));
            places_of(&saves)
        };
        assert_eq!(of([FIRST, FIRST]), [8, 38]);
        assert_eq!(of([FIRST, SECOND]), [2, 32]);
        assert_eq!(of([SECOND, FIRST]), [8, 38]);
        // Where the last save has the cell no more, an earlier one's record is a place still.
        let later = [save(SECOND, &[0, 1], Kind::A3), save(FIRST, &[0], Kind::A3)];
        assert_eq!(places_of(&later), [8]);
    }

    #[track_caller]
    fn places_of(saves: &[Save]) -> Vec<u64> {
        places(BYTE_CHIP, &chip(BYTE_CHIP, saves))
    }

    #[test]
    fn on_a_page_chip_the_next_save_begins_with_a_page() {
        let saves = [save(SECOND, &[0, 1], Kind::A3), save(FIRST, &[1], Kind::A3)];
        assert_eq!(places(PAGE_CHIP, &chip(PAGE_CHIP, &saves)), [8, 34]);
        assert_eq!(places(BYTE_CHIP, &chip(BYTE_CHIP, &saves)), [8, 32]);
    }

    /// Of a record's six bytes the third alone is a place, and of a MARK's none.
    #[test]
    fn a1_the_cell_number_the_rest_of_the_value_and_the_mark_are_no_places() {
        let chip = chip(BYTE_CHIP, &[save(FIRST, &[2], Kind::A3)]);
        for place in (0..24).chain([1 << 16, (1 << 32) + 2, (1 << 63) + 2, u64::MAX]) {
            let may = spent(&TURNS, &chip, BYTE_CHIP, Kind::A3, place);
            assert_eq!(may, Ok(place == 2), "{place}");
        }
    }

    #[test]
    fn a_torn_save_has_no_places() {
        let whole = save(FIRST, &[1, 2], Kind::A3);
        for kept in 0..=30 {
            let mut torn = whole.bytes();
            torn.truncate(kept);
            let chip = [whole.bytes(), torn, vec![ERASED; 9]].concat();
            let (both, alone): (&[u64], &[u64]) = match kept {
                30 => (&[2, 8, 32, 38], &[2, 8]),
                _ => (&[2, 8], &[]),
            };
            assert_eq!(places(BYTE_CHIP, &chip), both, "{kept} bytes");
            assert_eq!(places(BYTE_CHIP, &chip[30..]), alone, "{kept} bytes");
        }
    }

    #[test]
    fn a_chip_without_a_save_has_none() {
        for length in [0, 1, 60, MAX_CHIP] {
            let chip = vec![ERASED; length];
            for place in [0, 2, length as u64, u64::MAX] {
                let may = spent(&TURNS, &chip, BYTE_CHIP, Kind::A3, place);
                assert_eq!(may, Ok(false));
            }
        }
    }

    /// A note is any four bytes, so the places stay what they are, whatever it looks like.
    #[test]
    fn a_note_leaves_all_places_as_they_are() {
        let saves = [
            save(SECOND, &[0, 1, 2], Kind::A3),
            save(FIRST, &[0, 2], Kind::A3),
        ];
        for page in [BYTE_CHIP, PAGE_CHIP] {
            let chip = chip(page, &saves);
            let places = places(page, &chip);
            assert_eq!(places.len(), 3);
            for note in [[0; 4], [ERASED; 4], [0xA1, 1, 0xA3, 0x5A], [0xA3, 2, 0, 0]] {
                for &place in &places {
                    let mut noted = chip.clone();
                    noted[place as usize..place as usize + 4].copy_from_slice(&note);
                    assert_eq!(self::places(page, &noted), places);
                }
            }
        }
    }

    #[test]
    fn with_a2_marks_15_but_as_until_q_8_the_same_cells() {
        let saves = [
            save(FIRST, &[0, 1], Kind::A2),
            save(SECOND, &[0, 1], Kind::A2),
        ];
        let chip = chip(BYTE_CHIP, &saves);
        assert_eq!(refused(&TURNS, &chip, BYTE_CHIP), 15);
        let values = spent_values(&TURNS, &chip, BYTE_CHIP, Kind::A2).unwrap();
        let value = |at, checkpoint| Value {
            at,
            cell: 0,
            checkpoint,
        };
        // The first save has 26 bytes.
        assert_eq!(values, [value(2, 1), value(28, 6)]);
        for (place, may) in [(2, true), (8, false), (28, true), (34, false)] {
            assert_eq!(spent(&TURNS, &chip, BYTE_CHIP, Kind::A2, place), Ok(may));
        }
        // A torn A2 alone is damaged for a recovery.
        assert_eq!(refused(&TURNS, &chip[..25], BYTE_CHIP), 12);
    }

    #[test]
    fn a_mark_of_another_plan_gives_16() {
        let mut saves = [FIRST, SECOND].map(|place| save(place, &[2], Kind::A3));
        for other in 0..2 {
            let own = saves[other].mark.owner;
            saves[other].mark.owner = own.map(|owner| owner + 1);
            assert_eq!(refused(&TURNS, &chip(BYTE_CHIP, &saves), BYTE_CHIP), 16);
            saves[other].mark.owner = own;
        }
    }

    #[test]
    fn of_several_refusals_the_lowest_is_given() {
        let long = vec![0x00; MAX_CHIP + 1];
        let no_target = [0x00, 0x09, 0x02, 0x00];
        for page in [BYTE_CHIP, PAGE_CHIP] {
            assert_eq!(refused(&[], &long, page), 1);
            assert_eq!(refused(&no_target, &long, page), 8);
            assert_eq!(refused(&TURNS, &long, page), 11);
            assert_eq!(refused(&TURNS, &long[..MAX_CHIP], page), 12);
        }
        assert_eq!(refused(&TURNS, &[ERASED; 17], PAGE_CHIP), 11);
        // Filling other than FF is damage, also where a note may stand before it.
        let mut filled = chip(PAGE_CHIP, &[save(FIRST, &[2], Kind::A3)]);
        assert_eq!(places(PAGE_CHIP, &filled), [2]);
        filled[31] = 0x00;
        assert_eq!(refused(&TURNS, &filled, PAGE_CHIP), 12);
    }

    /// Q-3's larger sets: a PUT into a table of one cell surely writes it.
    #[test]
    fn dead_is_by_the_sets_of_the_day() {
        // CHECKPOINT, PUT of cell 1 to a table from cell 0 on, EMIT 0, END.
        let plan = |len| [0x01, 0x0E, 0x0C, 0, len, 1, 1, 0x08, 0, 0x01];
        for (len, may) in [(1, true), (2, false)] {
            let plan = plan(len);
            let mut save = save(2, &[0], Kind::A3);
            save.mark.owner = Kind::A3.owner(&plan);
            let may_stand = spent(&plan, &save.bytes(), BYTE_CHIP, Kind::A3, 2);
            assert_eq!(may_stand, Ok(may), "a table of {len}");
        }
    }
}
