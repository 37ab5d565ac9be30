//! Folding (document 02, Q-6 and Q-8): what an old chip holds goes onto a new one as one save, in
//! steps of one byte. Both are byte chips. It keeps no state: each call gets the number of bytes that
//! are stored already. It reads a chip with marks of either kind and writes A3.

use crate::check::check;
use crate::journal::{check_length, read, read_as, Chip, Kind, Mark, Save, BYTE_CHIP, ERASED};
use crate::machine::SET_WORDS;
use crate::refusal::{BUFFER_TOO_SHORT, NEW_CHIP_DIFFERS, SAVE_TOO_LONG};

/// The answer of a call: how many bytes of the save are stored now, and whether these are all.
#[derive(Clone, Copy, Debug, PartialEq, Eq)]
pub struct Folded {
    pub stored: u64,
    pub finished: bool,
}

/// Stores the next bytes of the old chip's save on the new chip, as many as the budget says; or
/// gives the refusal and alters nothing. Of the sets only the number of words is asked.
pub fn fold(
    plan: &[u8],
    set_words: usize,
    old: &[u8],
    new: &mut [u8],
    stored: u64,
    budget: u64,
) -> Result<Folded, u32> {
    let held = read_old(plan, set_words, old, new.len())?;
    store(&save_bytes(plan, &held, Kind::A3), new, stored, budget)
}

/// The same as until Q-8: it reads A2 marks alone and writes such a one.
pub fn fold_until(
    plan: &[u8],
    set_words: usize,
    old: &[u8],
    new: &mut [u8],
    stored: u64,
    budget: u64,
) -> Result<Folded, u32> {
    check_lent(plan, set_words, old, new.len())?;
    let held = read_as(plan, old, BYTE_CHIP, Kind::A2)?;
    store(&save_bytes(plan, &held, Kind::A2), new, stored, budget)
}

/// What the old chip holds, "checked as recovery checks but without a state": 1 to 9, 11 and 12; but
/// of Q-8 "folding gives only 16", since it reads A2 marks, which name no plan to compare.
pub fn read_old(plan: &[u8], set_words: usize, old: &[u8], new_len: usize) -> Result<Chip, u32> {
    check_lent(plan, set_words, old, new_len)?;
    let held = read(plan, old, BYTE_CHIP)?;
    held.check_owner(plan)?;
    Ok(held)
}

/// 1 to 9 and 11. "11 covers both chips", so the new one's length is asked here.
fn check_lent(plan: &[u8], set_words: usize, old: &[u8], new_len: usize) -> Result<(), u32> {
    check(plan)?;
    if set_words < SET_WORDS {
        return Err(BUFFER_TOO_SHORT);
    }
    check_length(old.len(), BYTE_CHIP)?;
    check_length(new_len, BYTE_CHIP)
}

/// "one save ..: every cell whose recovered value is not 0, rising, and the last mark's fields"; none
/// of "an old chip with no whole save". Its own mark is of this kind, whatever the old ones are.
pub fn folded(plan: &[u8], old: &Chip, kind: Kind) -> Option<Save> {
    let values = (0..=u8::MAX).map(|cell| (cell, old.value(cell)));
    let last = old.saves.last()?;
    Some(Save {
        records: values.filter(|(_, value)| *value != 0).collect(),
        mark: Mark {
            owner: kind.owner(plan),
            ..last.mark
        },
    })
}

/// The bytes of that save, of which there are none where there is no save.
pub fn save_bytes(plan: &[u8], old: &Chip, kind: Kind) -> Vec<u8> {
    folded(plan, old, kind).map_or(Vec::new(), |save| save.bytes())
}

/// "stores the next bytes upward until budget or save is spent", a byte a step; or 13 or 14. It is
/// finished by the number of bytes stored, so with no budget too.
pub fn store(save: &[u8], new: &mut [u8], stored: u64, budget: u64) -> Result<Folded, u32> {
    let Some(mut at) = beginning(save, new, stored) else {
        return Err(NEW_CHIP_DIFFERS);
    };
    if save.len() > new.len() {
        return Err(SAVE_TOO_LONG);
    }
    let mut left = budget;
    while left > 0 && at < save.len() {
        new[at] = save[at];
        at += 1;
        left -= 1;
    }
    Ok(Folded {
        stored: at as u64,
        finished: at == save.len(),
    })
}

/// The number of bytes stored, if the new chip is "that many bytes of the save and then FF":
/// neither the save nor the chip has fewer.
fn beginning(save: &[u8], new: &[u8], stored: u64) -> Option<usize> {
    let stored = usize::try_from(stored).ok()?;
    let (front, rest) = new.split_at_checked(stored)?;
    let is_right = save.get(..stored)? == front && rest.iter().all(|&byte| byte == ERASED);
    is_right.then_some(stored)
}

#[cfg(test)]
mod tests {
    use super::*;
    use crate::journal::{MAX_CHIP, RECORD};

    const SMALL: &[u8] = include_bytes!("../../../examples/small.plan");
    /// The small plan's first save, which holds cell 0 with value 5.
    const FIRST: [u8; 24] = [
        0xA1, 0x00, 0x05, 0x00, 0x00, 0x00, 0xA3, 0x11, 0x00, 0x0F, 0x00, 0x01, 0x00, 0x00, 0x00,
        0x01, 0x00, 0x00, 0x00, 0x14, 0x00, 0x44, 0x00, 0x5A,
    ];
    /// The same until Q-8.
    const FIRST_A2: [u8; 20] = [
        0xA1, 0x00, 0x05, 0x00, 0x00, 0x00, 0xA2, 0x11, 0x00, 0x0F, 0x00, 0x01, 0x00, 0x00, 0x00,
        0x01, 0x00, 0x00, 0x00, 0x5A,
    ];

    /// MARKs of the small plan: with its EXCLUDE and without, and each with its own counts.
    const MARK_1: [u8; 18] = [
        0xA3, 0x11, 0, 0x0F, 0, 1, 0, 0, 0, 1, 0, 0, 0, 0x14, 0, 0x44, 0, 0x5A,
    ];
    const MARK_2: [u8; 18] = [
        0xA3, 0x11, 0, 0x00, 0, 2, 1, 0, 0, 3, 0, 0, 0, 0x14, 0, 0x44, 0, 0x5A,
    ];

    /// The same mark with A2.
    fn old(mark: &[u8; 18]) -> Vec<u8> {
        [&[0xA2], &mark[1..13], &[0x5A]].concat()
    }

    fn record(cell: u8, value: i32) -> Vec<u8> {
        [&[RECORD, cell][..], &value.to_le_bytes()].concat()
    }

    fn erased(chip: &[u8], length: usize) -> Vec<u8> {
        let mut chip = chip.to_vec();
        chip.resize(length, ERASED);
        chip
    }

    fn answer(stored: u64, finished: bool) -> Result<Folded, u32> {
        Ok(Folded { stored, finished })
    }

    /// The small plan's old chip folded onto a blank one of this length in one call.
    #[track_caller]
    fn folded_to(old: &[u8], length: usize) -> Vec<u8> {
        let mut new = vec![ERASED; length];
        let folded = fold(SMALL, SET_WORDS, old, &mut new, 0, u64::MAX).expect("accepted");
        assert!(folded.finished);
        assert_eq!(
            new[folded.stored as usize..],
            erased(&[], length)[folded.stored as usize..]
        );
        new
    }

    /// The refusal of a call with budget 9, which must leave the new chip as it is.
    #[track_caller]
    fn refused(plan: &[u8], words: usize, old: &[u8], new: &[u8], stored: u64) -> u32 {
        let mut left = new.to_vec();
        let answer = fold(plan, words, old, &mut left, stored, 9);
        assert_eq!(left, new);
        answer.expect_err("the call is refused")
    }

    /// The refusal of a fold of `FIRST`.
    #[track_caller]
    fn refused_first(new: &[u8], stored: u64) -> u32 {
        refused(SMALL, SET_WORDS, &FIRST, new, stored)
    }

    #[test]
    fn the_first_save_folds_to_itself() {
        assert_eq!(folded_to(&FIRST, 24), FIRST);
        assert_eq!(folded_to(&erased(&FIRST, 60), 33), erased(&FIRST, 33));
    }

    #[test]
    fn a_blank_chip_and_a_torn_one_leave_the_new_chip_blank() {
        let torn = [FIRST[..23].to_vec(), FIRST_A2[..19].to_vec()];
        let no_save = [vec![], erased(&[], 60)].into_iter().chain(torn);
        for old in no_save {
            for length in [0, 1, 20] {
                let mut new = vec![ERASED; length];
                for budget in [0, 1, u64::MAX] {
                    let folded = fold(SMALL, SET_WORDS, &old, &mut new, 0, budget);
                    assert_eq!(folded, answer(0, true));
                }
                assert_eq!(new, vec![ERASED; length]);
            }
            assert_eq!(refused(SMALL, SET_WORDS, &old, &[ERASED; 20], 1), 13);
            assert_eq!(refused(SMALL, SET_WORDS, &old, &[ERASED, 0x00], 0), 13);
        }
    }

    #[test]
    fn of_several_saves_the_last_values_rising_and_the_last_mark() {
        let old = [
            // Falling, and cell 1 with its first value.
            record(2, -7),
            record(1, 9),
            record(0, 5),
            MARK_1.to_vec(),
            record(1, 300),
            MARK_2.to_vec(),
            // A torn rest, with a whole record and a part of another.
            record(0, 77),
            record(2, 78)[..3].to_vec(),
        ];
        let new = [record(0, 5), record(1, 300), record(2, -7), MARK_2.to_vec()];
        assert_eq!(folded_to(&old.concat(), 36), new.concat());
        assert_eq!(folded_to(&erased(&old.concat(), 99), 36), new.concat());
    }

    #[test]
    fn a_cell_of_value_0_is_left_out() {
        let old = [
            record(0, 0),
            record(1, 4),
            record(2, 6),
            MARK_1.to_vec(),
            // Cell 1 becomes 0 again, and cell 0 stays so.
            record(1, 0),
            MARK_2.to_vec(),
        ];
        let new = [record(2, 6), MARK_2.to_vec()].concat();
        assert_eq!(folded_to(&old.concat(), 24), new);
        let zeros = [record(2, 0), record(0, 0), MARK_1.to_vec()].concat();
        assert_eq!(folded_to(&zeros, 18), MARK_1);
    }

    #[test]
    fn it_is_finished_with_the_last_byte() {
        let mut new = vec![ERASED; 25];
        let mut call = |stored, budget| fold(SMALL, SET_WORDS, &FIRST, &mut new, stored, budget);
        assert_eq!(call(0, 0), answer(0, false));
        assert_eq!(call(0, 23), answer(23, false));
        assert_eq!(call(23, 0), answer(23, false));
        assert_eq!(call(23, 1), answer(24, true));
        for budget in [0, 1, u64::MAX] {
            assert_eq!(call(24, budget), answer(24, true));
        }
        assert_eq!(new, erased(&FIRST, 25));
    }

    #[test]
    fn each_call_stores_the_next_bytes_upward() {
        for budget in 1..=25 {
            let mut new = vec![ERASED; 26];
            let mut stored = 0;
            while stored < 24 {
                let folded = fold(SMALL, SET_WORDS, &FIRST, &mut new, stored, budget).unwrap();
                assert_eq!(folded.stored, 24.min(stored + budget));
                assert_eq!(folded.finished, folded.stored == 24);
                stored = folded.stored;
                assert_eq!(new, erased(&FIRST[..stored as usize], 26));
            }
        }
    }

    #[test]
    fn where_the_save_has_ff_several_numbers_are_right() {
        // A1, cell 0 and the value -1: of bytes 2 to 5 nobody can see whether they are stored.
        let old = [record(0, -1), MARK_1.to_vec()].concat();
        for stored in 2..=6 {
            let mut new = erased(&[RECORD, 0], 24);
            let folded = fold(SMALL, SET_WORDS, &old, &mut new, stored, 24 - stored);
            assert_eq!((folded, new), (answer(24, true), old.clone()));
        }
        let new = erased(&[RECORD, 0], 24);
        assert_eq!(refused(SMALL, SET_WORDS, &old, &new, 1), 13);
        assert_eq!(refused(SMALL, SET_WORDS, &old, &new, 7), 13);
    }

    #[test]
    fn another_new_chip_gives_13() {
        // A wrong byte before the number, right behind it, and at the chip's end.
        for (at, byte) in [(0, 0xA3), (6, 0xA2), (6, 0xFF), (7, 0x11), (24, 0x00)] {
            let mut new = erased(&FIRST[..7], 25);
            new[at] = byte;
            assert_eq!(refused_first(&new, 7), 13, "byte {at}");
        }
        // A byte less and a byte more than are stored.
        let new = erased(&FIRST[..7], 25);
        assert_eq!(refused_first(&new, 6), 13);
        assert_eq!(refused_first(&new, 8), 13);
        // Behind the whole save, too, FF is due.
        assert_eq!(refused_first(&[&FIRST[..], &[0x5A]].concat(), 24), 13);
    }

    #[test]
    fn a_number_beyond_the_save_or_the_new_chip_gives_13() {
        let new = erased(&FIRST, 25);
        for stored in [25, 26, 1 << 32, (1 << 32) + 24, u64::MAX] {
            assert_eq!(refused_first(&new, stored), 13, "{stored}");
        }
        assert_eq!(refused_first(&FIRST, 25), 13);
        assert_eq!(refused_first(&FIRST[..23], 24), 13);
        assert_eq!(refused_first(&[], 1), 13);
    }

    #[test]
    fn a_save_longer_than_the_new_chip_gives_14() {
        for length in 0..24 {
            assert_eq!(refused_first(&vec![ERASED; length], 0), 14);
            assert_eq!(refused_first(&FIRST[..length], length as u64), 14);
        }
        assert_eq!(folded_to(&FIRST, 24), FIRST);
    }

    #[test]
    fn of_several_refusals_the_lowest_is_given() {
        let long = vec![0x00; MAX_CHIP + 1];
        let damaged = &long[..MAX_CHIP];
        let few = SET_WORDS - 1;
        let no_target = [0x00, 0x09, 0x02, 0x00];
        assert_eq!(refused(&[], few, &long, &long, 9), 1);
        assert_eq!(refused(&no_target, few, &long, &long, 9), 8);
        assert_eq!(refused(SMALL, few, &long, &long, 9), 9);
        assert_eq!(refused(SMALL, SET_WORDS, &long, &[0x00], 9), 11);
        assert_eq!(refused(SMALL, SET_WORDS, damaged, &long, 9), 11);
        assert_eq!(refused(SMALL, SET_WORDS, &FIRST, &long, 0), 11);
        assert_eq!(refused(SMALL, SET_WORDS, damaged, &[0x00], 9), 12);
        assert_eq!(refused(SMALL, SET_WORDS, damaged, &[ERASED], 0), 12);
        let other = other_owner(&FIRST);
        assert_eq!(refused(SMALL, SET_WORDS, &other, &long, 9), 11);
        let both = [&other[..], &[0x00]].concat();
        assert_eq!(refused(SMALL, SET_WORDS, &both, &[0x00], 9), 12);
        assert_eq!(refused(SMALL, SET_WORDS, &other, &[0x00], 0), 16);
        assert_eq!(refused(SMALL, SET_WORDS, &other, &[ERASED], 0), 16);
        assert_eq!(refused(SMALL, SET_WORDS, &FIRST, &[0x00], 0), 13);
        assert_eq!(refused(SMALL, SET_WORDS, &FIRST, &[ERASED], 2), 13);
        assert_eq!(refused(SMALL, SET_WORDS, &FIRST, &[ERASED], 0), 14);
    }

    #[test]
    fn the_longest_chips_fold() {
        let old = erased(&FIRST, MAX_CHIP);
        assert_eq!(folded_to(&old, MAX_CHIP), old);
    }

    /// The small plan's save with another sum in its mark, by 1.
    fn other_owner(save: &[u8]) -> Vec<u8> {
        let mut save = save.to_vec();
        let sum = save.len() - 3;
        save[sum] += 1;
        save
    }

    #[test]
    fn a_chip_with_a2_marks_folds_to_an_a3_mark() {
        assert_eq!(folded_to(&FIRST_A2, 24), FIRST);
        let chip = |marks: [&[u8]; 2]| {
            let first = [&record(2, -7), &record(0, 5), marks[0]].concat();
            [&first, &record(1, 300), marks[1]].concat()
        };
        let [a2, a3] = [
            chip([&old(&MARK_1), &old(&MARK_2)]),
            chip([&MARK_1, &MARK_2]),
        ];
        let new = [record(0, 5), record(1, 300), record(2, -7), MARK_2.to_vec()];
        for torn in [&[][..], &[RECORD, 1], &[RECORD, 1, 2, 3, 4, 5]] {
            for old in [&a2, &a3] {
                let old = [&old[..], torn].concat();
                assert_eq!(folded_to(&old, 36), new.concat());
            }
        }
        let torn = [&a2[..], &FIRST_A2[..9]].concat();
        assert_eq!(folded_to(&torn, 36), new.concat());
    }

    #[test]
    fn a_chip_with_both_marks_is_damaged() {
        let blank = [ERASED; 60];
        for behind in 7..=FIRST.len() {
            let old = [&FIRST_A2[..], &FIRST[..behind]].concat();
            assert_eq!(refused(SMALL, SET_WORDS, &old, &blank, 0), 12, "{behind}");
        }
        for behind in 7..=FIRST_A2.len() {
            let old = [&FIRST[..], &FIRST_A2[..behind]].concat();
            assert_eq!(refused(SMALL, SET_WORDS, &old, &blank, 0), 12, "{behind}");
        }
    }

    #[test]
    fn a_whole_mark_of_another_plan_gives_16() {
        let (own, other) = (MARK_1.to_vec(), other_owner(&MARK_1));
        let blank = [ERASED; 60];
        for marks in [vec![&other], vec![&own, &other], vec![&other, &own]] {
            let old: Vec<u8> = marks.into_iter().flatten().copied().collect();
            assert_eq!(refused(SMALL, SET_WORDS, &old, &blank, 0), 16);
        }
        // A torn one names nobody.
        let torn = [&own[..], &other[..17]].concat();
        assert_eq!(folded_to(&torn, 18), own);
    }

    #[test]
    fn until_q_8_a_fold_wrote_a2_marks() {
        let mut new = vec![ERASED; 30];
        let folded = fold_until(SMALL, SET_WORDS, &FIRST_A2, &mut new, 0, 100);
        assert_eq!((folded, new), (answer(20, true), erased(&FIRST_A2, 30)));
        let mut new = vec![ERASED; 30];
        let refused = fold_until(SMALL, SET_WORDS, &FIRST, &mut new, 0, 100);
        assert_eq!((refused, new), (Err(12), vec![ERASED; 30]));
    }
}
