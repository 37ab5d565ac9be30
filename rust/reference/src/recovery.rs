//! Recovery (document 01, 'Marks, steps and the chip'; document 02, Q-8): the state that a chip's whole saves give. It
//! stores nothing on the chip; the run that follows erases the torn pages.

use crate::journal::{read_as, read_for_recovery, Kind};
use crate::machine::{is_in, Machine, Mark, State};

impl Machine<'_> {
    /// Overwrites the state with what the chip holds; or gives the refusal, 11, 12, 15 or 16, and alters nothing. The
    /// state is no bytes here, so it has no length that could give 10. With A2 marks it is as document 01 has it, which
    /// knows neither 15 nor 16.
    pub fn recover(&self, chip: &[u8], state: &mut State) -> Result<(), u32> {
        let held = match self.kind {
            Kind::A2 => read_as(self.plan, chip, self.page, Kind::A2)?,
            Kind::A3 => read_for_recovery(self.plan, chip, self.page)?,
        };
        let last = held.last();
        let mut recovered = State {
            place: last.place.into(),
            exclude: last.exclude.into(),
            readings: last.readings,
            outputs: last.outputs,
            write: held.end as u32,
            erase: held.torn as u32,
            ..State::first()
        };
        for cell in 0..self.cells {
            recovered.cells[cell] = held.value(cell as u8);
            recovered.marks[cell] = self.recovered_mark(recovered.exclude, cell);
        }
        *state = recovered;
        Ok(())
    }

    /// "Dead for DE, else Kept for RO, else Include, by the last EXCLUDE, all Include if 0".
    fn recovered_mark(&self, exclude: u32, cell: usize) -> Mark {
        if exclude == 0 {
            return Mark::Include;
        }
        let (de, ro) = self.sets_of(exclude);
        match (is_in(de, cell), is_in(ro, cell)) {
            (true, _) => Mark::Dead,
            (false, true) => Mark::Kept,
            (false, false) => Mark::Include,
        }
    }
}

#[cfg(test)]
mod tests {
    use super::*;
    use crate::analyse;
    use crate::journal::{BYTE_CHIP, ERASED, MAX_CHIP, PAGE_CHIP};
    use crate::machine::{Stop, SET_WORDS};

    const SMALL: &[u8] = include_bytes!("../../../examples/small.plan");
    /// The small plan's first two saves, with readings 5 and 7.
    const SAVES: [u8; 48] = [
        0xA1, 0x00, 0x05, 0x00, 0x00, 0x00, 0xA3, 0x11, 0x00, 0x0F, 0x00, 0x01, 0x00, 0x00, 0x00,
        0x01, 0x00, 0x00, 0x00, 0x14, 0x00, 0x44, 0x00, 0x5A, 0xA1, 0x00, 0x0C, 0x00, 0x00, 0x00,
        0xA3, 0x11, 0x00, 0x0F, 0x00, 0x02, 0x00, 0x00, 0x00, 0x02, 0x00, 0x00, 0x00, 0x14, 0x00,
        0x44, 0x00, 0x5A,
    ];

    fn sets(plan: &[u8]) -> Vec<u64> {
        let mut words = analyse(plan).expect("the plan is accepted").set_words();
        words.resize(SET_WORDS, 0);
        words
    }

    /// A state that no recovery leaves, so that whatever remains of it shows.
    fn spoiled() -> State {
        State {
            cells: [-77; 256],
            marks: [Mark::Pending; 256],
            place: 2,
            exclude: 3,
            readings: 4,
            outputs: 5,
            stop: Some(Stop::Divisor),
            write: 6,
            erase: 7,
            saving: Some(8),
        }
    }

    /// What recovery of a byte chip leaves with the plan's own sets, or its refusal.
    fn recovered(plan: &[u8], chip: &[u8]) -> Result<State, u32> {
        recovered_from(plan, chip, BYTE_CHIP)
    }

    fn recovered_from(plan: &[u8], chip: &[u8], page: usize) -> Result<State, u32> {
        let mut state = spoiled();
        Machine::new(plan, &sets(plan), page)?.recover(chip, &mut state)?;
        Ok(state)
    }

    /// The small plan's saves up to so many bytes, then FF up to 60.
    fn stored(bytes: usize) -> Vec<u8> {
        let mut chip = SAVES[..bytes].to_vec();
        chip.resize(60, ERASED);
        chip
    }

    #[test]
    fn an_erased_chip_gives_the_first_state() {
        for length in [0, 1, 60, MAX_CHIP] {
            assert_eq!(recovered(SMALL, &vec![ERASED; length]), Ok(State::first()));
        }
    }

    #[test]
    fn cut_after_33_bytes_cell_0_is_5_and_both_counts_are_1() {
        let mut expected = State {
            place: 17,
            exclude: 15,
            readings: 1,
            outputs: 1,
            write: 24,
            erase: 9,
            ..State::first()
        };
        expected.cells[0] = 5;
        // Of the small plan's cells, 1 and 2 are in DE.
        expected.marks[1] = Mark::Dead;
        expected.marks[2] = Mark::Dead;
        assert_eq!(recovered(SMALL, &stored(33)), Ok(expected));
    }

    #[test]
    fn a_save_counts_from_its_last_byte_on() {
        for bytes in 0..=SAVES.len() {
            let state = recovered(SMALL, &stored(bytes)).unwrap();
            let whole = bytes / 24;
            assert_eq!(state.write as usize, 24 * whole);
            assert_eq!(state.erase as usize, bytes - 24 * whole);
            assert_eq!(state.cells[0], [0, 5, 12][whole]);
            assert_eq!([state.readings, state.outputs], [whole as u32; 2]);
        }
    }

    #[test]
    fn trailing_ff_is_not_to_be_erased() {
        // A1, cell 0 and the value -1.
        let torn = [0xA1, 0x00, ERASED, ERASED, ERASED, ERASED];
        assert_eq!(recovered(SMALL, &torn).unwrap().erase, 2);
    }

    #[test]
    fn a_damaged_chip() {
        assert_eq!(recovered(SMALL, &[0x00, ERASED]), Err(12));
        let mut chip = stored(48);
        chip[48] = 0x00;
        assert_eq!(recovered(SMALL, &chip), Err(12));
    }

    /// Marks by DE and RO: neither, RO, DE, both; and a bit for a cell that the plan has not.
    #[test]
    fn marks_by_the_last_exclude_alone() {
        // EXCLUDE, CHECKPOINT, EXCLUDE, CHECKPOINT, END with four cells.
        let plan = [0x03, 0x0D, 0x0E, 0x0D, 0x0E, 0x01];
        let mut words = vec![0; SET_WORDS];
        words[..4].fill(u64::MAX);
        words[8] = 0b1_1100;
        words[12] = 0b1_1010;
        // The plan has 6 bytes, and their sum is 58.
        let save = |exclude: u8| {
            [
                0xA3, 0x05, 0, exclude, 0, 0, 0, 0, 0, 0, 0, 0, 0, 6, 0, 58, 0, 0x5A,
            ]
        };
        let marks = |chip: &[u8]| {
            let mut state = spoiled();
            let machine = Machine::new(&plan, &words, BYTE_CHIP).unwrap();
            machine.recover(chip, &mut state).unwrap();
            state.marks[..6].to_vec()
        };
        use Mark::*;
        let all_include = [Include; 6];
        assert_eq!(marks(&save(0)), all_include);
        let dead = [Dead, Dead, Dead, Dead, Include, Include];
        assert_eq!(marks(&save(1)), dead);
        let mixed = [Include, Kept, Dead, Dead, Include, Include];
        assert_eq!(marks(&[save(1), save(3)].concat()), mixed);
    }

    #[test]
    fn refusals_in_their_order_leave_the_state() {
        let words = sets(SMALL);
        let long = vec![0x00; MAX_CHIP + 1];
        let refused = |plan: &[u8], words: &[u64], chip: &[u8]| {
            let mut state = spoiled();
            let machine = Machine::new(plan, words, BYTE_CHIP);
            let answer = machine.and_then(|machine| machine.recover(chip, &mut state));
            assert_eq!(state, spoiled());
            answer.expect_err("the call is refused")
        };
        assert_eq!(refused(&[], &[], &long), 1);
        assert_eq!(refused(&[0x00, 0x09, 0x02, 0x00], &[], &long), 8);
        assert_eq!(refused(SMALL, &words[..511], &long), 9);
        assert_eq!(refused(SMALL, &words, &long), 11);
        assert_eq!(refused(SMALL, &words, &long[..MAX_CHIP]), 12);
    }

    /// The small plan's first save on a page chip, as many of its pages as are given, then FF up to 64.
    fn pages(stored: usize) -> Vec<u8> {
        let mut chip = SAVES[..24.min(16 * stored)].to_vec();
        chip.resize(64, ERASED);
        chip
    }

    #[test]
    fn cut_between_the_pages_of_the_first_save_the_plan_starts_again() {
        let start = State {
            erase: 16,
            ..State::first()
        };
        assert_eq!(recovered_from(SMALL, &pages(1), PAGE_CHIP), Ok(start));
    }

    #[test]
    fn a_save_counts_from_its_last_page_on() {
        let state = recovered_from(SMALL, &pages(2), PAGE_CHIP).unwrap();
        assert_eq!((state.write, state.erase), (32, 0));
        assert_eq!((state.place, state.cells[0]), (17, 5));
        assert_eq!([state.readings, state.outputs], [1, 1]);
    }

    /// The small plan's saves up to so many bytes, with A2 marks, then FF up to 60.
    fn stored_a2(bytes: usize) -> Vec<u8> {
        let mut save = SAVES[..24].to_vec();
        save.drain(19..23);
        save[6] = 0xA2;
        let mut chip = [&save[..], &save].concat();
        chip.truncate(bytes);
        chip.resize(60, ERASED);
        chip
    }

    #[test]
    fn with_a2_marks_it_is_document_01s_recovery() {
        let words = sets(SMALL);
        let machine = Machine::of_kind(SMALL, &words, BYTE_CHIP, Kind::A2).unwrap();
        for bytes in 0..=40 {
            let mut state = spoiled();
            let answer = machine.recover(&stored_a2(bytes), &mut state);
            assert_eq!((answer, state.stop), (Ok(()), None));
            let whole = bytes / 20;
            assert_eq!(state.write as usize, 20 * whole);
            assert_eq!(state.erase as usize, bytes - 20 * whole);
            assert_eq!(state.cells[0], [0, 5, 5][whole]);
        }
        let mut state = spoiled();
        assert_eq!(machine.recover(&stored(24), &mut state), Err(12));
        assert_eq!(state, spoiled());
    }

    #[test]
    fn old_marks_give_15_and_another_plan_16() {
        for bytes in 0..=40 {
            let result = match bytes {
                0..=6 => None,
                7..20 => Some(12),
                _ => Some(15),
            };
            assert_eq!(recovered(SMALL, &stored_a2(bytes)).err(), result, "{bytes}");
        }
        for bytes in 24..=48 {
            let mut chip = stored(bytes);
            chip[21] += 1;
            assert_eq!(recovered(SMALL, &chip), Err(16));
        }
    }

    #[test]
    fn filling_that_is_not_ff_is_damage() {
        let mut chip = pages(2);
        chip[31] = 0xFE;
        assert_eq!(recovered_from(SMALL, &chip, PAGE_CHIP), Err(12));
        assert_eq!(recovered_from(SMALL, &chip[..31], PAGE_CHIP), Err(11));
    }
}
