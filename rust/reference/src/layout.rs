//! The state as bytes (docs/STATE.md), and recovery and run on a state so lent: only there can a state have another
//! length, or hold a mark or a kind of stop that is none, which gives 10.

use crate::machine::{Machine, Mark, Ran, State, Stop, MAX_CELLS};
use crate::refusal::STATE_NOT_SOUND;

pub const STATE_BYTES: usize = 1312;

/// The marks stand after the cells, and after them the eight numbers from the place to the bytes stored.
const MARKS_AT: usize = 4 * MAX_CELLS;
pub const NUMBERS_AT: usize = MARKS_AT + MAX_CELLS;

impl Mark {
    pub fn number(self) -> u8 {
        match self {
            Mark::Include => 0,
            Mark::Pending => 1,
            Mark::Kept => 2,
            Mark::Dead => 3,
        }
    }

    fn of(number: u8) -> Option<Mark> {
        let marks = [Mark::Include, Mark::Pending, Mark::Kept, Mark::Dead];
        marks.into_iter().find(|mark| mark.number() == number)
    }
}

impl Stop {
    pub fn number(self) -> u32 {
        match self {
            Stop::Ended => 1,
            Stop::Divisor => 2,
            Stop::CountFull => 3,
        }
    }

    /// The kind of stop, which may be none, if the number has a meaning.
    fn of(number: u32) -> Option<Option<Stop>> {
        match number {
            0 => Some(None),
            1 => Some(Some(Stop::Ended)),
            2 => Some(Some(Stop::Divisor)),
            3 => Some(Some(Stop::CountFull)),
            _ => None,
        }
    }
}

impl State {
    pub fn to_bytes(&self) -> [u8; STATE_BYTES] {
        let mut bytes = [0; STATE_BYTES];
        for (to, cell) in bytes.chunks_exact_mut(4).zip(self.cells) {
            to.copy_from_slice(&cell.to_le_bytes());
        }
        for (to, mark) in bytes[MARKS_AT..].iter_mut().zip(self.marks) {
            *to = mark.number();
        }
        let numbers = [
            self.place,
            self.exclude,
            self.readings,
            self.outputs,
            self.stop.map_or(0, Stop::number),
            self.write,
            self.erase,
            self.saving.map_or(0, |stored| stored + 1),
        ];
        for (to, number) in bytes[NUMBERS_AT..].chunks_exact_mut(4).zip(numbers) {
            to.copy_from_slice(&number.to_le_bytes());
        }
        bytes
    }

    /// The state that the bytes hold, unless their length, a mark or the kind of stop is none.
    pub fn from_bytes(bytes: &[u8]) -> Option<State> {
        if bytes.len() != STATE_BYTES {
            return None;
        }
        let number = |at: usize| {
            let four = bytes[at..at + 4].try_into().expect("four bytes");
            u32::from_le_bytes(four)
        };
        let field = |place: usize| number(NUMBERS_AT + 4 * place);
        let mut state = State {
            place: field(0),
            exclude: field(1),
            readings: field(2),
            outputs: field(3),
            stop: Stop::of(field(4))?,
            write: field(5),
            erase: field(6),
            saving: field(7).checked_sub(1),
            ..State::first()
        };
        for cell in 0..MAX_CELLS {
            state.cells[cell] = number(4 * cell) as i32;
            state.marks[cell] = Mark::of(bytes[MARKS_AT + cell])?;
        }
        Some(state)
    }
}

impl Machine<'_> {
    /// Recovery on a state of bytes, of which it tests only the length: 10 where that is another.
    pub fn recover_bytes(&self, chip: &[u8], state: &mut [u8]) -> Result<(), u32> {
        if state.len() != STATE_BYTES {
            return Err(STATE_NOT_SOUND);
        }
        let mut recovered = State::first();
        self.recover(chip, &mut recovered)?;
        state.copy_from_slice(&recovered.to_bytes());
        Ok(())
    }

    /// A run on a state of bytes.
    pub fn run_bytes(
        &self,
        chip: &mut [u8],
        bytes: &mut [u8],
        readings: &[i32],
        room: usize,
        budget: u64,
    ) -> Result<Ran, u32> {
        let mut state = State::from_bytes(bytes).ok_or(STATE_NOT_SOUND)?;
        let ran = self.run(chip, &mut state, readings, room, budget)?;
        bytes.copy_from_slice(&state.to_bytes());
        Ok(ran)
    }
}

#[cfg(test)]
mod tests {
    use super::*;
    use crate::journal::{BYTE_CHIP, ERASED, MAX_CHIP, PAGE_CHIP};
    use crate::machine::SET_WORDS;

    const END: &[u8] = &[0x00, 0x01];

    /// A state whose fields all differ.
    fn uneven() -> State {
        let mut state = State {
            place: 0x0102_0304,
            exclude: 2,
            readings: 3,
            outputs: 4,
            stop: Some(Stop::CountFull),
            write: 5,
            erase: 6,
            saving: Some(7),
            ..State::first()
        };
        for cell in 0..MAX_CELLS {
            state.cells[cell] = -5 - cell as i32;
            state.marks[cell] = Mark::of((cell % 4) as u8).unwrap();
        }
        state
    }

    #[test]
    fn each_field_at_its_place() {
        let bytes = uneven().to_bytes();
        assert_eq!(bytes[..8], [0xFB, 0xFF, 0xFF, 0xFF, 0xFA, 0xFF, 0xFF, 0xFF]);
        assert_eq!(bytes[1020..1024], (-260_i32).to_le_bytes());
        assert_eq!(bytes[1024..1029], [0, 1, 2, 3, 0]);
        let numbers = [
            4, 3, 2, 1, 2, 0, 0, 0, 3, 0, 0, 0, 4, 0, 0, 0, 3, 0, 0, 0, 5, 0, 0, 0, 6, 0, 0, 0, 8,
            0, 0, 0,
        ];
        assert_eq!(bytes[1280..], numbers);
        assert_eq!(State::from_bytes(&bytes), Some(uneven()));
        let first = State::first();
        assert_eq!(State::from_bytes(&first.to_bytes()), Some(first));
    }

    #[test]
    fn what_is_no_state() {
        let bytes = uneven().to_bytes();
        assert_eq!(State::from_bytes(&bytes[1..]), None);
        assert_eq!(State::from_bytes(&[&bytes[..], &[0]].concat()), None);
        for at in [1024, 1279, 1296, 1297, 1299] {
            let mut bytes = bytes;
            bytes[at] = 4;
            assert_eq!(State::from_bytes(&bytes), None, "byte {at}");
        }
    }

    /// A recovery of the plan that has END alone.
    fn recover(words: &[u64], chip: &[u8], page: usize, state: &mut [u8]) -> Result<(), u32> {
        Machine::new(END, words, page)?.recover_bytes(chip, state)
    }

    /// The steps of its run with budget 1.
    fn run(words: &[u64], chip: &mut [u8], page: usize, state: &mut [u8]) -> Result<u64, u32> {
        let machine = Machine::new(END, words, page)?;
        let ran = machine.run_bytes(chip, state, &[], 0, 1)?;
        Ok(ran.steps)
    }

    #[test]
    fn ten_between_nine_and_eleven() {
        let words = [0; SET_WORDS];
        for (page, length) in [(BYTE_CHIP, MAX_CHIP + 1), (PAGE_CHIP, 20)] {
            let mut chip = vec![0x00; length];
            let mut short = [0xFF; STATE_BYTES - 1];
            assert_eq!(recover(&words[1..], &chip, page, &mut short), Err(9));
            assert_eq!(recover(&words, &chip, page, &mut short), Err(10));
            let mut no_mark = [0xFF; STATE_BYTES];
            assert_eq!(recover(&words, &chip, page, &mut no_mark), Err(11));
            assert_eq!(run(&words[1..], &mut chip, page, &mut no_mark), Err(9));
            assert_eq!(run(&words, &mut chip, page, &mut no_mark), Err(10));
            let mut first = State::first().to_bytes();
            assert_eq!(run(&words, &mut chip, page, &mut first), Err(11));
            assert_eq!(short, [0xFF; STATE_BYTES - 1]);
            assert_eq!(no_mark, [0xFF; STATE_BYTES]);
            assert_eq!(first, State::first().to_bytes());
        }
    }

    #[test]
    fn recovery_overwrites_any_bytes_and_run_goes_on_from_them() {
        let words = [0; SET_WORDS];
        let mut chip = [ERASED; 16];
        for page in [BYTE_CHIP, PAGE_CHIP] {
            let mut state = [0xFF; STATE_BYTES];
            assert_eq!(recover(&words, &chip, page, &mut state), Ok(()));
            assert_eq!(state, State::first().to_bytes());
            assert_eq!(run(&words, &mut chip, page, &mut state), Ok(1));
            let mut stopped = State::first();
            stopped.stop = Some(Stop::Ended);
            assert_eq!(state, stopped.to_bytes());
        }
    }
}
