//! Recovery and run in plain Rust on lent bytes, as the C interface has them: the state is decoded, checked, altered and
//! encoded again.

use differential::call::{put_words, set_lower, words, Call, Callee, Entry, Ran};
use reference::journal::{BYTE_CHIP, MAX_CHIP, PAGE_CHIP};
use reference::layout::STATE_BYTES;
use reference::program::{CHECKPOINT, EXCLUDE};
use reference::refusal::{BUFFER_TOO_SHORT, CHIP_LENGTH, STATE_NOT_SOUND};

use crate::baseline::{analyse, check, SET_WORDS};
use crate::folding::fold;
use crate::journals::{owner, read_for_recovery};
use crate::machine::{Lent, Machine, DEAD, INCLUDE, KEPT};
use crate::notes::spent;

/// The marks stand after the cells, and after them the eight numbers.
const MARKS_AT: usize = 1_024;
const NUMBERS_AT: usize = 1_280;

/// Restores the state that the chip holds, or gives the refusal.
pub fn recover<const PAGE: usize>(
    plan: &[u8],
    sets: &[[u8; 8]],
    chip: &[u8],
    state: &mut [u8],
) -> Result<(), u32> {
    let cell_count = check(plan)?.cells as usize;
    if sets.len() < SET_WORDS {
        return Err(BUFFER_TOO_SHORT);
    }
    if state.len() != STATE_BYTES {
        return Err(STATE_NOT_SOUND);
    }
    let owner = owner(plan);
    let held = read_for_recovery::<PAGE>(plan, cell_count, chip, owner)?;
    let mut machine = Machine::<PAGE>::first(plan, cell_count, owner);
    machine.cells = held.values.map(|value| value as i32);
    machine.place = held.last.place.into();
    machine.exclude = held.last.exclude.into();
    machine.readings = held.last.readings;
    machine.outputs = held.last.outputs;
    machine.write = held.end;
    machine.erase = held.torn;
    if machine.exclude != 0 {
        machine.mark(sets);
    }
    machine.encode(state);
    Ok(())
}

/// Runs the plan from the state, or gives the refusal.
pub fn run<const PAGE: usize>(plan: &[u8], state: &mut [u8], lent: &mut Lent) -> Result<Ran, u32> {
    let cell_count = check(plan)?.cells as usize;
    if lent.sets.len() < SET_WORDS {
        return Err(BUFFER_TOO_SHORT);
    }
    let decoded = Machine::<PAGE>::decode(plan, cell_count, state, lent.chip.len());
    let mut machine = decoded.ok_or(STATE_NOT_SOUND)?;
    if lent.chip.len() > MAX_CHIP || !lent.chip.len().is_multiple_of(PAGE) {
        return Err(CHIP_LENGTH);
    }
    let ran = machine.run(lent);
    machine.encode(state);
    Ok(ran)
}

impl<'a, const PAGE: usize> Machine<'a, PAGE> {
    /// The machine that stands in the bytes, if they are a sound state.
    fn decode(plan: &'a [u8], cell_count: usize, bytes: &[u8], chip: usize) -> Option<Self> {
        if bytes.len() != STATE_BYTES {
            return None;
        }
        let mut machine = Machine::first(plan, cell_count, owner(plan));
        let (cells, _) = bytes[..MARKS_AT].as_chunks();
        for (cell, bytes) in machine.cells.iter_mut().zip(cells) {
            *cell = i32::from_le_bytes(*bytes);
        }
        machine.marks.copy_from_slice(&bytes[MARKS_AT..NUMBERS_AT]);
        let (numbers, _) = bytes[NUMBERS_AT..].as_chunks();
        let number = |k: usize| u32::from_le_bytes(numbers[k]);
        machine.place = number(0) as usize;
        machine.exclude = number(1) as usize;
        machine.readings = number(2);
        machine.outputs = number(3);
        machine.stop = number(4);
        machine.write = number(5) as usize;
        machine.erase = number(6) as usize;
        let is_sound = machine.is_sound(chip) && machine.resume(number(7) as usize, chip);
        is_sound.then_some(machine)
    }

    /// Whether the state is sound, a save at work aside.
    fn is_sound(&self, chip: usize) -> bool {
        let opcode = |offset: usize| self.map.opcodes.get(offset).copied().unwrap_or(0);
        self.marks.iter().all(|mark| *mark <= DEAD)
            && self.stop <= 3
            && opcode(self.place) != 0
            && (self.exclude == 0 || opcode(self.exclude) == EXCLUDE)
            && self.cells[self.cell_count..].iter().all(|cell| *cell == 0)
            && self.marks[self.cell_count..]
                .iter()
                .all(|mark| *mark == INCLUDE)
            && self.write + self.erase <= chip
            && self.write.is_multiple_of(PAGE)
            && self.erase.is_multiple_of(PAGE)
    }

    /// Takes up the save at work, if there is one, and gives whether that is sound.
    fn resume(&mut self, saving: usize, chip: usize) -> bool {
        if saving == 0 {
            return true;
        }
        let (stored, size) = (saving - 1, self.save_len());
        let is_sound = self.map.opcodes[self.place] == CHECKPOINT
            && self.erase == 0
            && stored < size
            && stored.is_multiple_of(PAGE)
            && self.write + size - stored <= chip;
        (self.saving, self.stored) = (true, stored);
        is_sound
    }

    /// Sets the marks by the last EXCLUDE.
    fn mark(&mut self, sets: &[[u8; 8]]) {
        let words = self.sets_of(sets, self.exclude);
        for cell in 0..self.cell_count {
            let is_in = |first: usize| words[first + cell / 64] >> (cell % 64) & 1 == 1;
            self.marks[cell] = match (is_in(0), is_in(4)) {
                (true, _) => DEAD,
                (false, true) => KEPT,
                (false, false) => INCLUDE,
            };
        }
    }

    fn encode(&self, bytes: &mut [u8]) {
        let (cells, _) = bytes[..MARKS_AT].as_chunks_mut();
        for (bytes, cell) in cells.iter_mut().zip(self.cells) {
            *bytes = cell.to_le_bytes();
        }
        bytes[MARKS_AT..NUMBERS_AT].copy_from_slice(&self.marks);
        let saving = match self.saving {
            true => self.stored as u32 + 1,
            false => 0,
        };
        let numbers = [
            self.place as u32,
            self.exclude as u32,
            self.readings,
            self.outputs,
            self.stop,
            self.write as u32,
            self.erase as u32,
            saving,
        ];
        let (places, _) = bytes[NUMBERS_AT..].as_chunks_mut();
        for (bytes, number) in places.iter_mut().zip(numbers) {
            *bytes = number.to_le_bytes();
        }
    }
}

/// The plain versions, as one who answers calls.
pub struct Plain;

impl Callee for Plain {
    fn answer(&self, call: &mut Call) -> u32 {
        let answer = match call.entry {
            Entry::Check => answer_check(call),
            Entry::Analyse => answer_analyse(call),
            Entry::Recover => answer_recover::<BYTE_CHIP>(call),
            Entry::Run => answer_run::<BYTE_CHIP>(call),
            Entry::PageRecover => answer_recover::<PAGE_CHIP>(call),
            Entry::PageRun => answer_run::<PAGE_CHIP>(call),
            Entry::Fold => answer_fold(call),
            Entry::Spent => answer_spent::<BYTE_CHIP>(call),
            Entry::PageSpent => answer_spent::<PAGE_CHIP>(call),
        };
        answer.err().unwrap_or(0)
    }
}

fn answer_check(call: &mut Call) -> Result<(), u32> {
    let checked = check(call.plan.lent())?;
    let values = [checked.cells, checked.instructions, checked.excludes];
    for (number, value) in call.numbers.iter_mut().zip(values) {
        set_lower(number, value);
    }
    Ok(())
}

fn answer_analyse(call: &mut Call) -> Result<(), u32> {
    let (mut dead, mut sets) = (words(call.dead.lent()), words(call.sets.lent()));
    analyse(call.plan.lent(), &mut dead, &mut sets)?;
    put_words(call.dead.lend(), &dead);
    put_words(call.sets.lend(), &sets);
    Ok(())
}

fn answer_recover<const PAGE: usize>(call: &mut Call) -> Result<(), u32> {
    let (sets, _) = call.sets.lent().as_chunks();
    recover::<PAGE>(call.plan.lent(), sets, call.chip.lent(), call.state.lend())
}

fn answer_run<const PAGE: usize>(call: &mut Call) -> Result<(), u32> {
    let mut lent = Lent {
        sets: call.sets.lent().as_chunks().0,
        chip: call.chip.lend(),
        readings: call.readings.lent().as_chunks().0,
        outputs: call.outputs.lend().as_chunks_mut().0,
        budget: call.budget,
    };
    let ran = run::<PAGE>(call.plan.lent(), call.state.lend(), &mut lent)?;
    let [ended, steps, taken, given] = &mut call.numbers;
    set_lower(ended, ran.ended);
    (*steps, *taken, *given) = (ran.steps, ran.taken, ran.given);
    Ok(())
}

fn answer_fold(call: &mut Call) -> Result<(), u32> {
    let (plan, old, set_words) = (call.plan.lent(), call.chip.lent(), call.sets.words());
    let new = call.new_chip.lend();
    let folded = fold(plan, set_words, old, new, call.stored, call.budget)?;
    call.numbers[0] = folded.stored;
    set_lower(&mut call.numbers[1], u32::from(folded.finished));
    Ok(())
}

fn answer_spent<const PAGE: usize>(call: &mut Call) -> Result<(), u32> {
    let may = spent::<PAGE>(call.plan.lent(), call.chip.lent(), call.place)?;
    set_lower(&mut call.numbers[0], u32::from(may));
    Ok(())
}
