//! Random states of the machine for either kind of chip: sound ones, and sound ones with one fault, for which a run must
//! give 10.

use claim::calls::spoiled;
use reference::journal::Kind;
use reference::layout::{NUMBERS_AT, STATE_BYTES};
use reference::machine::{Mark, State, Stop, MAX_CELLS};
use reference::program::{CHECKPOINT, EXCLUDE, FIRST_INSTRUCTION, LENGTHS};

use crate::rng::Rng;

/// What of an accepted plan and of its chip's kind decides which states are sound: the page length, the plan's cells and
/// its commands' offsets.
pub struct Shape {
    pub page: usize,
    pub cells: usize,
    pub commands: Vec<u32>,
    pub excludes: Vec<u32>,
    pub checkpoints: Vec<u32>,
}

impl Shape {
    pub fn of(plan: &[u8], page: usize) -> Shape {
        let mut shape = Shape {
            page,
            cells: usize::from(plan[0]) + 1,
            commands: Vec::new(),
            excludes: Vec::new(),
            checkpoints: Vec::new(),
        };
        let mut offset = FIRST_INSTRUCTION;
        while offset < plan.len() {
            shape.commands.push(offset as u32);
            match plan[offset] {
                EXCLUDE => shape.excludes.push(offset as u32),
                CHECKPOINT => shape.checkpoints.push(offset as u32),
                _ => {}
            }
            offset += LENGTHS[usize::from(plan[offset])];
        }
        shape
    }

    /// The length of the save that the state would begin, without filling.
    pub fn save(&self, state: &State) -> usize {
        let stored = |mark: &&Mark| matches!(mark, Mark::Include | Mark::Pending);
        6 * state.marks[..self.cells].iter().filter(stored).count() + Kind::A3.mark_len()
    }

    /// The same with its filling.
    fn pages(&self, state: &State) -> usize {
        self.save(state).next_multiple_of(self.page)
    }
}

/// A value of a cell or a reading: mostly small, so that comparisons go both ways.
pub fn value(rng: &mut Rng) -> i32 {
    match rng.below(8) {
        0 => rng.word() as i32,
        1 => rng.pick(&[i32::MIN, i32::MAX, -1, 0]),
        _ => rng.below(20) as i32 - 6,
    }
}

/// A count: mostly small, now and then so large that it is soon full.
fn count(rng: &mut Rng) -> u32 {
    match rng.below(8) {
        0 => u32::MAX - rng.pick(&[0, 1, 2, 1_023, 1_024, 1_025]),
        1 => rng.word() as u32,
        _ => rng.below(2_000) as u32,
    }
}

fn marks(rng: &mut Rng, marks: &mut [Mark]) {
    let all = [Mark::Include, Mark::Pending, Mark::Kept, Mark::Dead];
    let kinds = &all[..1 + rng.below(4)];
    marks.fill_with(|| rng.pick(kinds));
}

/// A sound state for a plan of this shape on a chip of this length.
pub fn sound(rng: &mut Rng, shape: &Shape, chip: usize) -> State {
    let mut state = State::first();
    state.cells[..shape.cells].fill_with(|| value(rng));
    marks(rng, &mut state.marks[..shape.cells]);
    state.place = rng.pick(&shape.commands);
    if rng.below(2) == 0 && !shape.excludes.is_empty() {
        state.exclude = rng.pick(&shape.excludes);
    }
    (state.readings, state.outputs) = (count(rng), count(rng));
    if rng.below(12) == 0 {
        state.stop = Some(rng.pick(&[Stop::Ended, Stop::Divisor, Stop::CountFull]));
    }
    let write = shape.page * edge(rng, chip / shape.page);
    let erase = match rng.below(4) {
        0 => shape.page * edge(rng, (chip - write) / shape.page),
        _ => 0,
    };
    (state.write, state.erase) = (write as u32, erase as u32);
    if rng.below(3) == 0 {
        saving(rng, shape, chip, &mut state);
    }
    state
}

/// A number up to the most, every other time 0 or the most.
pub(crate) fn edge(rng: &mut Rng, most: usize) -> usize {
    match rng.below(4) {
        0 => 0,
        1 => most,
        _ => rng.below(most + 1),
    }
}

/// Puts the state into the middle of a save, where the plan and the chip allow one. Gives whether they do.
fn saving(rng: &mut Rng, shape: &Shape, chip: usize, state: &mut State) -> bool {
    let pages = chip / shape.page;
    if shape.checkpoints.is_empty() || pages == 0 {
        return false;
    }
    state.place = rng.pick(&shape.checkpoints);
    state.erase = 0;
    let size = shape.pages(state) / shape.page;
    let least = size.saturating_sub(pages);
    let stored = least + edge(rng, size - 1 - least);
    let write = edge(rng, pages - (size - stored));
    state.saving = Some((shape.page * stored) as u32);
    state.write = (shape.page * write) as u32;
    true
}

/// A sound state in the middle of a save, where the plan and the chip allow one.
pub fn in_save(rng: &mut Rng, shape: &Shape, chip: usize) -> Option<State> {
    let mut state = sound(rng, shape, chip);
    saving(rng, shape, chip, &mut state).then_some(state)
}

/// Gives a state the fault, unless the plan or the chip leaves no room for it.
type Fault = fn(&mut Rng, &Shape, usize, &mut State) -> Option<Vec<u8>>;

/// The faults with their names. For each of them alone a run gives 10, save for the last, which may leave a sound state.
pub const FAULTS: [(&str, Fault); 13] = [
    ("a state of another length", other_length),
    ("a mark above 3", odd_mark),
    ("a stop above 3", odd_stop),
    ("a place that is no command", no_place),
    ("a last EXCLUDE that is none", no_exclude),
    ("a missing cell that is not 0", missing_cell),
    ("a missing cell that is not Include", missing_mark),
    ("a write position past the end", past_end),
    ("a save at no CHECKPOINT", saving_elsewhere),
    ("a save with bytes to erase", saving_and_erasing),
    ("a save with all bytes stored", saving_all_stored),
    ("a save that does not fit", saving_past_end),
    ("a state of any bytes", any_bytes),
];

/// The faults that only a page chip has, for each of which alone a run gives 10.
pub const FAULTS_OF_PAGES: [(&str, Fault); 3] = [
    ("a write position in a page", write_in_page),
    ("bytes to erase up to in a page", erase_in_page),
    ("bytes of a save stored up to in a page", stored_in_page),
];

/// A state with a fault, and the fault's name.
pub fn faulty(rng: &mut Rng, shape: &Shape, chip: usize) -> (&'static str, Vec<u8>) {
    let all = [&FAULTS[..], &FAULTS_OF_PAGES].concat();
    let faults = match shape.page {
        1 => &FAULTS[..],
        _ => &all,
    };
    loop {
        let (name, fault) = rng.pick(faults);
        let mut state = sound(rng, shape, chip);
        if let Some(bytes) = fault(rng, shape, chip, &mut state) {
            return (name, bytes);
        }
    }
}

fn other_length(rng: &mut Rng, _: &Shape, _: usize, state: &mut State) -> Option<Vec<u8>> {
    let mut bytes = state.to_bytes().to_vec();
    let lengths = [0, 1, STATE_BYTES - 1, STATE_BYTES + 1, 2 * STATE_BYTES];
    let length = match rng.below(2) {
        0 => rng.pick(&lengths),
        _ => rng.below(STATE_BYTES),
    };
    bytes.resize(length, 0);
    Some(bytes)
}

fn odd_mark(rng: &mut Rng, _: &Shape, _: usize, state: &mut State) -> Option<Vec<u8>> {
    let mut bytes = state.to_bytes().to_vec();
    let cell = rng.below(MAX_CELLS);
    bytes[4 * MAX_CELLS + cell] = rng.pick(&[4, 5, 7, 8, 128, 252, 255]);
    Some(bytes)
}

/// The state's bytes with another value in one of the numbers from the place on.
fn with_number(state: &State, number: usize, value: u32) -> Option<Vec<u8>> {
    let mut bytes = state.to_bytes().to_vec();
    let at = NUMBERS_AT + 4 * number;
    bytes[at..at + 4].copy_from_slice(&value.to_le_bytes());
    Some(bytes)
}

fn odd_stop(rng: &mut Rng, _: &Shape, _: usize, state: &mut State) -> Option<Vec<u8>> {
    let stop = rng.pick(&[4, 5, 6, 7, 256, 257, 0x1_0000, 0x0100_0001, u32::MAX]);
    with_number(state, 4, stop)
}

/// An offset that is none of those given: near one of them, the same in its lower bytes, or any.
fn offset_beside(rng: &mut Rng, of: &[u32]) -> u32 {
    loop {
        let near = rng.pick(of);
        let far = rng.word() as u32;
        let offset = rng.pick(&[0, near + 1, near - 1, near + 256, near + 0x1_0000, far]);
        if !of.contains(&offset) {
            return offset;
        }
    }
}

fn no_place(rng: &mut Rng, shape: &Shape, _: usize, state: &mut State) -> Option<Vec<u8>> {
    state.place = offset_beside(rng, &shape.commands);
    Some(state.to_bytes().into())
}

fn no_exclude(rng: &mut Rng, shape: &Shape, _: usize, state: &mut State) -> Option<Vec<u8>> {
    state.exclude = match rng.below(2) {
        0 => rng.pick(&shape.commands),
        _ => offset_beside(rng, &shape.commands),
    };
    let is_one = state.exclude == 0 || shape.excludes.contains(&state.exclude);
    (!is_one).then(|| state.to_bytes().into())
}

/// A cell that the plan has not, if there is one.
fn missing(rng: &mut Rng, shape: &Shape) -> Option<usize> {
    let missing = MAX_CELLS - shape.cells;
    (missing > 0).then(|| shape.cells + edge(rng, missing - 1))
}

fn missing_cell(rng: &mut Rng, shape: &Shape, _: usize, state: &mut State) -> Option<Vec<u8>> {
    let cell = missing(rng, shape)?;
    state.cells[cell] = 1 << rng.below(32);
    Some(state.to_bytes().into())
}

fn missing_mark(rng: &mut Rng, shape: &Shape, _: usize, state: &mut State) -> Option<Vec<u8>> {
    let cell = missing(rng, shape)?;
    state.marks[cell] = rng.pick(&[Mark::Pending, Mark::Kept, Mark::Dead]);
    Some(state.to_bytes().into())
}

/// The sum is a page or more above the chip's length, also where 32 bits do not hold it.
fn past_end(rng: &mut Rng, shape: &Shape, chip: usize, state: &mut State) -> Option<Vec<u8>> {
    let page = shape.page as u32;
    let pages = chip / shape.page + 1;
    let end = page * pages as u32;
    let write = page * rng.below(pages + 1) as u32;
    let highest = 0_u32.wrapping_sub(page);
    (state.write, state.erase) = rng.pick(&[
        (end, 0),
        (write, end - write),
        (highest, page),
        (page, highest),
        (highest, highest),
        (0x1_0000 + end, 0),
    ]);
    state.saving = None;
    Some(state.to_bytes().into())
}

fn saving_elsewhere(rng: &mut Rng, shape: &Shape, _: usize, state: &mut State) -> Option<Vec<u8>> {
    state.place = rng.pick(&shape.commands);
    state.saving = Some((rng.below(18) / shape.page * shape.page) as u32);
    state.erase = 0;
    let elsewhere = !shape.checkpoints.contains(&state.place);
    elsewhere.then(|| state.to_bytes().into())
}

fn saving_and_erasing(
    rng: &mut Rng,
    shape: &Shape,
    chip: usize,
    state: &mut State,
) -> Option<Vec<u8>> {
    let saves = saving(rng, shape, chip, state);
    // The rest of the save is at least one page, so there is one behind the write position.
    state.erase = shape.page as u32;
    saves.then(|| state.to_bytes().into())
}

fn saving_all_stored(
    rng: &mut Rng,
    shape: &Shape,
    chip: usize,
    state: &mut State,
) -> Option<Vec<u8>> {
    let saves = saving(rng, shape, chip, state);
    let (size, page) = (shape.pages(state) as u32, shape.page as u32);
    let most = (u32::MAX - 1) / page * page;
    state.saving = Some(rng.pick(&[size, size + page, 0x1_0000, most]));
    saves.then(|| state.to_bytes().into())
}

fn saving_past_end(
    rng: &mut Rng,
    shape: &Shape,
    chip: usize,
    state: &mut State,
) -> Option<Vec<u8>> {
    let saves = saving(rng, shape, chip, state);
    let rest = shape.pages(state) - state.saving? as usize;
    // The write position itself is still on the chip, or at its end.
    state.write = (chip / shape.page * shape.page - rest + shape.page) as u32;
    saves.then(|| state.to_bytes().into())
}

fn any_bytes(rng: &mut Rng, _: &Shape, _: usize, state: &mut State) -> Option<Vec<u8>> {
    Some(spoiled(&state.to_bytes(), rng))
}

/// How far a number stands from the page before it: mostly at an end of its own page.
fn in_page(rng: &mut Rng, page: usize) -> usize {
    match rng.below(3) {
        0 => 1,
        1 => page - 1,
        _ => 1 + rng.below(page - 1),
    }
}

fn write_in_page(rng: &mut Rng, shape: &Shape, chip: usize, state: &mut State) -> Option<Vec<u8>> {
    let pages = (chip / shape.page).checked_sub(1)?;
    state.write = (shape.page * edge(rng, pages) + in_page(rng, shape.page)) as u32;
    (state.erase, state.saving) = (0, None);
    Some(state.to_bytes().into())
}

fn erase_in_page(rng: &mut Rng, shape: &Shape, chip: usize, state: &mut State) -> Option<Vec<u8>> {
    let pages = (chip / shape.page).checked_sub(1)?;
    let before = edge(rng, pages);
    let whole = edge(rng, pages - before);
    state.write = (shape.page * before) as u32;
    state.erase = (shape.page * whole + in_page(rng, shape.page)) as u32;
    state.saving = None;
    Some(state.to_bytes().into())
}

fn stored_in_page(rng: &mut Rng, shape: &Shape, chip: usize, state: &mut State) -> Option<Vec<u8>> {
    let saves = saving(rng, shape, chip, state);
    let stored = state.saving? + in_page(rng, shape.page) as u32;
    state.saving = Some(stored);
    // Else all bytes but the filling are stored, which is another fault.
    let has_more = (stored as usize) < shape.save(state);
    (saves && has_more).then(|| state.to_bytes().into())
}
