//! The machine (document 01, 'Plans' and 'Marks, steps and the chip'; document 02, Q-4 and Q-8): its state, a step and
//! a run. It works in place on the state and on the chip, a step at a time, as the documents' sentences go. The page
//! length and the kind of mark are open: with pages of one byte and A2 marks it is document 01's machine.

use std::collections::BTreeMap;

use crate::check::{check, instructions};
use crate::journal::{check_length, Kind, Mark as Commit, Save, ERASED};
use crate::program::{Instruction, Table, LENGTHS, MAX_EXCLUDES};
use crate::refusal::{BUFFER_TOO_SHORT, STATE_NOT_SOUND};

pub const MAX_CELLS: usize = 256;
pub const SET_WORDS: usize = 8 * MAX_EXCLUDES;

/// The mark of a cell.
#[derive(Clone, Copy, Debug, PartialEq, Eq)]
pub enum Mark {
    Include,
    Pending,
    Kept,
    Dead,
}

/// The kind of a stop.
#[derive(Clone, Copy, Debug, PartialEq, Eq)]
pub enum Stop {
    Ended,
    Divisor,
    CountFull,
}

/// The machine's state. `saving` is how many bytes of a save are stored while it saves.
#[derive(Clone, Debug, PartialEq, Eq)]
pub struct State {
    pub cells: [i32; MAX_CELLS],
    pub marks: [Mark; MAX_CELLS],
    pub place: u32,
    pub exclude: u32,
    pub readings: u32,
    pub outputs: u32,
    pub stop: Option<Stop>,
    pub write: u32,
    pub erase: u32,
    pub saving: Option<u32>,
}

impl State {
    /// What recovery leaves on an erased chip: "all cells and both counts 0, at offset 1, not stopped".
    pub fn first() -> State {
        State {
            cells: [0; MAX_CELLS],
            marks: [Mark::Include; MAX_CELLS],
            place: 1,
            exclude: 0,
            readings: 0,
            outputs: 0,
            stop: None,
            write: 0,
            erase: 0,
            saving: None,
        }
    }
}

/// What ended a run.
#[derive(Clone, Copy, Debug, PartialEq, Eq)]
pub enum Ended {
    Stopped(Stop),
    Spent,
    NoReading,
    BufferFull,
}

impl Ended {
    /// It as a number of the C interface: 1 to 3 the kinds of stop, 4 budget spent, 5 no reading left, 6 output buffer
    /// full.
    pub fn number(self) -> u32 {
        match self {
            Ended::Stopped(Stop::Ended) => 1,
            Ended::Stopped(Stop::Divisor) => 2,
            Ended::Stopped(Stop::CountFull) => 3,
            Ended::Spent => 4,
            Ended::NoReading => 5,
            Ended::BufferFull => 6,
        }
    }
}

/// The answer of a run: what ended it, and this call's steps, readings taken and outputs.
#[derive(Clone, Debug, PartialEq, Eq)]
pub struct Ran {
    pub ended: Ended,
    pub steps: u64,
    pub taken: usize,
    pub given: Vec<i32>,
}

/// An accepted plan and the words lent with it, for chips of one page length and one kind of mark.
pub struct Machine<'a> {
    pub(crate) plan: &'a [u8],
    pub(crate) cells: usize,
    pub(crate) page: usize,
    pub(crate) kind: Kind,
    commands: BTreeMap<u32, Instruction>,
    sets: &'a [u64],
}

impl<'a> Machine<'a> {
    /// The machine for a plan and its words, or the refusal, 1 to 9. It writes A3 marks, as all do since Q-8.
    pub fn new(plan: &'a [u8], sets: &'a [u64], page: usize) -> Result<Machine<'a>, u32> {
        Machine::of_kind(plan, sets, page, Kind::A3)
    }

    /// The same for marks of this kind: with A2 it is the machine until Q-8.
    pub fn of_kind(
        plan: &'a [u8],
        sets: &'a [u64],
        page: usize,
        kind: Kind,
    ) -> Result<Machine<'a>, u32> {
        let cells = check(plan)?.cells as usize;
        if sets.len() < SET_WORDS {
            return Err(BUFFER_TOO_SHORT);
        }
        let commands = instructions(plan, cells)?;
        let commands = commands.into_iter().map(|(at, c)| (at as u32, c)).collect();
        Ok(Machine {
            plan,
            cells,
            page,
            kind,
            commands,
            sets,
        })
    }

    /// Runs the plan on a state and a chip, with places for `room` outputs; or gives the refusal, 10 or 11, and alters
    /// nothing.
    pub fn run(
        &self,
        chip: &mut [u8],
        state: &mut State,
        readings: &[i32],
        room: usize,
        budget: u64,
    ) -> Result<Ran, u32> {
        if !self.is_sound(state, chip.len()) {
            return Err(STATE_NOT_SOUND);
        }
        check_length(chip.len(), self.page)?;
        let mut ran = Ran {
            ended: Ended::Spent,
            steps: 0,
            taken: 0,
            given: Vec::new(),
        };
        loop {
            if let Some(ended) = self.exit(state, &ran, readings, room, budget) {
                ran.ended = ended;
                return Ok(ran);
            }
            self.step(state, chip, &mut ran, readings);
            ran.steps += 1;
        }
    }

    /// "A state is sound if .."; sums do not wrap.
    fn is_sound(&self, state: &State, chip: usize) -> bool {
        let missing_clear = (self.cells..MAX_CELLS)
            .all(|cell| state.cells[cell] == 0 && state.marks[cell] == Mark::Include);
        let is_exclude = self.commands.get(&state.exclude) == Some(&Instruction::Exclude);
        let fits = state.write as usize + state.erase as usize <= chip;
        let in_pages = [state.write, state.erase, state.saving.unwrap_or(0)]
            .iter()
            .all(|bytes| bytes.is_multiple_of(self.page as u32));
        let at_checkpoint = self.commands.get(&state.place) == Some(&Instruction::Checkpoint);
        let saving = state.saving.is_none_or(|stored| {
            at_checkpoint && state.erase == 0 && self.rest_fits(state, stored as usize, chip)
        });
        self.commands.contains_key(&state.place)
            && (state.exclude == 0 || is_exclude)
            && missing_clear
            && fits
            && in_pages
            && saving
    }

    /// "has stored fewer bytes than its save has, and the remaining bytes fit", the filling counted; the place is a
    /// CHECKPOINT.
    fn rest_fits(&self, state: &State, stored: usize, chip: usize) -> bool {
        let size = self.save(state).pages(self.page).len();
        stored < size && state.write as usize + (size - stored) <= chip
    }

    /// What is due: nothing of the plan while bytes are to be erased or stored.
    fn due(&self, state: &State) -> Option<Instruction> {
        match state.erase == 0 && state.saving.is_none() {
            true => Some(self.commands[&state.place]),
            false => None,
        }
    }

    /// "before each it tries in this order: stopped; budget spent; the step due is a READ with no reading left;
    /// it is an EMIT with the output buffer full".
    fn exit(
        &self,
        state: &State,
        ran: &Ran,
        readings: &[i32],
        room: usize,
        budget: u64,
    ) -> Option<Ended> {
        if let Some(stop) = state.stop {
            return Some(Ended::Stopped(stop));
        }
        if ran.steps == budget {
            return Some(Ended::Spent);
        }
        match self.due(state) {
            Some(Instruction::Read { .. }) if ran.taken == readings.len() => Some(Ended::NoReading),
            Some(Instruction::Emit { .. }) if ran.given.len() == room => Some(Ended::BufferFull),
            _ => None,
        }
    }

    fn step(&self, state: &mut State, chip: &mut [u8], ran: &mut Ran, readings: &[i32]) {
        if state.erase > 0 {
            state.erase -= self.page as u32;
            self.page_at(chip, state.write + state.erase).fill(ERASED);
        } else if let Some(stored) = state.saving {
            self.store(state, chip, stored);
        } else {
            self.execute(state, chip.len(), ran, readings);
        }
    }

    /// The save of the present state: "for each Include or Pending cell that exists", by rising number.
    fn save(&self, state: &State) -> Save {
        let stored = |cell: &usize| matches!(state.marks[*cell], Mark::Include | Mark::Pending);
        let record = |cell: usize| (cell as u8, state.cells[cell]);
        Save {
            records: (0..self.cells).filter(stored).map(record).collect(),
            mark: Commit {
                place: (state.place + 1) as u16,
                exclude: state.exclude as u16,
                readings: state.readings,
                outputs: state.outputs,
                owner: self.kind.owner(self.plan),
            },
        }
    }

    /// The page of the chip at this address.
    fn page_at<'c>(&self, chip: &'c mut [u8], address: u32) -> &'c mut [u8] {
        &mut chip[address as usize..][..self.page]
    }

    /// The next page of the save; "With the last byte, Pending becomes Kept and the plan goes on."
    fn store(&self, state: &mut State, chip: &mut [u8], stored: u32) {
        let pages = self.save(state).pages(self.page);
        let next = &pages[stored as usize..][..self.page];
        self.page_at(chip, state.write).copy_from_slice(next);
        state.write += self.page as u32;
        let stored = stored + self.page as u32;
        state.saving = Some(stored);
        if stored as usize == pages.len() {
            for mark in state
                .marks
                .iter_mut()
                .filter(|mark| **mark == Mark::Pending)
            {
                *mark = Mark::Kept;
            }
            state.saving = None;
            state.place += 1;
        }
    }

    /// The command at the place, by the document's table.
    fn execute(&self, state: &mut State, chip: usize, ran: &mut Ran, readings: &[i32]) {
        let command = self.commands[&state.place];
        let next = state.place + LENGTHS[usize::from(opcode(command))] as u32;
        let cell = |c: u8| state.cells[usize::from(c)];
        let table_cell = |table: Table, i: u8| {
            let place = i64::from(cell(i)).rem_euclid(i64::from(table.len));
            table.base + place as u8
        };
        let mut write = None;
        let mut to = next;
        match command {
            Instruction::End => return state.stop = Some(Stop::Ended),
            Instruction::Set { d, v } => write = Some((d, v)),
            Instruction::Copy { d, a } => write = Some((d, cell(a))),
            Instruction::Add { d, a, b } => write = Some((d, cell(a).wrapping_add(cell(b)))),
            Instruction::Sub { d, a, b } => write = Some((d, cell(a).wrapping_sub(cell(b)))),
            Instruction::Div { d, a, b } => match cell(b) {
                0 => return state.stop = Some(Stop::Divisor),
                divisor => write = Some((d, cell(a).wrapping_div(divisor))),
            },
            Instruction::Read { .. } if state.readings == u32::MAX => {
                return state.stop = Some(Stop::CountFull);
            }
            Instruction::Read { d } => {
                write = Some((d, readings[ran.taken]));
                ran.taken += 1;
                state.readings += 1;
            }
            Instruction::Emit { .. } if state.outputs == u32::MAX => {
                return state.stop = Some(Stop::CountFull);
            }
            Instruction::Emit { a } => {
                ran.given.push(cell(a));
                state.outputs += 1;
            }
            Instruction::Jump { t } => to = u32::from(t),
            Instruction::Less { a, b, t } => {
                if cell(a) < cell(b) {
                    to = u32::from(t);
                }
            }
            Instruction::Get { d, table, i } => write = Some((d, cell(table_cell(table, i)))),
            Instruction::Put { table, i, a } => write = Some((table_cell(table, i), cell(a))),
            Instruction::Exclude => {
                self.exclude(state);
                state.exclude = state.place;
            }
            Instruction::Checkpoint => {
                if state.write as usize + self.save(state).pages(self.page).len() <= chip {
                    return state.saving = Some(0);
                }
            }
        }
        if let Some((d, v)) = write {
            state.cells[usize::from(d)] = v;
        }
        state.place = to;
    }

    /// "in DE, Dead. Else in RO: Include, Pending and Dead become Pending; Kept remains. Else Include."
    fn exclude(&self, state: &mut State) {
        let (de, ro) = self.sets_of(state.place);
        for cell in 0..self.cells {
            state.marks[cell] = match (is_in(de, cell), is_in(ro, cell), state.marks[cell]) {
                (true, _, _) => Mark::Dead,
                (false, true, Mark::Kept) => Mark::Kept,
                (false, true, _) => Mark::Pending,
                (false, false, _) => Mark::Include,
            };
        }
    }

    /// The words of DE and those of RO of the EXCLUDE at this offset.
    pub(crate) fn sets_of(&self, exclude: u32) -> (&[u64], &[u64]) {
        let before = self.commands.range(..exclude);
        let number = before.filter(|(_, c)| **c == Instruction::Exclude).count();
        self.sets[8 * number..8 * number + 8].split_at(4)
    }
}

/// "In a set bit b of word w stands for cell 64 × w + b."
pub(crate) fn is_in(set: &[u64], cell: usize) -> bool {
    set[cell / 64] >> (cell % 64) & 1 == 1
}

fn opcode(command: Instruction) -> u8 {
    use crate::program::*;
    match command {
        Instruction::End => END,
        Instruction::Set { .. } => SET,
        Instruction::Copy { .. } => COPY,
        Instruction::Add { .. } => ADD,
        Instruction::Sub { .. } => SUB,
        Instruction::Div { .. } => DIV,
        Instruction::Read { .. } => READ,
        Instruction::Emit { .. } => EMIT,
        Instruction::Jump { .. } => JUMP,
        Instruction::Less { .. } => LESS,
        Instruction::Get { .. } => GET,
        Instruction::Put { .. } => PUT,
        Instruction::Exclude => EXCLUDE,
        Instruction::Checkpoint => CHECKPOINT,
    }
}
