//! A run in plain Rust, as one would write it who wants it fast but simple, in place: the bytes of the plan are
//! executed as they stand, words, readings and outputs are bytes too, and a save's bytes are made, stored and erased in one
//! go as far as the budget allows. The page length is a constant, so that a byte chip's code has no trace of pages.

use std::array::from_fn;

use differential::call::Ran;
use reference::journal::{ERASED, MARK_A3, MARK_END, PAGE_CHIP, RECORD};
use reference::program::{
    ADD, CHECKPOINT, COPY, DIV, EMIT, END, EXCLUDE, FIRST_INSTRUCTION, GET, JUMP, LENGTHS, LESS,
    MAX_BYTES, PUT, READ, SET, SUB,
};

use crate::journals::MARK_LEN;

pub(crate) const INCLUDE: u8 = 0;
pub(crate) const PENDING: u8 = 1;
pub(crate) const KEPT: u8 = 2;
pub(crate) const DEAD: u8 = 3;

/// What stands at each offset of a plan: the command byte, 0 where none begins, and the number of an EXCLUDE among them.
pub(crate) struct Map {
    pub(crate) opcodes: [u8; MAX_BYTES],
    pub(crate) numbers: [u8; MAX_BYTES],
}

impl Map {
    pub(crate) fn of(plan: &[u8]) -> Map {
        let mut map = Map {
            opcodes: [0; MAX_BYTES],
            numbers: [0; MAX_BYTES],
        };
        let mut number = 0;
        let mut offset = FIRST_INSTRUCTION;
        while offset < plan.len() {
            let opcode = plan[offset];
            map.opcodes[offset] = opcode;
            if opcode == EXCLUDE {
                map.numbers[offset] = number;
                number += 1;
            }
            offset += LENGTHS[usize::from(opcode)];
        }
        map
    }
}

/// The most bytes that a save has, its last page filled.
const MAX_SAVE: usize = (6 * 256 + MARK_LEN).next_multiple_of(PAGE_CHIP);

/// The state, for a chip of pages of so many bytes. While it saves, `stored` says how many bytes of the save stand on the
/// chip.
pub(crate) struct Machine<'a, const PAGE: usize> {
    pub(crate) plan: &'a [u8],
    /// By what its marks name the plan.
    pub(crate) owner: u32,
    pub(crate) map: Map,
    pub(crate) cell_count: usize,
    pub(crate) cells: [i32; 256],
    pub(crate) marks: [u8; 256],
    pub(crate) place: usize,
    pub(crate) exclude: usize,
    pub(crate) readings: u32,
    pub(crate) outputs: u32,
    pub(crate) stop: u32,
    pub(crate) write: usize,
    pub(crate) erase: usize,
    pub(crate) saving: bool,
    pub(crate) stored: usize,
}

/// What a run is lent beside the plan and the state.
pub struct Lent<'a> {
    pub sets: &'a [[u8; 8]],
    pub chip: &'a mut [u8],
    pub readings: &'a [[u8; 4]],
    pub outputs: &'a mut [[u8; 4]],
    pub budget: u64,
}

impl<'a, const PAGE: usize> Machine<'a, PAGE> {
    pub(crate) fn first(plan: &'a [u8], cell_count: usize, owner: u32) -> Self {
        Machine {
            plan,
            owner,
            map: Map::of(plan),
            cell_count,
            cells: [0; 256],
            marks: [INCLUDE; 256],
            place: 1,
            exclude: 0,
            readings: 0,
            outputs: 0,
            stop: 0,
            write: 0,
            erase: 0,
            saving: false,
            stored: 0,
        }
    }

    pub(crate) fn run(&mut self, lent: &mut Lent) -> Ran {
        let mut ran = Ran {
            ended: 0,
            steps: 0,
            taken: 0,
            given: 0,
        };
        loop {
            if self.stop != 0 {
                ran.ended = self.stop;
                return ran;
            }
            if ran.steps == lent.budget {
                ran.ended = 4;
                return ran;
            }
            let left = lent.budget - ran.steps;
            if self.erase > 0 {
                ran.steps += self.erase_pages(left, lent.chip);
            } else if self.saving {
                ran.steps += self.store_pages(left, lent.chip);
            } else {
                let opcode = self.plan[self.place];
                if opcode == READ && ran.taken == lent.readings.len() as u64 {
                    ran.ended = 5;
                    return ran;
                }
                if opcode == EMIT && ran.given == lent.outputs.len() as u64 {
                    ran.ended = 6;
                    return ran;
                }
                self.execute(opcode, lent, &mut ran);
                ran.steps += 1;
            }
        }
    }
}

impl<const PAGE: usize> Machine<'_, PAGE> {
    fn operand(&self, k: usize) -> usize {
        usize::from(self.plan[self.place + k])
    }

    fn cell(&self, k: usize) -> i32 {
        self.cells[self.operand(k)]
    }

    fn target(&self, k: usize) -> usize {
        usize::from(u16::from_le_bytes([
            self.plan[self.place + k],
            self.plan[self.place + k + 1],
        ]))
    }

    /// The cell of the table whose base is operand k, len operand k + 1 and index operand k + 2.
    fn table_cell(&self, k: usize) -> usize {
        let len = self.operand(k + 1) as i64;
        self.operand(k) + i64::from(self.cell(k + 2)).rem_euclid(len) as usize
    }

    fn put(&mut self, k: usize, value: i32, length: usize) {
        self.cells[self.operand(k)] = value;
        self.place += length;
    }

    /// The v of a SET.
    fn constant(&self) -> i32 {
        let at = self.place + 2;
        i32::from_le_bytes(self.plan[at..at + 4].try_into().expect("four bytes"))
    }

    fn execute(&mut self, opcode: u8, lent: &mut Lent, ran: &mut Ran) {
        match opcode {
            SET => self.put(1, self.constant(), 6),
            COPY => self.put(1, self.cell(2), 3),
            ADD => self.put(1, self.cell(2).wrapping_add(self.cell(3)), 4),
            SUB => self.put(1, self.cell(2).wrapping_sub(self.cell(3)), 4),
            DIV => match self.cell(3) {
                0 => self.stop = 2,
                divisor => self.put(1, self.cell(2).wrapping_div(divisor), 4),
            },
            READ if self.readings == u32::MAX => self.stop = 3,
            READ => {
                let reading = lent.readings[ran.taken as usize];
                self.put(1, i32::from_le_bytes(reading), 2);
                self.readings += 1;
                ran.taken += 1;
            }
            EMIT if self.outputs == u32::MAX => self.stop = 3,
            EMIT => {
                lent.outputs[ran.given as usize] = self.cell(1).to_le_bytes();
                self.outputs += 1;
                ran.given += 1;
                self.place += 2;
            }
            JUMP => self.place = self.target(1),
            LESS if self.cell(1) < self.cell(2) => self.place = self.target(3),
            LESS => self.place += 5,
            GET => self.put(1, self.cells[self.table_cell(2)], 5),
            PUT => {
                self.cells[self.table_cell(1)] = self.cell(4);
                self.place += 5;
            }
            EXCLUDE => self.exclude(lent.sets),
            CHECKPOINT => self.checkpoint(lent.chip.len()),
            END => self.stop = 1,
            _ => unreachable!("the plan is checked"),
        }
    }

    /// DE and RO of the EXCLUDE at this offset.
    pub(crate) fn sets_of(&self, sets: &[[u8; 8]], exclude: usize) -> [u64; 8] {
        let at = 8 * usize::from(self.map.numbers[exclude]);
        from_fn(|word| u64::from_le_bytes(sets[at + word]))
    }

    fn exclude(&mut self, sets: &[[u8; 8]]) {
        let words = self.sets_of(sets, self.place);
        for cell in 0..self.cell_count {
            let is_in = |first: usize| words[first + cell / 64] >> (cell % 64) & 1 == 1;
            self.marks[cell] = match (is_in(0), is_in(4), self.marks[cell]) {
                (true, _, _) => DEAD,
                (false, true, KEPT) => KEPT,
                (false, true, _) => PENDING,
                (false, false, _) => INCLUDE,
            };
        }
        self.exclude = self.place;
        self.place += 1;
    }

    /// The length of the save that would begin now, its last page filled.
    pub(crate) fn save_len(&self) -> usize {
        let stored = |mark: &&u8| **mark <= PENDING;
        let records = self.marks[..self.cell_count].iter().filter(stored).count();
        (6 * records + MARK_LEN).next_multiple_of(PAGE)
    }

    fn checkpoint(&mut self, chip: usize) {
        match self.write + self.save_len() <= chip {
            true => (self.saving, self.stored) = (true, 0),
            false => self.place += 1,
        }
    }

    /// Makes the bytes of the save at the front of erased ones, and gives their number, its last page filled.
    fn make_save(&self, save: &mut [u8; MAX_SAVE]) -> usize {
        let mut at = 0;
        let mut put = |bytes: &[u8]| {
            save[at..at + bytes.len()].copy_from_slice(bytes);
            at += bytes.len();
        };
        for cell in (0..self.cell_count).filter(|cell| self.marks[*cell] <= PENDING) {
            let [v0, v1, v2, v3] = self.cells[cell].to_le_bytes();
            put(&[RECORD, cell as u8, v0, v1, v2, v3]);
        }
        put(&[MARK_A3]);
        put(&(self.place as u16 + 1).to_le_bytes());
        put(&(self.exclude as u16).to_le_bytes());
        put(&self.readings.to_le_bytes());
        put(&self.outputs.to_le_bytes());
        put(&self.owner.to_le_bytes());
        put(&[MARK_END]);
        at.next_multiple_of(PAGE)
    }

    /// Erases as many of the torn pages as the budget allows, and gives their number.
    fn erase_pages(&mut self, left: u64, chip: &mut [u8]) -> u64 {
        let pages = left.min((self.erase / PAGE) as u64);
        let bytes = pages as usize * PAGE;
        let end = self.write + self.erase;
        chip[end - bytes..end].fill(ERASED);
        self.erase -= bytes;
        pages
    }

    /// Stores as many pages of the save as the budget allows, and gives their number.
    fn store_pages(&mut self, left: u64, chip: &mut [u8]) -> u64 {
        let mut save = [ERASED; MAX_SAVE];
        let size = self.make_save(&mut save);
        let pages = left.min(((size - self.stored) / PAGE) as u64);
        let next = &save[self.stored..self.stored + pages as usize * PAGE];
        chip[self.write..self.write + next.len()].copy_from_slice(next);
        self.write += next.len();
        self.stored += next.len();
        if self.stored == size {
            for mark in self.marks.iter_mut().filter(|mark| **mark == PENDING) {
                *mark = KEPT;
            }
            self.saving = false;
            self.place += 1;
        }
        pages
    }
}
