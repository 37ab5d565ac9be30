//! The uncut run (document 01, 'Lists, cuts and the uncut run'): a plain machine, fed an accepted plan and one list of
//! readings. It knows no chip, set, mark or budget. The command table is written here a second time, apart from the
//! machine's, so that an error in either shows where they are compared.

use std::collections::BTreeMap;

use crate::check::{check, instructions};
use crate::machine::Stop;
use crate::program::{Instruction, Table, LENGTHS};

/// Where the uncut run stands: its cells, its place, how many readings it took and outputs it gave, and its stop.
#[derive(Clone, Debug, PartialEq, Eq)]
pub struct Frame {
    pub cells: Vec<i32>,
    pub place: u32,
    pub readings: u32,
    pub outputs: u32,
    pub stop: Option<Stop>,
}

/// The uncut run of a plan on a list of readings. It goes on from any frame; document 01's starts from `new`'s.
pub struct Uncut {
    commands: BTreeMap<u32, (Instruction, u32)>,
    readings: Vec<i32>,
    pub frame: Frame,
    /// The values of the outputs given, in their order.
    pub given: Vec<i32>,
}

impl Uncut {
    /// "It starts with all cells and both counts 0, at offset 1, not stopped"; or the refusal of the plan.
    pub fn new(plan: &[u8], readings: &[i32]) -> Result<Uncut, u32> {
        let cells = check(plan)?.cells as usize;
        let commands = instructions(plan, cells)?.into_iter();
        let next = |offset: usize| (offset + LENGTHS[usize::from(plan[offset])]) as u32;
        Ok(Uncut {
            commands: commands
                .map(|(offset, command)| (offset as u32, (command, next(offset))))
                .collect(),
            readings: readings.to_vec(),
            frame: Frame {
                cells: vec![0; cells],
                place: 1,
                readings: 0,
                outputs: 0,
                stop: None,
            },
            given: Vec::new(),
        })
    }

    /// Executes one command, a stop counted as one, and gives true; or stays, stopped or at a READ whose reading is
    /// missing, and gives false.
    pub fn execute(&mut self) -> bool {
        let (command, next) = self.commands[&self.frame.place];
        if self.frame.stop.is_some() || self.is_missing(command) {
            return false;
        }
        self.frame.stop = self.stop(command);
        if self.frame.stop.is_none() {
            if let Some((d, value)) = self.write(command) {
                self.frame.cells[usize::from(d)] = value;
            }
            self.count(command);
            self.frame.place = match self.jump(command) {
                Some(t) => u32::from(t),
                None => next,
            };
        }
        true
    }

    fn cell(&self, cell: u8) -> i32 {
        self.frame.cells[usize::from(cell)]
    }

    /// "its cell is base plus (value of i modulo len, never negative)".
    fn table_cell(&self, table: Table, i: u8) -> u8 {
        let len = i64::from(table.len);
        let remainder = i64::from(self.cell(i)) % len;
        table.base + ((remainder + len) % len) as u8
    }

    /// "READ takes the reading numbered, from 0, by its count".
    fn reading(&self) -> Option<i32> {
        self.readings.get(self.frame.readings as usize).copied()
    }

    fn is_missing(&self, command: Instruction) -> bool {
        matches!(command, Instruction::Read { .. }) && self.reading().is_none()
    }

    /// The kind of stop, where the command stops.
    fn stop(&self, command: Instruction) -> Option<Stop> {
        let (divisor, full) = (Some(Stop::Divisor), Some(Stop::CountFull));
        match command {
            Instruction::End => Some(Stop::Ended),
            Instruction::Div { b, .. } if self.cell(b) == 0 => divisor,
            Instruction::Read { .. } if self.frame.readings == u32::MAX => full,
            Instruction::Emit { .. } if self.frame.outputs == u32::MAX => full,
            _ => None,
        }
    }

    /// The cell that the command writes, with its new value.
    fn write(&self, command: Instruction) -> Option<(u8, i32)> {
        match command {
            Instruction::Set { d, v } => Some((d, v)),
            Instruction::Copy { d, a } => Some((d, self.cell(a))),
            Instruction::Add { d, a, b } => Some((d, self.cell(a).wrapping_add(self.cell(b)))),
            Instruction::Sub { d, a, b } => Some((d, self.cell(a).wrapping_sub(self.cell(b)))),
            Instruction::Div { d, a, b } => Some((d, self.cell(a).wrapping_div(self.cell(b)))),
            Instruction::Read { d } => self.reading().map(|reading| (d, reading)),
            Instruction::Get { d, table, i } => Some((d, self.cell(self.table_cell(table, i)))),
            Instruction::Put { table, i, a } => Some((self.table_cell(table, i), self.cell(a))),
            _ => None,
        }
    }

    /// Takes the reading or gives the output.
    fn count(&mut self, command: Instruction) {
        match command {
            Instruction::Read { .. } => self.frame.readings += 1,
            Instruction::Emit { a } => {
                self.given.push(self.cell(a));
                self.frame.outputs += 1;
            }
            _ => {}
        }
    }

    fn jump(&self, command: Instruction) -> Option<u16> {
        match command {
            Instruction::Jump { t } => Some(t),
            Instruction::Less { a, b, t } if self.cell(a) < self.cell(b) => Some(t),
            _ => None,
        }
    }
}

#[cfg(test)]
mod tests {
    use super::*;

    const SMALL: &[u8] = include_bytes!("../../../examples/small.plan");

    /// Executes as many commands as it can, and gives how many, up to 1000.
    fn go_on(uncut: &mut Uncut) -> usize {
        (0..1000).take_while(|_| uncut.execute()).count()
    }

    /// SET 0 a, SET 1 b, the command, EMIT d, END: its output and stop.
    fn after(a: i32, b: i32, command: &[u8], d: u8) -> (Vec<i32>, Option<Stop>) {
        let set = |cell: u8, value: i32| [&[0x02, cell][..], &value.to_le_bytes()].concat();
        let plan = [
            &[0x07][..],
            &set(0, a),
            &set(1, b),
            command,
            &[0x08, d, 0x01],
        ]
        .concat();
        let mut uncut = Uncut::new(&plan, &[]).unwrap();
        go_on(&mut uncut);
        (uncut.given, uncut.frame.stop)
    }

    #[test]
    fn the_small_plan_gives_5_12_10_and_stays_at_the_missing_reading() {
        let mut uncut = Uncut::new(SMALL, &[5, 7, -2]).unwrap();
        // SET, then five commands and JUMP for each reading.
        assert_eq!(go_on(&mut uncut), 1 + 3 * 6);
        let frame = Frame {
            cells: vec![10, -2, 0],
            place: 7,
            readings: 3,
            outputs: 3,
            stop: None,
        };
        assert_eq!(
            (uncut.given.as_slice(), &uncut.frame),
            (&[5, 12, 10][..], &frame)
        );
        assert!(!uncut.execute());
        assert_eq!(uncut.frame, frame);
    }

    #[test]
    fn a_stop_is_a_command_and_changes_only_the_kind() {
        // END, after EXCLUDE and CHECKPOINT that only go on.
        let mut uncut = Uncut::new(&[0x00, 0x0D, 0x0E, 0x01], &[]).unwrap();
        let mut stopped = uncut.frame.clone();
        assert_eq!(go_on(&mut uncut), 3);
        (stopped.place, stopped.stop) = (3, Some(Stop::Ended));
        assert_eq!(uncut.frame, stopped);
    }

    #[test]
    fn arithmetic() {
        let ended = |value| (vec![value], Some(Stop::Ended));
        assert_eq!(after(i32::MAX, 1, &[0x04, 2, 0, 1], 2), ended(i32::MIN));
        assert_eq!(after(i32::MIN, 1, &[0x05, 2, 0, 1], 2), ended(i32::MAX));
        assert_eq!(after(7, -2, &[0x06, 2, 0, 1], 2), ended(-3));
        assert_eq!(after(i32::MIN, -1, &[0x06, 2, 0, 1], 2), ended(i32::MIN));
        let divisor = (vec![], Some(Stop::Divisor));
        assert_eq!(after(7, 0, &[0x06, 2, 0, 1], 2), divisor);
        assert_eq!(after(7, 8, &[0x03, 1, 0], 1), ended(7));
    }

    #[test]
    fn tables() {
        // Cell 1 goes to the table 3 to 6 by the index in cell 0; index -1 of 4 is place 3.
        let put = |index, d| after(index, 9, &[0x0C, 3, 4, 0, 1], d).0;
        assert_eq!((put(-1, 6), put(-1, 5)), (vec![9], vec![0]));
        assert_eq!((put(5, 4), put(i32::MIN, 3)), (vec![9], vec![9]));
        // The table 0 to 1 by the index in cell 1.
        assert_eq!(after(8, -2, &[0x0B, 2, 0, 2, 1], 2).0, [8]);
        assert_eq!(after(8, 3, &[0x0B, 2, 0, 2, 1], 2).0, [3]);
    }

    #[test]
    fn less_goes_both_ways() {
        // LESS 0 1 to the END behind EMIT 0; both values are signed.
        let less = &[0x0A, 0, 1, 0x16, 0x00, 0x08, 0, 0x01, 0x01, 0x01];
        let given = |a, b| after(a, b, less, 0).0.len();
        assert_eq!((given(-1, 0), given(0, 0), given(0, -1)), (0, 1, 1));
    }

    #[test]
    fn counts_that_are_full() {
        let mut emit = Uncut::new(&[0x00, 0x08, 0x00, 0x01], &[]).unwrap();
        emit.frame.outputs = u32::MAX;
        assert_eq!(go_on(&mut emit), 1);
        assert_eq!(
            (emit.frame.stop, emit.given.len()),
            (Some(Stop::CountFull), 0)
        );
        // No list here has a reading so numbered, and a missing one comes first.
        let mut read = Uncut::new(&[0x00, 0x07, 0x00, 0x01], &[1]).unwrap();
        read.frame.readings = u32::MAX;
        assert!(!read.execute());
    }
}
