//! The bytes of a program (document 01: a plan): its limits, the table of lengths, and the instructions (commands).

use crate::refusal::{OPERANDS_CUT, UNKNOWN_OPCODE};

pub const MAX_BYTES: usize = 2048;
pub const MAX_INSTRUCTIONS: usize = 512;
pub const MAX_EXCLUDES: usize = 64;

/// Byte 0 holds the cell count; the commands follow it.
pub const FIRST_INSTRUCTION: usize = 1;

pub const END: u8 = 0x01;
pub const SET: u8 = 0x02;
pub const COPY: u8 = 0x03;
pub const ADD: u8 = 0x04;
pub const SUB: u8 = 0x05;
pub const DIV: u8 = 0x06;
pub const READ: u8 = 0x07;
pub const EMIT: u8 = 0x08;
pub const JUMP: u8 = 0x09;
pub const LESS: u8 = 0x0A;
pub const GET: u8 = 0x0B;
pub const PUT: u8 = 0x0C;
pub const EXCLUDE: u8 = 0x0D;
pub const CHECKPOINT: u8 = 0x0E;

/// From command byte to the command's length with its operands; 0 where the byte is unknown.
pub const LENGTHS: [usize; 256] = {
    let mut lengths = [0; 256];
    lengths[END as usize] = 1;
    lengths[SET as usize] = 6; // d, and v of four bytes
    lengths[COPY as usize] = 3; // d a
    lengths[ADD as usize] = 4; // d a b
    lengths[SUB as usize] = 4; // d a b
    lengths[DIV as usize] = 4; // d a b
    lengths[READ as usize] = 2; // d
    lengths[EMIT as usize] = 2; // a
    lengths[JUMP as usize] = 3; // t of two bytes
    lengths[LESS as usize] = 5; // a b, and t of two bytes
    lengths[GET as usize] = 5; // d base len i
    lengths[PUT as usize] = 5; // base len i a
    lengths[EXCLUDE as usize] = 1;
    lengths[CHECKPOINT as usize] = 1;
    lengths
};

/// The cells from `base` to `base + len - 1`.
#[derive(Clone, Copy, Debug, PartialEq, Eq)]
pub struct Table {
    pub base: u8,
    pub len: u8,
}

impl Table {
    /// Whether the table has a cell and all its cells exist. Its end may be 510, so no sum of bytes.
    pub fn fits(self, cells: usize) -> bool {
        self.len > 0 && usize::from(self.base) + usize::from(self.len) <= cells
    }

    pub fn contains(self, cell: u8) -> bool {
        let first = usize::from(self.base);
        (first..first + usize::from(self.len)).contains(&usize::from(cell))
    }
}

/// An instruction (document 01: a command) with its operands, by the document's letters.
#[derive(Clone, Copy, Debug, PartialEq, Eq)]
pub enum Instruction {
    End,
    Set { d: u8, v: i32 },
    Copy { d: u8, a: u8 },
    Add { d: u8, a: u8, b: u8 },
    Sub { d: u8, a: u8, b: u8 },
    Div { d: u8, a: u8, b: u8 },
    Read { d: u8 },
    Emit { a: u8 },
    Jump { t: u16 },
    Less { a: u8, b: u8, t: u16 },
    Get { d: u8, table: Table, i: u8 },
    Put { table: Table, i: u8, a: u8 },
    Exclude,
    Checkpoint,
}

impl Instruction {
    /// Decodes the command that begins with the first of `bytes`, which run to the plan's end and
    /// are at least one. Gives its length too, or the refusal 2 or 3.
    pub fn decode(bytes: &[u8]) -> Result<(Instruction, usize), u32> {
        let length = LENGTHS[usize::from(bytes[0])];
        if length == 0 {
            return Err(UNKNOWN_OPCODE);
        }
        if length > bytes.len() {
            return Err(OPERANDS_CUT);
        }
        let instruction = match bytes[..length] {
            [END] => Instruction::End,
            [SET, d, v0, v1, v2, v3] => Instruction::Set {
                d,
                v: i32::from_le_bytes([v0, v1, v2, v3]),
            },
            [COPY, d, a] => Instruction::Copy { d, a },
            [ADD, d, a, b] => Instruction::Add { d, a, b },
            [SUB, d, a, b] => Instruction::Sub { d, a, b },
            [DIV, d, a, b] => Instruction::Div { d, a, b },
            [READ, d] => Instruction::Read { d },
            [EMIT, a] => Instruction::Emit { a },
            [JUMP, t0, t1] => Instruction::Jump {
                t: u16::from_le_bytes([t0, t1]),
            },
            [LESS, a, b, t0, t1] => Instruction::Less {
                a,
                b,
                t: u16::from_le_bytes([t0, t1]),
            },
            [GET, d, base, len, i] => Instruction::Get {
                d,
                table: Table { base, len },
                i,
            },
            [PUT, base, len, i, a] => Instruction::Put {
                table: Table { base, len },
                i,
                a,
            },
            [EXCLUDE] => Instruction::Exclude,
            [CHECKPOINT] => Instruction::Checkpoint,
            _ => unreachable!("the table of lengths and the patterns disagree"),
        };
        Ok((instruction, length))
    }

    /// The cells that the command names one by one; a table's cells are not among them.
    pub fn cells(self) -> Vec<u8> {
        match self {
            Instruction::Set { d, .. } | Instruction::Read { d } => vec![d],
            Instruction::Emit { a } => vec![a],
            Instruction::Copy { d, a } => vec![d, a],
            Instruction::Add { d, a, b }
            | Instruction::Sub { d, a, b }
            | Instruction::Div { d, a, b } => {
                vec![d, a, b]
            }
            Instruction::Less { a, b, .. } => vec![a, b],
            Instruction::Get { d, i, .. } => vec![d, i],
            Instruction::Put { i, a, .. } => vec![i, a],
            Instruction::End
            | Instruction::Jump { .. }
            | Instruction::Exclude
            | Instruction::Checkpoint => vec![],
        }
    }

    /// The table that the command names, if it names one.
    pub fn table(self) -> Option<Table> {
        match self {
            Instruction::Get { table, .. } | Instruction::Put { table, .. } => Some(table),
            _ => None,
        }
    }

    /// The offset that the command may jump to, if it may jump.
    pub fn target(self) -> Option<u16> {
        match self {
            Instruction::Jump { t } | Instruction::Less { t, .. } => Some(t),
            _ => None,
        }
    }

    /// Document 01's column "may read".
    pub fn may_read(self, cell: u8) -> bool {
        match self {
            Instruction::Copy { a, .. } | Instruction::Emit { a } => cell == a,
            Instruction::Add { a, b, .. }
            | Instruction::Sub { a, b, .. }
            | Instruction::Div { a, b, .. }
            | Instruction::Less { a, b, .. } => cell == a || cell == b,
            Instruction::Get { table, i, .. } => cell == i || table.contains(cell),
            Instruction::Put { i, a, .. } => cell == i || cell == a,
            Instruction::End
            | Instruction::Set { .. }
            | Instruction::Read { .. }
            | Instruction::Jump { .. }
            | Instruction::Exclude
            | Instruction::Checkpoint => false,
        }
    }

    /// Document 01's column "may write".
    pub fn may_write(self, cell: u8) -> bool {
        match self {
            Instruction::Set { d, .. }
            | Instruction::Copy { d, .. }
            | Instruction::Add { d, .. }
            | Instruction::Sub { d, .. }
            | Instruction::Div { d, .. }
            | Instruction::Read { d }
            | Instruction::Get { d, .. } => cell == d,
            Instruction::Put { table, .. } => table.contains(cell),
            Instruction::End
            | Instruction::Emit { .. }
            | Instruction::Jump { .. }
            | Instruction::Less { .. }
            | Instruction::Exclude
            | Instruction::Checkpoint => false,
        }
    }

    /// Document 01: "What a command may write it must write, except that PUT must write nothing." So
    /// DIV and READ must write d although they may stop instead. Document 02, Q-3: "A PUT with len 1
    /// must write its base; longer tables remain as 01 has them."
    pub fn must_write(self, cell: u8) -> bool {
        match self {
            Instruction::Put { table, .. } => table.len == 1 && cell == table.base,
            _ => self.may_write(cell),
        }
    }

    /// Document 01's rule as it stood until Q-3: "What a command may write it must write, except that
    /// PUT must write nothing."
    pub fn must_write_until(self, cell: u8) -> bool {
        !matches!(self, Instruction::Put { .. }) && self.may_write(cell)
    }
}

#[cfg(test)]
mod tests {
    use super::*;

    /// One of each instruction, in the order of document 01's table. The operands all differ, so a
    /// decoder that takes one for another shows.
    fn one_of_each() -> Vec<(Vec<u8>, Instruction)> {
        let table = Table { base: 20, len: 30 };
        vec![
            (vec![0x01], Instruction::End),
            (
                vec![0x02, 10, 0xFE, 0xFF, 0xFF, 0x7F],
                Instruction::Set {
                    d: 10,
                    v: 2_147_483_646,
                },
            ),
            (vec![0x03, 10, 11], Instruction::Copy { d: 10, a: 11 }),
            (
                vec![0x04, 10, 11, 12],
                Instruction::Add {
                    d: 10,
                    a: 11,
                    b: 12,
                },
            ),
            (
                vec![0x05, 10, 11, 12],
                Instruction::Sub {
                    d: 10,
                    a: 11,
                    b: 12,
                },
            ),
            (
                vec![0x06, 10, 11, 12],
                Instruction::Div {
                    d: 10,
                    a: 11,
                    b: 12,
                },
            ),
            (vec![0x07, 10], Instruction::Read { d: 10 }),
            (vec![0x08, 11], Instruction::Emit { a: 11 }),
            (vec![0x09, 0x34, 0x12], Instruction::Jump { t: 0x1234 }),
            (
                vec![0x0A, 11, 12, 0xFE, 0xFF],
                Instruction::Less {
                    a: 11,
                    b: 12,
                    t: 65_534,
                },
            ),
            (
                vec![0x0B, 10, 20, 30, 13],
                Instruction::Get {
                    d: 10,
                    table,
                    i: 13,
                },
            ),
            (
                vec![0x0C, 20, 30, 13, 11],
                Instruction::Put {
                    table,
                    i: 13,
                    a: 11,
                },
            ),
            (vec![0x0D], Instruction::Exclude),
            (vec![0x0E], Instruction::Checkpoint),
        ]
    }

    #[test]
    fn each_command_decodes_and_leaves_what_follows() {
        for (bytes, instruction) in one_of_each() {
            let whole = Ok((instruction, bytes.len()));
            assert_eq!(Instruction::decode(&bytes), whole);
            let followed = [&bytes[..], &[0x7F]].concat();
            assert_eq!(Instruction::decode(&followed), whole);
        }
    }

    #[test]
    fn a_command_cut_anywhere_gives_3() {
        for (bytes, _) in one_of_each() {
            for kept in 1..bytes.len() {
                assert_eq!(
                    Instruction::decode(&bytes[..kept]),
                    Err(3),
                    "{bytes:?} {kept}"
                );
            }
        }
    }

    #[test]
    fn every_other_byte_is_unknown() {
        let known: Vec<u8> = one_of_each().iter().map(|(bytes, _)| bytes[0]).collect();
        assert_eq!(known, (0x01..=0x0E).collect::<Vec<u8>>());
        for byte in (0..=u8::MAX).filter(|byte| !known.contains(byte)) {
            let followed = [byte, 0, 0, 0, 0, 0, 0];
            assert_eq!(Instruction::decode(&followed), Err(2), "{byte:02X}");
        }
    }

    #[test]
    fn a_set_value_is_signed() {
        let minus_two = Instruction::Set { d: 0, v: -2 };
        let bytes = [0x02, 0, 0xFE, 0xFF, 0xFF, 0xFF];
        assert_eq!(Instruction::decode(&bytes), Ok((minus_two, 6)));
    }

    #[test]
    fn cells_tables_and_targets_of_each_command() {
        let named: Vec<_> = one_of_each()
            .iter()
            .map(|(_, instruction)| {
                (
                    instruction.cells(),
                    instruction.table(),
                    instruction.target(),
                )
            })
            .collect();
        let table = Some(Table { base: 20, len: 30 });
        assert_eq!(
            named,
            [
                (vec![], None, None),
                (vec![10], None, None),
                (vec![10, 11], None, None),
                (vec![10, 11, 12], None, None),
                (vec![10, 11, 12], None, None),
                (vec![10, 11, 12], None, None),
                (vec![10], None, None),
                (vec![11], None, None),
                (vec![], None, Some(0x1234)),
                (vec![11, 12], None, Some(65_534)),
                (vec![10, 13], table, None),
                (vec![13, 11], table, None),
                (vec![], None, None),
                (vec![], None, None),
            ]
        );
    }

    #[test]
    fn what_each_command_may_read_may_write_and_must_write() {
        let those = |is: &dyn Fn(u8) -> bool| (0..=u8::MAX).filter(|&c| is(c)).collect::<Vec<u8>>();
        let accesses: Vec<_> = one_of_each()
            .iter()
            .map(|(_, instruction)| {
                (
                    those(&|cell| instruction.may_read(cell)),
                    those(&|cell| instruction.may_write(cell)),
                    those(&|cell| instruction.must_write(cell)),
                )
            })
            .collect();
        let table: Vec<u8> = (20..50).collect();
        let index_and_table = [vec![13], table.clone()].concat();
        assert_eq!(
            accesses,
            [
                (vec![], vec![], vec![]),              // END
                (vec![], vec![10], vec![10]),          // SET d v
                (vec![11], vec![10], vec![10]),        // COPY d a
                (vec![11, 12], vec![10], vec![10]),    // ADD d a b
                (vec![11, 12], vec![10], vec![10]),    // SUB d a b
                (vec![11, 12], vec![10], vec![10]),    // DIV d a b
                (vec![], vec![10], vec![10]),          // READ d
                (vec![11], vec![], vec![]),            // EMIT a
                (vec![], vec![], vec![]),              // JUMP t
                (vec![11, 12], vec![], vec![]),        // LESS a b t
                (index_and_table, vec![10], vec![10]), // GET d base len i
                (vec![11, 13], table, vec![]),         // PUT base len i a
                (vec![], vec![], vec![]),              // EXCLUDE
                (vec![], vec![], vec![]),              // CHECKPOINT
            ]
        );
    }

    #[test]
    fn a_put_must_write_a_table_of_one_cell_alone() {
        for (base, len) in [
            (0, 1),
            (7, 1),
            (255, 1),
            (0, 2),
            (254, 2),
            (0, 255),
            (1, 255),
        ] {
            let table = Table { base, len };
            let put = Instruction::Put { table, i: 3, a: 4 };
            for cell in 0..=u8::MAX {
                let is_one_cell = len == 1 && cell == base;
                assert_eq!(put.must_write(cell), is_one_cell, "{table:?} {cell}");
                assert!(!put.must_write_until(cell), "{table:?} {cell}");
                assert_eq!(put.may_write(cell), table.contains(cell));
            }
        }
    }

    #[test]
    fn only_a_put_is_under_another_rule_than_until() {
        for (_, instruction) in one_of_each() {
            for cell in 0..=u8::MAX {
                let until = instruction.must_write_until(cell);
                assert_eq!(
                    instruction.must_write(cell),
                    until,
                    "{instruction:?} {cell}"
                );
            }
        }
        // A GET of one cell reads its table and writes d alone.
        let table = Table { base: 7, len: 1 };
        let get = Instruction::Get { d: 3, table, i: 4 };
        assert!(get.must_write(3) && !get.must_write(7) && !get.must_write(4));
    }

    #[test]
    fn a_table_may_end_with_the_last_cell() {
        let table = Table { base: 1, len: 255 };
        assert!(!table.contains(0) && table.contains(1) && table.contains(255));
    }

    #[test]
    fn tables_that_just_fit_and_just_do_not() {
        let fits = |base, len, cells| Table { base, len }.fits(cells);
        assert!(fits(0, 1, 1) && !fits(0, 2, 1) && !fits(1, 1, 1) && !fits(0, 0, 1));
        assert!(fits(255, 1, 256) && !fits(255, 2, 256) && !fits(255, 0, 256));
        assert!(fits(1, 255, 256) && !fits(2, 255, 256) && !fits(1, 255, 255));
        assert!(!fits(255, 255, 256));
    }
}
