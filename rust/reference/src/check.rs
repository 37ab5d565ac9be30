//! Document 01's plan check: the refusals 1 to 8, in its order.

use crate::program::{Instruction, FIRST_INSTRUCTION, MAX_BYTES, MAX_EXCLUDES, MAX_INSTRUCTIONS};
use crate::refusal::{
    BAD_LAST_INSTRUCTION, BAD_TABLE, BAD_TARGET, NO_SUCH_CELL, PLAN_LENGTH, TOO_MANY,
};

/// What check answers of an accepted plan.
#[derive(Clone, Copy, Debug, PartialEq, Eq)]
pub struct Checked {
    pub cells: u32,
    pub instructions: u32,
    pub excludes: u32,
}

/// Checks a plan. A refusal is document 01's number. 1 comes first; 2 to 5 are tried command by
/// command through the whole plan; 6, 7 and 8 are tried only when that found nothing.
pub fn check(plan: &[u8]) -> Result<Checked, u32> {
    if plan.is_empty() || plan.len() > MAX_BYTES {
        return Err(PLAN_LENGTH);
    }
    let cells = usize::from(plan[0]) + 1;
    let instructions = instructions(plan, cells)?;

    let is_exclude =
        |(_, instruction): &&(usize, Instruction)| *instruction == Instruction::Exclude;
    let excludes = instructions.iter().filter(is_exclude).count();
    if instructions.len() > MAX_INSTRUCTIONS || excludes > MAX_EXCLUDES {
        return Err(TOO_MANY);
    }

    match instructions.last() {
        Some((_, Instruction::End | Instruction::Jump { .. })) => {}
        _ => return Err(BAD_LAST_INSTRUCTION),
    }

    let begins = |t: u16| {
        instructions
            .binary_search_by_key(&usize::from(t), |(offset, _)| *offset)
            .is_ok()
    };
    let mut targets = instructions
        .iter()
        .filter_map(|(_, instruction)| instruction.target());
    if !targets.all(begins) {
        return Err(BAD_TARGET);
    }

    Ok(Checked {
        cells: cells as u32,
        instructions: instructions.len() as u32,
        excludes: excludes as u32,
    })
}

/// The commands of the plan with their offsets, or the first refusal of 2 to 5.
pub(crate) fn instructions(plan: &[u8], cells: usize) -> Result<Vec<(usize, Instruction)>, u32> {
    let mut instructions = Vec::new();
    let mut offset = FIRST_INSTRUCTION;
    while offset < plan.len() {
        let (instruction, length) = Instruction::decode(&plan[offset..])?;
        if instruction
            .cells()
            .iter()
            .any(|&cell| usize::from(cell) >= cells)
        {
            return Err(NO_SUCH_CELL);
        }
        if instruction.table().is_some_and(|table| !table.fits(cells)) {
            return Err(BAD_TABLE);
        }
        instructions.push((offset, instruction));
        offset += length;
    }
    Ok(instructions)
}

#[cfg(test)]
mod tests {
    use super::*;

    fn accepted(cells: u32, instructions: u32, excludes: u32) -> Result<Checked, u32> {
        Ok(Checked {
            cells,
            instructions,
            excludes,
        })
    }

    /// A plan of one cell with the given instructions.
    fn plan(instructions: &[&[u8]]) -> Vec<u8> {
        [&[0x00], instructions.concat().as_slice()].concat()
    }

    #[test]
    fn the_examples_of_the_table_of_refusals() {
        assert_eq!(check(&[]), Err(1));
        assert_eq!(check(&[0x00, 0x7F]), Err(2));
        assert_eq!(check(&[0x00, 0x08]), Err(3));
        assert_eq!(check(&[0x00, 0x08, 0x01]), Err(4));
        assert_eq!(check(&[0x00, 0x0B, 0x00, 0x00, 0x02, 0x00]), Err(5));
        assert_eq!(check(&plan(&[&[0x01; 513]])), Err(6));
        assert_eq!(check(&[0x00]), Err(7));
        assert_eq!(check(&[0x00, 0x09, 0x02, 0x00]), Err(8));
    }

    #[test]
    fn the_small_plan() {
        let small = [
            0x02, 0x02, 0x00, 0x00, 0x00, 0x00, 0x00, 0x07, 0x01, 0x04, 0x00, 0x00, 0x01, 0x08,
            0x00, 0x0D, 0x0E, 0x09, 0x07, 0x00,
        ];
        assert_eq!(check(&small), accepted(3, 7, 1));
    }

    #[test]
    fn plan_lengths() {
        let sets = [0x02, 0, 0, 0, 0, 0].repeat(341);
        let longest = plan(&[&sets, &[0x01]]);
        assert_eq!(longest.len(), 2_048);
        assert_eq!(check(&longest), accepted(1, 342, 0));
        let too_long = plan(&[&sets, &[0x01, 0x01]]);
        assert_eq!(check(&too_long), Err(1));
        // 1 is tried before 2.
        assert_eq!(check(&[0x7F; 2_048]), Err(2));
        assert_eq!(check(&[0x7F; 2_049]), Err(1));
    }

    #[test]
    fn numbers_of_commands_and_excludes() {
        assert_eq!(check(&plan(&[&[0x01; 512]])), accepted(1, 512, 0));
        let excludes = |n| plan(&[&vec![0x0D; n], &[0x01]]);
        assert_eq!(check(&excludes(64)), accepted(1, 65, 64));
        assert_eq!(check(&excludes(65)), Err(6));
    }

    #[test]
    fn cells_just_inside_and_just_outside() {
        assert_eq!(check(&[0x00, 0x08, 0x00, 0x01]), accepted(1, 2, 0));
        assert_eq!(check(&[0xFE, 0x08, 0xFE, 0x01]), accepted(255, 2, 0));
        assert_eq!(check(&[0xFE, 0x08, 0xFF, 0x01]), Err(4));
        assert_eq!(check(&[0xFF, 0x08, 0xFF, 0x01]), accepted(256, 2, 0));
    }

    #[test]
    fn a_base_that_is_no_cell_is_a_bad_table() {
        assert_eq!(check(&[0x00, 0x0B, 0x00, 0x01, 0x01, 0x00, 0x01]), Err(5));
        assert_eq!(check(&[0x00, 0x0C, 0xFF, 0x01, 0x00, 0x00, 0x01]), Err(5));
        assert_eq!(
            check(&[0x01, 0x0B, 0x00, 0x01, 0x01, 0x00, 0x01]),
            accepted(2, 2, 0)
        );
    }

    #[test]
    fn within_one_command_the_lower_number_is_given() {
        // 3 before 4: cell 1 doesn't exist, and the operands are cut.
        assert_eq!(check(&[0x00, 0x04, 0x01]), Err(3));
        // 4 before 5: len is 0, and d doesn't exist.
        assert_eq!(check(&[0x00, 0x0B, 0x01, 0x00, 0x00, 0x00]), Err(4));
    }

    #[test]
    fn the_earlier_command_is_refused_whatever_its_number() {
        let bad_table: &[u8] = &[0x0B, 0x00, 0x00, 0x00, 0x00];
        let no_such_cell: &[u8] = &[0x08, 0x01];
        let unknown: &[u8] = &[0x7F];
        assert_eq!(check(&plan(&[bad_table, no_such_cell, unknown])), Err(5));
        assert_eq!(check(&plan(&[no_such_cell, bad_table, unknown])), Err(4));
        assert_eq!(check(&plan(&[unknown, no_such_cell, bad_table])), Err(2));
    }

    #[test]
    fn every_command_is_tried_before_6_7_and_8() {
        let many: &[u8] = &[0x01; 513];
        assert_eq!(check(&plan(&[many, &[0x7F]])), Err(2));
        assert_eq!(check(&plan(&[many, &[0x08]])), Err(3));
        assert_eq!(check(&plan(&[many, &[0x08, 0x01]])), Err(4));
        assert_eq!(check(&plan(&[many, &[0x0C, 0, 2, 0, 0]])), Err(5));
        // A jump into nothing before an unknown byte.
        assert_eq!(check(&[0x00, 0x09, 0x00, 0x00, 0x7F]), Err(2));
    }

    #[test]
    fn six_before_seven_before_eight() {
        let bad_jump: &[u8] = &[0x09, 0x00, 0x00];
        assert_eq!(check(&plan(&[bad_jump, &[0x0E; 512]])), Err(6));
        assert_eq!(check(&plan(&[bad_jump, &[0x0E; 511]])), Err(7));
        assert_eq!(check(&plan(&[bad_jump, &[0x0E; 510], &[0x01]])), Err(8));
    }

    #[test]
    fn targets() {
        // SET at 1, LESS at 7, JUMP at 12, END at 15.
        let with_targets = |less: u8, jump: u8| {
            plan(&[
                &[0x02, 0x00, 0x01, 0x01, 0x01, 0x01],
                &[0x0A, 0x00, 0x00, less, 0x00],
                &[0x09, jump, 0x00],
                &[0x01],
            ])
        };
        for t in 0..=20 {
            let expected = match t {
                1 | 7 | 12 | 15 => accepted(1, 4, 0),
                _ => Err(8),
            };
            assert_eq!(check(&with_targets(t, 1)), expected, "LESS to {t}");
            assert_eq!(check(&with_targets(1, t)), expected, "JUMP to {t}");
        }
        // Both bytes of t count.
        assert_eq!(check(&[0x00, 0x09, 0x01, 0x00]), accepted(1, 1, 0));
        assert_eq!(check(&[0x00, 0x09, 0x01, 0x01]), Err(8));
    }
}
