//! Document 01's sets: the dead cells before each command, and DE and RO of each EXCLUDE. The paths
//! that its sentences speak of are followed as they stand, for one cell after the other. There are
//! no equations here and no sets in words before the end.

use std::collections::BTreeSet;

use crate::check::{check, instructions, Checked};
use crate::program::Instruction;

/// A set of cells.
pub type Set = BTreeSet<u8>;

/// What analyse answers of an accepted plan.
#[derive(Clone, Debug, PartialEq, Eq)]
pub struct Analysis {
    pub checked: Checked,
    /// The dead set of each command, in offset order.
    pub dead: Vec<Set>,
    /// The offset, DE and RO of each EXCLUDE, by offset.
    pub excludes: Vec<(usize, Set, Set)>,
}

impl Analysis {
    /// "The dead set of each command in offset order, four words each."
    pub fn dead_words(&self) -> Vec<u64> {
        self.dead.iter().flat_map(words).collect()
    }

    /// "DE then RO for each EXCLUDE, eight words."
    pub fn set_words(&self) -> Vec<u64> {
        let sets = self.excludes.iter().flat_map(|(_, de, ro)| [de, ro]);
        sets.flat_map(words).collect()
    }
}

/// "In a set bit b of word w stands for cell 64 × w + b, b = 0 the lowest."
fn words(set: &Set) -> [u64; 4] {
    let mut words = [0; 4];
    for &cell in set {
        words[usize::from(cell / 64)] |= 1 << (cell % 64);
    }
    words
}

/// Analyses a plan, or gives check's refusal of it, 1 to 8.
pub fn analyse(plan: &[u8]) -> Result<Analysis, u32> {
    analyse_with(plan, Instruction::must_write)
}

/// The sets that the analysis found until Q-3, under which chips were saved that are recovered under
/// those of `analyse`.
pub fn analyse_until(plan: &[u8]) -> Result<Analysis, u32> {
    analyse_with(plan, Instruction::must_write_until)
}

/// As `analyse`, where another rule says which cells a command must write: the rule until Q-3, or a
/// wrong one that tests try.
pub fn analyse_with(plan: &[u8], must_write: fn(Instruction, u8) -> bool) -> Result<Analysis, u32> {
    let checked = check(plan)?;
    let flow = Flow::new(instructions(plan, checked.cells as usize)?, must_write);
    // Byte 0 is the cell count less 1.
    let cells = 0..=plan[0];

    let dead: Vec<Set> = (0..flow.instructions.len())
        .map(|place| {
            let is_dead = |&cell: &u8| !flow.is_live(cell, place);
            cells.clone().filter(is_dead).collect()
        })
        .collect();

    let mut excludes = Vec::new();
    for (place, &(offset, instruction)) in flow.instructions.iter().enumerate() {
        if instruction == Instruction::Exclude {
            let region = flow.region(place);
            let in_de = |&cell: &u8| flow.is_dead_throughout(cell, &region, &dead);
            let in_ro = |&cell: &u8| flow.is_read_only(cell, &region);
            let de = cells.clone().filter(in_de).collect();
            let ro = cells.clone().filter(in_ro).collect();
            excludes.push((offset, de, ro));
        }
    }

    Ok(Analysis {
        checked,
        dead,
        excludes,
    })
}

/// Whether the cell is dead before the command at this offset, of an accepted plan that has both;
/// or check's refusal of the plan, 1 to 8.
pub fn is_dead(plan: &[u8], cell: u8, offset: usize) -> Result<bool, u32> {
    let checked = check(plan)?;
    let commands = instructions(plan, checked.cells as usize)?;
    let place = commands.binary_search_by_key(&offset, |(offset, _)| *offset);
    let flow = Flow::new(commands, Instruction::must_write);
    Ok(!flow.is_live(cell, place.expect("a command stands there")))
}

/// The commands of an accepted plan with their offsets, and the ways from each to the next. A
/// command is named by its place among them, from 0.
struct Flow {
    instructions: Vec<(usize, Instruction)>,
    successors: Vec<Vec<usize>>,
    must_write: fn(Instruction, u8) -> bool,
}

impl Flow {
    fn new(
        instructions: Vec<(usize, Instruction)>,
        must_write: fn(Instruction, u8) -> bool,
    ) -> Flow {
        let place_of = |t: u16| {
            instructions
                .binary_search_by_key(&usize::from(t), |(offset, _)| *offset)
                .expect("an accepted plan jumps to commands only")
        };
        let successors = instructions
            .iter()
            .enumerate()
            .map(|(place, &(_, instruction))| match instruction {
                Instruction::End => vec![],
                Instruction::Jump { t } => vec![place_of(t)],
                Instruction::Less { t, .. } => vec![place_of(t), place + 1],
                _ => vec![place + 1],
            })
            .collect();
        Flow {
            instructions,
            successors,
            must_write,
        }
    }

    fn at(&self, place: usize) -> Instruction {
        self.instructions[place].1
    }

    /// The commands that some path from `start` reaches, `start` itself among them. A path goes on
    /// from a command only where `passes` holds of it; the command it ends at is reached still.
    fn reached(&self, start: usize, passes: impl Fn(Instruction) -> bool) -> Vec<usize> {
        let mut seen = vec![false; self.instructions.len()];
        seen[start] = true;
        let mut reached = vec![start];
        let mut next = 0;
        while next < reached.len() {
            let place = reached[next];
            next += 1;
            if passes(self.at(place)) {
                for &successor in &self.successors[place] {
                    if !seen[successor] {
                        seen[successor] = true;
                        reached.push(successor);
                    }
                }
            }
        }
        reached
    }

    /// "A cell is live before a command if some path from it reaches a command that may read the
    /// cell, and no earlier command on the path must write it." The command itself is the first of
    /// the path, so what it reads is live before it, even if it writes that too.
    fn is_live(&self, cell: u8, place: usize) -> bool {
        self.reached(place, |instruction| !(self.must_write)(instruction, cell))
            .iter()
            .any(|&end| self.at(end).may_read(cell))
    }

    /// "The region of an EXCLUDE is its successor and all commands reachable from that without
    /// passing an EXCLUDE." An EXCLUDE that is reached belongs to it and ends the path. The
    /// successor exists, since an accepted plan does not end with an EXCLUDE.
    fn region(&self, exclude: usize) -> Vec<usize> {
        self.reached(exclude + 1, |instruction| {
            instruction != Instruction::Exclude
        })
    }

    /// "DE: the cells dead at every CHECKPOINT of the region; empty if it has none."
    fn is_dead_throughout(&self, cell: u8, region: &[usize], dead: &[Set]) -> bool {
        let mut checkpoints = region
            .iter()
            .filter(|&&place| self.at(place) == Instruction::Checkpoint)
            .peekable();
        checkpoints.peek().is_some() && checkpoints.all(|&place| dead[place].contains(&cell))
    }

    /// "RO: the cells that no command of the region may write."
    fn is_read_only(&self, cell: u8, region: &[usize]) -> bool {
        !region.iter().any(|&place| self.at(place).may_write(cell))
    }
}

#[cfg(test)]
mod tests {
    use super::*;

    fn set(cells: impl IntoIterator<Item = u8>) -> Set {
        cells.into_iter().collect()
    }

    /// A plan of the given number of cells with the given instructions.
    fn plan(cells: usize, instructions: &[&[u8]]) -> Vec<u8> {
        [&[(cells - 1) as u8], instructions.concat().as_slice()].concat()
    }

    /// The dead set of each command.
    fn dead(cells: usize, instructions: &[&[u8]]) -> Vec<Set> {
        analyse(&plan(cells, instructions)).unwrap().dead
    }

    /// The offset, DE and RO of each EXCLUDE.
    fn excludes(cells: usize, instructions: &[&[u8]]) -> Vec<(usize, Set, Set)> {
        analyse(&plan(cells, instructions)).unwrap().excludes
    }

    const END: &[u8] = &[0x01];
    const SET_0: &[u8] = &[0x02, 0x00, 0x00, 0x00, 0x00, 0x00];
    const SET_1: &[u8] = &[0x02, 0x01, 0x00, 0x00, 0x00, 0x00];
    const EMIT_0: &[u8] = &[0x08, 0x00];
    const EMIT_1: &[u8] = &[0x08, 0x01];
    const EXCLUDE: &[u8] = &[0x0D];
    const CHECKPOINT: &[u8] = &[0x0E];

    #[test]
    fn the_small_plan() {
        let small = [
            0x02, 0x02, 0x00, 0x00, 0x00, 0x00, 0x00, 0x07, 0x01, 0x04, 0x00, 0x00, 0x01, 0x08,
            0x00, 0x0D, 0x0E, 0x09, 0x07, 0x00,
        ];
        let analysis = Analysis {
            checked: check(&small).unwrap(),
            dead: vec![
                set([0, 1, 2]), // 1: SET 0
                set([1, 2]),    // 7: READ 1
                set([2]),       // 9: ADD 0 0 1
                set([1, 2]),    // 13: EMIT 0
                set([1, 2]),    // 15: EXCLUDE
                set([1, 2]),    // 16: CHECKPOINT
                set([1, 2]),    // 17: JUMP 7
            ],
            excludes: vec![(15, set([1, 2]), set([2]))],
        };
        let dead_words = [
            7, 0, 0, 0, 6, 0, 0, 0, 4, 0, 0, 0, 6, 0, 0, 0, 6, 0, 0, 0, 6, 0, 0, 0, 6, 0, 0, 0,
        ];
        assert_eq!(analysis.dead_words(), dead_words);
        assert_eq!(analysis.set_words(), [6, 0, 0, 0, 4, 0, 0, 0]);
        assert_eq!(analyse(&small), Ok(analysis));
    }

    #[test]
    fn an_exclude_alone() {
        assert_eq!(dead(1, &[EXCLUDE, END]), [set([0]), set([0])]);
        assert_eq!(
            excludes(1, &[EXCLUDE, END]),
            [(1, set([]), set([0]))] // 01's row: DE empty, RO cell 0
        );
    }

    #[test]
    fn refusals_are_those_of_check() {
        let refused = [
            vec![],
            vec![0x00, 0x7F],
            vec![0x00, 0x08],
            vec![0x00, 0x08, 0x01],
            vec![0x00, 0x0B, 0x00, 0x00, 0x02, 0x00],
            plan(1, &[&[0x01; 513]]),
            vec![0x00],
            vec![0x00, 0x09, 0x02, 0x00],
        ];
        for (number, plan) in (1..).zip(refused) {
            assert_eq!(analyse(&plan), Err(number));
        }
    }

    #[test]
    fn a_command_reads_before_it_writes() {
        let add_0_0_1: &[u8] = &[0x04, 0x00, 0x00, 0x01];
        let add_0_1_1: &[u8] = &[0x04, 0x00, 0x01, 0x01];
        assert_eq!(dead(2, &[add_0_0_1, END])[0], set([]));
        assert_eq!(dead(2, &[add_0_1_1, END])[0], set([0]));
        // GET 0 from a table that has cell 0, and from one that has not.
        assert_eq!(dead(3, &[&[0x0B, 0, 0, 2, 1], END])[0], set([2]));
        assert_eq!(dead(3, &[&[0x0B, 0, 1, 2, 1], END])[0], set([0]));
    }

    #[test]
    fn only_the_first_read_or_sure_write_counts() {
        assert_eq!(dead(1, &[SET_0, EMIT_0, END])[0], set([0]));
        assert_eq!(dead(1, &[EMIT_0, SET_0, END])[0], set([]));
        assert_eq!(dead(2, &[SET_1, EMIT_0, END])[0], set([1]));
    }

    #[test]
    fn a_table_write_is_no_sure_write() {
        // PUT to cells 0 and 1, index and value 2.
        let put: &[u8] = &[0x0C, 0, 2, 2, 2];
        let sets = dead(3, &[put, EMIT_0, EMIT_1, END]);
        assert_eq!(sets, [set([]), set([2]), set([0, 2]), set([0, 1, 2])]);
        assert_eq!(dead(3, &[SET_0, EMIT_0, END])[0], set([0, 1, 2]));
        // But it may write the whole table.
        let sets = excludes(3, &[EXCLUDE, put, CHECKPOINT, EMIT_0, END]);
        assert_eq!(sets, [(1, set([1, 2]), set([2]))]);
        // PUT to all cells but the last, which is index and value.
        let put: &[u8] = &[0x0C, 0, 255, 255, 255];
        for cell in [0, 1, 128, 254] {
            let sets = dead(256, &[put, &[0x08, cell], END]);
            let others: Set = (0..255).filter(|&other| other != cell).collect();
            assert_eq!(sets[0], others, "EMIT {cell}");
        }
    }

    #[test]
    fn a_write_to_a_table_of_one_cell_is_a_sure_write() {
        // PUT to cell 0 alone, index and value 2.
        let put: &[u8] = &[0x0C, 0, 1, 2, 2];
        let sets = dead(3, &[put, EMIT_0, END]);
        assert_eq!(sets, [set([0, 1]), set([1, 2]), set([0, 1, 2])]);
        // The cell beside it is not written, and one that is read first is live all the same.
        assert_eq!(dead(3, &[put, EMIT_1, END])[0], set([0]));
        assert_eq!(dead(3, &[EMIT_0, put, END])[0], set([1]));
        // It may write its cell as before, so that is not in RO.
        let instructions = [EXCLUDE, CHECKPOINT, put, EMIT_0, END];
        let sets = excludes(3, &instructions);
        assert_eq!(sets, [(1, set([0, 1]), set([1, 2]))]);
        let until = analyse_until(&plan(3, &instructions)).unwrap();
        assert_eq!(until.excludes, [(1, set([1]), set([1, 2]))]);
        // The last cell of all.
        let put: &[u8] = &[0x0C, 255, 1, 0, 0];
        assert_eq!(dead(256, &[put, &[0x08, 255], END])[0], set(1..=255));
    }

    #[test]
    fn a_put_of_one_cell_reads_before_it_writes() {
        // PUT to cell 0 alone, which is the index, the value or both; the other is cell 1.
        for (i, a, others) in [(0, 1, set([2])), (1, 0, set([2])), (0, 0, set([1, 2]))] {
            let put: &[u8] = &[0x0C, 0, 1, i, a];
            assert_eq!(dead(3, &[put, END])[0], others, "index {i}, value {a}");
            assert_eq!(
                dead(3, &[put, EMIT_0, END])[0],
                others,
                "index {i}, value {a}"
            );
        }
    }

    #[test]
    fn a_sure_write_that_may_stop_instead() {
        assert_eq!(dead(2, &[&[0x06, 0, 1, 1], EMIT_0, END])[0], set([0])); // DIV
        assert_eq!(dead(2, &[&[0x07, 0], EMIT_0, END])[0], set([0, 1])); // READ
    }

    #[test]
    fn a_region_that_begins_with_an_exclude() {
        let sets = excludes(1, &[EXCLUDE, EXCLUDE, CHECKPOINT, SET_0, END]);
        assert_eq!(
            sets,
            [(1, set([]), set([0])), (2, set([0]), set([]))],
            "the first region is the second EXCLUDE alone"
        );
    }

    #[test]
    fn a_region_ends_at_an_exclude() {
        let sets = excludes(
            2,
            &[EXCLUDE, SET_0, EXCLUDE, SET_1, CHECKPOINT, EMIT_0, END],
        );
        assert_eq!(sets, [(1, set([]), set([1])), (8, set([1]), set([0]))]);
    }

    #[test]
    fn a_region_goes_past_an_exclude_on_the_other_way() {
        // 1 EXCLUDE, 2 LESS to 14, 7 EXCLUDE, 8 SET 0, 14 SET 1, 20 CHECKPOINT, 21 END.
        let less: &[u8] = &[0x0A, 0x02, 0x02, 14, 0x00];
        let instructions = [EXCLUDE, less, EXCLUDE, SET_0, SET_1, CHECKPOINT, END];
        let sets = excludes(3, &instructions);
        let all = set([0, 1, 2]);
        assert_eq!(
            sets,
            [(1, all.clone(), set([0, 2])), (7, all, set([2]))],
            "the first region has 14 but not 8"
        );
    }

    #[test]
    fn de_is_empty_without_a_checkpoint_in_the_region() {
        let sets = excludes(2, &[CHECKPOINT, EXCLUDE, SET_0, END, CHECKPOINT, END]);
        assert_eq!(sets, [(2, set([]), set([1]))]);
    }

    #[test]
    fn de_needs_every_checkpoint_of_the_region() {
        // At the first CHECKPOINT cell 1 is dead, at the second cell 0.
        let instructions = [EXCLUDE, CHECKPOINT, EMIT_0, SET_1, CHECKPOINT, EMIT_1, END];
        assert_eq!(excludes(3, &instructions), [(1, set([2]), set([0, 2]))]);
    }

    #[test]
    fn everything_is_dead_at_end() {
        let sets = dead(256, &[END, EMIT_0, END]);
        let all = set(0..=255);
        assert_eq!(sets, [all.clone(), set(1..=255), all]);
    }

    #[test]
    fn a_loop() {
        // 1 EMIT 0, 3 READ 1, 5 JUMP 1: cell 0 is read in each round and never written.
        let sets = dead(2, &[EMIT_0, &[0x07, 0x01], &[0x09, 1, 0]]);
        assert_eq!(sets, [set([1]), set([1]), set([1])]);
        // 1 READ 0, 3 EMIT 0, 5 JUMP 1: cell 0 is live only between the two.
        let sets = dead(1, &[&[0x07, 0x00], EMIT_0, &[0x09, 1, 0]]);
        assert_eq!(sets, [set([0]), set([]), set([0])]);
        // A command that goes to itself reads nothing, and the path has no end.
        assert_eq!(dead(1, &[&[0x09, 1, 0]]), [set([0])]);
    }

    #[test]
    fn less_goes_both_ways() {
        // 1 LESS 0 0 to t; 6 SET 1, 12 EMIT 2, 14 END; 15 EMIT 1, 17 SET 2, 23 END.
        let less: &[u8] = &[0x0A, 0, 0, 15, 0];
        let emit_2: &[u8] = &[0x08, 2];
        let set_2: &[u8] = &[0x02, 2, 0, 0, 0, 0];
        let sets = dead(4, &[less, SET_1, emit_2, END, EMIT_1, set_2, END]);
        assert_eq!(
            sets[0],
            set([3]),
            "1 is read at the target, 2 on the way on"
        );
        assert_eq!(sets[1], set([0, 1, 3]));
        assert_eq!(sets[4], set([0, 2, 3]));

        // 1 EXCLUDE, 2 LESS to 15; 7 SET 1, 13 CHECKPOINT, 14 END; 15 SET 0, 21 CHECKPOINT, 22 END.
        let on: [&[u8]; 3] = [SET_1, CHECKPOINT, END];
        let at_target: [&[u8]; 3] = [SET_0, CHECKPOINT, END];
        let instructions = [&[EXCLUDE, less][..], &on, &at_target].concat();
        let all = set([0, 1, 2]);
        assert_eq!(excludes(3, &instructions), [(1, all, set([2]))]);
        // 1 EXCLUDE, 2 LESS to 15; 7 CHECKPOINT, 8 EMIT 1, END; 15 CHECKPOINT, 16 EMIT 0, 18 END.
        let on: [&[u8]; 7] = [CHECKPOINT, EMIT_1, END, END, END, END, END];
        let at_target: [&[u8]; 3] = [CHECKPOINT, EMIT_0, END];
        let instructions = [&[EXCLUDE, less][..], &on, &at_target].concat();
        assert_eq!(
            excludes(3, &instructions),
            [(1, set([2]), set([0, 1, 2]))],
            "a cell live at either CHECKPOINT is not in DE"
        );
    }

    #[test]
    fn a_jump_backward() {
        // 1 SET 0, 7 CHECKPOINT, 8 EMIT 1, 10 EXCLUDE, 11 JUMP 1.
        let jump: &[u8] = &[0x09, 1, 0];
        let instructions = [SET_0, CHECKPOINT, EMIT_1, EXCLUDE, jump];
        assert_eq!(excludes(3, &instructions), [(10, set([0, 2]), set([1, 2]))]);
        assert_eq!(dead(3, &instructions), vec![set([0, 2]); 5]);
    }

    #[test]
    fn both_bytes_of_a_target_count() {
        // 43 times SET 0 from 1 on, 259 EMIT 1, 261 JUMP 259. The low byte alone would be 3.
        let sets = [0x02, 0, 0, 0, 0, 0].repeat(43);
        let jump: &[u8] = &[0x09, 0x03, 0x01];
        assert_eq!(dead(2, &[&sets, EMIT_1, jump]).last(), Some(&set([0])));
    }

    #[test]
    fn words_and_their_bits() {
        let emits: Vec<u8> = [0, 63, 64, 127, 128, 191, 192, 255]
            .iter()
            .flat_map(|&cell| [0x08, cell])
            .collect();
        let analysis = analyse(&plan(256, &[&emits, EXCLUDE, END])).unwrap();
        let inner = 0x7FFF_FFFF_FFFF_FFFE;
        let words = analysis.dead_words();
        assert_eq!(words.len(), 4 * 10);
        assert_eq!(words[..4], [inner; 4]);
        // After the EMITs of 0 and 63, of 64 and 127, of 128 and 191.
        assert_eq!(words[8..12], [u64::MAX, inner, inner, inner]);
        assert_eq!(words[16..20], [u64::MAX, u64::MAX, inner, inner]);
        assert_eq!(words[24..28], [u64::MAX, u64::MAX, u64::MAX, inner]);
        // Before the last EMIT only cell 255 is live.
        assert_eq!(words[28..32], [u64::MAX, u64::MAX, u64::MAX, u64::MAX >> 1]);
        assert_eq!(words[32..], [u64::MAX; 8]);
        let set_words = [[0; 4], [u64::MAX; 4]].concat();
        assert_eq!(analysis.set_words(), set_words);
    }

    #[test]
    fn bits_of_missing_cells_are_0() {
        let full = u64::MAX;
        for (cells, all) in [
            (1, [1, 0, 0, 0]),
            (63, [full >> 1, 0, 0, 0]),
            (64, [full, 0, 0, 0]),
            (65, [full, 1, 0, 0]),
            (128, [full, full, 0, 0]),
            (129, [full, full, 1, 0]),
            (192, [full, full, full, 0]),
            (193, [full, full, full, 1]),
            (255, [full, full, full, full >> 1]),
            (256, [full; 4]),
        ] {
            let analysis = analyse(&plan(cells, &[EXCLUDE, CHECKPOINT, END])).unwrap();
            assert_eq!(analysis.dead_words(), [all; 3].concat(), "{cells} cells");
            assert_eq!(analysis.set_words(), [all; 2].concat(), "{cells} cells");
        }
    }

    #[test]
    fn one_cell_before_one_command_is_dead_as_in_all_the_sets() {
        let turns: &[&[u8]] = &[CHECKPOINT, SET_1, EMIT_0, CHECKPOINT, SET_0, EMIT_1, END];
        let plan = plan(3, turns);
        let mut offset = 1;
        for (command, dead) in turns.iter().zip(dead(3, turns)) {
            for cell in 0..3 {
                assert_eq!(is_dead(&plan, cell, offset), Ok(dead.contains(&cell)));
            }
            offset += command.len();
        }
        assert_eq!(is_dead(&[], 0, 1), Err(1));
    }

    #[test]
    fn the_largest_plan() {
        // One loop of 512 commands that writes nothing surely, so each path is as long as can be.
        let excludes: &[u8] = &[0x0D; 64];
        let puts = [0x0C, 0, 255, 255, 255].repeat(300);
        let checkpoints: &[u8] = &[0x0E; 147];
        let largest = plan(256, &[excludes, &puts, checkpoints, &[0x09, 1, 0]]);
        let analysis = analyse(&largest).unwrap();
        assert_eq!(analysis.dead, vec![set(0..=254); 512]);
        let (last, others) = analysis.excludes.split_last().unwrap();
        assert_eq!(*last, (64, set(0..=254), set([255])));
        for (offset, (exclude, de, ro)) in (1..).zip(others) {
            assert_eq!(*exclude, offset);
            assert_eq!((de, ro), (&set([]), &set(0..=255)));
        }
        assert_eq!(analysis.dead_words().len(), 2_048);
        assert_eq!(analysis.set_words().len(), 512);
    }
}
