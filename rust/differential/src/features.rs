//! What a plan has that an analysis could get wrong. The test counts it among its random plans, so
//! that they are seen to try it.

use std::collections::BTreeSet;
use std::ops::RangeInclusive;

use reference::program::{Instruction, FIRST_INSTRUCTION};
use reference::{analyse_until, Analysis, Set};

/// A feature by name, and whether the plan has it.
type Feature = (&'static str, bool);

/// Every feature. The analysis is the reference's of the plan.
pub fn features(plan: &[u8], analysis: &Analysis) -> Vec<Feature> {
    let view = View::new(plan, analysis);
    [
        of_cells(&view),
        of_commands(&view),
        of_puts(&view, plan),
        of_regions(&view),
    ]
    .concat()
}

fn of_cells(view: &View) -> Vec<Feature> {
    let cells = view.cells.len();
    vec![
        ("1 cell", cells == 1),
        ("63 cells", cells == 63),
        ("64 cells", cells == 64),
        ("65 cells", cells == 65),
        ("127 cells", cells == 127),
        ("128 cells", cells == 128),
        ("129 cells", cells == 129),
        ("191 cells", cells == 191),
        ("192 cells", cells == 192),
        ("193 cells", cells == 193),
        ("255 cells", cells == 255),
        ("256 cells", cells == 256),
        ("both dead and live in word 0", view.mixes_word(0)),
        ("both dead and live in word 1", view.mixes_word(1)),
        ("both dead and live in word 2", view.mixes_word(2)),
        ("both dead and live in word 3", view.mixes_word(3)),
    ]
}

fn of_commands(view: &View) -> Vec<Feature> {
    vec![
        ("300 commands", view.commands.len() >= 300),
        ("a command out of reach", view.has_out_of_reach()),
        ("a read of what is written", view.any(View::reads_its_own)),
        ("a GET that makes live", view.any(View::gets_dead)),
        ("a JUMP to itself", view.any(View::jumps_to_itself)),
        ("a LESS to itself", view.any(View::branches_to_itself)),
        ("a LESS forward", view.any(View::branches_forward)),
        ("a LESS backward", view.any(View::branches_backward)),
        ("a LESS of two ways", view.any(View::branches_apart)),
        ("a value over 4 JUMPs backward", view.any(View::goes_back)),
    ]
}

/// What has to do with request Q-3: the longest tables have 255 cells.
fn of_puts(view: &View, plan: &[u8]) -> Vec<Feature> {
    let over_live = |lengths| view.any(|view, place| view.puts_over_live(place, &lengths));
    let grew = match view.any(View::puts_to_one) {
        true => view.grew(&analyse_until(plan).expect("the plan is accepted")),
        false => [false; 2],
    };
    vec![
        ("a PUT of 1 that makes dead", view.any(View::puts_surely)),
        (
            "a PUT of 1 that reads its cell",
            view.any(View::puts_itself),
        ),
        ("a PUT of 2 over a live cell", over_live(2..=2)),
        ("a PUT of 255 over a live cell", over_live(255..=255)),
        ("a PUT of 2 to 255 over a live cell", over_live(2..=255)),
        ("dead sets that grew with Q-3", grew[0]),
        ("a DE that grew with Q-3", grew[1]),
    ]
}

fn of_regions(view: &View) -> Vec<Feature> {
    vec![
        ("2 EXCLUDEs, 2 CHECKPOINTs", view.has_two_of_each()),
        ("a region without CHECKPOINT", view.any(View::has_no_save)),
        ("a region of unlike CHECKPOINTs", view.any(View::needs_all)),
        ("a region of an EXCLUDE alone", view.any(View::is_doubled)),
        ("a DE that changes past EXCLUDE", view.any(View::guards_de)),
        ("an RO that changes past EXCLUDE", view.any(View::guards_ro)),
        ("a cell in DE and RO", view.has_cell(true, true)),
        ("a cell in DE alone", view.has_cell(true, false)),
        ("a cell in RO alone", view.has_cell(false, true)),
        ("a cell in neither", view.has_cell(false, false)),
    ]
}

/// An accepted plan's cells, its commands with their offsets, and its analysis. A command is named
/// by its place among them, from 0.
struct View<'a> {
    cells: Set,
    commands: Vec<(usize, Instruction)>,
    analysis: &'a Analysis,
}

impl<'a> View<'a> {
    fn new(plan: &[u8], analysis: &'a Analysis) -> View<'a> {
        let mut commands = Vec::new();
        let mut offset = FIRST_INSTRUCTION;
        while offset < plan.len() {
            let (instruction, length) =
                Instruction::decode(&plan[offset..]).expect("the plan is accepted");
            commands.push((offset, instruction));
            offset += length;
        }
        View {
            cells: (0..=plan[0]).collect(),
            commands,
            analysis,
        }
    }

    fn at(&self, place: usize) -> Instruction {
        self.commands[place].1
    }

    fn any(&self, is: impl Fn(&Self, usize) -> bool) -> bool {
        (0..self.commands.len()).any(|place| is(self, place))
    }

    fn count(&self, instruction: Instruction) -> usize {
        let is_it = |(_, other): &&(usize, Instruction)| *other == instruction;
        self.commands.iter().filter(is_it).count()
    }

    fn is_dead(&self, cell: u8, place: usize) -> bool {
        self.analysis.dead[place].contains(&cell)
    }

    fn any_cell(&self, is: impl Fn(u8) -> bool) -> bool {
        self.cells.iter().any(|&cell| is(cell))
    }

    /// The place that the command may jump to, if it may jump.
    fn target(&self, place: usize) -> Option<usize> {
        let t = usize::from(self.at(place).target()?);
        self.commands
            .binary_search_by_key(&t, |(offset, _)| *offset)
            .ok()
    }

    /// The same, of a LESS only.
    fn branch(&self, place: usize) -> Option<usize> {
        match self.at(place) {
            Instruction::Less { .. } => self.target(place),
            _ => None,
        }
    }

    /// DE and RO, if the command is an EXCLUDE.
    fn sets(&self, place: usize) -> Option<(&Set, &Set)> {
        let (offset, _) = self.commands[place];
        let (_, de, ro) = self
            .analysis
            .excludes
            .iter()
            .find(|(exclude, _, _)| *exclude == offset)?;
        Some((de, ro))
    }

    /// The commands that a path from `start` reaches, going past an EXCLUDE only if `passing`.
    fn reached(&self, start: usize, passing: bool) -> BTreeSet<usize> {
        let mut reached = BTreeSet::new();
        let mut open = vec![start];
        while let Some(place) = open.pop() {
            let goes_on = passing || self.at(place) != Instruction::Exclude;
            if reached.insert(place) && goes_on {
                open.extend(self.target(place));
                match self.at(place) {
                    Instruction::End | Instruction::Jump { .. } => {}
                    _ => open.push(place + 1),
                }
            }
        }
        reached
    }

    /// The dead sets at the CHECKPOINTs after an EXCLUDE, going past others only if `passing`.
    fn saves(&self, exclude: usize, passing: bool) -> Vec<&Set> {
        self.reached(exclude + 1, passing)
            .iter()
            .filter(|&&place| self.at(place) == Instruction::Checkpoint)
            .map(|&place| &self.analysis.dead[place])
            .collect()
    }

    fn mixes_word(&self, word: u8) -> bool {
        let first = 64 * word;
        let in_word = |set: &Set| set.range(first..=first + 63).count();
        let is_mixed = |dead: &Set| (1..in_word(&self.cells)).contains(&in_word(dead));
        self.analysis.dead.iter().any(is_mixed)
    }

    fn has_out_of_reach(&self) -> bool {
        self.reached(0, true).len() < self.commands.len()
    }

    fn has_two_of_each(&self) -> bool {
        self.count(Instruction::Exclude) >= 2 && self.count(Instruction::Checkpoint) >= 2
    }

    /// As in ADD 0 0 1.
    fn reads_its_own(&self, place: usize) -> bool {
        let instruction = self.at(place);
        self.any_cell(|cell| instruction.may_read(cell) && instruction.must_write(cell))
    }

    /// Whether a cell of the table is live only because of this GET.
    fn gets_dead(&self, place: usize) -> bool {
        let Instruction::Get { d, table, i } = self.at(place) else {
            return false;
        };
        self.any_cell(|cell| {
            table.contains(cell) && cell != i && (cell == d || self.is_dead(cell, place + 1))
        })
    }

    /// Whether a cell of the table would be dead if this PUT, to a table of such a length, surely wrote it.
    fn puts_over_live(&self, place: usize, lengths: &RangeInclusive<u8>) -> bool {
        let Instruction::Put { table, i, a } = self.at(place) else {
            return false;
        };
        lengths.contains(&table.len)
            && self.any_cell(|cell| {
                table.contains(cell) && cell != i && cell != a && !self.is_dead(cell, place + 1)
            })
    }

    fn puts_to_one(&self, place: usize) -> bool {
        matches!(self.at(place), Instruction::Put { table, .. } if table.len == 1)
    }

    /// Whether the one cell of the table is dead only because this PUT surely writes it.
    fn puts_surely(&self, place: usize) -> bool {
        self.puts_over_live(place, &(1..=1))
    }

    /// Whether the one cell of the table is the index or the value as well, so that it is live.
    fn puts_itself(&self, place: usize) -> bool {
        self.puts_to_one(place) && self.reads_its_own(place)
    }

    /// Whether dead sets, and whether DE, have a cell that they had not until Q-3.
    fn grew(&self, until: &Analysis) -> [bool; 2] {
        let de = |analysis: &Analysis| -> Vec<Set> {
            let excludes = analysis.excludes.iter();
            excludes.map(|(_, de, _)| de.clone()).collect()
        };
        [
            self.analysis.dead != until.dead,
            de(self.analysis) != de(until),
        ]
    }

    fn jumps_to_itself(&self, place: usize) -> bool {
        self.branch(place).is_none() && self.target(place) == Some(place)
    }

    fn branches_to_itself(&self, place: usize) -> bool {
        self.branch(place) == Some(place)
    }

    fn branches_forward(&self, place: usize) -> bool {
        self.branch(place).is_some_and(|target| target > place)
    }

    fn branches_backward(&self, place: usize) -> bool {
        self.branch(place).is_some_and(|target| target < place)
    }

    /// Whether a cell is live before this LESS only because of the way to its target, and another
    /// only because of the way on.
    fn branches_apart(&self, place: usize) -> bool {
        let Some(target) = self.branch(place) else {
            return false;
        };
        let only = |one: usize, other: usize| {
            self.any_cell(|cell| {
                let is_read = self.at(place).may_read(cell);
                !is_read && !self.is_dead(cell, one) && self.is_dead(cell, other)
            })
        };
        only(target, place + 1) && only(place + 1, target)
    }

    /// Whether some cell's value is wanted still after this JUMP and three more, each to an earlier
    /// command than all before it.
    fn goes_back(&self, start: usize) -> bool {
        let Instruction::Jump { .. } = self.at(start) else {
            return false;
        };
        let mut wanted = self.cells.clone();
        let mut place = start;
        let mut earliest = start;
        let mut jumps = 0;
        while jumps < 4 && !wanted.is_empty() {
            let instruction = self.at(place);
            wanted.retain(|&cell| !self.is_dead(cell, place) && !instruction.must_write(cell));
            match (instruction, self.target(place)) {
                (Instruction::Jump { .. }, Some(target)) if target < earliest => {
                    jumps += 1;
                    earliest = target;
                    place = target;
                }
                (Instruction::Jump { .. } | Instruction::End, _) => return false,
                _ => place += 1,
            }
        }
        !wanted.is_empty()
    }

    fn has_no_save(&self, place: usize) -> bool {
        self.sets(place).is_some() && self.saves(place, false).is_empty()
    }

    /// Whether DE is the dead set of no CHECKPOINT of the region alone.
    fn needs_all(&self, place: usize) -> bool {
        self.sets(place).is_some_and(|(de, _)| {
            let saves = self.saves(place, false);
            !saves.is_empty() && !saves.contains(&de)
        })
    }

    fn is_doubled(&self, place: usize) -> bool {
        self.sets(place).is_some() && self.at(place + 1) == Instruction::Exclude
    }

    /// Whether DE would be another if the region went past EXCLUDEs.
    fn guards_de(&self, place: usize) -> bool {
        self.sets(place).is_some_and(|(de, _)| {
            let saves = self.saves(place, true);
            let in_all = |cell: u8| saves.iter().all(|dead| dead.contains(&cell));
            !saves.is_empty() && self.any_cell(|cell| in_all(cell) != de.contains(&cell))
        })
    }

    /// Whether RO would be another if the region went past EXCLUDEs.
    fn guards_ro(&self, place: usize) -> bool {
        self.sets(place).is_some_and(|(_, ro)| {
            let reached = self.reached(place + 1, true);
            let is_written = |cell: u8| reached.iter().any(|&at| self.at(at).may_write(cell));
            ro.iter().any(|&cell| is_written(cell))
        })
    }

    fn has_cell(&self, in_de: bool, in_ro: bool) -> bool {
        self.analysis.excludes.iter().any(|(_, de, ro)| {
            self.any_cell(|cell| de.contains(&cell) == in_de && ro.contains(&cell) == in_ro)
        })
    }
}

#[cfg(test)]
mod tests {
    use super::*;
    use crate::examples::SMALL;
    use crate::plans::linked;

    /// The names of the features that the plan has.
    fn names(plan: &[u8]) -> Vec<&'static str> {
        let analysis = reference::analyse(plan).expect("the plan is accepted");
        let features = features(plan, &analysis);
        let has = |(name, has): (&'static str, bool)| has.then_some(name);
        features.into_iter().filter_map(has).collect()
    }

    #[test]
    fn document_01s_plans() {
        assert_eq!(
            names(SMALL),
            [
                "both dead and live in word 0",
                "a read of what is written",
                "a cell in DE and RO",
                "a cell in DE alone",
                "a cell in neither",
            ]
        );
        assert_eq!(
            names(&[0x00, 0x0D, 0x01]),
            [
                "1 cell",
                "a region without CHECKPOINT",
                "a cell in RO alone",
            ]
        );
    }

    #[test]
    fn a_less_of_two_ways() {
        let commands: [(&[u8], Option<usize>); 7] = [
            (&[0x0A, 0, 0], Some(4)), // LESS
            (&[0x07, 1], None),       // READ 1
            (&[0x08, 2], None),       // EMIT 2
            (&[0x01], None),          // END
            (&[0x08, 1], None),       // EMIT 1
            (&[0x07, 2], None),       // READ 2
            (&[0x01], None),          // END
        ];
        assert_eq!(
            names(&linked(4, &commands)),
            [
                "both dead and live in word 0",
                "a LESS forward",
                "a LESS of two ways",
            ]
        );
    }

    #[test]
    fn puts_to_tables_of_each_length() {
        let of_puts = |put: [u8; 5]| {
            // EXCLUDE, CHECKPOINT, PUT, EMIT 0, END.
            let plan = [&[0xFF, 0x0D, 0x0E][..], &put, &[0x08, 0, 0x01]].concat();
            let mut names = names(&plan);
            names.retain(|name| name.contains("PUT") || name.contains("Q-3"));
            names
        };
        assert_eq!(
            of_puts([0x0C, 0, 1, 9, 9]),
            [
                "a PUT of 1 that makes dead",
                "dead sets that grew with Q-3",
                "a DE that grew with Q-3",
            ]
        );
        assert_eq!(
            of_puts([0x0C, 0, 1, 0, 9]),
            ["a PUT of 1 that reads its cell"]
        );
        assert_eq!(of_puts([0x0C, 1, 1, 9, 9]), [""; 0]);
        let longer = "a PUT of 2 to 255 over a live cell";
        assert_eq!(
            of_puts([0x0C, 0, 2, 9, 9]),
            ["a PUT of 2 over a live cell", longer]
        );
        assert_eq!(
            of_puts([0x0C, 0, 255, 9, 9]),
            ["a PUT of 255 over a live cell", longer]
        );
        assert_eq!(of_puts([0x0C, 0, 3, 9, 9]), [longer]);
        assert_eq!(of_puts([0x0C, 1, 2, 9, 9]), [""; 0]);
    }

    #[test]
    fn jumps_backward() {
        // EMIT 0, END, then JUMPs to these places.
        let goes_back = |targets: &[usize]| {
            let mut commands: Vec<(&[u8], _)> = vec![(&[0x08, 0], None), (&[0x01], None)];
            commands.extend(targets.iter().map(|&target| (&[0x09][..], Some(target))));
            names(&linked(2, &commands)).contains(&"a value over 4 JUMPs backward")
        };
        assert!(goes_back(&[0, 2, 3, 4]));
        assert!(!goes_back(&[0, 2, 3]));
        // To END, where no value is wanted.
        assert!(!goes_back(&[1, 2, 3, 4]));
        // EMIT 0, JUMP: a loop goes back to the same place again and again.
        let endless = names(&[0x00, 0x08, 0x00, 0x09, 0x01, 0x00]);
        assert_eq!(endless, ["1 cell"]);
    }
}
