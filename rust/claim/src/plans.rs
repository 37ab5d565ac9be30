//! Random accepted plans that save and give outputs: loops over cells and tables with EXCLUDE, CHECKPOINT, READ and
//! EMIT inside, and loose commands with jumps anywhere; for lists over the two days of document 02's request Q-3 also
//! with set points in tables of one cell.

use reference::program::{
    ADD, CHECKPOINT, COPY, DIV, EMIT, END, EXCLUDE, GET, JUMP, LESS, PUT, READ, SET, SUB,
};

use crate::rng::Rng;

/// Document 01's small plan.
pub const SMALL: &[u8] = include_bytes!("../../../examples/small.plan");

/// Commands that write, read or give, some more often than others.
const SIMPLE: [u8; 20] = [
    SET, SET, COPY, COPY, ADD, ADD, SUB, READ, READ, READ, EMIT, EMIT, EMIT, EMIT, GET, GET, PUT,
    PUT, PUT, PUT,
];

/// How deep loops and branches stand in one another.
const DEPTH: usize = 2;

/// How many cells of a woven plan are for its loops.
const OF_LOOPS: usize = 4;

/// About how many bytes a plan may have, so that a list of calls is soon done.
const BYTES: usize = 130;

/// An accepted plan.
pub fn plan(rng: &mut Rng) -> Vec<u8> {
    match rng.below(16) {
        0 => SMALL.to_vec(),
        1..4 => {
            let cells = 1 + rng.below(4);
            let draft = Draft::new(rng, cells);
            loose(rng, draft)
        }
        _ => {
            let draft = Draft::woven(rng);
            woven(rng, draft)
        }
    }
}

/// An accepted plan that keeps set points: it puts values into a table of one cell and into a longer one, mostly of
/// two, and gives or uses them.
pub fn set_points(rng: &mut Rng) -> Vec<u8> {
    match rng.below(4) {
        0 => {
            let cells = 2 + rng.below(4);
            let mut draft = Draft::new(rng, cells);
            draft.keep_set_points(rng, cells);
            loose(rng, draft)
        }
        _ => {
            let mut draft = Draft::woven(rng);
            // Of the fewest cells a table of two has one that is a loop's.
            let most = usize::from(draft.bytes[0]) + 1 - OF_LOOPS;
            draft.keep_set_points(rng, most.clamp(2, 4));
            woven(rng, draft)
        }
    }
}

/// A plan in the making.
struct Draft {
    bytes: Vec<u8>,
    /// The cells that simple commands name.
    named: Vec<u8>,
    /// The tables that they name, base and len: one, or those of set points.
    tables: Vec<[u8; 2]>,
    /// A cell that stays 0, one that holds -1, and a counter for each depth, where there are loops.
    zero: u8,
    minus: u8,
    counters: Vec<u8>,
}

/// A plan of blocks, every third time in a loop without end.
fn woven(rng: &mut Rng, mut draft: Draft) -> Vec<u8> {
    draft.set(draft.minus, -1);
    for _ in 0..rng.below(4) {
        let cell = draft.cell(rng);
        draft.bytes.extend([READ, cell]);
    }
    let top = draft.bytes.len();
    for _ in 0..2 + rng.below(2) {
        draft.block(rng, 0);
    }
    let cell = draft.cell(rng);
    draft.bytes.extend([EMIT, cell]);
    match rng.below(3) {
        0 => draft.jump(&[JUMP], top),
        _ => draft.bytes.push(END),
    }
    draft.bytes
}

/// A plan of loose commands over very few cells, with jumps anywhere.
fn loose(rng: &mut Rng, mut draft: Draft) -> Vec<u8> {
    let mut offsets = Vec::new();
    let mut targets = Vec::new();
    for left in (0..3 + rng.below(16)).rev() {
        offsets.push(draft.bytes.len());
        let (a, b) = (draft.cell(rng), draft.cell(rng));
        match rng.below(12) {
            _ if left == 0 && rng.below(2) == 0 => draft.bytes.push(END),
            _ if left == 0 => draft.jump(&[JUMP], 0),
            0..2 => draft.jump(&[LESS, a, b], 0),
            2..6 => draft.bytes.push(rng.pick(&[EXCLUDE, CHECKPOINT])),
            _ => draft.simple(rng),
        }
        // A set point is several commands, of which only the first is jumped to.
        let at = offsets[offsets.len() - 1];
        if matches!(draft.bytes[at], JUMP | LESS) {
            targets.push(draft.bytes.len() - 2);
        }
    }
    for at in targets {
        draft.set_target(at, rng.pick(&offsets));
    }
    draft.bytes
}

impl Draft {
    fn new(rng: &mut Rng, cells: usize) -> Draft {
        let base = rng.below(cells);
        let len = 1 + rng.below((cells - base).min(4));
        Draft {
            bytes: vec![(cells - 1) as u8],
            named: (0..cells).map(|cell| cell as u8).collect(),
            tables: vec![[base as u8, len as u8]],
            zero: 0,
            minus: 0,
            counters: Vec::new(),
        }
    }

    /// A draft with cells of its own for loops. Seldom it has as many cells as fill words of the sets.
    fn woven(rng: &mut Rng) -> Draft {
        let cells = match rng.below(20) {
            0 => rng.pick(&[63, 64, 65, 128, 129, 192, 193, 256]),
            _ => 5 + rng.below(6),
        };
        let mut draft = Draft::new(rng, cells);
        let last = (cells - 1) as u8;
        draft.zero = last;
        draft.minus = last - 1;
        draft.counters = vec![last - 2, last - 3];
        let most = cells - OF_LOOPS;
        draft.named = (0..2 + rng.below(3))
            .map(|_| {
                rng.pick(&[0, 1, 2, 3, 62, 63, 64, 127, 128, 191, 255])
                    .min(most - 1) as u8
            })
            .collect();
        let base = rng.pick(&draft.named);
        let longest = (most - usize::from(base)).min(4);
        draft.tables = vec![[base, 1 + rng.below(longest) as u8]];
        draft
    }

    /// Gives the draft a table of one cell and a longer one, within so many cells, of which there are two at least.
    fn keep_set_points(&mut self, rng: &mut Rng, cells: usize) {
        let one = rng.below(cells) as u8;
        let len = match rng.below(2) {
            0 => 2,
            _ => 2 + rng.below(cells - 1),
        };
        let base = rng.below(cells - len + 1) as u8;
        self.tables = vec![[one, 1], [base, len as u8]];
    }

    /// The one table, or one of those of set points, more often that of one cell.
    fn table(&self, rng: &mut Rng) -> [u8; 2] {
        match self.tables[..] {
            [table] => table,
            [one, longer] => rng.pick(&[one, one, longer]),
            _ => unreachable!("a draft has one table or two"),
        }
    }

    /// Puts a value into a table, mostly behind a save, and gives or uses a cell of it.
    fn set_point(&mut self, rng: &mut Rng) {
        let [base, len] = self.table(rng);
        let [a, b] = [(); 2].map(|()| self.cell(rng));
        match rng.below(3) {
            0 => self.bytes.extend([EXCLUDE, CHECKPOINT]),
            1 => self.bytes.extend([EXCLUDE, CHECKPOINT, READ, a]),
            _ => self.bytes.extend([READ, a]),
        }
        self.bytes.extend([PUT, base, len, b, a]);
        let last = base + len - 1;
        match rng.below(3) {
            0 => self.bytes.extend([EMIT, base, EMIT, last]),
            1 => self.bytes.extend([GET, a, base, len, b, EMIT, a]),
            _ => self.bytes.extend([ADD, b, last, a]),
        }
    }

    fn cell(&self, rng: &mut Rng) -> u8 {
        rng.pick(&self.named)
    }

    fn set(&mut self, d: u8, v: i32) {
        self.bytes.extend([SET, d]);
        self.bytes.extend(v.to_le_bytes());
    }

    /// A command that ends with a t.
    fn jump(&mut self, command: &[u8], t: usize) {
        self.bytes.extend(command);
        self.bytes.extend((t as u16).to_le_bytes());
    }

    fn set_target(&mut self, at: usize, t: usize) {
        self.bytes[at..at + 2].copy_from_slice(&(t as u16).to_le_bytes());
    }

    fn block(&mut self, rng: &mut Rng, depth: usize) {
        for _ in 0..2 + rng.below(5) {
            if self.bytes.len() > BYTES {
                return;
            }
            match rng.below(12) {
                0 if depth < DEPTH => self.counted(rng, depth),
                1 if depth < DEPTH => self.sweep(rng, depth),
                2 if depth < DEPTH => self.branch(rng, depth),
                0..6 => self.save(rng),
                _ => self.simple(rng),
            }
        }
    }

    fn simple(&mut self, rng: &mut Rng) {
        if self.tables.len() > 1 && rng.below(3) == 0 {
            return self.set_point(rng);
        }
        let [a, b, c] = [(); 3].map(|()| self.cell(rng));
        let [base, len] = self.table(rng);
        match rng.pick(&SIMPLE) {
            SET => self.set(a, rng.below(9) as i32 - 3),
            COPY => self.bytes.extend([COPY, a, b]),
            ADD if rng.below(8) == 0 => self.bytes.extend([DIV, a, b, c]),
            command @ (ADD | SUB) => self.bytes.extend([command, a, b, c]),
            command @ (READ | EMIT) => self.bytes.extend([command, a]),
            GET => self.bytes.extend([GET, a, base, len, b]),
            _ => self.bytes.extend([PUT, base, len, a, b]),
        }
    }

    fn save(&mut self, rng: &mut Rng) {
        match rng.below(8) {
            0..4 => self.bytes.extend([EXCLUDE, CHECKPOINT]),
            4..6 => self.bytes.push(CHECKPOINT),
            6 => self.bytes.push(EXCLUDE),
            _ => {
                self.bytes.extend([EXCLUDE, CHECKPOINT]);
                self.simple(rng);
                self.bytes.push(CHECKPOINT);
            }
        }
    }

    /// A loop of one to three rounds.
    fn counted(&mut self, rng: &mut Rng, depth: usize) {
        let counter = self.counters[depth];
        self.set(counter, 1 + rng.below(3) as i32);
        let top = self.bytes.len();
        self.block(rng, depth + 1);
        self.again(counter, top);
    }

    /// A loop that goes through the table, with a save in each round or none.
    fn sweep(&mut self, rng: &mut Rng, depth: usize) {
        let counter = self.counters[depth];
        let [base, len] = self.table(rng);
        let cell = self.cell(rng);
        self.set(counter, i32::from(len));
        let top = self.bytes.len();
        if rng.below(2) == 0 {
            self.save(rng);
        }
        match rng.below(3) {
            0 => self
                .bytes
                .extend([READ, cell, PUT, base, len, counter, cell]),
            1 => self.bytes.extend([PUT, base, len, counter, counter]),
            _ => self
                .bytes
                .extend([GET, cell, base, len, counter, EMIT, cell]),
        }
        self.again(counter, top);
    }

    /// Counts down, and goes to the top again above 0.
    fn again(&mut self, counter: u8, top: usize) {
        self.bytes.extend([ADD, counter, counter, self.minus]);
        self.jump(&[LESS, self.zero, counter], top);
    }

    /// A block that is passed by where one cell is less than another.
    fn branch(&mut self, rng: &mut Rng, depth: usize) {
        let (a, b) = (self.cell(rng), self.cell(rng));
        self.jump(&[LESS, a, b], 0);
        let at = self.bytes.len() - 2;
        self.block(rng, depth + 1);
        self.set_target(at, self.bytes.len());
    }
}

#[cfg(test)]
mod tests {
    use super::*;
    use reference::check;

    #[test]
    fn plans_are_accepted_and_have_what_the_lists_are_to_meet() {
        let mut rng = Rng::new(0x504C_0000_0000_0001);
        let mut met = [0; 256];
        let mut of_many_cells = 0;
        for _ in 0..2_000 {
            let plan = plan(&mut rng);
            let checked = check(&plan).expect("the plan is accepted");
            of_many_cells += usize::from(checked.cells > 64);
            let mut offset = 1;
            while offset < plan.len() {
                met[usize::from(plan[offset])] += 1;
                offset += reference::program::LENGTHS[usize::from(plan[offset])];
            }
        }
        for command in END..=CHECKPOINT {
            assert!(met[usize::from(command)] > 100, "{command:02X}: {met:?}");
        }
        assert!(of_many_cells > 20, "{of_many_cells}");
    }

    #[test]
    fn set_points_are_put_into_tables_of_one_cell_and_longer_ones() {
        let mut rng = Rng::new(0x504C_0000_0000_0002);
        let mut met = [0; 256];
        for _ in 0..2_000 {
            let plan = set_points(&mut rng);
            check(&plan).expect("the plan is accepted");
            let mut offset = 1;
            while offset < plan.len() {
                if plan[offset] == PUT {
                    met[usize::from(plan[offset + 2])] += 1;
                }
                offset += reference::program::LENGTHS[usize::from(plan[offset])];
            }
        }
        let least = [0, 2_000, 1_000, 100, 100];
        assert!(
            met.iter().zip(least).all(|(met, least)| *met >= least),
            "{met:?}"
        );
    }
}
