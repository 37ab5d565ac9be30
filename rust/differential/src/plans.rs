//! Plans of given commands, and random plans. Those made as a `Draft` break no rule but perhaps the
//! limits on size, so a test knows their answer without asking any check.

use crate::rng::Rng;
use reference::program::{
    ADD, CHECKPOINT, COPY, DIV, EMIT, END, EXCLUDE, GET, JUMP, LESS, PUT, READ, SET, SUB,
};

/// Every command, with operands that suit any plan: cell 0, the table of cell 0 alone, the target
/// 1. Beside it the places of the cells among its bytes.
pub const COMMANDS: [(&[u8], &[usize]); 14] = [
    (&[0x01], &[]),
    (&[0x02, 0, 0x78, 0x56, 0x34, 0x92], &[1]),
    (&[0x03, 0, 0], &[1, 2]),
    (&[0x04, 0, 0, 0], &[1, 2, 3]),
    (&[0x05, 0, 0, 0], &[1, 2, 3]),
    (&[0x06, 0, 0, 0], &[1, 2, 3]),
    (&[0x07, 0], &[1]),
    (&[0x08, 0], &[1]),
    (&[0x09, 1, 0], &[]),
    (&[0x0A, 0, 0, 1, 0], &[1, 2]),
    (&[0x0B, 0, 0, 1, 0], &[1, 4]),
    (&[0x0C, 0, 1, 0, 0], &[3, 4]),
    (&[0x0D], &[]),
    (&[0x0E], &[]),
];

const ALL: [u8; 14] = [
    END, SET, COPY, ADD, SUB, DIV, READ, EMIT, JUMP, LESS, GET, PUT, EXCLUDE, CHECKPOINT,
];

/// The commands after which the next may come.
const ONWARD: [u8; 12] = [
    SET, COPY, ADD, SUB, DIV, READ, EMIT, LESS, GET, PUT, EXCLUDE, CHECKPOINT,
];

/// A plan of so many cells with these commands.
pub fn plan(cells: usize, commands: &[&[u8]]) -> Vec<u8> {
    let mut plan = vec![(cells - 1) as u8];
    plan.extend(commands.concat());
    plan
}

/// A plan of so many cells with these commands. Each is given without its t, but with the command,
/// counted from 0, that it may jump to.
pub fn linked(cells: usize, commands: &[(impl AsRef<[u8]>, Option<usize>)]) -> Vec<u8> {
    let mut offsets = Vec::new();
    let mut offset = 1;
    for (bytes, target) in commands {
        offsets.push(offset as u16);
        offset += bytes.as_ref().len() + if target.is_some() { 2 } else { 0 };
    }
    let mut plan = vec![(cells - 1) as u8];
    for (bytes, target) in commands {
        plan.extend_from_slice(bytes.as_ref());
        if let Some(command) = *target {
            plan.extend_from_slice(&offsets[command].to_le_bytes());
        }
    }
    plan
}

/// Document 01's examples of refused plans, by their numbers from 1 on.
pub fn refused_examples() -> [Vec<u8>; 8] {
    [
        vec![],
        vec![0x00, 0x7F],
        vec![0x00, 0x08],
        vec![0x00, 0x08, 0x01],
        vec![0x00, 0x0B, 0x00, 0x00, 0x02, 0x00],
        plan(1, &[&[0x01; 513]]),
        vec![0x00],
        vec![0x00, 0x09, 0x02, 0x00],
    ]
}

/// A plan in the making: its bytes, its commands' offsets, and where in the bytes each t stands.
pub struct Draft {
    pub bytes: Vec<u8>,
    pub offsets: Vec<usize>,
    targets: Vec<usize>,
    /// The cells that its commands name.
    named: Vec<u8>,
    /// The tables that its commands name, base and len. Where there is none, they name any.
    tables: Vec<[u8; 2]>,
}

impl Draft {
    /// A draft that names any cells and tables.
    fn new(cells: usize) -> Draft {
        let last = (cells - 1) as u8;
        Draft {
            bytes: vec![last],
            offsets: Vec::new(),
            targets: Vec::new(),
            named: (0..=last).collect(),
            tables: Vec::new(),
        }
    }

    /// A draft that names few cells and tables, so that one command reads what another writes. The
    /// tables begin with such cells.
    fn woven(rng: &mut Rng, cells: usize) -> Draft {
        let mut draft = Draft::new(cells);
        draft.named = (0..1 + rng.below(6)).map(|_| edge(rng, cells)).collect();
        for _ in 0..1 + rng.below(3) {
            let base = rng.pick(&draft.named);
            let longest = rng.pick(&[1, 4, 255]).min(cells - usize::from(base));
            draft.tables.push([base, 1 + rng.below(longest) as u8]);
        }
        draft
    }

    pub fn excludes(&self) -> usize {
        let is_exclude = |&&offset: &&usize| self.bytes[offset] == EXCLUDE;
        self.offsets.iter().filter(is_exclude).count()
    }

    fn cells(&self) -> usize {
        usize::from(self.bytes[0]) + 1
    }

    /// Appends a command whose cells exist and whose table fits. Its t is filled in by `finish`.
    fn push(&mut self, rng: &mut Rng, command: u8) {
        self.offsets.push(self.bytes.len());
        self.bytes.push(command);
        match command {
            SET => {
                self.push_cells(rng, 1);
                self.bytes.extend_from_slice(&rng.word().to_le_bytes()[..4]);
            }
            COPY => self.push_cells(rng, 2),
            ADD | SUB | DIV => self.push_cells(rng, 3),
            READ | EMIT => self.push_cells(rng, 1),
            JUMP => self.push_target(),
            LESS => {
                self.push_cells(rng, 2);
                self.push_target();
            }
            GET => {
                self.push_cells(rng, 1);
                self.push_table(rng);
                self.push_cells(rng, 1);
            }
            PUT => {
                self.push_table(rng);
                self.push_cells(rng, 2);
            }
            END | EXCLUDE | CHECKPOINT => {}
            _ => unreachable!("{command:02X} is no command"),
        }
    }

    fn push_cells(&mut self, rng: &mut Rng, count: usize) {
        for _ in 0..count {
            let cell = rng.pick(&self.named);
            self.bytes.push(cell);
        }
    }

    fn push_table(&mut self, rng: &mut Rng) {
        let table = match &self.tables[..] {
            [] => any_table(rng, self.cells()),
            tables => rng.pick(tables),
        };
        self.bytes.extend_from_slice(&table);
    }

    fn push_target(&mut self) {
        self.targets.push(self.bytes.len());
        self.bytes.extend_from_slice(&[0, 0]);
    }

    fn set_target(&mut self, at: usize, t: usize) {
        self.bytes[at..at + 2].copy_from_slice(&(t as u16).to_le_bytes());
    }

    /// Lets every t be some command's offset.
    fn finish(mut self, rng: &mut Rng) -> Draft {
        for at in self.targets.clone() {
            let t = rng.pick(&self.offsets);
            self.set_target(at, t);
        }
        self
    }
}

fn any_table(rng: &mut Rng, cells: usize) -> [u8; 2] {
    let len = 1 + rng.below(cells.min(255));
    let base = rng.below(cells - len + 1);
    [base as u8, len as u8]
}

/// A cell, every other time the first or last of a word of the sets, or the last cell.
fn edge(rng: &mut Rng, cells: usize) -> u8 {
    let cell = match rng.below(2) {
        0 => rng.pick(&[0, 63, 64, 127, 128, 191, 192, 255]),
        _ => rng.below(cells),
    };
    cell.min(cells - 1) as u8
}

fn random_cells(rng: &mut Rng) -> usize {
    match rng.below(4) {
        0 => 256,
        1 => 1 + rng.below(256),
        _ => 1 + rng.below(4),
    }
}

/// Up to 8 cells, with which the reference is done soon. Once in `seldom` times up to 256, and then
/// every other time about as many as fill words of the sets.
fn few_cells(rng: &mut Rng, seldom: usize) -> usize {
    if rng.below(seldom) > 0 {
        return 1 + rng.below(8);
    }
    match rng.below(2) {
        0 => rng.pick(&[63, 64, 65, 127, 128, 129, 191, 192, 193, 255, 256]),
        _ => 1 + rng.below(256),
    }
}

/// Some commands to draw from: not each of them, and some more often than others. Every other time
/// those are among them that make regions.
fn some_commands(rng: &mut Rng, of: &[u8]) -> Vec<u8> {
    let mut some: Vec<u8> = (0..3 + rng.below(10)).map(|_| rng.pick(of)).collect();
    if rng.below(2) == 0 {
        some.extend([LESS, EXCLUDE, CHECKPOINT, CHECKPOINT]);
    }
    some
}

/// An accepted plan of up to 24 commands.
pub fn valid(rng: &mut Rng) -> Draft {
    let mut draft = Draft::new(random_cells(rng));
    for _ in 0..rng.below(24) {
        let command = rng.pick(&ALL);
        draft.push(rng, command);
    }
    let last = rng.pick(&[END, JUMP]);
    draft.push(rng, last);
    draft.finish(rng)
}

/// A plan of about 512 short commands, about 64 of them EXCLUDE.
pub fn crowded(rng: &mut Rng) -> Draft {
    let short = [END, READ, EMIT, JUMP, COPY, CHECKPOINT, CHECKPOINT, EXCLUDE];
    let mut draft = Draft::new(random_cells(rng));
    for _ in 0..500 + rng.below(20) {
        let command = rng.pick(&short);
        draft.push(rng, command);
    }
    draft.push(rng, END);
    draft.finish(rng)
}

/// A plan of about 2,048 bytes.
pub fn long(rng: &mut Rng) -> Draft {
    let mut draft = Draft::new(random_cells(rng));
    let bytes = 2_044 + rng.below(10);
    // No command is longer than 6 bytes, and ENDs fill what is left.
    while draft.bytes.len() + 6 < bytes {
        let command = rng.pick(&[SET, LESS, GET, PUT]);
        draft.push(rng, command);
    }
    while draft.bytes.len() < bytes {
        draft.push(rng, END);
    }
    draft.finish(rng)
}

/// An accepted plan of up to 24 commands, woven.
pub fn woven(rng: &mut Rng) -> Draft {
    let cells = few_cells(rng, 4);
    let mut draft = Draft::woven(rng, cells);
    let commands = some_commands(rng, &ALL);
    for _ in 0..rng.below(24) {
        let command = rng.pick(&commands);
        draft.push(rng, command);
    }
    let last = rng.pick(&[END, JUMP]);
    draft.push(rng, last);
    draft.finish(rng)
}

/// An accepted plan of up to 24 commands, many of them PUT to a table of 1, of 2 or of 255 cells.
pub fn putting(rng: &mut Rng) -> Draft {
    let cells = rng.pick(&[255, 256]);
    let mut draft = Draft::woven(rng, cells);
    let one = rng.pick(&draft.named);
    let two = edge(rng, cells - 1);
    let longest = rng.below(cells - 254) as u8;
    draft.tables = vec![[one, 1], [two, 2], [longest, 255]];
    let commands = [
        PUT, PUT, PUT, EMIT, EMIT, COPY, GET, LESS, EXCLUDE, CHECKPOINT,
    ];
    for _ in 0..rng.below(24) {
        let command = rng.pick(&commands);
        draft.push(rng, command);
    }
    let last = rng.pick(&[END, JUMP]);
    draft.push(rng, last);
    draft.finish(rng)
}

/// An accepted plan of 2 to 12 blocks in reverse order, woven. The first command jumps to the last
/// block, and each block to the one before it; the first ends or jumps anywhere.
pub fn reversed(rng: &mut Rng) -> Draft {
    let cells = few_cells(rng, 4);
    let mut draft = Draft::woven(rng, cells);
    let commands = some_commands(rng, &ONWARD);
    draft.push(rng, JUMP);
    let entry = draft.bytes.len() - 2;
    let mut blocks = Vec::new();
    for _ in 0..2 + rng.below(11) {
        let begin = draft.bytes.len();
        for _ in 0..rng.below(4) {
            let command = rng.pick(&commands);
            draft.push(rng, command);
        }
        let last = match blocks.len() {
            0 => rng.pick(&[END, JUMP]),
            _ => JUMP,
        };
        draft.push(rng, last);
        blocks.push(begin..draft.bytes.len());
    }
    let mut draft = draft.finish(rng);
    for (before, block) in blocks.iter().zip(&blocks[1..]) {
        draft.set_target(block.end - 2, before.start);
    }
    draft.set_target(entry, blocks[blocks.len() - 1].start);
    draft
}

/// An accepted plan that goes round and round, mostly over READs and EMITs, so that a run of it takes and gives as many
/// numbers as it is lent places for.
pub fn stream(rng: &mut Rng) -> Draft {
    let cells = few_cells(rng, 8);
    let mut draft = Draft::woven(rng, cells);
    for _ in 0..rng.below(4) {
        let command = rng.pick(&[SET, SET, READ, COPY]);
        draft.push(rng, command);
    }
    let top = draft.bytes.len();
    let others = [ADD, SUB, COPY, GET, PUT, EXCLUDE, CHECKPOINT];
    for _ in 0..1 + rng.below(6) {
        let command = match rng.below(4) {
            0 => rng.pick(&others),
            _ => rng.pick(&[READ, EMIT]),
        };
        draft.push(rng, command);
    }
    draft.push(rng, JUMP);
    let at = draft.bytes.len() - 2;
    draft.set_target(at, top);
    draft
}

/// An accepted plan of at least 300 commands, woven.
pub fn large(rng: &mut Rng) -> Draft {
    let cells = few_cells(rng, 16);
    let mut draft = Draft::woven(rng, cells);
    let commands = some_commands(rng, &ONWARD);
    for _ in 0..299 + rng.below(213) {
        // No command is longer than 6 bytes, and END follows.
        if draft.bytes.len() + 6 + 1 > 2_048 {
            break;
        }
        let command = match rng.pick(&commands) {
            EXCLUDE if draft.excludes() == 64 => CHECKPOINT,
            command => command,
        };
        draft.push(rng, command);
    }
    draft.push(rng, END);
    draft.finish(rng)
}

/// Bytes that follow no rule, but with few cells and command bytes more often than others.
pub fn noise(rng: &mut Rng) -> Vec<u8> {
    let mut bytes = Vec::new();
    for _ in 0..rng.below(24) {
        bytes.push(if rng.below(8) == 0 {
            rng.byte()
        } else {
            rng.below(15) as u8
        });
    }
    if let Some(count) = bytes.first_mut() {
        *count %= 16;
    }
    bytes
}

/// An accepted plan with one or two changes.
pub fn mutated(rng: &mut Rng) -> Vec<u8> {
    let mut draft = valid(rng);
    for _ in 0..1 + rng.below(2) {
        mutate(rng, &mut draft);
    }
    draft.bytes
}

fn mutate(rng: &mut Rng, draft: &mut Draft) {
    let bytes = draft.bytes.len();
    match rng.below(4) {
        // Flip a bit.
        0 if bytes > 0 => draft.bytes[rng.below(bytes)] ^= 1 << rng.below(8),
        // Cut.
        1 => {
            let kept = rng.below(bytes + 1);
            draft.bytes.truncate(kept);
            draft.targets.retain(|at| at + 2 <= kept);
        }
        // Change a t: to a place in the plan or just past it, or to any number at all.
        2 if !draft.targets.is_empty() => {
            let at = rng.pick(&draft.targets);
            let bound = rng.pick(&[bytes + 2, 65_536]);
            let t = rng.below(bound);
            draft.set_target(at, t);
        }
        // Extend.
        _ => {
            for _ in 0..1 + rng.below(6) {
                draft.bytes.push(rng.below(16) as u8);
            }
        }
    }
}
