//! Check and analyse in plain Rust, as one would write them who wants them fast but simple: the
//! measure for the verified library's time.

use std::array::from_fn;

use reference::program::{
    ADD, CHECKPOINT, COPY, DIV, EMIT, END, EXCLUDE, FIRST_INSTRUCTION, GET, JUMP, LENGTHS, LESS,
    MAX_BYTES, MAX_EXCLUDES, MAX_INSTRUCTIONS, PUT, READ, SET, SUB,
};
use reference::refusal::{
    BAD_LAST_INSTRUCTION, BAD_TABLE, BAD_TARGET, NO_SUCH_CELL, OPERANDS_CUT, PLAN_LENGTH, TOO_MANY,
    UNKNOWN_OPCODE,
};
use reference::Checked;

/// The least lengths of the two buffers, in words: a set for each command, two for each EXCLUDE.
pub const DEAD_WORDS: usize = 4 * MAX_INSTRUCTIONS;
pub const SET_WORDS: usize = 8 * MAX_EXCLUDES;

const BUFFER_TOO_SHORT: u32 = 9;

/// A set of cells: bit b of word w stands for cell 64 × w + b.
type Set = [u64; 4];

const NONE: Set = [0; 4];

/// Checks a plan, or gives the refusal of it, 1 to 8.
pub fn check(plan: &[u8]) -> Result<Checked, u32> {
    if plan.is_empty() || plan.len() > MAX_BYTES {
        return Err(PLAN_LENGTH);
    }
    let cells = usize::from(plan[0]) + 1;
    let mut begins = [false; MAX_BYTES];
    let mut commands = 0;
    let mut excludes = 0;
    let mut last = 0;
    let mut offset = FIRST_INSTRUCTION;
    while offset < plan.len() {
        last = plan[offset];
        let length = LENGTHS[usize::from(last)];
        if length == 0 {
            return Err(UNKNOWN_OPCODE);
        }
        let Some(command) = plan.get(offset..offset + length) else {
            return Err(OPERANDS_CUT);
        };
        check_operands(command, cells)?;
        begins[offset] = true;
        commands += 1;
        excludes += usize::from(last == EXCLUDE);
        offset += length;
    }
    if commands > MAX_INSTRUCTIONS || excludes > MAX_EXCLUDES {
        return Err(TOO_MANY);
    }
    if last != END && last != JUMP {
        return Err(BAD_LAST_INSTRUCTION);
    }
    let mut offset = FIRST_INSTRUCTION;
    while offset < plan.len() {
        let command = &plan[offset..];
        if target(command).is_some_and(|t| begins.get(t) != Some(&true)) {
            return Err(BAD_TARGET);
        }
        offset += LENGTHS[usize::from(command[0])];
    }
    Ok(Checked {
        cells: cells as u32,
        instructions: commands as u32,
        excludes: excludes as u32,
    })
}

/// The refusals 4 and 5 of one command.
fn check_operands(command: &[u8], cells: usize) -> Result<(), u32> {
    let exists = |cell: u8| usize::from(cell) < cells;
    let fits = |base: u8, len: u8| len > 0 && usize::from(base) + usize::from(len) <= cells;
    let (cells_exist, table_fits) = match *command {
        [SET, d, ..] | [READ, d] => (exists(d), true),
        [EMIT, a] => (exists(a), true),
        [COPY, d, a] => (exists(d) && exists(a), true),
        [ADD | SUB | DIV, d, a, b] => (exists(d) && exists(a) && exists(b), true),
        [LESS, a, b, ..] => (exists(a) && exists(b), true),
        [GET, d, base, len, i] => (exists(d) && exists(i), fits(base, len)),
        [PUT, base, len, i, a] => (exists(i) && exists(a), fits(base, len)),
        _ => (true, true),
    };
    match (cells_exist, table_fits) {
        (false, _) => Err(NO_SUCH_CELL),
        (true, false) => Err(BAD_TABLE),
        (true, true) => Ok(()),
    }
}

/// The t of the command that begins with the first of these bytes, if it has one.
fn target(command: &[u8]) -> Option<usize> {
    match *command {
        [JUMP, t0, t1, ..] | [LESS, _, _, t0, t1, ..] => {
            Some(usize::from(u16::from_le_bytes([t0, t1])))
        }
        _ => None,
    }
}

/// A command's place among all, from 0.
type Place = u16;

/// A command of an accepted plan.
struct Command {
    opcode: u8,
    may_read: Set,
    may_write: Set,
    /// Whether it must write what it may write.
    writes_surely: bool,
    /// Where it may jump to.
    target: Option<Place>,
    /// The last of the commands that may jump to it.
    jumper: Option<Place>,
    /// The last before it of the commands that may jump to its target.
    other_jumper: Option<Place>,
}

impl Command {
    fn goes_on(&self) -> bool {
        self.opcode != END && self.opcode != JUMP
    }
}

/// Analyses a plan and fills the first words of the buffers, or gives the refusal of it, 1 to 9.
pub fn analyse(plan: &[u8], dead: &mut [u64], sets: &mut [u64]) -> Result<(), u32> {
    let checked = check(plan)?;
    if dead.len() < DEAD_WORDS || sets.len() < SET_WORDS {
        return Err(BUFFER_TOO_SHORT);
    }
    let all = below(checked.cells as usize);
    let commands = decode(plan, checked.instructions as usize);
    let (dead, _) = dead.as_chunks_mut();
    let (sets, _) = sets.as_chunks_mut();
    find_dead(&commands, all, dead);
    find_sets(&commands, all, dead, sets);
    Ok(())
}

/// The commands of an accepted plan, of which there are `count`.
fn decode(plan: &[u8], count: usize) -> Vec<Command> {
    let mut commands = Vec::with_capacity(count);
    let mut place_at = [0; MAX_BYTES];
    let mut offset = FIRST_INSTRUCTION;
    while offset < plan.len() {
        let opcode = plan[offset];
        let bytes = &plan[offset..offset + LENGTHS[usize::from(opcode)]];
        let (may_read, may_write) = reads_and_writes(bytes);
        place_at[offset] = commands.len() as Place;
        commands.push(Command {
            opcode,
            may_read,
            may_write,
            writes_surely: !matches!(*bytes, [PUT, _, (2..), _, _]),
            target: None,
            jumper: None,
            other_jumper: None,
        });
        offset += bytes.len();
    }
    let mut offset = FIRST_INSTRUCTION;
    for place in 0..count {
        if let Some(t) = target(&plan[offset..]) {
            let target = place_at[t];
            commands[place].target = Some(target);
            commands[place].other_jumper =
                commands[usize::from(target)].jumper.replace(place as Place);
        }
        offset += LENGTHS[usize::from(commands[place].opcode)];
    }
    commands
}

/// The cells that a command may read, and those that it may write.
fn reads_and_writes(command: &[u8]) -> (Set, Set) {
    match *command {
        [SET, d, ..] | [READ, d] => (NONE, one(d)),
        [COPY, d, a] => (one(a), one(d)),
        [ADD | SUB | DIV, d, a, b] => (union(one(a), one(b)), one(d)),
        [EMIT, a] => (one(a), NONE),
        [LESS, a, b, ..] => (union(one(a), one(b)), NONE),
        [GET, d, base, len, i] => (union(one(i), table(base, len)), one(d)),
        [PUT, base, len, i, a] => (union(one(i), one(a)), table(base, len)),
        _ => (NONE, NONE),
    }
}

/// Fills in the dead set of each command. All cells are taken for dead at first; where one turns
/// out live, the commands that may come before are tried again. The last command comes first, which
/// suits most plans; a chain of jumps backward takes time that grows with its square.
fn find_dead(commands: &[Command], all: Set, dead: &mut [Set]) {
    dead[..commands.len()].fill(all);
    let mut open: Vec<Place> = (0..commands.len() as Place).collect();
    let mut is_open = vec![true; commands.len()];
    while let Some(place) = open.pop() {
        let place = usize::from(place);
        is_open[place] = false;
        let found = dead_before(commands, all, dead, place);
        if found == dead[place] {
            continue;
        }
        dead[place] = found;
        let mut reopen = |before: Place| {
            if !is_open[usize::from(before)] {
                is_open[usize::from(before)] = true;
                open.push(before);
            }
        };
        if place > 0 && commands[place - 1].goes_on() {
            reopen(place as Place - 1);
        }
        let mut jumper = commands[place].jumper;
        while let Some(before) = jumper {
            reopen(before);
            jumper = commands[usize::from(before)].other_jumper;
        }
    }
}

/// The cells dead before a command, by what is dead before those that may follow it.
fn dead_before(commands: &[Command], all: Set, dead: &[Set], place: usize) -> Set {
    let command = &commands[place];
    let mut set = all;
    if command.goes_on() {
        set = intersection(set, dead[place + 1]);
    }
    if let Some(target) = command.target {
        set = intersection(set, dead[usize::from(target)]);
    }
    if command.writes_surely {
        set = union(set, command.may_write);
    }
    difference(set, command.may_read)
}

/// Fills in DE and RO of each EXCLUDE, by a search through its region.
fn find_sets(commands: &[Command], all: Set, dead: &[Set], sets: &mut [Set]) {
    let mut open = Vec::with_capacity(commands.len());
    // The first command of the region in which a command was last found, 0 if in none yet.
    let mut found_in = vec![0; commands.len()];
    let excludes = (0..commands.len()).filter(|&place| commands[place].opcode == EXCLUDE);
    for (exclude, sets) in excludes.zip(sets.chunks_exact_mut(2)) {
        let first = exclude + 1;
        let mut de = all;
        let mut ro = all;
        let mut has_checkpoint = false;
        found_in[first] = first;
        open.push(first);
        while let Some(place) = open.pop() {
            let command = &commands[place];
            ro = difference(ro, command.may_write);
            match command.opcode {
                EXCLUDE => continue,
                CHECKPOINT => {
                    de = intersection(de, dead[place]);
                    has_checkpoint = true;
                }
                _ => {}
            }
            let on = command.goes_on().then_some(place + 1);
            for next in on.into_iter().chain(command.target.map(usize::from)) {
                if found_in[next] != first {
                    found_in[next] = first;
                    open.push(next);
                }
            }
        }
        sets[0] = if has_checkpoint { de } else { NONE };
        sets[1] = ro;
    }
}

fn union(one: Set, other: Set) -> Set {
    from_fn(|word| one[word] | other[word])
}

fn intersection(one: Set, other: Set) -> Set {
    from_fn(|word| one[word] & other[word])
}

fn difference(one: Set, other: Set) -> Set {
    from_fn(|word| one[word] & !other[word])
}

/// The set of this cell alone.
fn one(cell: u8) -> Set {
    let mut set = [0; 4];
    set[usize::from(cell / 64)] = 1 << (cell % 64);
    set
}

/// The cells from base to base + len - 1.
fn table(base: u8, len: u8) -> Set {
    let base = usize::from(base);
    difference(below(base + usize::from(len)), below(base))
}

/// The cells from 0 to `end - 1`.
fn below(end: usize) -> Set {
    from_fn(|word| match end.saturating_sub(64 * word) {
        bits @ 0..64 => (1 << bits) - 1,
        _ => u64::MAX,
    })
}
