//! The plans that are timed: about the largest of several kinds, and document 001's three programs.

use differential::examples::programs;
use differential::plans::linked;
use reference::program::{
    ADD, CHECKPOINT, COPY, DIV, EMIT, END, EXCLUDE, GET, JUMP, LESS, PUT, READ, SET, SUB,
};

/// A command without its t, and the place of the command that it may jump to.
type Command = (Vec<u8>, Option<usize>);

/// The plans with their names.
pub fn plans() -> Vec<(&'static str, Vec<u8>)> {
    let mut plans = vec![
        ("straight", straight()),
        ("jumps backward", jumps_backward()),
        ("many LESS", many_less()),
        ("nested loops", nested_loops()),
        ("tables", tables()),
    ];
    plans.extend(programs());
    plans
}

/// Gives all 256 cells in turn, none near the one before.
fn cells() -> impl FnMut() -> u8 {
    let mut cell = 0_u8;
    move || {
        cell = cell.wrapping_add(91);
        cell
    }
}

/// 512 commands without a jump, 64 of them EXCLUDE.
fn straight() -> Vec<u8> {
    let mut cell = cells();
    let mut commands: Vec<Command> = Vec::new();
    for _ in 0..32 {
        commands.extend([
            (vec![EXCLUDE], None),
            (vec![READ, cell()], None),
            (vec![GET, cell(), cell() / 2, 1 + cell() / 2, cell()], None),
            (vec![ADD, cell(), cell(), cell()], None),
            (vec![PUT, cell() / 2, 1 + cell() / 2, cell(), cell()], None),
            (vec![SET, cell(), 1, 0, 0, 0], None),
            (vec![EMIT, cell()], None),
            (vec![CHECKPOINT], None),
            (vec![EXCLUDE], None),
            (vec![COPY, cell(), cell()], None),
            (vec![SUB, cell(), cell(), cell()], None),
            (vec![CHECKPOINT], None),
            (vec![DIV, cell(), cell(), cell()], None),
            (vec![READ, cell()], None),
            (vec![SET, cell(), 1, 0, 0, 0], None),
            (vec![EMIT, cell()], None),
        ]);
    }
    commands[511] = (vec![END], None);
    linked(256, &commands)
}

/// Blocks of four commands in reverse order: the first command jumps to the last block, and each
/// block to the one before it. Every eighth has an EXCLUDE and a CHECKPOINT.
fn jumps_backward() -> Vec<u8> {
    let begin = |block: usize| 1 + 4 * block;
    let mut cell = cells();
    let mut commands: Vec<Command> = vec![(vec![JUMP], Some(begin(126)))];
    for block in 0..127 {
        if block % 8 == 7 {
            commands.extend([(vec![EXCLUDE], None), (vec![CHECKPOINT], None)]);
        } else {
            commands.extend([(vec![READ, cell()], None), (vec![EMIT, cell()], None)]);
        }
        commands.push((vec![ADD, cell(), cell(), cell()], None));
        commands.push(match block {
            0 => (vec![END], None),
            _ => (vec![JUMP], Some(begin(block - 1))),
        });
    }
    linked(256, &commands)
}

/// 512 commands, 320 of them LESS to anywhere and 64 EXCLUDE, so that the regions overlap.
fn many_less() -> Vec<u8> {
    let mut cell = cells();
    let mut commands: Vec<Command> = Vec::new();
    for round in 0..64 {
        commands.extend([(vec![EXCLUDE], None), (vec![CHECKPOINT], None)]);
        for _ in 0..5 {
            let anywhere = commands.len() * 73 % 511;
            commands.push((vec![LESS, cell(), cell()], Some(anywhere)));
        }
        let other = if round % 2 == 0 { READ } else { EMIT };
        commands.push((vec![other, cell()], None));
    }
    commands[511] = (vec![END], None);
    linked(256, &commands)
}

/// 64 loops, one within the other.
fn nested_loops() -> Vec<u8> {
    let mut commands: Vec<Command> = Vec::new();
    for depth in 0..64 {
        commands.extend([
            (vec![SET, depth, 0, 0, 0, 0], None),
            (vec![READ, 64 + depth], None),
            (vec![EXCLUDE], None),
        ]);
    }
    for depth in (0..64).rev() {
        let after_set = 3 * usize::from(depth) + 1;
        commands.extend([
            (vec![CHECKPOINT], None),
            (vec![EMIT, 64 + depth], None),
            (vec![ADD, depth, depth, 255], None),
            (vec![LESS, depth, 128 + depth], Some(after_set)),
        ]);
    }
    commands.push((vec![END], None));
    linked(256, &commands)
}

/// A loop of 372 GETs and PUTs.
fn tables() -> Vec<u8> {
    let mut cell = cells();
    let mut commands: Vec<Command> = Vec::new();
    for _ in 0..31 {
        commands.extend([(vec![EXCLUDE], None), (vec![CHECKPOINT], None)]);
        for _ in 0..6 {
            commands.extend([
                (vec![GET, cell(), cell() / 2, 1 + cell() / 2, cell()], None),
                (vec![PUT, cell() / 2, 1 + cell() / 2, cell(), cell()], None),
            ]);
        }
    }
    commands.push((vec![JUMP], Some(0)));
    linked(256, &commands)
}
