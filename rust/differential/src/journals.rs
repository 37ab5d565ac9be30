//! Random chips of either kind, with marks of either kind: as the engine leaves them, or left them until
//! request Q-8, and altered.

use reference::journal::{Kind, Mark, Save, ERASED, MARK_A2, MARK_A3, MARK_END, RECORD};
use reference::machine::State;
use reference::program::{CHECKPOINT, END, EXCLUDE, LENGTHS};
use reference::{check, Machine};

use crate::examples::programs;
use crate::rng::Rng;
use crate::states::value;

/// Plans of several kinds: document 001's programs, one cell, 256 cells, and offsets whose low bytes
/// are the same or whose high bytes are not 0.
pub fn plans() -> Vec<Vec<u8>> {
    let mut plans: Vec<Vec<u8>> = programs().into_iter().map(|(_, plan)| plan).collect();
    plans.push(vec![0, CHECKPOINT, END]);
    plans.push(vec![0xFF, EXCLUDE, CHECKPOINT, END]);
    let mut far = vec![2, EXCLUDE, CHECKPOINT];
    far.resize(257, CHECKPOINT);
    far.extend([EXCLUDE, CHECKPOINT, CHECKPOINT, END]);
    plans.push(far);
    plans
}

/// The offsets after each command of this kind, or of it.
fn offsets(plan: &[u8], opcode: u8, plus: usize) -> Vec<u16> {
    let mut offsets = Vec::new();
    let mut at = 1;
    while at < plan.len() {
        if plan[at] == opcode {
            offsets.push((at + plus) as u16);
        }
        at += LENGTHS[usize::from(plan[at])];
    }
    offsets
}

/// A count that is not below another: mostly the same or little more.
fn count_from(rng: &mut Rng, least: u32) -> u32 {
    match rng.below(8) {
        0..3 => least,
        3..7 => least.saturating_add(rng.below(70_000) as u32),
        _ => least + ((u64::from(rng.word() as u32) * u64::from(u32::MAX - least)) >> 32) as u32,
    }
}

/// A save of the plan's that is sound after the mark.
pub(crate) fn save(rng: &mut Rng, plan: &[u8], last: Mark, kind: Kind) -> Save {
    let cells = check(plan).expect("the plan is accepted").cells as usize;
    let mut fresh: Vec<u8> = (0..cells).map(|cell| cell as u8).collect();
    let size = match rng.below(4) {
        0 => cells,
        1 => 0,
        _ => rng.below(cells.min(5) + 1),
    };
    let records = (0..size)
        .map(|_| {
            let cell = fresh.swap_remove(rng.below(fresh.len()));
            let value = match rng.below(8) {
                0 => 0,
                1..3 => -1,
                3 => 0x5AA2_A100,
                4 => 0x5AA3_A100,
                _ => rng.word() as i32,
            };
            (cell, value)
        })
        .collect();
    let mut excludes = offsets(plan, EXCLUDE, 0);
    excludes.push(0);
    Save {
        records,
        mark: Mark {
            place: rng.pick(&offsets(plan, CHECKPOINT, 1)),
            exclude: rng.pick(&excludes),
            readings: count_from(rng, last.readings),
            outputs: count_from(rng, last.outputs),
            owner: kind.owner(plan),
        },
    }
}

/// A chip of this page length as the engine leaves it: sound saves, often a part of one more, and FF.
/// The part ends with a page, or anywhere in one, which recovery takes too.
pub fn stored(rng: &mut Rng, plan: &[u8], page: usize) -> Vec<u8> {
    stored_with(rng, plan, page, Kind::A3)
}

/// The same with marks of this kind.
pub fn stored_with(rng: &mut Rng, plan: &[u8], page: usize, kind: Kind) -> Vec<u8> {
    let mut chip = Vec::new();
    let mut last = Mark::FIRST;
    for _ in 0..rng.below(4) {
        let save = save(rng, plan, last, kind);
        last = save.mark;
        chip.extend(save.pages(page));
    }
    let next = save(rng, plan, last, kind);
    let next = part_of(rng, next);
    let in_page = rng.pick(&[0, next.len() % page]);
    chip.extend(&next[..next.len() - in_page]);
    let erased = rng.pick(&[0, 0, 1, 7, 40]);
    chip.resize((chip.len() + erased).next_multiple_of(page), ERASED);
    chip
}

/// A beginning of the save, often one that ends within its mark. What a torn A3 mark names may be anything.
fn part_of(rng: &mut Rng, mut save: Save) -> Vec<u8> {
    if save.mark.kind() == Kind::A3 && rng.below(2) == 0 {
        save.mark.owner = Some(rng.word() as u32);
    }
    let mark_len = save.mark.kind().mark_len();
    let mut bytes = save.bytes();
    let part = match rng.below(2) {
        0 => rng.below(bytes.len()),
        _ => bytes.len() - 1 - rng.below(mark_len),
    };
    bytes.truncate(part);
    bytes
}

/// A chip of this length, which is a number of pages, that is filled with sound saves, as many as
/// there is room for, and FF.
pub fn filled(rng: &mut Rng, plan: &[u8], length: usize, page: usize) -> Vec<u8> {
    let mut chip = Vec::new();
    let mut last = Mark::FIRST;
    loop {
        let save = save(rng, plan, last, Kind::A3);
        let pages = save.pages(page);
        if chip.len() + pages.len() > length {
            chip.resize(length, ERASED);
            return chip;
        }
        last = save.mark;
        chip.extend(pages);
    }
}

/// A byte chip of two saves, of which the last holds every cell with a value that is not 0, and
/// some FF.
pub fn every_cell(rng: &mut Rng, plan: &[u8], kind: Kind) -> Vec<u8> {
    let first = save(rng, plan, Mark::FIRST, kind);
    let mut every = save(rng, plan, first.mark, kind);
    let mut cells: Vec<u8> = (0..=plan[0]).rev().collect();
    cells.rotate_left(rng.below(usize::from(plan[0])));
    let any = 1 | rng.word() as i32;
    let record = |cell| (cell, rng.pick(&[-1, 1, any]));
    every.records = cells.into_iter().map(record).collect();
    let erased = vec![ERASED; rng.below(40)];
    [first.bytes(), every.bytes(), erased].concat()
}

/// A chip of this page length as a list of recoveries, runs and cuts leaves it, with marks of this
/// kind. Any sets will do: no save is unsound for the cells that it holds.
pub fn left(rng: &mut Rng, plan: &[u8], sets: &[u64], page: usize, kind: Kind) -> Vec<u8> {
    let machine = Machine::of_kind(plan, sets, page, kind);
    let machine = machine.expect("plan and sets are accepted");
    let mut chip = vec![ERASED; rng.below(500).next_multiple_of(page)];
    for _ in 0..1 + rng.below(3) {
        let mut state = State::first();
        let recovered = machine.recover(&chip, &mut state);
        recovered.expect("a list leaves no damaged chip");
        let readings: Vec<i32> = (0..rng.below(30)).map(|_| value(rng)).collect();
        let budget = rng.below(500) as u64;
        let ran = machine.run(&mut chip, &mut state, &readings, 100, budget);
        ran.expect("recovery leaves a sound state");
    }
    chip
}

/// The chip with a few bytes replaced, mostly by bytes that mean something, or some dropped.
pub fn altered(rng: &mut Rng, mut chip: Vec<u8>) -> Vec<u8> {
    for _ in 0..1 + rng.below(3) {
        if chip.is_empty() {
            chip.push(rng.byte());
            continue;
        }
        let at = rng.below(chip.len());
        match rng.below(6) {
            0 => chip[at] = rng.byte(),
            1 => chip[at] = rng.pick(&[RECORD, MARK_A2, MARK_A3, MARK_END, ERASED, 0x00]),
            2 => chip[at] ^= 1 << rng.below(8),
            3 => chip[at] = chip[at].wrapping_sub(1),
            4 => chip.truncate(at),
            _ => {
                chip.remove(at);
            }
        }
    }
    chip
}
