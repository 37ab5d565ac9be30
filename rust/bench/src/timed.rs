//! The calls of recovery, run and folding that are timed, and their plans.

use differential::buffer::Buffer;
use differential::call::{number_bytes, sets_of, words, Call, Callee, Entry};
use differential::examples::SMALL;
use reference::journal::{Kind, BYTE_CHIP, ERASED, MAX_CHIP, PAGE_CHIP};
use reference::layout::STATE_BYTES;
use reference::machine::{Ended, Machine, State};
use reference::program::{
    ADD, CHECKPOINT, COPY, DIV, EMIT, EXCLUDE, GET, JUMP, LESS, PUT, READ, SET, SUB,
};

use crate::baseline::SET_WORDS;
use crate::journals::{byte_chips, page_chips, MARK_LEN, PLAN};
use crate::lent::Plain;
use crate::plans::plans;

fn set(cell: u8, value: i32) -> Vec<u8> {
    [&[SET, cell][..], &value.to_le_bytes()].concat()
}

fn arithmetic() -> Vec<u8> {
    [
        vec![7],
        set(1, 1),
        set(2, 1000),
        set(3, 7),
        // Offset 19.
        vec![ADD, 0, 0, 1],
        vec![SUB, 4, 2, 0],
        vec![DIV, 5, 4, 3],
        vec![COPY, 6, 5],
        vec![ADD, 7, 6, 5],
        vec![LESS, 0, 2, 19, 0],
        vec![SUB, 0, 0, 0],
        vec![JUMP, 19, 0],
    ]
    .concat()
}

fn tables() -> Vec<u8> {
    [
        vec![63],
        set(60, 1),
        set(61, 17),
        // Offset 13.
        vec![GET, 62, 0, 50, 59],
        vec![ADD, 62, 62, 61],
        vec![PUT, 0, 50, 59, 62],
        vec![ADD, 59, 59, 60],
        vec![JUMP, 13, 0],
    ]
    .concat()
}

/// A plan of so many cells that saves again and again.
fn saves(cells: usize) -> Vec<u8> {
    vec![(cells - 1) as u8, EXCLUDE, CHECKPOINT, JUMP, 1, 0]
}

/// The place of the CHECKPOINT in `saves`.
const SAVES_AT: u32 = 2;

/// The bytes of a save of so many cells.
fn save_len(cells: usize) -> u64 {
    6 * cells as u64 + MARK_LEN as u64
}

/// The steps in which `saves` fills a page chip of the greatest length: three commands and the pages of each save.
fn page_chip_steps(cells: usize) -> u64 {
    let pages = save_len(cells).div_ceil(PAGE_CHIP as u64);
    let chip_pages = (MAX_CHIP / PAGE_CHIP) as u64;
    chip_pages / pages * (3 + pages)
}

/// A call of run from a state, on an erased chip, with empty sets.
fn run_call(plan: &[u8], chip: usize, state: &State, budget: u64) -> Call {
    let (sets, chip) = ([0; SET_WORDS], vec![ERASED; chip]);
    Call {
        budget,
        ..Call::run(plan, &sets, &chip, &state.to_bytes())
    }
}

/// The same call for a page chip, on which the chip and state that it is lent are sound too.
fn on_pages(call: Call) -> Call {
    let entry = match call.entry {
        Entry::Recover => Entry::PageRecover,
        _ => Entry::PageRun,
    };
    Call { entry, ..call }
}

/// A run of one step of a plan that has taken so many already.
fn one_step_after(plan: &[u8], steps: u64) -> Call {
    let mut call = run_call(plan, 4_096, &State::first(), 1);
    let readings: Vec<i32> = (0..100).map(|k| k % 2).collect();
    let (sets, room) = (words(call.sets.lent()), 100);
    let (chip, state) = (call.chip.lend(), call.state.lend());
    let ran = Machine::new(plan, &sets, BYTE_CHIP)
        .and_then(|machine| machine.run_bytes(chip, state, &readings, room, steps));
    let ran = ran.expect("the run is accepted");
    assert_eq!(ran.ended, Ended::Spent, "the plan goes on");
    call.readings = Buffer::plain(&number_bytes(&readings[ran.taken..]));
    call.outputs = Buffer::plain(&number_bytes(&[0; 100]));
    call
}

/// Calls of run with a budget of one step, with their names: a command of several plans, each in the middle of its work,
/// and steps that concern the chip.
pub fn one_step() -> Vec<(&'static str, Call)> {
    let mut calls = vec![("small plan", one_step_after(SMALL, 3))];
    for (name, plan) in plans() {
        let steps = match name {
            "CELL" | "CONTOUR" => 300,
            "SIEVE" => 200,
            "straight" => 150,
            _ => continue,
        };
        calls.push((name, one_step_after(&plan, steps)));
    }
    calls.extend(one_step_of_saves());
    calls.push(("a page stored", page_stored()));
    calls
}

fn one_step_of_saves() -> [(&'static str, Call); 4] {
    let exclude = State::first();
    let mut checkpoint = State::first();
    checkpoint.place = SAVES_AT;
    let mut storing = checkpoint.clone();
    storing.saving = Some(700);
    let mut erasing = State::first();
    erasing.erase = 700;
    [
        ("EXCLUDE, 256 cells", exclude),
        ("CHECKPOINT, 256", checkpoint),
        ("a byte stored", storing),
        ("a byte erased", erasing),
    ]
    .map(|(name, state)| (name, run_call(&saves(256), 4_096, &state, 1)))
}

/// A step within a save, at about the same place as the byte stored.
fn page_stored() -> Call {
    let mut storing = State::first();
    storing.place = SAVES_AT;
    storing.saving = Some(704);
    on_pages(run_call(&saves(256), 4_096, &storing, 1))
}

/// Calls of recovery on full chips, with their names.
pub fn recoveries() -> Vec<(&'static str, Call)> {
    let call = |chip: &[u8]| Call::recover(PLAN, &[0; SET_WORDS], chip, &[0; STATE_BYTES]);
    let of_bytes = byte_chips().into_iter();
    let of_bytes = of_bytes.map(|(name, chip)| (name, call(&chip)));
    let of_pages = page_chips().into_iter();
    let of_pages = of_pages.map(|(name, chip)| (name, on_pages(call(&chip))));
    of_bytes.chain(of_pages).collect()
}

/// Calls of run that store one whole save, with their names.
pub fn whole_saves() -> Vec<(&'static str, Call)> {
    [("256 cells", 256), ("16 cells", 16)]
        .map(|(name, cells)| {
            let mut state = State::first();
            state.place = SAVES_AT;
            let budget = 1 + save_len(cells);
            (name, run_call(&saves(cells), 4_096, &state, budget))
        })
        .into()
}

/// Calls of run with a large budget, with their names. READ and EMIT takes 30,000 readings and gives as many outputs; the
/// runs on page chips fill them.
pub fn long_runs() -> Vec<(&'static str, Call)> {
    let of = |plan: &[u8], chip, budget| run_call(plan, chip, &State::first(), budget);
    let filling = |cells| on_pages(of(&saves(cells), MAX_CHIP, page_chip_steps(cells)));
    let stream = [0, READ, 0, EMIT, 0, JUMP, 1, 0];
    let numbers: Vec<i32> = (0..30_000).map(|k| k * 41 - 7).collect();
    let streaming = Call {
        readings: Buffer::plain(&number_bytes(&numbers)),
        outputs: Buffer::plain(&number_bytes(&numbers)),
        ..of(&stream, 0, 90_000)
    };
    vec![
        ("arithmetic", of(&arithmetic(), 0, 100_000)),
        ("tables", of(&tables(), 0, 100_000)),
        ("saves of 256 cells", of(&saves(256), MAX_CHIP, 66_000)),
        ("saves of 16 cells", of(&saves(16), MAX_CHIP, 66_000)),
        ("READ and EMIT", streaming),
        ("saves of 256 cells, pages", filling(256)),
        ("saves of 16 cells, pages", filling(16)),
    ]
}

/// A plan of 16 cells that all change from round to round, but the first, and are saved each time.
fn sums() -> Vec<u8> {
    let add = |cell: u8| [ADD, cell, cell, cell - 1];
    let adds: Vec<u8> = (1..16).flat_map(add).collect();
    let again = vec![EXCLUDE, CHECKPOINT, JUMP, 7, 0];
    [vec![15], set(0, 1), adds, again].concat()
}

/// The chip of the greatest length that a run of this plan leaves, full of saves with such marks.
fn full_chip(plan: &[u8], sets: &[u64], kind: Kind) -> Vec<u8> {
    let mut chip = vec![ERASED; MAX_CHIP];
    let machine = Machine::of_kind(plan, sets, BYTE_CHIP, kind);
    let machine = machine.expect("plan and sets are accepted");
    let ran = machine.run(&mut chip, &mut State::first(), &[], 0, 100_000);
    ran.expect("the first state is sound");
    chip
}

/// How many bytes of the save are stored where one more is timed.
const MIDDLE: u64 = 50;

/// Folds of a full chip onto a blank one of the greatest length, with their names: the whole save,
/// one byte in the middle of it, and the whole save of a chip with A2 marks.
pub fn folds() -> Vec<(&'static str, Call)> {
    let plan = sums();
    let sets = sets_of(&plan);
    let blank = vec![ERASED; MAX_CHIP];
    let [of_a2, whole] = Kind::ALL.map(|kind| Call {
        budget: u64::MAX,
        ..Call::fold(&plan, &sets, &full_chip(&plan, &sets, kind), &blank)
    });
    let mut one = Call {
        budget: MIDDLE,
        ..whole.clone()
    };
    assert_eq!(Plain.answer(&mut one), 0, "the fold is accepted");
    (one.stored, one.budget) = (MIDDLE, 1);
    vec![
        ("a full chip", whole),
        ("a full chip, 1 byte", one),
        ("a full chip, A2 marks", of_a2),
    ]
}

/// Questions for the place of a note on a full chip, with their names: the value of the last
/// record, for which all saves are passed and the dead sets found, and a byte where none begins.
pub fn places() -> Vec<(&'static str, Call)> {
    let plan = sums();
    let chip = full_chip(&plan, &sets_of(&plan), Kind::A3);
    let end = chip.iter().rposition(|&byte| byte != ERASED);
    let mark = end.expect("the chip has saves") + 1 - MARK_LEN;
    let call = |place: usize| Call::spent(&plan, &chip, place as u64);
    vec![("the last value", call(mark - 4)), ("no value", call(mark))]
}
