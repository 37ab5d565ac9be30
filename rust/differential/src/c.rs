//! The library's C entries, and the library as one who answers calls through them.

use std::ptr::{null, null_mut};

use crate::buffer::Buffer;
use crate::call::{Call, Callee, Entry};

// As in include/pitskelo.h.
extern "C" {
    pub fn pitskelo_check(
        plan: *const u8,
        plan_len: usize,
        cells: *mut u32,
        commands: *mut u32,
        excludes: *mut u32,
    ) -> u32;

    pub fn pitskelo_analyse(
        plan: *const u8,
        plan_len: usize,
        dead: *mut u8,
        dead_len: usize,
        sets: *mut u8,
        sets_len: usize,
    ) -> u32;

    fn pitskelo_fold(
        plan: *const u8,
        plan_len: usize,
        sets: *const u8,
        sets_len: usize,
        old_chip: *const u8,
        old_len: usize,
        new_chip: *mut u8,
        new_len: usize,
        stored: u64,
        budget: u64,
        now_stored: *mut u64,
        finished: *mut u32,
    ) -> u32;
}

/// The entries of a kind of chip: those of every kind have the same parameters in the same order.
macro_rules! chip_entries {
    ($recover:ident, $run:ident, $spent:ident) => {
        extern "C" {
            fn $recover(
                plan: *const u8,
                plan_len: usize,
                sets: *const u8,
                sets_len: usize,
                chip: *const u8,
                chip_len: usize,
                state: *mut u8,
                state_len: usize,
            ) -> u32;

            fn $run(
                plan: *const u8,
                plan_len: usize,
                sets: *const u8,
                sets_len: usize,
                chip: *mut u8,
                chip_len: usize,
                state: *mut u8,
                state_len: usize,
                readings: *const u8,
                readings_len: usize,
                outputs: *mut u8,
                outputs_len: usize,
                budget: u64,
                ended: *mut u32,
                steps: *mut u64,
                taken: *mut u64,
                given: *mut u64,
            ) -> u32;

            fn $spent(
                plan: *const u8,
                plan_len: usize,
                chip: *const u8,
                chip_len: usize,
                place: u64,
                may: *mut u32,
            ) -> u32;
        }
    };
}

chip_entries!(pitskelo_recover, pitskelo_run, pitskelo_spent);
chip_entries!(
    pitskelo_page_recover,
    pitskelo_page_run,
    pitskelo_page_spent
);

/// The verified library, through C.
pub struct Library;

impl Callee for Library {
    fn answer(&self, call: &mut Call) -> u32 {
        match call.entry {
            Entry::Check => check(call),
            Entry::Analyse => analyse(call),
            Entry::Recover | Entry::PageRecover => recover(call),
            Entry::Run | Entry::PageRun => run(call),
            Entry::Fold => fold(call),
            Entry::Spent | Entry::PageSpent => spent(call),
        }
    }
}

/// The buffer's pointer and length, to be read.
fn slice(buffer: &Buffer, nulls: bool) -> (*const u8, usize) {
    match nulls && buffer.is_empty() {
        true => (null(), 0),
        false => (buffer.lent().as_ptr(), buffer.len()),
    }
}

/// The buffer's pointer and length, to be altered.
fn slice_mut(buffer: &mut Buffer, nulls: bool) -> (*mut u8, usize) {
    match nulls && buffer.is_empty() {
        true => (null_mut(), 0),
        false => (buffer.lend().as_mut_ptr(), buffer.len()),
    }
}

/// The lower half of a number, which comes first in memory where bytes are little-endian.
fn lower(number: &mut u64) -> *mut u32 {
    const { assert!(cfg!(target_endian = "little")) };
    (number as *mut u64).cast()
}

// SAFETY, for all calls: a buffer's pointer and length go together, the interface takes a null pointer with length
// 0 for an empty slice, and what is borrowed by `&mut` overlaps nothing else.

fn check(call: &mut Call) -> u32 {
    let (plan, plan_len) = slice(&call.plan, call.nulls);
    let [cells, commands, excludes, _] = &mut call.numbers;
    let (cells, commands, excludes) = (lower(cells), lower(commands), lower(excludes));
    unsafe { pitskelo_check(plan, plan_len, cells, commands, excludes) }
}

fn analyse(call: &mut Call) -> u32 {
    let (plan, plan_len) = slice(&call.plan, call.nulls);
    let (dead, dead_len) = slice_mut(&mut call.dead, call.nulls);
    let (sets, sets_len) = slice_mut(&mut call.sets, call.nulls);
    unsafe { pitskelo_analyse(plan, plan_len, dead, dead_len, sets, sets_len) }
}

fn recover(call: &mut Call) -> u32 {
    let (plan, plan_len) = slice(&call.plan, call.nulls);
    let (sets, sets_len) = slice(&call.sets, call.nulls);
    let (chip, chip_len) = slice(&call.chip, call.nulls);
    let (state, state_len) = slice_mut(&mut call.state, call.nulls);
    let recover = match call.entry {
        Entry::PageRecover => pitskelo_page_recover,
        _ => pitskelo_recover,
    };
    unsafe {
        recover(
            plan, plan_len, sets, sets_len, chip, chip_len, state, state_len,
        )
    }
}

fn run(call: &mut Call) -> u32 {
    let (plan, plan_len) = slice(&call.plan, call.nulls);
    let (sets, sets_len) = slice(&call.sets, call.nulls);
    let (chip, chip_len) = slice_mut(&mut call.chip, call.nulls);
    let (state, state_len) = slice_mut(&mut call.state, call.nulls);
    let (readings, readings_len) = slice(&call.readings, call.nulls);
    let (outputs, outputs_len) = slice_mut(&mut call.outputs, call.nulls);
    let [ended, steps, taken, given] = &mut call.numbers;
    let run = match call.entry {
        Entry::PageRun => pitskelo_page_run,
        _ => pitskelo_run,
    };
    unsafe {
        run(
            plan,
            plan_len,
            sets,
            sets_len,
            chip,
            chip_len,
            state,
            state_len,
            readings,
            readings_len,
            outputs,
            outputs_len,
            call.budget,
            lower(ended),
            steps,
            taken,
            given,
        )
    }
}

fn fold(call: &mut Call) -> u32 {
    let (plan, plan_len) = slice(&call.plan, call.nulls);
    let (sets, sets_len) = slice(&call.sets, call.nulls);
    let (old, old_len) = slice(&call.chip, call.nulls);
    let (new, new_len) = slice_mut(&mut call.new_chip, call.nulls);
    let [now_stored, finished, ..] = &mut call.numbers;
    unsafe {
        pitskelo_fold(
            plan,
            plan_len,
            sets,
            sets_len,
            old,
            old_len,
            new,
            new_len,
            call.stored,
            call.budget,
            now_stored,
            lower(finished),
        )
    }
}

fn spent(call: &mut Call) -> u32 {
    let (plan, plan_len) = slice(&call.plan, call.nulls);
    let (chip, chip_len) = slice(&call.chip, call.nulls);
    let spent = match call.entry {
        Entry::PageSpent => pitskelo_page_spent,
        _ => pitskelo_spent,
    };
    let may = lower(&mut call.numbers[0]);
    unsafe { spent(plan, plan_len, chip, chip_len, call.place, may) }
}
