//! What the differential tests share: the verified library's C interface as safe functions, random
//! plans and their features, calls drawn from seeds, and the plans in `examples/`.

pub mod buffer;
mod c;
pub mod call;
pub mod engine;
pub mod examples;
pub mod faults;
pub mod features;
pub mod folds;
pub mod journals;
pub mod misspent;
pub mod owners;
pub mod places;
pub mod plans;
pub mod seeded;
pub mod states;

pub use claim::rng;

use std::ptr::{null, null_mut};

use c::{pitskelo_analyse, pitskelo_check};

/// The result of a check, and its three numbers after the call: cells, commands, EXCLUDEs.
pub type Answer = (u32, [u32; 3]);

/// Calls the library's check. `before` is what the three numbers hold when it is called, so that a
/// refused call can be seen to leave them alone.
pub fn check(plan: &[u8], before: [u32; 3]) -> Answer {
    // SAFETY: a slice's pointer and length go together.
    unsafe { call_check(plan.as_ptr(), plan.len(), before) }
}

/// As `check`, of an empty plan that is lent as a null pointer, which no Rust slice has.
pub fn check_null(before: [u32; 3]) -> Answer {
    // SAFETY: the interface takes a null pointer with length 0 for an empty slice.
    unsafe { call_check(null(), 0, before) }
}

/// # Safety
/// `plan` points at `plan_len` readable bytes, or is anything where that is 0.
unsafe fn call_check(plan: *const u8, plan_len: usize, before: [u32; 3]) -> Answer {
    let [mut cells, mut commands, mut excludes] = before;
    let result = pitskelo_check(plan, plan_len, &mut cells, &mut commands, &mut excludes);
    (result, [cells, commands, excludes])
}

/// Calls the library's analyse, which fills the two buffers, and gives its result.
pub fn analyse(plan: &[u8], dead: &mut [u8], sets: &mut [u8]) -> u32 {
    analyse_null(Some(plan), Some(dead), Some(sets))
}

/// As `analyse`, where each slice that is not given is lent as a null pointer.
pub fn analyse_null(plan: Option<&[u8]>, dead: Option<&mut [u8]>, sets: Option<&mut [u8]>) -> u32 {
    let (plan, plan_len) = plan.map_or((null(), 0), |plan| (plan.as_ptr(), plan.len()));
    let (dead, dead_len) = dead.map_or((null_mut(), 0), |dead| (dead.as_mut_ptr(), dead.len()));
    let (sets, sets_len) = sets.map_or((null_mut(), 0), |sets| (sets.as_mut_ptr(), sets.len()));
    // SAFETY: a slice's pointer and length go together, and the interface takes a null pointer with
    // length 0 for an empty slice. A slice lent by `&mut` overlaps no other.
    unsafe { pitskelo_analyse(plan, plan_len, dead, dead_len, sets, sets_len) }
}
