//! What lists that are written out share: how they begin, and calls that must keep the claim.

use claim::engine::Ran;
use claim::{Reference, Start, Watch};
use reference::layout::STATE_BYTES;
use reference::machine::SET_WORDS;

pub const READINGS: [i32; 3] = [5, 7, -2];

/// Room for every output.
const ROOM: usize = 100;

/// A list of the plan on an erased chip of this page length and so many bytes.
pub fn list(plan: &[u8], page: usize, chip: usize) -> Watch<'static, Reference> {
    let start = Start {
        plan: plan.to_vec(),
        readings: READINGS.to_vec(),
        page,
        chip,
        state: vec![0xA5; STATE_BYTES],
        sets: vec![0; SET_WORDS],
    };
    Watch::new(&Reference, start)
}

#[track_caller]
pub fn recover(watch: &mut Watch<Reference>) {
    let recovered = watch.recover();
    recovered.unwrap_or_else(|violation| panic!("{violation}"));
}

/// Runs on the good state, lent all untaken readings.
#[track_caller]
pub fn run(watch: &mut Watch<Reference>, budget: u64) -> Ran {
    let untaken = watch.untaken();
    let ran = watch.run(untaken, ROOM, budget);
    ran.unwrap_or_else(|violation| panic!("{violation}"))
}
