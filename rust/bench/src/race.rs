//! Timing two jobs against each other, in turns.

use std::time::Instant;

/// For how many microseconds the two are timed, and how many a turn takes at least.
const RACE: f64 = 500_000.0;
const TURN: f64 = 100.0;

/// The least microseconds of a call of each.
pub fn race(mut library: impl FnMut(), mut baseline: impl FnMut()) -> [f64; 2] {
    let library_calls = calls_in_a_turn(&mut library);
    let baseline_calls = calls_in_a_turn(&mut baseline);
    let mut least = [f64::INFINITY; 2];
    let started = Instant::now();
    while micros_since(started) < RACE {
        least[0] = least[0].min(turn(&mut library, library_calls));
        least[1] = least[1].min(turn(&mut baseline, baseline_calls));
    }
    least
}

fn calls_in_a_turn(job: &mut impl FnMut()) -> u32 {
    let mut calls = 1;
    while turn(job, calls) * f64::from(calls) < TURN {
        calls *= 2;
    }
    calls
}

/// The microseconds of a call, by so many calls.
fn turn(job: &mut impl FnMut(), calls: u32) -> f64 {
    let started = Instant::now();
    for _ in 0..calls {
        job();
    }
    micros_since(started) / f64::from(calls)
}

fn micros_since(started: Instant) -> f64 {
    started.elapsed().as_secs_f64() * 1e6
}
