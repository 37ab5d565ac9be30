//! Times the verified library, through its C entries, against the baseline, in turns: check, and
//! the whole of analyse, on each plan; runs of one step, recoveries, saves, long runs, folds and
//! places of notes. A line gives the microseconds of a call of each, the least of many turns, and
//! the ratio of the two. With `--bar X` a ratio above X is a failure: `cargo run --release -p bench
//! -- --bar 2`. At the end stand the bytes that document 001's programs save.

use std::env;
use std::hint::black_box;
use std::process::ExitCode;

use bench::baseline::{self, DEAD_WORDS, SET_WORDS};
use bench::folding::MAX_SAVE;
use bench::lent::Plain;
use bench::plans::plans;
use bench::race::race;
use bench::sizes::{sizes, Sizes};
use bench::timed::{folds, long_runs, one_step, places, recoveries, whole_saves};
use differential::call::{agree, words, Call, Callee, Library};

fn main() -> ExitCode {
    let arguments: Vec<String> = env::args().skip(1).collect();
    let Some(bar) = bar(&arguments) else {
        eprintln!("usage: bench [--bar X], X above 0");
        return ExitCode::from(2);
    };
    println!("{:38}   library  baseline   ratio", "microseconds");
    let passes = [time_analysis(bar), time_calls(bar)];
    println!();
    for sizes in sizes().chunks(3) {
        report_sizes(sizes);
    }
    match passes {
        [true, true] => ExitCode::SUCCESS,
        _ => ExitCode::FAILURE,
    }
}

/// The highest ratio that passes, by the arguments, if they are right.
fn bar(arguments: &[String]) -> Option<f64> {
    match arguments {
        [] => Some(f64::INFINITY),
        [option, bar] if option == "--bar" => bar.parse().ok().filter(|bar| *bar > 0.0),
        _ => None,
    }
}

/// Check and analyse on each plan.
fn time_analysis(bar: f64) -> bool {
    let plans = plans();
    let mut passes = true;
    for (name, plan) in &plans {
        assert_same(name, plan);
        passes &= report("check", name, race_check(plan), bar);
    }
    for (name, plan) in &plans {
        passes &= report("analyse", name, race_analyse(plan), bar);
    }
    passes
}

/// Recoveries, runs, folds and questions for places.
fn time_calls(bar: f64) -> bool {
    let mut passes = true;
    for (name, call) in &one_step() {
        passes &= report("C, 1 step", name, race_calls(call), bar);
    }
    for (name, call) in &recoveries() {
        let times = race_calls(call);
        passes &= report("C, recover", name, times, bar);
        report_rates("megabytes", times, call.chip.len() as f64);
    }
    for (name, call) in &whole_saves() {
        let times = race_calls(call);
        passes &= report("C, save", name, times, bar);
        report_rates("million steps", times, call.budget as f64);
    }
    for (name, call) in &long_runs() {
        let times = race_calls(call);
        passes &= report("C, run", name, times, bar);
        report_rates("million steps", times, call.budget as f64);
    }
    for (name, call) in &folds() {
        let times = race_calls(call);
        passes &= report("C, fold", name, times, bar);
        report_rates("megabytes", times, call.chip.len() as f64);
    }
    for (name, call) in &places() {
        let times = race_calls(call);
        passes &= report("C, spent", name, times, bar);
        report_rates("megabytes", times, call.chip.len() as f64);
    }
    passes
}

/// Asserts that library and baseline answer the same, in buffers with a word more than need be.
fn assert_same(name: &str, plan: &[u8]) {
    let checked = baseline::check(plan).expect(name);
    let numbers = [checked.cells, checked.instructions, checked.excludes];
    assert_eq!(differential::check(plan, [0; 3]), (0, numbers), "{name}");

    let mut dead = vec![0xA5; 8 * (DEAD_WORDS + 1)];
    let mut sets = vec![0x5A; 8 * (SET_WORDS + 1)];
    let mut dead_words = words(&dead);
    let mut set_words = words(&sets);
    let result = differential::analyse(plan, &mut dead, &mut sets);
    assert_eq!(result, 0, "{name}");
    let answer = baseline::analyse(plan, &mut dead_words, &mut set_words);
    assert_eq!(answer, Ok(()), "{name}");
    assert_eq!(words(&dead), dead_words, "{name}");
    assert_eq!(words(&sets), set_words, "{name}");
}

fn race_check(plan: &[u8]) -> [f64; 2] {
    race(
        || {
            black_box(differential::check(black_box(plan), [0; 3]));
        },
        || {
            let _ = black_box(baseline::check(black_box(plan)));
        },
    )
}

fn race_analyse(plan: &[u8]) -> [f64; 2] {
    let mut dead = vec![0; 8 * DEAD_WORDS];
    let mut sets = vec![0; 8 * SET_WORDS];
    let mut dead_words = vec![0; DEAD_WORDS];
    let mut set_words = vec![0; SET_WORDS];
    race(
        || {
            differential::analyse(black_box(plan), &mut dead, &mut sets);
            black_box((&mut dead, &mut sets));
        },
        || {
            let _ = baseline::analyse(black_box(plan), &mut dead_words, &mut set_words);
            black_box((&mut dead_words, &mut set_words));
        },
    )
}

/// Asserts that library and baseline answer the call as the reference does, and races them. The
/// state is put back before each call, and what a fold may have stored; a run does not read the
/// chip, and no other call alters it.
fn race_calls(call: &Call) -> [f64; 2] {
    agree(&Library, call).expect("the library agrees with the reference");
    agree(&Plain, call).expect("the baseline agrees with the reference");
    let mut calls = [call.clone(), call.clone()];
    let [ours, theirs] = &mut calls;
    race(
        || answer_again(&Library, ours, call),
        || answer_again(&Plain, theirs, call),
    )
}

fn answer_again(callee: &impl Callee, call: &mut Call, first: &Call) {
    call.state.lend().copy_from_slice(first.state.lent());
    let stored = MAX_SAVE.min(first.new_chip.len());
    call.new_chip.lend()[..stored].copy_from_slice(&first.new_chip.lent()[..stored]);
    black_box(callee.answer(black_box(call)));
}

/// Prints a plan's line, and gives whether its ratio passes.
fn report(job: &str, name: &str, [library, baseline]: [f64; 2], bar: f64) -> bool {
    let ratio = library / baseline;
    let passes = ratio <= bar;
    let mark = if passes { "" } else { "  above the bar" };
    println!("{job:12}{name:26}{library:10.2}{baseline:10.2}{ratio:8.2}{mark}");
    passes
}

/// Prints how much of what a call works on each does in a second.
fn report_rates(what: &str, micros: [f64; 2], work: f64) {
    let [library, baseline] = micros.map(|micros| work / micros);
    let text = format!("  {what} a second");
    println!("{text:38}{library:10.0}{baseline:10.0}");
}

/// Prints the bytes of one program's saves under each rule; the first is the measure of the others.
fn report_sizes(sizes: &[Sizes]) {
    let text = format!("{}, bytes of a save", sizes[0].program);
    println!("{text:30}     saves     first      last   average  of every cell");
    for of_rule in sizes {
        let (rule, saves) = (of_rule.rule, &of_rule.saves);
        let (count, first, last) = (saves.len(), saves[0], saves[saves.len() - 1]);
        let average = of_rule.total() as f64 / count as f64;
        let percent = 100.0 * of_rule.total() as f64 / sizes[0].total() as f64;
        println!("  {rule:28}{count:10}{first:10}{last:10}{average:10.1}{percent:13.0} %");
    }
}
