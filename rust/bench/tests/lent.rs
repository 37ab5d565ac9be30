//! Holds the plain recovery, run, folding and places for notes to the reference on calls drawn from
//! seeds, half of them hostile, so that the library is timed against what is right; and the calls
//! that are timed.

use bench::lent::Plain;
use bench::timed::{folds, long_runs, one_step, recoveries, whole_saves};
use differential::call::{agree, Entry, Library};
use differential::seeded::seeded;
use reference::journal::{read, BYTE_CHIP, MAX_CHIP, PAGE_CHIP};

#[test]
fn calls_from_seeds() {
    for entry in Entry::ALL {
        let calls = match entry {
            Entry::Check => 5_000,
            Entry::Analyse => 1_000,
            _ => 20_000,
        };
        let mut hits = [0; 17];
        for seed in 0..calls {
            let call = seeded(entry, seed).call;
            let (result, _) = agree(&Plain, &call)
                .unwrap_or_else(|difference| panic!("{entry:?} {seed}: {difference}"));
            hits[result as usize] += 1;
        }
        println!("{entry:?} with the answers 0 to 16: {hits:?}");
        let mut results = entry.refusals().chain([0]);
        assert!(results.all(|result| hits[result] >= 5));
    }
}

#[test]
fn the_timed_calls() {
    let calls = [
        one_step(),
        recoveries(),
        whole_saves(),
        long_runs(),
        folds(),
    ];
    for (name, call) in calls.concat() {
        let ours = agree(&Library, &call).expect(name);
        let theirs = agree(&Plain, &call).expect(name);
        assert_eq!([ours.0, theirs.0], [0, 0], "{name}");
    }
}

#[test]
fn the_timed_calls_do_what_their_names_say() {
    for (name, call) in one_step() {
        let (_, left) = agree(&Plain, &call).expect(name);
        assert_eq!(left.ran().steps, 1, "{name}");
    }
    for (name, call) in whole_saves() {
        let (_, left) = agree(&Plain, &call).expect(name);
        // 5A is the last byte of a save.
        let last = call.budget as usize - 2;
        assert_eq!(left.chip.lent()[last..last + 2], [0x5A, 0xFF], "{name}");
    }
}

#[test]
fn the_long_runs_do_what_their_names_say() {
    let runs = long_runs();
    let left = |name: &str| {
        let (_, call) = runs.iter().find(|(of, _)| *of == name).expect(name);
        agree(&Plain, call).expect(name).1
    };
    let ran = left("READ and EMIT").ran();
    assert_eq!((ran.ended, ran.taken, ran.given), (4, 30_000, 30_000));
    // So many saves fill all pages but fewer than one more has.
    for (name, saves) in [
        ("saves of 256 cells, pages", 41),
        ("saves of 16 cells, pages", 512),
    ] {
        let left = left(name);
        let held = read(left.plan.lent(), left.chip.lent(), PAGE_CHIP).expect(name);
        assert_eq!((held.saves.len(), held.torn), (saves, 0), "{name}");
    }
}

#[test]
fn the_folds_do_what_their_names_say() {
    // The whole save has all 16 cells, and each after the first has all but the first cell.
    let of = |cells: usize, mark: usize| 6 * cells + mark;
    let answers = [(of(16, 18) as u64, 1), (51, 0), (of(16, 18) as u64, 1)];
    let marks = [18, 18, 14];
    let folds = folds();
    assert_eq!(folds.len(), answers.len());
    for (((name, call), answer), mark) in folds.into_iter().zip(answers).zip(marks) {
        let held = read(call.plan.lent(), call.chip.lent(), BYTE_CHIP).expect(name);
        let room = MAX_CHIP - of(16, mark);
        let saves = 1 + room / of(15, mark);
        assert_eq!((held.saves.len(), held.torn), (saves, 0), "{name}");
        assert_eq!(held.last().kind().mark_len(), mark, "{name}");
        let folded = agree(&Plain, &call).expect(name).1.folded();
        assert_eq!((folded.stored, folded.finished), answer, "{name}");
    }
}
