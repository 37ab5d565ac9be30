//! Lists with folds (document 02, Q-6) that are written out: document 01's small plan, whose chip
//! is folded after each step and with a cut after each byte; and a fold before and after the change
//! of day of Q-3.

mod written;

use claim::folds::found_number;
use claim::plans::SMALL;
use claim::{Reference, Watch};
use reference::folding::Folded;
use reference::journal::{BYTE_CHIP, ERASED};
use reference::layout::STATE_BYTES;
use written::{list, recover, run, READINGS};

/// The small plan's second and third save, with readings 7 and -2.
const SECOND: [u8; 24] = [
    0xA1, 0x00, 0x0C, 0x00, 0x00, 0x00, 0xA3, 0x11, 0x00, 0x0F, 0x00, 0x02, 0x00, 0x00, 0x00, 0x02,
    0x00, 0x00, 0x00, 0x14, 0x00, 0x44, 0x00, 0x5A,
];
const THIRD: [u8; 24] = [
    0xA1, 0x00, 0x0A, 0x00, 0x00, 0x00, 0xA3, 0x11, 0x00, 0x0F, 0x00, 0x03, 0x00, 0x00, 0x00, 0x03,
    0x00, 0x00, 0x00, 0x14, 0x00, 0x44, 0x00, 0x5A,
];

/// Its steps with three saves: SET, then for each reading four commands, a CHECKPOINT with 24
/// bytes, and JUMP.
const STEPS: u64 = 1 + 3 * (4 + 1 + 24 + 1);

/// A call of folding.
#[track_caller]
fn fold(watch: &mut Watch<Reference>, new: &mut [u8], stored: u64, budget: u64) -> Folded {
    let folded = watch.fold(new, stored, budget);
    folded.unwrap_or_else(|violation| panic!("{violation}"))
}

/// Folds the chip onto a blank one of this length, with a cut after so many bytes, after which the
/// number is lost. The list goes on with the new chip.
#[track_caller]
fn fold_onto(watch: &mut Watch<Reference>, length: usize, cut: u64) {
    let mut new = vec![ERASED; length];
    fold(watch, &mut new, 0, cut);
    let found = found_number(&new) as u64;
    let folded = fold(watch, &mut new, found, u64::MAX);
    assert!(folded.finished);
    let went_on = watch.go_on_with(new, vec![0x5A; STATE_BYTES]);
    went_on.unwrap_or_else(|violation| panic!("{violation}"));
}

#[test]
fn a_full_chip_is_folded_and_the_next_save_finds_room() {
    let mut watch = list(SMALL, BYTE_CHIP, 48);
    recover(&mut watch);
    // All of it, but the third save finds no room.
    assert_eq!(run(&mut watch, 1000).steps, STEPS - 24);
    assert_eq!(watch.tally(), 19);
    let full = watch.chip().to_vec();
    let mut new = vec![ERASED; 53];
    let seven = fold(&mut watch, &mut new, 0, 7);
    assert_eq!((seven.stored, seven.finished), (7, false));
    assert_eq!((&new[..7], &new[7..]), (&SECOND[..7], &[ERASED; 46][..]));
    let whole = fold(&mut watch, &mut new, 7, 17);
    assert_eq!((whole.stored, whole.finished), (24, true));
    assert_eq!(watch.chip(), full);
    watch.go_on_with(new, vec![0x00; STATE_BYTES]).unwrap();
    recover(&mut watch);
    assert_eq!((watch.tally(), watch.untaken()), (12, 1));
    // JUMP and the third round, whose save is stored now.
    assert_eq!(run(&mut watch, 1000).steps, 1 + 4 + 1 + 24 + 1);
    assert_eq!(watch.so_far(), [5, 12, 10]);
    assert_eq!(watch.chip()[..24], SECOND);
    assert_eq!(watch.chip()[24..48], THIRD);
    assert_eq!(watch.met.get("saves behind a fold"), 1);
}

#[test]
fn without_a_whole_save_the_plan_begins_again_on_a_blank_chip() {
    let mut watch = list(SMALL, BYTE_CHIP, 48);
    recover(&mut watch);
    // The CHECKPOINT and 23 bytes.
    run(&mut watch, 5 + 1 + 23);
    fold_onto(&mut watch, 72, 3);
    assert_eq!(watch.chip(), [ERASED; 72]);
    recover(&mut watch);
    assert_eq!(watch.tally(), 0);
    assert_eq!(run(&mut watch, 1000).steps, STEPS);
    assert_eq!(watch.so_far(), [5, 12, 10]);
}

#[test]
fn a_fold_after_each_step_with_a_cut_after_each_byte() {
    for steps in 0..=STEPS {
        for cut in 0..=24 {
            let mut watch = list(SMALL, BYTE_CHIP, 72);
            recover(&mut watch);
            run(&mut watch, steps);
            // With room for one save, or for all three.
            let length = if cut % 2 == 0 { 24 } else { 72 };
            fold_onto(&mut watch, length, cut);
            recover(&mut watch);
            run(&mut watch, 1000);
            assert_eq!(watch.so_far(), [5, 12, 10], "{steps} steps, {cut} bytes");
        }
    }
}

#[test]
fn two_folds_after_each_two_numbers_of_steps() {
    for first in (0..=STEPS).step_by(3) {
        for second in (0..=STEPS).step_by(5) {
            let mut watch = list(SMALL, BYTE_CHIP, 72);
            for (steps, length) in [(first, 49), (second, 72)] {
                recover(&mut watch);
                run(&mut watch, steps);
                fold_onto(&mut watch, length, steps % 24);
            }
            recover(&mut watch);
            run(&mut watch, 1000);
            assert_eq!(watch.so_far(), [5, 12, 10], "{first} and {second} steps");
        }
    }
}

/// EXCLUDE, CHECKPOINT, READ 1, PUT of cell 1 to the table of cell 0 alone, EMIT 0, JUMP to
/// EXCLUDE. DE is cell 1 until Q-3 and cells 0 and 1 since.
const SET_POINT: [u8; 15] = [
    0x01, 0x0D, 0x0E, 0x07, 1, 0x0C, 0, 1, 1, 1, 0x08, 0, 0x09, 1, 0,
];

#[test]
fn a_fold_before_and_after_the_change_of_day() {
    // The steps of two rounds under the sets until Q-3.
    for before in 0..=60 {
        for folds_first in [true, false] {
            let mut watch = list(&SET_POINT, BYTE_CHIP, 100);
            watch.begin_until();
            recover(&mut watch);
            run(&mut watch, before);
            if folds_first {
                fold_onto(&mut watch, 60, before % 24);
            }
            watch.change_day(vec![0x00; STATE_BYTES]);
            if !folds_first {
                fold_onto(&mut watch, 60, before % 24);
            }
            recover(&mut watch);
            run(&mut watch, 1000);
            assert_eq!(watch.so_far(), READINGS, "{before} steps, {folds_first}");
        }
    }
}
