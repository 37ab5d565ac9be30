//! Lists over the change of marks of document 02's request Q-8 that are written out: document 01's
//! small plan, begun as until then, whose chip is folded after each step and with a cut after each
//! byte; and the same over the change of day of Q-3 as well.

mod written;

use claim::folds::found_number;
use claim::plans::SMALL;
use claim::{Reference, Watch};
use reference::journal::{BYTE_CHIP, ERASED};
use reference::layout::STATE_BYTES;
use written::{list, recover, run, READINGS};

/// The small plan's first save until Q-8, with reading 5, and what it is folded to.
const FIRST_A2: [u8; 20] = [
    0xA1, 0x00, 0x05, 0x00, 0x00, 0x00, 0xA2, 0x11, 0x00, 0x0F, 0x00, 0x01, 0x00, 0x00, 0x00, 0x01,
    0x00, 0x00, 0x00, 0x5A,
];
const FIRST: [u8; 24] = [
    0xA1, 0x00, 0x05, 0x00, 0x00, 0x00, 0xA3, 0x11, 0x00, 0x0F, 0x00, 0x01, 0x00, 0x00, 0x00, 0x01,
    0x00, 0x00, 0x00, 0x14, 0x00, 0x44, 0x00, 0x5A,
];

/// The small plan's steps until Q-8 with three saves: SET, then for each reading four commands, a
/// CHECKPOINT with 20 bytes, and JUMP.
const STEPS: u64 = 1 + 3 * (4 + 1 + 20 + 1);

/// A list of the plan on an erased chip of this length, begun as until Q-8.
fn begun(plan: &[u8], chip: usize) -> Watch<'static, Reference> {
    let mut watch = list(plan, BYTE_CHIP, chip);
    watch.begin_a2();
    watch
}

#[track_caller]
fn change_marks(watch: &mut Watch<Reference>) {
    let changed = watch.change_marks(vec![0x5A; STATE_BYTES]);
    changed.unwrap_or_else(|violation| panic!("{violation}"));
}

/// Folds the chip onto a blank one of this length, with a cut after so many bytes, after which the
/// number is lost; until it is finished, the old chip is refused as before. The list goes on with
/// the new chip.
#[track_caller]
fn fold_onto(watch: &mut Watch<Reference>, length: usize, cut: u64) {
    let mut new = vec![ERASED; length];
    for (stored, budget) in [(Some(0), cut), (None, u64::MAX)] {
        let stored = stored.unwrap_or(found_number(&new) as u64);
        let folded = watch.fold(&mut new, stored, budget);
        folded.unwrap_or_else(|violation| panic!("{violation}"));
        watch
            .recover_old()
            .unwrap_or_else(|violation| panic!("{violation}"));
    }
    let went_on = watch.go_on_with(new, vec![0x5A; STATE_BYTES]);
    went_on.unwrap_or_else(|violation| panic!("{violation}"));
}

#[test]
fn a_chip_until_q_8_is_folded_and_goes_on() {
    let mut watch = begun(SMALL, 40);
    recover(&mut watch);
    // SET, READ, ADD, EMIT, EXCLUDE, CHECKPOINT with its 20 bytes; JUMP, READ.
    run(&mut watch, 6 + 20 + 2);
    assert_eq!(watch.chip()[..20], FIRST_A2);
    change_marks(&mut watch);
    assert!(watch.is_old());
    fold_onto(&mut watch, 50, 11);
    assert_eq!(watch.chip()[..24], FIRST);
    assert_eq!(watch.chip()[24..], [ERASED; 26]);
    assert!(!watch.is_old());
    recover(&mut watch);
    assert_eq!((watch.tally(), watch.untaken()), (6, 2));
    run(&mut watch, 1000);
    assert_eq!(watch.so_far(), [5, 12, 10]);
    assert_eq!(watch.met.get("saves behind a fold"), 1);
}

#[test]
fn a_chip_without_a_mark_goes_on_unfolded() {
    // The CHECKPOINT and up to the 6 bytes of the record.
    for stored in 0..=6 {
        let mut watch = begun(SMALL, 72);
        recover(&mut watch);
        run(&mut watch, 6 + stored);
        change_marks(&mut watch);
        assert!(!watch.is_old(), "{stored} bytes");
        recover(&mut watch);
        run(&mut watch, 1000);
        assert_eq!(watch.so_far(), [5, 12, 10]);
        assert_eq!(watch.chip()[..24], FIRST);
    }
}

#[test]
fn a_torn_a2_alone_is_folded_to_a_blank_chip() {
    for stored in 7..20 {
        let mut watch = begun(SMALL, 40);
        recover(&mut watch);
        run(&mut watch, 6 + stored);
        change_marks(&mut watch);
        assert!(watch.is_old(), "{stored} bytes");
        assert_eq!(watch.met.get("changes on a torn A2 alone"), 1);
        fold_onto(&mut watch, 72, 3);
        assert_eq!(watch.chip(), [ERASED; 72]);
        recover(&mut watch);
        run(&mut watch, 1000);
        assert_eq!(watch.so_far(), [5, 12, 10]);
    }
}

#[test]
fn a_change_after_each_step_and_a_fold_with_a_cut_after_each_byte() {
    for steps in 0..=STEPS {
        for cut in 0..=24 {
            let mut watch = begun(SMALL, 60);
            recover(&mut watch);
            run(&mut watch, steps);
            change_marks(&mut watch);
            // With room for one save, or for all three.
            let length = if cut % 2 == 0 { 24 } else { 72 };
            fold_onto(&mut watch, length, cut);
            recover(&mut watch);
            run(&mut watch, 1000);
            assert_eq!(watch.so_far(), [5, 12, 10], "{steps} steps, {cut} bytes");
        }
    }
}

/// EXCLUDE, CHECKPOINT, READ 1, PUT of cell 1 to the table of cell 0 alone, EMIT 0, JUMP to
/// EXCLUDE. DE is cell 1 until Q-3 and cells 0 and 1 since.
const SET_POINT: [u8; 15] = [
    0x01, 0x0D, 0x0E, 0x07, 1, 0x0C, 0, 1, 1, 1, 0x08, 0, 0x09, 1, 0,
];

#[test]
fn a_change_of_day_before_the_change_of_marks() {
    // The steps of two rounds under the sets until Q-3, and of two more until Q-8.
    for before in 0..=52 {
        for between in [0, 1, 9, 17, 30] {
            let mut watch = begun(&SET_POINT, 80);
            watch.begin_until();
            recover(&mut watch);
            run(&mut watch, before);
            watch.change_day(vec![0x00; STATE_BYTES]);
            if between > 0 {
                recover(&mut watch);
                run(&mut watch, between);
            }
            change_marks(&mut watch);
            fold_onto(&mut watch, 60, before % 24);
            recover(&mut watch);
            run(&mut watch, 1000);
            assert_eq!(watch.so_far(), READINGS, "{before} and {between} steps");
        }
    }
}
