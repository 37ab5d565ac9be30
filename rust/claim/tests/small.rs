//! Lists that are written out: document 01's small plan on a chip that holds its first two or three saves, with the
//! tally counted by hand, and with a cut after each step and a second cut after each step that follows.

mod written;

use claim::plans::SMALL;
use claim::{Reference, Watch};
use reference::journal::{BYTE_CHIP, ERASED, PAGE_CHIP};
use reference::layout::STATE_BYTES;
use written::{list, recover};

/// Runs on the good state, and gives how the run ended and its steps.
#[track_caller]
fn run(watch: &mut Watch<Reference>, budget: u64) -> (u32, u64) {
    let ran = written::run(watch, budget);
    (ran.ended, ran.steps)
}

#[test]
fn the_tally_when_cut_after_33_bytes() {
    let mut watch = list(SMALL, BYTE_CHIP, 72);
    recover(&mut watch);
    // SET, READ, ADD, EMIT, EXCLUDE, and the CHECKPOINT that begins to save.
    run(&mut watch, 6);
    assert_eq!(watch.tally(), 5);
    run(&mut watch, 23);
    assert_eq!(watch.tally(), 5);
    // The final byte.
    run(&mut watch, 1);
    assert_eq!(watch.tally(), 6);
    // JUMP, and READ to EXCLUDE again.
    run(&mut watch, 5);
    assert_eq!(watch.tally(), 11);
    // The CHECKPOINT and 9 bytes more.
    run(&mut watch, 10);
    assert_eq!(
        (watch.tally(), watch.chip()[32], watch.chip()[33]),
        (11, 0x00, 0xFF)
    );
    watch.cut(vec![0x00; STATE_BYTES]);
    recover(&mut watch);
    assert_eq!((watch.tally(), watch.untaken()), (6, 2));
    // The 9 bytes are erased, then the second round comes again and the third.
    assert_eq!(run(&mut watch, 9), (4, 9));
    assert_eq!((watch.tally(), watch.chip()[24]), (6, 0xFF));
    assert_eq!(run(&mut watch, 1000), (5, 2 * 30 + 1));
    assert_eq!((watch.tally(), watch.so_far()), (19, &[5, 12, 10][..]));
    assert_eq!(watch.met.get("repeated outputs"), 1);
}

#[test]
fn a_save_passed_over_counts_at_once() {
    let mut watch = list(SMALL, BYTE_CHIP, 23);
    recover(&mut watch);
    run(&mut watch, 6);
    assert_eq!((watch.tally(), watch.met.get("saves passed over")), (6, 1));
    watch.cut(vec![0xFF; STATE_BYTES]);
    recover(&mut watch);
    assert_eq!((watch.tally(), watch.met.get("cuts")), (0, 1));
}

#[test]
fn the_tally_when_cut_between_two_pages() {
    let mut watch = list(SMALL, PAGE_CHIP, 64);
    recover(&mut watch);
    // SET, READ, ADD, EMIT, EXCLUDE, the CHECKPOINT that begins to save, and the first page.
    run(&mut watch, 7);
    assert_eq!((watch.tally(), watch.chip()[15]), (5, 0x01));
    watch.cut(vec![0x00; STATE_BYTES]);
    recover(&mut watch);
    assert_eq!((watch.tally(), watch.untaken()), (0, 3));
    // The page is erased, then two rounds are saved, and the third save finds no room.
    run(&mut watch, 1);
    assert_eq!((watch.tally(), watch.chip()), (0, &[ERASED; 64][..]));
    assert_eq!(run(&mut watch, 1000), (5, 1 + 2 * (4 + 1 + 2 + 1) + 6));
    assert_eq!((watch.tally(), watch.so_far()), (19, &[5, 12, 10][..]));
    assert_eq!(watch.met.get("saves with filling"), 2);
    assert_eq!(watch.met.get("saves passed over"), 1);
}

/// The steps of the plan where each save takes so many: SET, then for each reading four commands, a CHECKPOINT with its
/// pages, and JUMP.
const fn steps(pages: u64) -> u64 {
    1 + 3 * (4 + 1 + pages + 1)
}

/// Cuts the plan after each step, and after each of the steps that follow, and gives how many saves were torn and how
/// many cuts fell in erasing.
fn cut_twice(page: usize, chip: usize, steps: u64) -> (u64, u64) {
    let mut torn = 0;
    let mut in_erasing = 0;
    for first in 0..=steps {
        for second in 0..=30 {
            let mut watch = list(SMALL, page, chip);
            for budget in [first, second] {
                recover(&mut watch);
                run(&mut watch, budget);
                watch.cut(vec![0x00; STATE_BYTES]);
            }
            recover(&mut watch);
            assert_eq!(run(&mut watch, 1000).0, 5);
            assert_eq!(watch.so_far(), [5, 12, 10]);
            torn += watch.met.get("torn saves");
            in_erasing += watch.met.get("cuts in erasing");
        }
    }
    (torn, in_erasing)
}

#[test]
fn every_cut_and_every_second_cut() {
    let (torn, in_erasing) = cut_twice(BYTE_CHIP, 72, steps(24));
    // The first cut tears each save after 1 to 23 bytes. Of such a number b, b - 1 second cuts fall in erasing.
    assert!(torn >= 31 * 3 * 23, "{torn}");
    assert_eq!(in_erasing, 3 * (0..23).sum::<u64>());
}

#[test]
fn every_cut_and_every_second_cut_between_pages() {
    let (torn, in_erasing) = cut_twice(PAGE_CHIP, 96, steps(2));
    // A save has two pages, so only one can be torn, and no cut falls in its erasing.
    assert!(torn >= 31 * 3, "{torn}");
    assert_eq!(in_erasing, 0);
}
