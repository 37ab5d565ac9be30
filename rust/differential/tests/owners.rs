//! A chip knows its plan (document 02, Q-8): recoveries of either kind of chip and folds through C
//! on chosen calls, held to the reference on the result and on every byte of every buffer. What the
//! request says outright is stated here, sentence by sentence.

use differential::buffer::Buffer;
use differential::call::{
    agreed, number_bytes, sets_of, word_bytes, Call, Entry, Folded, Library, SET_WORDS,
};
use differential::examples::{FIRST, SECOND, SMALL};
use differential::plans::refused_examples;
use reference::journal::{owner, Kind, BYTE_CHIP, ERASED, MAX_CHIP, PAGE_CHIP};
use reference::layout::STATE_BYTES;
use reference::machine::State;
use reference::Machine;

/// Where in such a save its mark begins, and where in it the length and the sum stand.
const MARK_AT: usize = 6;
const OWNER_AT: usize = 19;

/// The pages of a kind of chip.
const KINDS: [usize; 2] = [BYTE_CHIP, PAGE_CHIP];

/// The save with an A2 mark, as until Q-8.
fn old(save: &[u8; 24]) -> Vec<u8> {
    let mut save = save.to_vec();
    save.drain(OWNER_AT..OWNER_AT + 4);
    save[MARK_AT] = 0xA2;
    save
}

/// The save with a mark that names what these four bytes say.
fn naming(save: &[u8; 24], owner: u32) -> Vec<u8> {
    let mut save = save.to_vec();
    save[OWNER_AT..OWNER_AT + 4].copy_from_slice(&owner.to_le_bytes());
    save
}

/// The parts on a chip of this page length, each from a page's beginning on, with FF up to 96
/// bytes.
fn chip(page: usize, parts: &[&[u8]]) -> Vec<u8> {
    let mut chip = Vec::new();
    for part in parts {
        chip.extend(*part);
        chip.resize(chip.len().next_multiple_of(page), ERASED);
    }
    chip.resize(96, ERASED);
    chip
}

fn recovery_of(plan: &[u8], page: usize, chip: &[u8]) -> Call {
    let sets = sets_of(plan);
    Call {
        entry: Entry::recover(page),
        ..Call::recover(plan, &sets, chip, &[0xA5; STATE_BYTES])
    }
}

/// The result of a recovery of the small plan.
#[track_caller]
fn recovery(page: usize, parts: &[&[u8]]) -> u32 {
    agreed(&Library, &recovery_of(SMALL, page, &chip(page, parts))).0
}

/// The state that an accepted recovery of the small plan leaves.
#[track_caller]
fn recovered(page: usize, chip: &[u8]) -> State {
    let (result, left) = agreed(&Library, &recovery_of(SMALL, page, chip));
    assert_eq!(result, 0);
    State::from_bytes(left.state.lent()).expect("recovery leaves a state")
}

/// A fold of the parts, as they stand on a byte chip, onto a blank chip of 60 bytes.
fn fold_of(parts: &[&[u8]]) -> Call {
    Call {
        budget: u64::MAX,
        ..Call::fold(
            SMALL,
            &sets_of(SMALL),
            &chip(BYTE_CHIP, parts),
            &[ERASED; 60],
        )
    }
}

/// The bytes that an accepted fold stores, which must be finished.
#[track_caller]
fn folded(call: &Call) -> Vec<u8> {
    let (result, left) = agreed(&Library, call);
    let Folded { stored, finished } = left.folded();
    assert_eq!((result, finished), (0, 1));
    left.new_chip.lent()[..stored as usize].to_vec()
}

/// The state that a chip gave until Q-8, without write position and bytes to erase.
fn until(chip: &[u8]) -> State {
    let sets = sets_of(SMALL);
    let mut state = State::first();
    let machine = Machine::of_kind(SMALL, &sets, BYTE_CHIP, Kind::A2);
    let recovered = machine.and_then(|machine| machine.recover(chip, &mut state));
    recovered.expect("accepted until Q-8");
    (state.write, state.erase) = (0, 0);
    state
}

/// "The first save of 01's plan now ends 14 00 44 00 5A and has 24 bytes; 24 bytes of chip hold it,
/// 23 none."
#[test]
fn the_first_save_names_its_plan() {
    assert_eq!(owner(SMALL).to_le_bytes(), [0x14, 0x00, 0x44, 0x00]);
    for (length, expected) in [(24, FIRST.to_vec()), (23, vec![ERASED; 23])] {
        let erased = vec![ERASED; length];
        let call = Call {
            readings: Buffer::plain(&number_bytes(&[5])),
            outputs: Buffer::plain(&number_bytes(&[0])),
            budget: 1_000,
            ..Call::run(SMALL, &sets_of(SMALL), &erased, &State::first().to_bytes())
        };
        let (result, left) = agreed(&Library, &call);
        assert_eq!((result, left.chip.lent()), (0, &expected[..]));
    }
}

/// 01's row again: "cut after 33 bytes: cell 0 is 5, both counts 1".
#[test]
fn cut_after_33_bytes_cell_0_is_5_and_both_counts_are_1() {
    let state = recovered(BYTE_CHIP, &chip(BYTE_CHIP, &[&FIRST, &SECOND[..9]]));
    assert_eq!((state.cells[0], state.readings, state.outputs), (5, 1, 1));
    assert_eq!((state.write, state.erase), (24, 9));
}

/// "sum of all plan bytes modulo 65,536": a plan whose sum is above that.
#[test]
fn the_sum_wraps() {
    // CHECKPOINT, 330 times SET 0 to -1, and END.
    let mut plan = vec![0x00, 0x0E];
    for _ in 0..330 {
        plan.extend([0x02, 0x00, 0xFF, 0xFF, 0xFF, 0xFF]);
    }
    plan.push(0x01);
    let sum = 0x0E + 330 * (2 + 4 * 255) + 1 - 5 * 65_536;
    assert!((0..65_536).contains(&sum));
    let call = Call {
        budget: 1 + 24,
        ..Call::run(
            &plan,
            &[0; SET_WORDS],
            &[ERASED; 24],
            &State::first().to_bytes(),
        )
    };
    let (result, left) = agreed(&Library, &call);
    let named = [
        (plan.len() as u16).to_le_bytes(),
        (sum as u16).to_le_bytes(),
    ]
    .concat();
    assert_eq!(result, 0);
    assert_eq!(left.chip.lent()[OWNER_AT..], [&named[..], &[0x5A]].concat());
    for (save, result) in [
        (left.chip.lent().to_vec(), 0),
        (naming(&FIRST, 0), 12),
        (
            [&left.chip.lent()[..21], &[named[2] ^ 1, named[3], 0x5A]].concat(),
            16,
        ),
    ] {
        let call = Call::recover(&plan, &[0; SET_WORDS], &save, &[0xA5; STATE_BYTES]);
        assert_eq!(agreed(&Library, &call).0, result);
    }
}

/// "Recovery of an old chip with A2 marks, accepted until now, is refused": 15. "a chip whose only
/// mark is a torn A2 is damaged for recovery"; "a torn mark counts there by its first byte".
#[test]
fn old_chips_at_every_length() {
    let (first, second) = (old(&FIRST), old(&SECOND));
    for page in KINDS {
        for stored in 0..=20 {
            let result = match stored {
                // No mark byte stands there: it reads both ways.
                0..=MARK_AT => 0,
                7..20 => 12,
                _ => 15,
            };
            assert_eq!(
                recovery(page, &[&first[..stored]]),
                result,
                "{stored} bytes"
            );
            let behind = recovery(page, &[&first, &second[..stored]]);
            assert_eq!(behind, 15, "{stored} bytes behind a whole save");
        }
    }
}

/// "A chip with both marks is damaged": in either order, the second mark whole or torn after each
/// of its bytes.
#[test]
fn both_marks_at_every_length() {
    let (a2, a3) = (old(&FIRST), old(&SECOND));
    for page in KINDS {
        for stored in MARK_AT + 1..=24 {
            let parts: [&[u8]; 2] = [&a2, &SECOND[..stored]];
            assert_eq!(recovery(page, &parts), 12, "A2, then {stored} bytes");
        }
        for stored in MARK_AT + 1..=20 {
            let parts: [&[u8]; 2] = [&FIRST, &a3[..stored]];
            assert_eq!(recovery(page, &parts), 12, "A3, then {stored} bytes");
        }
        // Up to its mark the second save has none, so the chip has one kind.
        for stored in 0..=MARK_AT {
            assert_eq!(recovery(page, &[&a2, &SECOND[..stored]]), 15);
            assert_eq!(recovery(page, &[&FIRST, &a3[..stored]]), 0);
        }
    }
    for stored in MARK_AT + 1..=24 {
        let call = fold_of(&[&a2, &SECOND[..stored]]);
        assert_eq!(agreed(&Library, &call).0, 12);
    }
    for stored in MARK_AT + 1..=20 {
        let call = fold_of(&[&FIRST, &a3[..stored]]);
        assert_eq!(agreed(&Library, &call).0, 12);
    }
}

/// "16 where a whole mark's length or sum is not the plan's": each bit of them, in the only mark,
/// the last, an earlier one.
#[test]
fn each_bit_of_length_and_sum_in_each_mark() {
    for bit in 0..32 {
        let other = owner(SMALL) ^ 1 << bit;
        let (first, second) = (naming(&FIRST, other), naming(&SECOND, other));
        for parts in [
            [&first[..], &[]],
            [&FIRST, &second],
            [&first, &SECOND],
            [&first, &second],
        ] {
            for page in KINDS {
                assert_eq!(recovery(page, &parts), 16, "bit {bit}");
            }
            assert_eq!(agreed(&Library, &fold_of(&parts)).0, 16, "bit {bit}");
        }
    }
}

/// Zeros for length and sum are no A2 mark.
#[test]
fn a_mark_that_names_nothing_gives_16() {
    let nothing = naming(&FIRST, 0);
    for parts in [[&nothing[..], &[]], [&nothing, &SECOND]] {
        for page in KINDS {
            assert_eq!(recovery(page, &parts), 16);
        }
        assert_eq!(agreed(&Library, &fold_of(&parts)).0, 16);
    }
}

/// Length and sum "are no part of a save's soundness", so torn ones may be anything: "a chip
/// without whole marks meets neither".
#[test]
fn torn_length_and_sum_may_be_anything() {
    for other in [
        0,
        1,
        0xFFFF,
        0x0044_0015,
        0x0045_0014,
        0x5A5A_5A5A,
        0xA3A2_A1FE,
    ] {
        let (first, second) = (naming(&FIRST, other), naming(&SECOND, other));
        for stored in OWNER_AT..24 {
            for page in KINDS {
                let alone = chip(page, &[&first[..stored]]);
                assert_eq!(recovered(page, &alone).place, 1);
                let behind = chip(page, &[&FIRST, &second[..stored]]);
                assert_eq!(recovered(page, &behind).cells[0], 5);
            }
            assert_eq!(folded(&fold_of(&[&first[..stored]])), []);
            assert_eq!(folded(&fold_of(&[&FIRST, &second[..stored]])), FIRST);
        }
        // With 5A it is whole, and another plan's.
        assert_eq!(recovery(BYTE_CHIP, &[&FIRST, &second]), 16);
    }
}

/// "folding reads such a byte chip and writes A3": each torn rest of either save, and nothing of it
/// where none is whole.
#[test]
fn old_chips_fold_to_a3_at_every_length() {
    let (first, second) = (old(&FIRST), old(&SECOND));
    for stored in 0..20 {
        assert_eq!(folded(&fold_of(&[&first[..stored]])), []);
        assert_eq!(folded(&fold_of(&[&first, &second[..stored]])), FIRST);
    }
    assert_eq!(folded(&fold_of(&[&first, &second])), SECOND);
}

/// "the finished chip recovers to the state that the old one gave until now, write position and
/// bytes to erase aside".
#[test]
fn a_folded_chip_recovers_as_the_old_one_did() {
    let (first, second) = (old(&FIRST), old(&SECOND));
    for stored in 0..=20 {
        let parts: [&[u8]; 2] = [&first, &second[..stored]];
        let (_, left) = agreed(&Library, &fold_of(&parts));
        let mut state = recovered(BYTE_CHIP, left.new_chip.lent());
        assert_eq!((state.write, state.erase), (24, 0));
        state.write = 0;
        assert_eq!(state, until(&chip(BYTE_CHIP, &parts)), "{stored} bytes");
    }
}

/// "two plans alike in length and sum are not told apart"; one whose places do not fit is no other
/// plan's, but damaged.
#[test]
fn chips_of_other_plans() {
    let with = |at: usize, byte: u8| {
        let mut plan = SMALL.to_vec();
        plan[at] = byte;
        plan
    };
    // ADD 0 1 0 for ADD 0 0 1: the same length and sum.
    let mut alike = with(11, 0x01);
    alike[12] = 0x00;
    for (plan, of_recovery) in [
        (alike, 0),
        // SET 2 to 1.
        (with(3, 0x01), 16),
        // END behind it.
        ([SMALL, &[0x01]].concat(), 16),
        // No EXCLUDE stands at 15, and no CHECKPOINT before 17.
        (with(15, 0x0E), 12),
        (with(16, 0x0D), 12),
        (vec![0x00, 0x0E, 0x01], 12),
    ] {
        for page in KINDS {
            let call = recovery_of(&plan, page, &chip(page, &[&FIRST]));
            assert_eq!(agreed(&Library, &call).0, of_recovery, "{plan:02X?}");
        }
        let call = Call {
            plan: Buffer::plain(&plan),
            ..fold_of(&[&FIRST])
        };
        assert_eq!(agreed(&Library, &call).0, of_recovery, "{plan:02X?}");
    }
}

/// "If the chip isn't damaged": 12 is given where marks are old or another plan's too, and 11
/// before it.
#[test]
fn damage_comes_before_15_and_16() {
    let damaged = |save: &[u8]| [save, &[0x00]].concat();
    let (old, other) = (old(&FIRST), naming(&FIRST, 0));
    for save in [&old, &other] {
        assert_eq!(recovery(BYTE_CHIP, &[&damaged(save)]), 12);
        assert_eq!(recovery(PAGE_CHIP, &[&damaged(save)]), 12);
        assert_eq!(agreed(&Library, &fold_of(&[&damaged(save)])).0, 12);
        let mut long = save.clone();
        long.resize(MAX_CHIP + 1, ERASED);
        let call = recovery_of(SMALL, BYTE_CHIP, &long);
        assert_eq!(agreed(&Library, &call).0, 11);
    }
    let of_pages = recovery_of(SMALL, PAGE_CHIP, &chip(PAGE_CHIP, &[&old])[..33]);
    assert_eq!(agreed(&Library, &of_pages).0, 11);
}

/// 15 and 16 come after all others that a recovery gives.
#[test]
fn the_lower_refusals_of_a_recovery_come_first() {
    for (save, last) in [(old(&FIRST), 15), (naming(&FIRST, 0), 16)] {
        for page in KINDS {
            let all = Call {
                sets: Buffer::plain(&word_bytes(&[0; SET_WORDS - 1])),
                state: Buffer::plain(&[0; STATE_BYTES + 1]),
                ..recovery_of(SMALL, page, &chip(page, &[&save]))
            };
            for (number, plan) in (1..).zip(refused_examples()) {
                let plan = Buffer::plain(&plan);
                let call = Call {
                    plan,
                    ..all.clone()
                };
                assert_eq!(agreed(&Library, &call).0, number);
            }
            assert_eq!(agreed(&Library, &all).0, 9);
            let sets = Buffer::plain(&word_bytes(&[0; SET_WORDS]));
            let call = Call { sets, ..all };
            assert_eq!(agreed(&Library, &call).0, 10);
            let state = Buffer::plain(&[0; STATE_BYTES]);
            let call = Call { state, ..call };
            assert_eq!(agreed(&Library, &call).0, last);
        }
    }
}

/// "folding gives only 16, before 13": the new chip may be anything.
#[test]
fn of_a_fold_16_comes_before_13_and_14() {
    let other = naming(&FIRST, owner(SMALL) + 1);
    for (new, stored) in [
        (vec![ERASED; 60], 0),
        (vec![0x00; 60], 0),
        (vec![ERASED; 60], u64::MAX),
        (vec![ERASED; 3], 0),
        (vec![], 0),
    ] {
        let call = Call {
            new_chip: Buffer::plain(&new),
            stored,
            ..fold_of(&[&other])
        };
        assert_eq!(agreed(&Library, &call).0, 16);
    }
}
