//! The library's recovery through C on chosen calls and random chips, held to the reference: on the result and on every
//! byte of every buffer. Where document 01 says the answer outright, it is stated here as well.

use differential::buffer::Buffer;
use differential::call::{agreed, sets_of, word_bytes, Call, Entry, Library, SET_WORDS};
use differential::examples::SMALL;
use differential::journals::{self, altered, filled, plans};
use differential::plans::refused_examples;
use differential::rng::Rng;
use reference::journal::{read, BYTE_CHIP, ERASED, MARK_A2, MARK_A3, MARK_END, MAX_CHIP, RECORD};
use reference::layout::STATE_BYTES;
use reference::machine::{Mark, State};

/// The small plan's first two saves, with readings 5 and 7.
const SAVES: [u8; 48] = [
    0xA1, 0x00, 0x05, 0x00, 0x00, 0x00, 0xA3, 0x11, 0x00, 0x0F, 0x00, 0x01, 0x00, 0x00, 0x00, 0x01,
    0x00, 0x00, 0x00, 0x14, 0x00, 0x44, 0x00, 0x5A, 0xA1, 0x00, 0x0C, 0x00, 0x00, 0x00, 0xA3, 0x11,
    0x00, 0x0F, 0x00, 0x02, 0x00, 0x00, 0x00, 0x02, 0x00, 0x00, 0x00, 0x14, 0x00, 0x44, 0x00, 0x5A,
];

/// The state that an accepted call leaves.
#[track_caller]
fn recovered(call: &Call) -> State {
    let (result, left) = agreed(&Library, call);
    assert_eq!(result, 0);
    State::from_bytes(left.state.lent()).expect("recovery leaves a state")
}

#[track_caller]
fn refused(call: &Call, number: u32) {
    assert_eq!(agreed(&Library, call).0, number);
}

/// A recovery of the small plan.
fn small(chip: &[u8]) -> Call {
    Call::recover(SMALL, &sets_of(SMALL), chip, &[0xA5; STATE_BYTES])
}

/// The first bytes of the small plan's saves, then FF up to 60.
fn stored(bytes: usize) -> Vec<u8> {
    let mut chip = SAVES[..bytes].to_vec();
    chip.resize(60, ERASED);
    chip
}

#[test]
fn an_erased_chip_gives_the_first_state() {
    for length in [0, 1, 60, MAX_CHIP] {
        assert_eq!(recovered(&small(&vec![ERASED; length])), State::first());
    }
}

#[test]
fn cut_after_33_bytes_cell_0_is_5_and_both_counts_are_1() {
    let state = recovered(&small(&stored(33)));
    assert_eq!((state.cells[0], state.readings, state.outputs), (5, 1, 1));
    assert_eq!((state.place, state.exclude), (17, 15));
    assert_eq!((state.write, state.erase), (24, 9));
    assert_eq!(
        state.marks[..4],
        [Mark::Include, Mark::Dead, Mark::Dead, Mark::Include]
    );
}

#[test]
fn a_save_counts_from_its_last_byte_on() {
    for bytes in 0..=SAVES.len() {
        let state = recovered(&small(&stored(bytes)));
        let whole = bytes / 24;
        assert_eq!(state.cells[0], [0, 5, 12][whole]);
        assert_eq!(state.write as usize, 24 * whole);
        assert_eq!(state.erase as usize, bytes - 24 * whole);
    }
}

/// How many of the 256 bytes recovery accepts in each place of the two saves. A cell is one of three, a value any, an
/// EXCLUDE the plan's or none. A count of the first mark is at most 2, one of the second at least 1. Of what names the
/// plan each other byte gives 16. FF in place of the last 5A leaves a torn save. All others give 12.
const ACCEPTED: [usize; 48] = [
    1, 3, 256, 256, 256, 256, 1, 1, 1, 2, 1, 3, 1, 1, 1, 3, 1, 1, 1, 1, 1, 1, 1, 1, //
    1, 3, 256, 256, 256, 256, 1, 1, 1, 2, 1, 255, 256, 256, 256, 255, 256, 256, 256, 1, 1, 1, 1, 2,
];

#[test]
fn every_byte_in_every_place_of_two_saves() {
    for (at, accepted) in ACCEPTED.into_iter().enumerate() {
        let result = |byte: u8| {
            let mut chip = stored(48);
            chip[at] = byte;
            agreed(&Library, &small(&chip)).0
        };
        let results: Vec<u32> = (0..=255).map(result).collect();
        let count = |number: u32| results.iter().filter(|found| **found == number).count();
        let names_plan = matches!(at % 24, 19..23);
        let other = if names_plan { 16 } else { 12 };
        assert_eq!(
            (count(0), count(other)),
            (accepted, 256 - accepted),
            "at {at}"
        );
    }
}

#[test]
fn the_examples_of_the_table_of_refusals() {
    for (number, plan) in (1..).zip(refused_examples()) {
        let plan = Buffer::plain(&plan);
        refused(&Call { plan, ..small(&[]) }, number);
    }
    let sets = Buffer::plain(&word_bytes(&sets_of(SMALL)[..511]));
    refused(&Call { sets, ..small(&[]) }, 9);
    refused(&small(&[ERASED; MAX_CHIP + 1]), 11);
    refused(&small(&[0x00, ERASED]), 12);
}

#[test]
fn of_several_refusals_the_lowest_is_given() {
    // What gives 9, 10, 11 and 12 stands in all of them, so each number is given before those above it.
    let all = Call {
        sets: Buffer::plain(&[0; 8 * SET_WORDS - 1]),
        state: Buffer::plain(&[0; STATE_BYTES + 1]),
        ..small(&[0x00; MAX_CHIP + 1])
    };
    for (number, plan) in (1..).zip(refused_examples()) {
        let plan = Buffer::plain(&plan);
        refused(
            &Call {
                plan,
                ..all.clone()
            },
            number,
        );
    }
    refused(&all, 9);
    let sets = small(&[]).sets;
    refused(
        &Call {
            sets,
            ..all.clone()
        },
        10,
    );
    let (sets, state) = (small(&[]).sets, small(&[]).state);
    let call = Call { sets, state, ..all };
    refused(&call, 11);
    let chip = Buffer::plain(&[0x00; MAX_CHIP]);
    refused(&Call { chip, ..call }, 12);
}

#[test]
fn of_a_state_only_the_length_is_tested() {
    for length in 0..=2 * STATE_BYTES + 1 {
        let state = Buffer::plain(&vec![0xFF; length]);
        let call = Call {
            state,
            ..small(&stored(33))
        };
        refused(&call, if length == STATE_BYTES { 0 } else { 10 });
    }
    let mut rng = Rng::new(0x5EC0_0000_0000_0001);
    let expected = recovered(&small(&stored(33)));
    for _ in 0..50 {
        let state = Buffer::new(STATE_BYTES, 0, || rng.byte());
        let call = Call {
            state,
            ..small(&stored(33))
        };
        assert_eq!(recovered(&call), expected);
    }
}

#[test]
fn bits_of_missing_cells_count_as_0_and_later_words_as_nothing() {
    let expected = recovered(&small(&stored(48)));
    let mut words = sets_of(SMALL);
    for word in words.iter_mut().take(8) {
        *word |= !0b111;
    }
    words[1..4].fill(u64::MAX);
    words[5..].fill(u64::MAX);
    for rest in 0..17 {
        let mut bytes = word_bytes(&words);
        bytes.resize(bytes.len() + rest, 0x11);
        let call = Call {
            sets: Buffer::plain(&bytes),
            ..small(&stored(48))
        };
        assert_eq!(recovered(&call), expected);
    }
}

#[test]
fn marks_by_the_last_exclude_alone() {
    // EXCLUDE, CHECKPOINT, EXCLUDE, CHECKPOINT, END with four cells.
    let plan = [0x03, 0x0D, 0x0E, 0x0D, 0x0E, 0x01];
    let mut words = [0; SET_WORDS];
    words[..4].fill(u64::MAX);
    // By the second: cell 0 in neither, 1 in RO, 2 in DE, 3 in both.
    (words[8], words[12]) = (0b1100, 0b1010);
    // The plan has 6 bytes, and their sum is 58.
    let save = |exclude: u8| {
        [
            0xA3, 0x05, 0, exclude, 0, 0, 0, 0, 0, 0, 0, 0, 0, 6, 0, 58, 0, 0x5A,
        ]
    };
    let marks = |chip: &[u8]| {
        let call = Call::recover(&plan, &words, chip, &[0xA5; STATE_BYTES]);
        recovered(&call).marks[..5].to_vec()
    };
    use Mark::*;
    assert_eq!(marks(&save(0)), [Include; 5]);
    assert_eq!(marks(&save(1)), [Dead, Dead, Dead, Dead, Include]);
    let mixed = [Include, Kept, Dead, Dead, Include];
    assert_eq!(marks(&[save(1), save(3)].concat()), mixed);
}

#[test]
fn full_chips() {
    let mut rng = Rng::new(0x5EC0_0000_0000_0002);
    for plan in plans() {
        let chip = filled(&mut rng, &plan, MAX_CHIP, BYTE_CHIP);
        let call = Call::recover(&plan, &[u64::MAX; SET_WORDS], &chip, &[0; STATE_BYTES]);
        let state = recovered(&call);
        assert!(state.write > 60_000, "{}", state.write);
    }
}

/// A recovery of each plan with its own sets, on no chip yet.
fn of_plans() -> Vec<Call> {
    let call = |plan: Vec<u8>| Call::recover(&plan, &sets_of(&plan), &[], &[0xA5; STATE_BYTES]);
    plans().into_iter().map(call).collect()
}

fn on_chip(call: &Call, chip: &[u8]) -> Call {
    Call {
        chip: Buffer::plain(chip),
        ..call.clone()
    }
}

#[test]
fn saves_torn_at_every_length() {
    let mut rng = Rng::new(0xC41B_0000_0000_0005);
    for call in of_plans() {
        let saves = filled(&mut rng, call.plan.lent(), 4_000, BYTE_CHIP);
        for bytes in 0..=saves.len() {
            let mut chip = saves[..bytes].to_vec();
            chip.resize(saves.len(), ERASED);
            let state = recovered(&on_chip(&call, &chip));
            assert!((state.write + state.erase) as usize <= bytes);
        }
    }
}

#[test]
fn chips_as_the_engine_leaves_them() {
    let mut rng = Rng::new(0xC41B_0000_0000_0001);
    let calls = of_plans();
    for _ in 0..50_000 {
        let call = &calls[rng.below(calls.len())];
        let chip = journals::stored(&mut rng, call.plan.lent(), BYTE_CHIP);
        recovered(&on_chip(call, &chip));
    }
}

#[test]
fn altered_chips() {
    let mut rng = Rng::new(0xC41B_0000_0000_0002);
    let calls = of_plans();
    let mut damaged = 0;
    let count = 50_000;
    for _ in 0..count {
        let call = &calls[rng.below(calls.len())];
        let chip = journals::stored(&mut rng, call.plan.lent(), BYTE_CHIP);
        let call = on_chip(call, &altered(&mut rng, chip));
        damaged += usize::from(agreed(&Library, &call).0 == 12);
    }
    println!("{damaged} of {count} altered chips are damaged");
    assert!(damaged > count / 4 && damaged < 3 * count / 4, "{damaged}");
}

#[test]
fn chips_of_bytes_that_mean_something() {
    let mut rng = Rng::new(0xC41B_0000_0000_0003);
    let calls = of_plans();
    let some = [
        RECORD, MARK_A2, MARK_A3, MARK_END, 0x00, 0x01, 0x02, 0x03, ERASED,
    ];
    for _ in 0..20_000 {
        let call = &calls[rng.below(calls.len())];
        let length = rng.below(40);
        let mut chip: Vec<u8> = (0..length).map(|_| rng.pick(&some)).collect();
        agreed(&Library, &on_chip(call, &chip));
        chip.truncate(3);
        agreed(&Library, &on_chip(call, &chip));
    }
}

#[test]
fn every_beginning_of_three_bytes() {
    // With one whole save before them: all pairs of bytes after A1, after A2, and after A3.
    let mut rng = Rng::new(0xC41B_0000_0000_0004);
    for call in of_plans() {
        let plan = call.plan.lent();
        let before = loop {
            let chip = journals::stored(&mut rng, plan, BYTE_CHIP);
            let held = read(plan, &chip, BYTE_CHIP).expect("the engine leaves a sound chip");
            if !held.saves.is_empty() {
                break chip[..held.end].to_vec();
            }
        };
        for tag in [RECORD, MARK_A2, MARK_A3] {
            for pair in 0..=u16::MAX {
                let [low, high] = pair.to_le_bytes();
                let chip = [&before[..], &[tag, low, high]].concat();
                agreed(&Library, &on_chip(&call, &chip));
            }
        }
    }
}

#[test]
fn buffers_at_any_address() {
    let call = small(&stored(33));
    for shift in 0..8 {
        // No two buffers have the same shift.
        let at = |buffer: &Buffer, more: usize| buffer.shifted((shift + more) % 8);
        let state = recovered(&Call {
            plan: at(&call.plan, 0),
            sets: at(&call.sets, 1),
            chip: at(&call.chip, 2),
            state: at(&call.state, 3),
            ..call.clone()
        });
        assert_eq!(state.cells[0], 5);
    }
}

#[test]
fn null_pointers() {
    let nothing = Call {
        nulls: true,
        ..Call::new(Entry::Recover)
    };
    refused(&nothing, 1);
    let with_plan = Call {
        plan: small(&[]).plan,
        ..nothing
    };
    refused(&with_plan, 9);
    let with_sets = Call {
        sets: small(&[]).sets,
        ..with_plan
    };
    refused(&with_sets, 10);
    let with_state = Call {
        state: small(&[]).state,
        ..with_sets
    };
    assert_eq!(recovered(&with_state), State::first());
}
