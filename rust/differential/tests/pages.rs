//! The library's two page entries through C on chosen calls, held to the reference: on the result, on the numbers and on
//! every byte of every buffer. Where documents 01 and 02 say the answer outright, it is stated here as well.

use differential::buffer::Buffer;
use differential::call::{
    agreed, number_bytes, numbers, sets_of, word_bytes, Call, Entry, Library, SET_WORDS,
};
use differential::examples::SMALL;
use differential::plans::refused_examples;
use reference::journal::{ERASED, MARK_A3, MARK_END, MAX_CHIP, RECORD};
use reference::layout::STATE_BYTES;
use reference::machine::{Mark, State, Stop};

const READINGS: [i32; 3] = [5, 7, -2];

/// The small plan's first two saves, with readings 5 and 7.
const FIRST: [u8; 24] = [
    0xA1, 0x00, 0x05, 0x00, 0x00, 0x00, 0xA3, 0x11, 0x00, 0x0F, 0x00, 0x01, 0x00, 0x00, 0x00, 0x01,
    0x00, 0x00, 0x00, 0x14, 0x00, 0x44, 0x00, 0x5A,
];
const SECOND: [u8; 24] = [
    0xA1, 0x00, 0x0C, 0x00, 0x00, 0x00, 0xA3, 0x11, 0x00, 0x0F, 0x00, 0x02, 0x00, 0x00, 0x00, 0x02,
    0x00, 0x00, 0x00, 0x14, 0x00, 0x44, 0x00, 0x5A,
];

/// A plan of five cells that saves all of them twice, 48 bytes each: CHECKPOINT, CHECKPOINT, END.
const WHOLE_PAGES: [u8; 4] = [0x04, 0x0E, 0x0E, 0x01];

#[track_caller]
fn accepted(call: &Call) -> Call {
    let (result, left) = agreed(&Library, call);
    assert_eq!(result, 0);
    left
}

#[track_caller]
fn refused(call: &Call, number: u32) {
    assert_eq!(agreed(&Library, call).0, number);
}

fn state_of(call: &Call) -> State {
    State::from_bytes(call.state.lent()).expect("an accepted call leaves a state")
}

/// The saves, each filled with FF to 32 bytes, and FF up to 96.
fn pages(saves: &[&[u8]]) -> Vec<u8> {
    let mut chip = Vec::new();
    for save in saves {
        chip.extend(*save);
        chip.resize(chip.len().next_multiple_of(32), ERASED);
    }
    chip.resize(96, ERASED);
    chip
}

/// A recovery of the small plan from a page chip.
fn recovery(chip: &[u8]) -> Call {
    Call {
        entry: Entry::PageRecover,
        ..Call::recover(SMALL, &sets_of(SMALL), chip, &[0xA5; STATE_BYTES])
    }
}

/// A run of the small plan with a page chip, document 01's readings and all that it needs.
fn run_from(state: &State, chip: &[u8]) -> Call {
    Call {
        entry: Entry::PageRun,
        readings: Buffer::plain(&number_bytes(&READINGS)),
        outputs: Buffer::plain(&number_bytes(&[-77; 4])),
        budget: 1_000,
        ..Call::run(SMALL, &sets_of(SMALL), chip, &state.to_bytes())
    }
}

/// The same from the first state on an erased chip.
fn run_on(length: usize) -> Call {
    run_from(&State::first(), &vec![ERASED; length])
}

#[test]
fn two_pages_hold_the_first_save_and_one_none() {
    for (length, saves) in [(0, 0), (16, 0), (32, 1), (48, 1), (64, 2)] {
        let left = accepted(&run_on(length));
        assert_eq!(numbers(left.outputs.lent()), [5, 12, 10, -77]);
        let chip = pages(&[&FIRST[..], &SECOND][..saves]);
        assert_eq!(left.chip.lent(), &chip[..length]);
    }
    refused(&run_on(31), 11);
    refused(&run_on(24), 11);
}

#[test]
fn a_step_stores_a_page() {
    // SET, READ, ADD, EMIT, EXCLUDE, and the CHECKPOINT that begins to save.
    for (budget, stored) in [(6, 0), (7, 16), (8, 32), (9, 32)] {
        let left = accepted(&Call {
            budget,
            ..run_on(96)
        });
        assert_eq!(state_of(&left).write, stored);
        let mut chip = pages(&[&FIRST]);
        chip[stored as usize..].fill(ERASED);
        assert_eq!(left.chip.lent(), chip);
    }
    // SET, then for each reading four commands, a CHECKPOINT with its two pages, and JUMP.
    let ran = accepted(&run_on(96)).ran();
    assert_eq!((ran.ended, ran.steps), (5, 1 + 3 * (4 + 1 + 2 + 1)));
}

#[test]
fn a_save_that_ends_a_page_has_no_filling() {
    let mut call = run_on(96);
    call.plan = Buffer::plain(&WHOLE_PAGES);
    let left = accepted(&call);
    // Two CHECKPOINTs with three pages each, and END.
    assert_eq!((left.ran().ended, left.ran().steps), (1, 2 * (1 + 3) + 1));
    assert_eq!(left.chip.lent()[47], MARK_END);
    assert_eq!(left.chip.lent()[48..50], [RECORD, 0]);
    let again = Call {
        plan: Buffer::plain(&WHOLE_PAGES),
        ..recovery(left.chip.lent())
    };
    let state = state_of(&accepted(&again));
    assert_eq!((state.write, state.erase, state.place), (96, 0, 3));
}

#[test]
fn cut_between_its_two_pages_the_first_save_is_torn() {
    let mut chip = pages(&[&FIRST]);
    chip[16..].fill(ERASED);
    let mut expected = State::first();
    expected.erase = 16;
    let recovered = state_of(&accepted(&recovery(&chip)));
    assert_eq!(recovered, expected);
    let call = run_from(&recovered, &chip);
    let left = accepted(&Call { budget: 1, ..call });
    assert_eq!(left.chip.lent(), [ERASED; 96]);
    assert_eq!(state_of(&left), State::first());
}

#[test]
fn a_torn_page_counts_whole_wherever_the_remainder_ends() {
    for bytes in 1..24 {
        let torn = if bytes <= 16 { 16 } else { 32 };
        let first = state_of(&accepted(&recovery(&pages(&[&FIRST[..bytes]]))));
        assert_eq!((first.write, first.erase, first.place), (0, torn, 1));
        let second = pages(&[&FIRST, &SECOND[..bytes]]);
        let second = state_of(&accepted(&recovery(&second)));
        assert_eq!((second.write, second.erase, second.place), (32, torn, 17));
        assert_eq!((second.cells[0], second.readings), (5, 1));
    }
    let whole = state_of(&accepted(&recovery(&pages(&[&FIRST, &SECOND]))));
    assert_eq!((whole.write, whole.erase, whole.cells[0]), (64, 0, 12));
}

#[test]
fn torn_pages_are_erased_the_highest_first() {
    let mut state = State::first();
    (state.write, state.erase) = (16, 64);
    let call = run_from(&state, &[0x00; 96]);
    for budget in 0..=4 {
        let left = accepted(&Call {
            budget,
            ..call.clone()
        });
        let mut chip = [0x00; 96];
        chip[80 - 16 * budget as usize..80].fill(ERASED);
        assert_eq!(left.chip.lent(), chip);
        assert_eq!(state_of(&left).erase, 64 - 16 * budget as u32);
    }
}

#[test]
fn every_byte_in_every_place_of_the_filling() {
    for (chip, filling) in [
        (pages(&[&FIRST]), 24..32),
        (pages(&[&FIRST, &SECOND]), 24..32),
        (pages(&[&FIRST, &SECOND]), 56..64),
        (pages(&[&FIRST, &SECOND])[..64].to_vec(), 56..64),
    ] {
        for at in filling {
            for byte in 0..=0xFF {
                let mut chip = chip.clone();
                chip[at] = byte;
                refused(&recovery(&chip), if byte == ERASED { 0 } else { 12 });
            }
        }
    }
}

#[test]
fn each_length_about_a_page_and_about_the_longest() {
    for length in (0..=65).chain(MAX_CHIP - 33..=MAX_CHIP + 33) {
        let is_whole = length % 16 == 0 && length <= MAX_CHIP;
        let result = if is_whole { 0 } else { 11 };
        refused(&recovery(&vec![ERASED; length]), result);
        refused(&run_on(length), result);
    }
}

#[test]
fn of_several_refusals_the_lowest_is_given() {
    let with_plan = |call: Call, plan: &[u8]| Call {
        plan: Buffer::plain(plan),
        ..call
    };
    // A chip that is damaged and no whole pages, a state of another length, and too few words.
    let recovery_of = |words: usize, state: usize, chip: usize| Call {
        sets: Buffer::plain(&word_bytes(&vec![0; words])),
        state: Buffer::plain(&vec![0xFF; state]),
        ..recovery(&vec![0x00; chip])
    };
    let all = recovery_of(SET_WORDS - 1, STATE_BYTES + 1, 17);
    for (number, plan) in (1..).zip(refused_examples()) {
        refused(&with_plan(all.clone(), &plan), number);
        refused(&with_plan(run_on(17), &plan), number);
    }
    refused(&all, 9);
    refused(&recovery_of(SET_WORDS, STATE_BYTES + 1, 17), 10);
    refused(&recovery_of(SET_WORDS, STATE_BYTES, 17), 11);
    refused(&recovery_of(SET_WORDS, STATE_BYTES, 16), 12);
}

#[test]
fn ten_comes_before_eleven() {
    // On a chip of 20 bytes.
    let mut state = State::first();
    refused(&run_from(&state, &[ERASED; 20]), 11);
    state.write = 16;
    refused(&run_from(&state, &[ERASED; 20]), 11);
    state.write = 20;
    refused(&run_from(&state, &[ERASED; 20]), 10);
    state.write = 32;
    refused(&run_from(&state, &[ERASED; 20]), 10);
    state = State::first();
    state.stop = Some(Stop::Ended);
    refused(&run_from(&state, &[ERASED; 20]), 11);
}

#[test]
fn the_remaining_bytes_fit_with_their_filling() {
    // A save of cells 0 and 2 at the small plan's CHECKPOINT: 30 bytes, and 2 of filling.
    for length in 0..=70 {
        for (write, stored) in [(0, 0), (16, 0), (16, 16), (32, 16)] {
            let mut state = State::first();
            state.marks[1] = Mark::Dead;
            (state.place, state.write, state.saving) = (16, write, Some(stored));
            let fits = (write + 32 - stored) as usize <= length;
            let result = match (fits, length % 16) {
                (false, _) => 10,
                (true, 0) => 0,
                (true, _) => 11,
            };
            refused(&run_from(&state, &vec![ERASED; length]), result);
        }
    }
}

#[test]
fn what_a_state_counts_it_counts_in_pages() {
    for bytes in 0..=96 {
        let with = |alter: fn(&mut State, u32)| {
            let mut state = State::first();
            alter(&mut state, bytes);
            run_from(&state, &[ERASED; 96])
        };
        let result = if bytes % 16 == 0 { 0 } else { 10 };
        refused(&with(|state, bytes| state.write = bytes), result);
        refused(&with(|state, bytes| state.erase = bytes), result);
        // Before the first EXCLUDE a save has 36 bytes, so three pages.
        let result = if bytes < 48 { result } else { 10 };
        let saving = with(|state, bytes| (state.place, state.saving) = (16, Some(bytes)));
        refused(&saving, result);
    }
    for (write, erase) in [(0xFFFF_FFF0, 16), (16, 0xFFFF_FFF0), (1 << 31, 1 << 31)] {
        let mut state = State::first();
        (state.write, state.erase) = (write, erase);
        refused(&run_from(&state, &[ERASED; 96]), 10);
    }
}

#[test]
fn a_chip_of_the_other_kind() {
    // As a byte chip has them, the second save stands in the first one's filling.
    let mut bytes = [FIRST, SECOND].concat();
    bytes.resize(48, ERASED);
    refused(&recovery(&bytes), 12);
    let of_bytes = |chip: &[u8]| Call {
        entry: Entry::Recover,
        ..recovery(chip)
    };
    assert_eq!(state_of(&accepted(&of_bytes(&bytes))).write, 48);
    // As a page chip has them, FF stands where the byte chip's second save would begin.
    refused(&of_bytes(&pages(&[&FIRST, &SECOND])), 12);
    // One save alone reads both ways, and so does a torn one.
    let one = pages(&[&FIRST]);
    assert_eq!(state_of(&accepted(&of_bytes(&one))).write, 24);
    assert_eq!(state_of(&accepted(&recovery(&one))).write, 32);
    let torn = [&[MARK_A3, 0x11], &[ERASED; 14][..]].concat();
    assert_eq!(state_of(&accepted(&of_bytes(&torn))).erase, 2);
    assert_eq!(state_of(&accepted(&recovery(&torn))).erase, 16);
}

#[test]
fn a_state_of_the_other_kind() {
    let chip = pages(&[&FIRST]);
    let of_bytes = Call {
        entry: Entry::Recover,
        ..recovery(&chip)
    };
    // The write position is 24, in a page.
    let state = state_of(&accepted(&of_bytes));
    refused(&run_from(&state, &chip), 10);
    // What a page chip's calls count in pages is sound for a byte chip.
    let state = state_of(&accepted(&recovery(&chip)));
    accepted(&run_from(&state, &chip));
    accepted(&Call {
        entry: Entry::Run,
        ..run_from(&state, &chip)
    });
}

#[test]
fn every_length_of_a_state() {
    for length in 0..=2 * STATE_BYTES + 1 {
        let mut bytes = State::first().to_bytes().to_vec();
        bytes.resize(length, 0);
        let result = if length == STATE_BYTES { 0 } else { 10 };
        for call in [recovery(&[]), run_on(0)] {
            let state = Buffer::plain(&bytes);
            refused(&Call { state, ..call }, result);
        }
    }
}

#[test]
fn buffers_at_any_address() {
    let recovery = recovery(&pages(&[&FIRST, &SECOND[..7]]));
    let run = run_on(96);
    for shift in 0..8 {
        // No two buffers have the same shift.
        let at = |buffer: &Buffer, more: usize| buffer.shifted((shift + more) % 8);
        let shifted = |call: &Call| Call {
            plan: at(&call.plan, 0),
            sets: at(&call.sets, 1),
            chip: at(&call.chip, 2),
            state: at(&call.state, 3),
            readings: at(&call.readings, 4),
            outputs: at(&call.outputs, 5),
            ..call.clone()
        };
        assert_eq!(state_of(&accepted(&shifted(&recovery))).erase, 16);
        assert_eq!(accepted(&shifted(&run)).ran().given, 3);
    }
}

#[test]
fn null_pointers() {
    for entry in [Entry::PageRecover, Entry::PageRun] {
        let nothing = Call {
            nulls: true,
            ..Call::new(entry)
        };
        refused(&nothing, 1);
        let with_plan = Call {
            plan: run_on(0).plan,
            ..nothing
        };
        refused(&with_plan, 9);
        let with_sets = Call {
            sets: run_on(0).sets,
            ..with_plan
        };
        refused(&with_sets, 10);
        let with_state = Call {
            state: run_on(0).state,
            ..with_sets
        };
        assert_eq!(state_of(&accepted(&with_state)), State::first());
    }
}
