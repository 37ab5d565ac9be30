//! The library's folding through C on chosen calls, held to the reference: on the result, on the
//! numbers and on every byte of every buffer. Where documents 01 and 02 say the answer
//! outright, it is stated here as well. And chips, also such as until Q-8, that are folded with a cut
//! after every byte, and recovered.

use claim::folds::found_number;
use claim::Met;
use differential::buffer::Buffer;
use differential::call::{agreed, sets_of, word_bytes, Call, Entry, Folded, Library, SET_WORDS};
use differential::examples::{mean, programs, FIRST, SECOND, SMALL};
use differential::folds::save_of;
use differential::journals::{every_cell, filled, left, stored_with};
use differential::plans::refused_examples;
use differential::rng::Rng;
use reference::journal::{read, Kind, BYTE_CHIP, ERASED, MAX_CHIP, RECORD};
use reference::layout::STATE_BYTES;
use reference::machine::State;
use reference::Machine;

/// Where a state has the write position and the bytes to erase (docs/STATE.md).
const WRITE: usize = 1_300;
const ERASE: usize = 1_304;

/// A fold of the small plan's chip.
fn small(old: &[u8], new: &[u8], stored: u64, budget: u64) -> Call {
    Call {
        stored,
        budget,
        ..Call::fold(SMALL, &sets_of(SMALL), old, new)
    }
}

/// The chip with FF up to this length.
fn erased(chip: &[u8], length: usize) -> Vec<u8> {
    let mut chip = chip.to_vec();
    chip.resize(length, ERASED);
    chip
}

fn record(cell: u8, value: i32) -> Vec<u8> {
    [&[RECORD, cell][..], &value.to_le_bytes()].concat()
}

/// What an accepted call leaves: its numbers, and the new chip.
#[track_caller]
fn accepted(call: &Call) -> (Folded, Vec<u8>) {
    let (result, left) = agreed(&Library, call);
    assert_eq!(result, 0);
    (left.folded(), left.new_chip.lent().to_vec())
}

fn answer(stored: u64, finished: u32) -> Folded {
    Folded { stored, finished }
}

#[track_caller]
fn refused(call: &Call, number: u32) {
    assert_eq!(agreed(&Library, call).0, number);
}

#[test]
fn the_first_save_folds_to_itself() {
    for length in [24, 25, 60, MAX_CHIP] {
        let call = small(&erased(&FIRST, 60), &erased(&[], length), 0, u64::MAX);
        let whole = (answer(24, 1), erased(&FIRST, length));
        assert_eq!(accepted(&call), whole);
    }
}

#[test]
fn of_two_saves_and_a_torn_rest_the_second_is_left() {
    // The second save has the one cell again, and its counts.
    let torn = &FIRST[..7];
    for old in [
        [&FIRST[..], &SECOND].concat(),
        [&FIRST, &SECOND, torn].concat(),
    ] {
        let call = small(&old, &[ERASED; 24], 0, 24);
        assert_eq!(accepted(&call), (answer(24, 1), SECOND.to_vec()));
    }
    let call = small(&[&FIRST[..], &SECOND[..23]].concat(), &[ERASED; 24], 0, 24);
    assert_eq!(accepted(&call), (answer(24, 1), FIRST.to_vec()));
}

#[test]
fn cells_that_are_not_0_by_rising_number() {
    let mark = &SECOND[6..];
    let old = [
        [record(2, -7), record(1, 9), record(0, 0)].concat(),
        FIRST[6..].to_vec(),
        [record(1, 300), mark.to_vec()].concat(),
    ];
    let save = [record(1, 300), record(2, -7), mark.to_vec()].concat();
    let call = small(&old.concat(), &[ERASED; 34], 0, 100);
    assert_eq!(accepted(&call), (answer(30, 1), erased(&save, 34)));
    // All of value 0: the MARK alone.
    let old = [record(1, 0), record(0, 0), mark.to_vec()].concat();
    let call = small(&old, &[ERASED; 18], 0, 100);
    assert_eq!(accepted(&call), (answer(18, 1), mark.to_vec()));
}

#[test]
fn without_a_whole_save_the_new_chip_stays_blank() {
    for old in [&[][..], &[ERASED; 60], &FIRST[..23]] {
        for length in [0, 1, 24, MAX_CHIP] {
            let blank = vec![ERASED; length];
            for budget in [0, 1, u64::MAX] {
                let call = small(old, &blank, 0, budget);
                assert_eq!(accepted(&call), (answer(0, 1), blank.clone()));
            }
            for stored in [1, length as u64 + 1, u64::MAX] {
                refused(&small(old, &blank, stored, 1), 13);
            }
        }
        refused(&small(old, &[ERASED, 0xFE], 0, 1), 13);
    }
}

#[test]
fn every_number_with_every_budget() {
    for stored in 0..=24 {
        let new = erased(&FIRST[..stored], 26);
        for budget in 0..=26 {
            let now = 24.min(stored + budget);
            let call = small(&FIRST, &new, stored as u64, budget as u64);
            let finished = u32::from(now == 24);
            let left = erased(&FIRST[..now], 26);
            assert_eq!(accepted(&call), (answer(now as u64, finished), left));
        }
        for budget in [1 << 32, (1 << 32) + 1, u64::MAX - stored as u64, u64::MAX] {
            let call = small(&FIRST, &new, stored as u64, budget);
            assert_eq!(accepted(&call), (answer(24, 1), erased(&FIRST, 26)));
        }
    }
}

#[test]
fn where_the_save_has_ff_each_right_number_works() {
    // A1, cell 0 and the value -1: bytes 2 to 5 are FF.
    let old = [record(0, -1), FIRST[6..].to_vec()].concat();
    let new = erased(&[RECORD, 0], 24);
    for stored in 0..=7 {
        let call = small(&old, &new, stored, u64::MAX);
        match stored {
            2..=6 => assert_eq!(accepted(&call), (answer(24, 1), old.clone())),
            _ => refused(&call, 13),
        }
    }
    // With the budget spent there, the number counts the FF.
    let call = small(&old, &new, 2, 3);
    assert_eq!(accepted(&call), (answer(5, 0), new));
}

#[test]
fn every_byte_in_every_place_of_the_new_chip() {
    for stored in [0, 7, 24] {
        let new = erased(&FIRST[..stored], 26);
        for at in 0..26 {
            for byte in 0..=0xFF {
                let mut altered = new.clone();
                altered[at] = byte;
                let result = if altered == new { 0 } else { 13 };
                refused(&small(&FIRST, &altered, stored as u64, 3), result);
            }
        }
    }
}

#[test]
fn every_number_on_every_length() {
    for length in 0..=29 {
        for there in 0..=length.min(24) {
            let new = erased(&FIRST[..there], length);
            for stored in 0..=34 {
                let result = match (stored == there, length >= 24) {
                    (false, _) => 13,
                    (true, false) => 14,
                    (true, true) => 0,
                };
                refused(&small(&FIRST, &new, stored as u64, 1), result);
            }
        }
    }
}

#[test]
fn numbers_far_beyond_the_save() {
    let new = erased(&FIRST, 29);
    let far = [MAX_CHIP as u64, 1 << 32, 1 << 63, u64::MAX];
    // Of some the lower half is the right number.
    for stored in (25..=30).chain(far).chain(far.map(|far| far | 24)) {
        refused(&small(&FIRST, &new, stored, 1), 13);
    }
}

#[test]
fn the_examples_of_the_table_of_refusals() {
    let whole = small(&FIRST, &[ERASED; 24], 0, 1);
    for (number, plan) in (1..).zip(refused_examples()) {
        let plan = Buffer::plain(&plan);
        refused(
            &Call {
                plan,
                ..whole.clone()
            },
            number,
        );
    }
    for length in [0, 8 * SET_WORDS - 8, 8 * SET_WORDS - 1] {
        let sets = Buffer::plain(&vec![0; length]);
        refused(
            &Call {
                sets,
                ..whole.clone()
            },
            9,
        );
    }
    refused(&small(&[ERASED; MAX_CHIP + 1], &[], 0, 1), 11);
    refused(&small(&[], &[ERASED; MAX_CHIP + 1], 0, 1), 11);
    refused(&small(&[0x00, ERASED], &[], 0, 1), 12);
}

/// A call with what gives each of these refusals, and nothing that gives another.
fn with_grounds(grounds: &[u32]) -> Call {
    let has = |number: u32| grounds.contains(&number);
    let words = if has(9) { SET_WORDS - 1 } else { SET_WORDS };
    let mut old = FIRST.to_vec();
    // Another sum, and behind the whole save what begins none.
    old[21] += u8::from(has(16));
    old.extend(has(12).then_some(0x00));
    let length = if has(14) { 23 } else { 24 };
    let mut new = vec![ERASED; length];
    // 11 is one chip's, or the other's where 14 needs the new one short.
    match (has(11), has(14)) {
        (true, true) => old.resize(MAX_CHIP + 1, ERASED),
        (true, false) => new.resize(MAX_CHIP + 1, ERASED),
        _ => {}
    }
    if has(13) {
        new[3] = 0x00;
    }
    Call {
        sets: Buffer::plain(&word_bytes(&vec![0; words])),
        ..small(&old, &new, 0, 1)
    }
}

#[test]
fn of_several_refusals_the_lowest_is_given() {
    // In the order in which they are tried: 16 comes after 12 and before 13.
    let numbers = [9, 11, 12, 16, 13, 14];
    for some in 0..1 << numbers.len() {
        let is_among = |k: &usize| some >> k & 1 == 1;
        let grounds: Vec<u32> = (0..6).filter(is_among).map(|k| numbers[k]).collect();
        let call = with_grounds(&grounds);
        refused(&call, grounds.first().copied().unwrap_or(0));
        for (number, plan) in (1..).zip(refused_examples()) {
            let plan = Buffer::plain(&plan);
            refused(
                &Call {
                    plan,
                    ..call.clone()
                },
                number,
            );
        }
    }
}

#[test]
fn of_the_sets_only_the_length_is_asked() {
    let mut rng = Rng::new(0xF01D_0000_0000_0001);
    for more in 0..17 {
        let sets = Buffer::new(8 * SET_WORDS + more, 0, || rng.byte());
        let call = small(&FIRST, &[ERASED; 24], 0, 24);
        let folded = accepted(&Call { sets, ..call });
        assert_eq!(folded, (answer(24, 1), FIRST.to_vec()));
    }
}

#[test]
fn buffers_at_any_address() {
    let call = small(&[FIRST, SECOND].concat(), &erased(&SECOND[..5], 33), 5, 9);
    for shift in 0..8 {
        // No two buffers have the same shift.
        let at = |buffer: &Buffer, more: usize| buffer.shifted((shift + more) % 8);
        let (folded, new) = accepted(&Call {
            plan: at(&call.plan, 0),
            sets: at(&call.sets, 1),
            chip: at(&call.chip, 2),
            new_chip: at(&call.new_chip, 3),
            ..call.clone()
        });
        assert_eq!((folded, new), (answer(14, 0), erased(&SECOND[..14], 33)));
    }
}

#[test]
fn null_pointers() {
    let nothing = Call {
        nulls: true,
        ..Call::new(Entry::Fold)
    };
    refused(&nothing, 1);
    let with_plan = Call {
        plan: Buffer::plain(SMALL),
        ..nothing
    };
    refused(&with_plan, 9);
    let with_sets = Call {
        sets: Buffer::plain(&word_bytes(&sets_of(SMALL))),
        ..with_plan
    };
    assert_eq!(accepted(&with_sets), (answer(0, 1), vec![]));
    let with_old = Call {
        chip: Buffer::plain(&FIRST),
        ..with_sets
    };
    refused(&with_old, 14);
}

#[test]
fn full_chips_and_the_longest_save() {
    let mut rng = Rng::new(0xF01D_0000_0000_0002);
    let plan = [0xFF, 0x0D, 0x0E, 0x01];
    let [every_a2, every] = Kind::ALL.map(|kind| every_cell(&mut rng, &plan, kind));
    for every in [&every_a2, &every] {
        assert_eq!(save_of(&plan, every).len(), 6 * 256 + 18);
    }
    let full = filled(&mut rng, &plan, MAX_CHIP, BYTE_CHIP);
    for old in [every_a2, every, full] {
        let save = save_of(&plan, &old);
        for length in [save.len(), MAX_CHIP] {
            let call = Call {
                budget: u64::MAX,
                ..Call::fold(&plan, &[0; SET_WORDS], &old, &vec![ERASED; length])
            };
            let whole = (answer(save.len() as u64, 1), erased(&save, length));
            assert_eq!(accepted(&call), whole);
        }
    }
}

/// The state that the library recovers from a chip, its write position and bytes to erase apart.
#[track_caller]
fn recovered(plan: &[u8], sets: &[u64], chip: &[u8]) -> (Vec<u8>, [u32; 2]) {
    let call = Call::recover(plan, sets, chip, &[0xA5; STATE_BYTES]);
    let (result, left) = agreed(&Library, &call);
    assert_eq!(result, 0);
    let mut state = left.state.lent().to_vec();
    let apart = [WRITE, ERASE].map(|at| {
        let number = state[at..at + 4].try_into().expect("four bytes");
        state[at..at + 4].fill(0);
        u32::from_le_bytes(number)
    });
    (state, apart)
}

/// The new chips that a fold with calls of budget 1 leaves, from the blank one to the finished.
#[track_caller]
fn byte_by_byte(plan: &[u8], sets: &[u64], old: &[u8], length: usize) -> Vec<Vec<u8>> {
    let mut chips = vec![vec![ERASED; length]];
    loop {
        let stored = chips.len() as u64 - 1;
        let call = Call {
            stored,
            budget: 1,
            ..Call::fold(plan, sets, old, &chips[chips.len() - 1])
        };
        let (folded, new) = accepted(&call);
        if folded.stored == stored {
            assert_eq!((folded.finished, &new), (1, &chips[chips.len() - 1]));
            return chips;
        }
        assert_eq!(folded.stored, stored + 1);
        chips.push(new);
    }
}

/// Folds the chip with a cut after every byte, goes on from each, and recovers what is finished.
#[track_caller]
fn cut_everywhere(plan: &[u8], sets: &[u64], old: &[u8], length: usize, met: &mut Met) {
    let chips = byte_by_byte(plan, sets, old, length);
    let finished = &chips[chips.len() - 1];
    let save = &finished[..chips.len() - 1];
    for (bytes, cut) in chips.iter().enumerate() {
        assert_eq!(cut, &erased(&save[..bytes], length));
        let found = found_number(cut);
        let call = Call {
            stored: found as u64,
            budget: u64::MAX,
            ..Call::fold(plan, sets, old, cut)
        };
        let whole = (answer(save.len() as u64, 1), finished.clone());
        assert_eq!(accepted(&call), whole, "cut after {bytes} bytes");
        met.count("cuts");
        met.add("cuts with FF as the last byte", u64::from(found < bytes));
    }
    let folded = recovered(plan, sets, finished);
    assert_eq!(folded, (old_state(plan, sets, old), [save.len() as u32, 0]));
}

/// The state that the old chip gives without write position and bytes to erase: one with A2 marks gave it until request
/// Q-8, as the reference of that day says, since the library refuses it.
#[track_caller]
fn old_state(plan: &[u8], sets: &[u64], old: &[u8]) -> Vec<u8> {
    let call = Call::recover(plan, sets, old, &[0xA5; STATE_BYTES]);
    if agreed(&Library, &call).0 == 0 {
        return recovered(plan, sets, old).0;
    }
    let mut state = State::first();
    let machine = Machine::of_kind(plan, sets, BYTE_CHIP, Kind::A2);
    let recovered = machine.and_then(|machine| machine.recover(old, &mut state));
    recovered.expect("the chip was accepted until Q-8");
    (state.write, state.erase) = (0, 0);
    state.to_bytes().to_vec()
}

/// Counts what an old chip holds.
fn count_old(met: &mut Met, plan: &[u8], old: &[u8]) {
    let held = read(plan, old, BYTE_CHIP).expect("a list leaves no damaged chip");
    met.count("chips");
    let is_a2 = held.saves.iter().any(|save| save.mark.kind() == Kind::A2);
    let named = [
        ("chips with A2 marks", is_a2),
        ("chips without a whole save", held.saves.is_empty()),
        ("chips of several saves", held.saves.len() > 1),
        ("chips with torn bytes", held.torn > 0),
        ("chips with a last EXCLUDE", held.last().exclude > 0),
    ];
    for (name, is_met) in named {
        met.add(name, u64::from(is_met));
    }
}

/// What a thousand chips must meet at least.
const FLOORS: [(&str, u64); 7] = [
    ("chips with A2 marks", 200),
    ("chips without a whole save", 20),
    ("chips of several saves", 100),
    ("chips with torn bytes", 100),
    ("chips with a last EXCLUDE", 100),
    ("cuts", 10_000),
    ("cuts with FF as the last byte", 50),
];

/// Chips that lists of calls left, and chips made by hand.
#[test]
fn chips_are_cut_after_every_byte() {
    let mut rng = Rng::new(0xF01D_0000_0000_0003);
    let [_, (_, sieve), (_, contour)] = programs();
    let mut met = Met::default();
    for number in 0..1_000 {
        let plan = match number % 4 {
            0 => SMALL.to_vec(),
            1 => claim::plans::plan(&mut rng),
            2 => mean(),
            _ => [&sieve, &contour][rng.below(2)].clone(),
        };
        let sets = sets_of(&plan);
        let kind = rng.pick(&Kind::ALL);
        let old = match (number % 4, rng.below(2)) {
            // A random plan may have no CHECKPOINT, and so no save made by hand.
            (1, _) | (_, 0) => left(&mut rng, &plan, &sets, BYTE_CHIP, kind),
            _ => stored_with(&mut rng, &plan, BYTE_CHIP, kind),
        };
        count_old(&mut met, &plan, &old);
        let length = save_of(&plan, &old).len() + rng.pick(&[0, 0, 1, 50]);
        cut_everywhere(&plan, &sets, &old, length, &mut met);
    }
    print!("{met}");
    met.assert_floors_per("chips", &FLOORS);
}
