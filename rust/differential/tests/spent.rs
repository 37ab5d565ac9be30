//! Notes in spent cells (document 02, Q-14): questions for a place on either kind of chip through C
//! on chosen calls, held to the reference on the result, on the number and on every byte of every
//! buffer. What the request says outright is stated here. And chips with notes, with which the
//! library goes on.

use differential::buffer::Buffer;
use differential::call::{
    agreed, answered, difference, number_bytes, numbers, sets_of, Answer, Call, Entry, Library,
    Reference,
};
use differential::examples::{FIRST as FIRST_OF_SMALL, SMALL};
use differential::plans::refused_examples;
use reference::journal::{Kind, Mark, Save, BYTE_CHIP, ERASED, MAX_CHIP, PAGE_CHIP};
use reference::layout::STATE_BYTES;
use reference::machine::State;

/// The page lengths of the kinds of chip.
const KINDS: [usize; 2] = [BYTE_CHIP, PAGE_CHIP];

/// CHECKPOINT, READ 1, EMIT 0, CHECKPOINT, READ 0, EMIT 1, JUMP to the first, with three cells.
/// Cell 1 is dead at the first CHECKPOINT and live at the second, cell 0 the other way round, and
/// cell 2 is dead at both. Its outputs are 0 and then the readings.
const TURNS: [u8; 14] = [
    0x02, 0x0E, 0x07, 1, 0x08, 0, 0x0E, 0x07, 0, 0x08, 1, 0x09, 1, 0,
];
/// The offsets after its CHECKPOINTs.
const FIRST: u16 = 2;
const SECOND: u16 = 7;

const READINGS: [i32; 6] = [5, 7, -2, 11, 13, 17];

/// Notes: 0, the bytes of an erased chip, and such as a record or a mark begins with.
const NOTES: [[u8; 4]; 5] = [
    [0; 4],
    [ERASED; 4],
    [0xA1, 1, 0xA1, 1],
    [0xA3, 2, 0, 0],
    [1, 0, 0, 0x80],
];

/// A save of the plan with these cells at a CHECKPOINT, of value 5 each.
fn save_of(plan: &[u8], place: u16, cells: &[u8], kind: Kind) -> Save {
    Save {
        records: cells.iter().map(|&cell| (cell, 5)).collect(),
        mark: Mark {
            place,
            exclude: 0,
            readings: 0,
            outputs: 0,
            owner: kind.owner(plan),
        },
    }
}

fn save(place: u16, cells: &[u8]) -> Save {
    save_of(&TURNS, place, cells, Kind::A3)
}

/// The saves' pages, and FF up to 144 bytes.
fn chip(page: usize, saves: &[Save]) -> Vec<u8> {
    let mut chip: Vec<u8> = saves.iter().flat_map(|save| save.pages(page)).collect();
    chip.resize(144, ERASED);
    chip
}

fn question(page: usize, plan: &[u8], chip: &[u8], place: u64) -> Call {
    Call {
        entry: Entry::spent(page),
        ..Call::spent(plan, chip, place)
    }
}

/// Whether a note may stand there, of a chip that is not refused.
#[track_caller]
fn may(page: usize, plan: &[u8], chip: &[u8], place: u64) -> bool {
    let (result, left) = agreed(&Library, &question(page, plan, chip, place));
    assert_eq!(result, 0);
    assert!(left.may() < 2);
    left.may() == 1
}

/// The places of the chip where a note may stand, of all that it has and some behind it.
#[track_caller]
fn places(page: usize, chip: &[u8]) -> Vec<usize> {
    let may = |place: &usize| may(page, &TURNS, chip, *place as u64);
    (0..chip.len() + 9).filter(may).collect()
}

/// Asserts the refusal, for any place, with the number left as it was.
#[track_caller]
fn refused(page: usize, plan: &[u8], chip: &[u8], number: u32) {
    for place in [0, 2, u64::MAX] {
        let call = question(page, plan, chip, place);
        let (result, left) = agreed(&Library, &call);
        assert_eq!((result, left.numbers), (number, call.numbers));
    }
}

/// "whose cell is dead at the CHECKPOINT of the last whole save"
#[test]
fn of_two_records_the_one_whose_cell_is_dead() {
    for page in KINDS {
        let of = |place, cells: &[u8]| places(page, &chip(page, &[save(place, cells)]));
        assert_eq!(of(FIRST, &[0, 1]), [8]);
        assert_eq!(of(SECOND, &[0, 1]), [2]);
        assert_eq!(of(FIRST, &[2, 0, 1]), [2, 14]);
        assert_eq!(of(SECOND, &[1]), []);
        assert_eq!(of(SECOND, &[]), []);
    }
}

/// "any record, in a whole save": of an earlier one too, and by the last one's CHECKPOINT. A save
/// of two records has 30 bytes.
#[test]
fn the_last_checkpoint_decides_for_earlier_saves_too() {
    for (page, second) in [(BYTE_CHIP, 30), (PAGE_CHIP, 32)] {
        let of = |saves: [Save; 2]| places(page, &chip(page, &saves));
        let both = |places: [u16; 2]| of(places.map(|place| save(place, &[0, 1])));
        assert_eq!(both([FIRST, FIRST]), [8, second + 8]);
        assert_eq!(both([FIRST, SECOND]), [2, second + 2]);
        assert_eq!(both([SECOND, FIRST]), [8, second + 8]);
        assert_eq!(of([save(SECOND, &[0, 1]), save(FIRST, &[0])]), [8]);
        assert_eq!(
            of([save(FIRST, &[0, 1]), save(SECOND, &[0])]),
            [2, second + 2]
        );
    }
}

/// "the four value bytes": of a record the third byte alone is such a place, and no byte of a MARK.
#[test]
fn every_other_number_is_no_place() {
    let far = [
        (1 << 16) + 2,
        (1 << 32) + 2,
        (1 << 63) + 2,
        u64::MAX - 1,
        u64::MAX,
    ];
    for page in KINDS {
        let chip = chip(page, &[save(FIRST, &[2])]);
        for place in (0..chip.len() as u64 + 20).chain(far) {
            assert_eq!(may(page, &TURNS, &chip, place), place == 2, "{place}");
        }
    }
}

#[test]
fn a_torn_save_has_no_places() {
    for (page, second) in [(BYTE_CHIP, 30), (PAGE_CHIP, 32)] {
        let whole = save(FIRST, &[1, 2]);
        for stored in 0..=30 {
            let mut chip = chip(page, std::slice::from_ref(&whole));
            chip[second..second + stored].copy_from_slice(&whole.bytes()[..stored]);
            let mut expected = vec![2, 8];
            if stored == 30 {
                expected.extend([second + 2, second + 8]);
            }
            assert_eq!(places(page, &chip), expected, "{stored} bytes");
        }
    }
}

#[test]
fn a_chip_without_a_save_has_none() {
    for page in KINDS {
        for length in [0, 16, 96, MAX_CHIP] {
            for place in [0, 2, length as u64, u64::MAX] {
                assert!(!may(page, &TURNS, &vec![ERASED; length], place));
            }
        }
    }
}

/// The small plan saves cell 0 alone, which is live at its CHECKPOINT, and its other cells are not.
#[test]
fn the_small_plan() {
    for place in 0..30 {
        assert!(!may(BYTE_CHIP, SMALL, &FIRST_OF_SMALL, place));
    }
    let every = save_of(SMALL, 17, &[0, 1, 2], Kind::A3);
    for page in KINDS {
        let chip = chip(page, std::slice::from_ref(&every));
        for place in 0..40 {
            assert_eq!(may(page, SMALL, &chip, place), [8, 14].contains(&place));
        }
    }
}

/// "dead" by the sets of the day: since Q-3 a PUT into a table of one cell surely writes it.
#[test]
fn a_put_of_one_cell_spends_it() {
    // CHECKPOINT, PUT of cell 1 to a table from cell 0 on, EMIT 0, END.
    for (len, expected) in [(1, true), (2, false)] {
        let plan = [0x01, 0x0E, 0x0C, 0, len, 1, 1, 0x08, 0, 0x01];
        let chip = save_of(&plan, 2, &[0], Kind::A3).bytes();
        assert_eq!(
            may(BYTE_CHIP, &plan, &chip, 2),
            expected,
            "a table of {len}"
        );
    }
}

/// Cells of every word of a set: EMIT of every third cell behind a CHECKPOINT.
#[test]
fn cells_of_all_256() {
    let emits = (0..=255).step_by(3).flat_map(|cell| [0x08, cell]);
    let plan: Vec<u8> = [0xFF, 0x0E].into_iter().chain(emits).chain([1]).collect();
    let cells: Vec<u8> = (0..=255).rev().collect();
    let chip = save_of(&plan, 2, &cells, Kind::A3).bytes();
    for (number, cell) in cells.into_iter().enumerate() {
        let place = 6 * number as u64 + 2;
        assert_eq!(may(BYTE_CHIP, &plan, &chip, place), cell % 3 != 0, "{cell}");
    }
}

#[test]
fn the_longest_chips() {
    for page in KINDS {
        let save = save(FIRST, &[0, 1]);
        let many = MAX_CHIP / save.pages(page).len();
        let mut chip: Vec<u8> = vec![save.pages(page); many].concat();
        let last = chip.len() - save.pages(page).len();
        chip.resize(MAX_CHIP, ERASED);
        for (place, expected) in [(8, true), (last + 8, true), (last + 2, false)] {
            assert_eq!(may(page, &TURNS, &chip, place as u64), expected);
        }
        chip.resize(MAX_CHIP + page, ERASED);
        refused(page, &TURNS, &chip, 11);
    }
}

#[test]
fn the_plans_refusals_come_first() {
    for page in KINDS {
        for (number, plan) in (1..).zip(refused_examples()) {
            refused(page, &plan, &vec![0x00; MAX_CHIP + 1], number);
            refused(page, &plan, &[ERASED; 16], number);
        }
        refused(page, &vec![0x01; 2_049], &[], 1);
    }
}

/// As recovery refuses the chip: 11, 12, 15, 16, in this order.
#[test]
fn the_chips_refusals() {
    for page in KINDS {
        let a2 = [FIRST, SECOND].map(|place| save_of(&TURNS, place, &[2], Kind::A2));
        refused(page, &TURNS, &vec![0x00; MAX_CHIP + 1], 11);
        refused(page, &TURNS, &[0x00; MAX_CHIP], 12);
        refused(page, &TURNS, &chip(page, &a2), 15);
        let mut torn = a2[0].bytes();
        torn.truncate(7);
        torn.resize(32, ERASED);
        refused(page, &TURNS, &torn, 12);
        let mixed = [a2[0].clone(), save(FIRST, &[2])];
        refused(page, &TURNS, &chip(page, &mixed), 12);
        for other in 0..2 {
            let mut saves = [FIRST, SECOND].map(|place| save(place, &[2]));
            saves[other].mark.owner = saves[other].mark.owner.map(|owner| owner ^ 1);
            let mut chip = chip(page, &saves);
            refused(page, &TURNS, &chip, 16);
            chip[143] = 0x00;
            refused(page, &TURNS, &chip, 12);
        }
    }
    refused(PAGE_CHIP, &TURNS, &[ERASED; 17], 11);
    let mut filled = chip(PAGE_CHIP, &[save(FIRST, &[2])]);
    filled[31] = 0x00;
    refused(PAGE_CHIP, &TURNS, &filled, 12);
}

/// Empty slices as null pointers, and plan and chip at any address.
#[test]
fn nulls_and_addresses() {
    for page in KINDS {
        for nulls in [false, true] {
            for (plan, chip, result) in [(&TURNS[..], &[][..], 0), (&[], &[], 1)] {
                let call = Call {
                    nulls,
                    ..question(page, plan, chip, 2)
                };
                let (found, left) = agreed(&Library, &call);
                assert_eq!(found, result);
                assert!(result == 1 || left.may() == 0);
            }
        }
        let chip = chip(page, &[save(FIRST, &[0, 1])]);
        for shift in 0..8 {
            let call = question(page, &TURNS, &chip, 8);
            let (plan, chip) = (call.plan.shifted(shift), call.chip.shifted(7 - shift));
            let (result, left) = agreed(&Library, &Call { plan, chip, ..call });
            assert_eq!((result, left.may()), (0, 1));
        }
    }
}

/// A comparison that is asleep would show nothing: a wrong answer is one for each bit of it.
#[test]
fn another_answer_differs() {
    let chip = chip(BYTE_CHIP, &[save(FIRST, &[0, 1])]);
    let call = question(BYTE_CHIP, &TURNS, &chip, 8);
    let expected = answered(&Reference, &call);
    let wrong = |alter: fn(&mut Answer)| {
        let mut answer = answered(&Library, &call);
        alter(&mut answer);
        difference(&answer, &expected).is_some()
    };
    assert!(!wrong(|_| {}));
    assert!(wrong(|answer| answer.0 = 12));
    assert!(wrong(|answer| answer.1.numbers[0] ^= 1));
    assert!(wrong(|answer| answer.1.numbers[0] ^= 1 << 32));
    assert!(wrong(|answer| answer.1.chip.lend()[8] ^= 1));
    assert!(wrong(|answer| answer.1.plan.lend()[0] ^= 1));
}

/// What a recovery of the chip and a run with all that it needs give: the number of the first
/// output, and the outputs.
#[track_caller]
fn went_on(page: usize, chip: &[u8]) -> (u32, Vec<i32>) {
    let sets = sets_of(&TURNS);
    let recovery = Call {
        entry: Entry::recover(page),
        ..Call::recover(&TURNS, &sets, chip, &[0xA5; STATE_BYTES])
    };
    let (result, left) = agreed(&Library, &recovery);
    assert_eq!(result, 0, "recovery accepts the chip");
    let state = State::from_bytes(left.state.lent()).expect("recovery leaves a state");
    let run = Call {
        entry: Entry::run(page),
        readings: Buffer::plain(&number_bytes(&READINGS[state.readings as usize..])),
        outputs: Buffer::plain(&[0; 40]),
        budget: 10_000,
        ..Call::run(&TURNS, &sets, chip, left.state.lent())
    };
    let (result, left) = agreed(&Library, &run);
    let mut outputs = numbers(left.outputs.lent());
    outputs.truncate(left.ran().given as usize);
    assert_eq!((result, left.ran().ended), (0, 5), "no reading is left");
    (state.outputs, outputs)
}

/// The chip after so many steps of the plan.
fn left_after(page: usize, steps: u64) -> Vec<u8> {
    let state = State::first().to_bytes();
    let call = Call {
        entry: Entry::run(page),
        readings: Buffer::plain(&number_bytes(&READINGS)),
        outputs: Buffer::plain(&[0; 40]),
        budget: steps,
        ..Call::run(&TURNS, &sets_of(&TURNS), &[ERASED; 144], &state)
    };
    agreed(&Library, &call).1.chip.lent().to_vec()
}

fn noted(chip: &[u8], at: usize, note: [u8; 4]) -> Vec<u8> {
    let mut chip = chip.to_vec();
    chip[at..at + 4].copy_from_slice(&note);
    chip
}

/// "Recovery still accepts the chip .. and as the list goes on from there .. no output is skipped,
/// and the outputs' numbers and values .. are those of 01's uncut run": after each step of the
/// plan.
#[test]
fn with_a_note_in_any_place_the_plan_goes_on() {
    for page in KINDS {
        let mut notes = 0;
        for steps in 0..170 {
            let chip = left_after(page, steps);
            let (first, outputs) = went_on(page, &chip);
            let all = [&[0][..], &READINGS[..5]].concat();
            assert_eq!(outputs, all[first as usize..], "{steps} steps");
            let places = places(page, &chip);
            for (place, note) in places.iter().zip(NOTES.into_iter().cycle()) {
                let noted = noted(&chip, *place, note);
                assert_eq!(went_on(page, &noted), (first, outputs.clone()));
                assert_eq!(self::places(page, &noted), places);
                notes += 1;
            }
        }
        println!("pages of {page}: {notes} notes");
        assert!(notes >= 300, "{notes} notes");
    }
}

/// What the question is for: a note in the value of a live cell, of the last save, is an output.
#[test]
fn with_a_note_in_a_live_cell_it_does_not() {
    for page in KINDS {
        for (place, first) in [(FIRST, true), (SECOND, false)] {
            let chip = chip(page, &[save(place, &[0, 1])]);
            let live = if first { 2 } else { 8 };
            assert!(!may(page, &TURNS, &chip, live as u64));
            let (_, outputs) = went_on(page, &noted(&chip, live, [99, 0, 0, 0]));
            assert_eq!((went_on(page, &chip).1[0], outputs[0]), (5, 99));
        }
    }
}

/// Cell 1 is dead at the CHECKPOINT of the save that holds it, and live at the last one's, which
/// leaves it out. No list leaves such a chip: a cell that a save leaves out although it is live was
/// not written since the save that holds it, and so was live there.
#[test]
fn the_saves_own_checkpoint_does_not_decide() {
    for page in KINDS {
        let chip = chip(page, &[save(FIRST, &[0, 1]), save(SECOND, &[0])]);
        assert!(!may(page, &TURNS, &chip, 8));
        let (_, outputs) = went_on(page, &noted(&chip, 8, [99, 0, 0, 0]));
        assert_eq!((went_on(page, &chip).1[0], outputs[0]), (5, 99));
    }
}

/// "one with A2 marks once it is folded under that plan": the note becomes the cell's value, and a
/// note of 0 is left out.
#[test]
fn a_noted_chip_with_a2_marks_folds() {
    let sets = sets_of(&TURNS);
    let a2 = save_of(&TURNS, FIRST, &[0, 1], Kind::A2).bytes();
    refused(BYTE_CHIP, &TURNS, &a2, 15);
    for (note, length) in [([7, 0, 0, 0], 30), ([0; 4], 24)] {
        let call = Call {
            budget: u64::MAX,
            ..Call::fold(&TURNS, &sets, &noted(&a2, 8, note), &[ERASED; 96])
        };
        let (result, left) = agreed(&Library, &call);
        assert_eq!((result, left.folded().stored), (0, length));
        let new = left.new_chip.lent();
        assert_eq!(
            went_on(BYTE_CHIP, new).1,
            [&[5][..], &READINGS[..5]].concat()
        );
        let expected: &[usize] = if length == 30 { &[8] } else { &[] };
        assert_eq!(places(BYTE_CHIP, new), expected);
    }
}

/// A note over a value 0 lengthens the folded save by a record, so that a chip may be too short.
#[test]
fn a_note_over_0_may_give_14() {
    let sets = sets_of(&TURNS);
    let mut of_zero = save(FIRST, &[0, 1]);
    of_zero.records[1].1 = 0;
    for (note, result, stored) in [([0; 4], 0, 24), ([1, 0, 0, 0], 14, 0)] {
        let old = noted(&of_zero.bytes(), 8, note);
        let call = Call {
            budget: u64::MAX,
            ..Call::fold(&TURNS, &sets, &old, &[ERASED; 24])
        };
        let (found, left) = agreed(&Library, &call);
        assert_eq!(found, result);
        assert!(result == 14 || left.folded().stored == stored);
    }
}
