//! The library's run through C on chosen calls and random plans, held to the reference: on the result, on the numbers and
//! on every byte of every buffer. Where document 01 says the answer outright, it is stated here as well.

use differential::buffer::Buffer;
use differential::call::{
    agreed, number_bytes, numbers, sets_of, Call, Entry, Library, Ran, SET_WORDS,
};
use differential::examples::{programs, SMALL};
use differential::plans::{mutated, plan, refused_examples, reversed, valid, woven};
use differential::rng::Rng;
use differential::states::value;
use reference::analyse;
use reference::journal::{ERASED, MAX_CHIP};
use reference::layout::STATE_BYTES;
use reference::machine::{Mark, State, Stop};

const READINGS: [i32; 3] = [5, 7, -2];

/// SET, then for each reading four commands, a CHECKPOINT with its 24 bytes, and JUMP.
const STEPS: u64 = 1 + 3 * (4 + 1 + 24 + 1);

// READ, EMIT and JUMP of streams over cell 0.
const READ: &[u8] = &[0x07, 0x00];
const EMIT: &[u8] = &[0x08, 0x00];
const AGAIN: &[u8] = &[0x09, 0x01, 0x00];

/// Numbers about whole stretches of the 1,024 that the library takes at a time.
const LENGTHS: [usize; 10] = [0, 1, 2, 1_023, 1_024, 1_025, 2_047, 2_048, 2_049, 3_100];

/// What a call leaves on which library and reference agree, and which must be accepted.
#[track_caller]
fn accepted(call: &Call) -> Call {
    let (result, left) = agreed(&Library, call);
    assert_eq!(result, 0);
    left
}

#[track_caller]
fn refused(call: &Call, number: u32) {
    assert_eq!(agreed(&Library, call).0, number);
}

/// A run of a plan from a state, with places for so many outputs.
fn run_from(state: &State, plan: &[u8], chip: usize, readings: &[i32], room: usize) -> Call {
    let chip = vec![ERASED; chip];
    Call {
        readings: Buffer::plain(&number_bytes(readings)),
        outputs: Buffer::plain(&number_bytes(&vec![-77; room])),
        budget: 20_000,
        ..Call::run(plan, &sets_of(plan), &chip, &state.to_bytes())
    }
}

/// The small plan from the first state, with document 01's readings.
fn small(chip: usize) -> Call {
    run_from(&State::first(), SMALL, chip, &READINGS, 5)
}

fn state_of(call: &Call) -> State {
    State::from_bytes(call.state.lent()).expect("an accepted run leaves a state")
}

#[test]
fn the_small_plan() {
    let left = accepted(&small(72));
    let ran = Ran {
        ended: 5,
        steps: STEPS,
        taken: 3,
        given: 3,
    };
    assert_eq!(left.ran(), ran);
    assert_eq!(numbers(left.outputs.lent()), [5, 12, 10, -77, -77]);
    let first_save = [
        0xA1, 0x00, 0x05, 0x00, 0x00, 0x00, 0xA3, 0x11, 0x00, 0x0F, 0x00, 0x01, 0x00, 0x00, 0x00,
        0x01, 0x00, 0x00, 0x00, 0x14, 0x00, 0x44, 0x00, 0x5A,
    ];
    assert_eq!(left.chip.lent()[..24], first_save);
    assert_eq!(accepted(&small(24)).chip.lent(), first_save);
    assert_eq!(accepted(&small(23)).chip.lent(), [ERASED; 23]);
}

#[test]
fn the_examples_of_the_table_of_refusals() {
    for (number, plan) in (1..).zip(refused_examples()) {
        let call = Call {
            plan: Buffer::plain(&plan),
            ..small(60)
        };
        refused(&call, number);
    }
    let short = small(60).sets.lent()[..8 * 511].to_vec();
    let call = Call {
        sets: Buffer::plain(&short),
        ..small(60)
    };
    refused(&call, 9);
    let mut past = State::first();
    past.write = 61;
    refused(&run_from(&past, SMALL, 60, &READINGS, 5), 10);
    past.write = 60;
    accepted(&run_from(&past, SMALL, 60, &READINGS, 5));
    refused(&small(MAX_CHIP + 1), 11);
    accepted(&small(MAX_CHIP));
}

#[test]
fn of_several_refusals_the_lowest_is_given() {
    // What gives 9, 10 and 11 stands in all of them, so each number is given before those above it.
    let short = Buffer::plain(&[0; 8 * SET_WORDS - 1]);
    let long = Buffer::plain(&[ERASED; MAX_CHIP + 1]);
    let unsound = Buffer::plain(&[0xFF; STATE_BYTES]);
    let all = Call {
        sets: short,
        chip: long,
        state: unsound,
        ..small(0)
    };
    for (number, plan) in (1..).zip(refused_examples()) {
        let plan = Buffer::plain(&plan);
        refused(
            &Call {
                plan,
                ..all.clone()
            },
            number,
        );
    }
    refused(&all, 9);
    let sets = small(0).sets;
    refused(
        &Call {
            sets,
            ..all.clone()
        },
        10,
    );
    let (sets, state) = (small(0).sets, small(0).state);
    refused(&Call { sets, state, ..all }, 11);
}

#[test]
fn every_length_of_a_state() {
    let first = State::first().to_bytes();
    for length in 0..=2 * STATE_BYTES + 1 {
        let mut bytes = first.to_vec();
        bytes.resize(length, 0);
        let call = Call {
            state: Buffer::plain(&bytes),
            ..small(60)
        };
        refused(&call, if length == STATE_BYTES { 0 } else { 10 });
    }
}

/// The small plan from a state of which one byte is another.
fn with_byte(at: usize, byte: u8) -> Call {
    let mut bytes = State::first().to_bytes();
    bytes[at] = byte;
    Call {
        state: Buffer::plain(&bytes),
        ..small(60)
    }
}

#[test]
fn every_byte_for_a_mark() {
    // The small plan has cells 0 to 2.
    for cell in [0, 1, 2, 3, 4, 63, 64, 254, 255] {
        for byte in 0..=255 {
            let is_sound = byte == 0 || cell < 3 && byte < 4;
            let number = if is_sound { 0 } else { 10 };
            refused(&with_byte(1024 + cell, byte), number);
        }
    }
}

#[test]
fn every_byte_for_a_kind_of_stop() {
    for byte in 0..=255 {
        let stopped = agreed(&Library, &with_byte(1296, byte));
        match byte {
            0 => assert_eq!((stopped.0, stopped.1.ran().ended), (0, 5)),
            1..=3 => {
                let ran = stopped.1.ran();
                assert_eq!((stopped.0, ran.ended, ran.steps), (0, byte.into(), 0));
            }
            _ => assert_eq!(stopped.0, 10),
        }
        for at in [1297, 1298, 1299] {
            refused(&with_byte(at, byte), if byte == 0 { 0 } else { 10 });
        }
    }
}

#[test]
fn each_sum_at_the_end_of_the_chip() {
    for write in 0..=61 {
        for erase in 0..=61 {
            let mut state = State::first();
            (state.write, state.erase) = (write, erase);
            let call = run_from(&state, SMALL, 60, &READINGS, 5);
            refused(&call, if write + erase <= 60 { 0 } else { 10 });
        }
    }
    // Sums that 32 bits do not hold.
    for (write, erase) in [
        (u32::MAX, 1),
        (1, u32::MAX),
        (u32::MAX, 61),
        (1 << 31, 1 << 31),
    ] {
        let mut state = State::first();
        (state.write, state.erase) = (write, erase);
        refused(&run_from(&state, SMALL, 60, &READINGS, 5), 10);
    }
}

#[test]
fn each_place_in_a_save() {
    // The small plan's save before its first EXCLUDE: three records and the mark, 36 bytes, on a chip of 44.
    for stored in 0..=37 {
        for write in 0..=45 {
            let mut state = State::first();
            (state.place, state.write, state.saving) = (16, write, Some(stored));
            let call = run_from(&state, SMALL, 44, &[], 0);
            let fits = stored < 36 && write + 36 - stored <= 44;
            refused(&call, if fits { 0 } else { 10 });
        }
    }
}

/// A plan of one cell that goes round over these commands.
fn stream(commands: &[&[u8]]) -> Vec<u8> {
    plan(1, &[&commands.concat(), AGAIN])
}

fn counted(count: usize) -> Vec<i32> {
    (0..count).map(|k| k as i32 * 65_537 - 7).collect()
}

#[test]
fn streams_of_readings_and_outputs() {
    let plan = stream(&[READ, EMIT]);
    for lent in LENGTHS {
        for room in LENGTHS {
            let readings = counted(lent);
            let left = accepted(&run_from(&State::first(), &plan, 0, &readings, room));
            // The reading that finds no place for its output is taken.
            let (ended, taken, given) = match lent <= room {
                true => (5, lent, lent),
                false => (6, room + 1, room),
            };
            let ran = left.ran();
            assert_eq!(
                (ran.ended, ran.taken, ran.given),
                (ended, taken as u64, given as u64)
            );
            let mut outputs = readings[..given].to_vec();
            outputs.resize(room, -77);
            assert_eq!(numbers(left.outputs.lent()), outputs);
        }
    }
}

#[test]
fn streams_of_readings_alone_and_of_outputs_alone() {
    let (reads, emits) = (stream(&[READ]), stream(&[EMIT]));
    for count in LENGTHS {
        let readings = counted(count);
        let left = accepted(&run_from(&State::first(), &reads, 0, &readings, 2_000));
        assert_eq!((left.ran().ended, left.ran().taken), (5, count as u64));
        assert_eq!(
            state_of(&left).cells[0],
            readings.last().copied().unwrap_or(0)
        );
        let left = accepted(&run_from(
            &State::first(),
            &emits,
            0,
            &counted(2_000),
            count,
        ));
        assert_eq!((left.ran().ended, left.ran().given), (6, count as u64));
        assert_eq!(numbers(left.outputs.lent()), vec![0; count]);
    }
}

#[test]
fn streams_that_the_budget_ends() {
    let plan = stream(&[READ, EMIT]);
    let readings = counted(3_000);
    for whole in [1_023, 1_024, 1_025, 2_048] {
        for more in 0..3 {
            let budget = 3 * whole + more;
            let call = Call {
                budget,
                ..run_from(&State::first(), &plan, 0, &readings, 3_000)
            };
            let ran = Ran {
                ended: 4,
                steps: budget,
                taken: whole + u64::from(more > 0),
                given: whole + u64::from(more > 1),
            };
            assert_eq!(accepted(&call).ran(), ran);
        }
    }
}

#[test]
fn counts_that_are_full_after_a_stretch() {
    let (reads, emits) = (stream(&[READ]), stream(&[EMIT]));
    for free in [0, 1, 1_023, 1_024, 1_025, 2_048] {
        let mut state = State::first();
        (state.readings, state.outputs) = (u32::MAX - free, u32::MAX - free);
        for more in [0, 1, 500] {
            // With nothing left to take or no place left, that is found before the count is.
            let lent = free as usize + more;
            let full = if more > 0 { 3 } else { 5 };
            let left = accepted(&run_from(&state, &reads, 0, &counted(lent), 0));
            assert_eq!((left.ran().ended, left.ran().taken), (full, free.into()));
            let full = if more > 0 { 3 } else { 6 };
            let left = accepted(&run_from(&state, &emits, 0, &[], lent));
            assert_eq!((left.ran().ended, left.ran().given), (full, free.into()));
        }
    }
}

#[test]
fn a_rest_too_short_for_a_number_is_left_unused() {
    let with_rest = |bytes: &[u8], rest: usize| {
        let bytes = [bytes, &[0x11; 7][..rest]].concat();
        Buffer::plain(&bytes)
    };
    let call = small(60);
    for rest in 0..4 {
        // Places for two outputs, so that the third is due where only the rest is left.
        for (places, ended, given) in [(2, 6, 2), (5, 5, 3)] {
            let left = accepted(&Call {
                sets: with_rest(call.sets.lent(), 2 * rest + 1),
                readings: with_rest(call.readings.lent(), rest),
                outputs: with_rest(&call.outputs.lent()[..4 * places], rest),
                ..call.clone()
            });
            let ran = left.ran();
            assert_eq!((ran.ended, ran.taken, ran.given), (ended, 3, given));
            assert_eq!(left.outputs.lent()[4 * places..], [0x11; 3][..rest]);
        }
    }
}

#[test]
fn buffers_at_any_address() {
    let call = small(72);
    for shift in 0..8 {
        // No two buffers have the same shift.
        let at = |buffer: &Buffer, more: usize| buffer.shifted((shift + more) % 8);
        let left = accepted(&Call {
            plan: at(&call.plan, 0),
            sets: at(&call.sets, 1),
            chip: at(&call.chip, 2),
            state: at(&call.state, 3),
            readings: at(&call.readings, 4),
            outputs: at(&call.outputs, 5),
            ..call.clone()
        });
        assert_eq!(left.ran().steps, STEPS);
    }
}

#[test]
fn null_pointers() {
    let nothing = Call {
        nulls: true,
        ..Call::new(Entry::Run)
    };
    refused(&nothing, 1);
    let with_plan = Call {
        plan: small(0).plan,
        ..nothing
    };
    refused(&with_plan, 9);
    let with_sets = Call {
        sets: small(0).sets,
        budget: 100,
        ..with_plan
    };
    refused(&with_sets, 10);
    let with_state = Call {
        state: small(0).state,
        ..with_sets
    };
    // No chip, no reading and no place for an output: SET, then READ is due.
    let ran = accepted(&with_state).ran();
    assert_eq!((ran.ended, ran.steps), (5, 1));
}

#[test]
fn budgets_of_every_size() {
    for budget in 0..=STEPS + 20 {
        let ran = accepted(&Call {
            budget,
            ..small(72)
        })
        .ran();
        let ended = if budget <= STEPS { 4 } else { 5 };
        assert_eq!((ran.ended, ran.steps), (ended, budget.min(STEPS)));
    }
    for budget in [1 << 31, 1 << 32, (1 << 32) + 1, 1 << 63, u64::MAX] {
        assert_eq!(
            accepted(&Call {
                budget,
                ..small(72)
            })
            .ran()
            .steps,
            STEPS
        );
    }
}

#[test]
fn the_three_programs_at_every_budget() {
    let readings: Vec<i32> = (0..25).map(|k| k * 7 % 20 % 2).collect();
    for (_, plan) in programs() {
        let call = run_from(&State::first(), &plan, 700, &readings, 40);
        for budget in (0..3_000).chain([1_000_000]) {
            accepted(&Call {
                budget,
                ..call.clone()
            });
        }
    }
}

/// A run from the first state, with the sets found for the plan, random words behind them, and random readings.
fn drawn(rng: &mut Rng, plan: &[u8]) -> Call {
    let mut words = analyse(plan).map_or(vec![], |found| found.set_words());
    words.resize_with(SET_WORDS + rng.below(2), || rng.word());
    let chip = vec![ERASED; rng.pick(&[0, 23, 48, 300])];
    let count = rng.pick(&[0, 1, 5, 60]);
    let readings: Vec<i32> = (0..count).map(|_| value(rng)).collect();
    let room = rng.pick(&[0, 1, 8, 100]);
    Call {
        readings: Buffer::plain(&number_bytes(&readings)),
        outputs: Buffer::plain(&number_bytes(&vec![-77; room])),
        budget: rng.pick(&[0, 1, 2, 17, 300, 2_000]),
        ..Call::run(plan, &words, &chip, &State::first().to_bytes())
    }
}

#[test]
fn random_plans_with_their_own_sets() {
    let mut rng = Rng::new(0x4D41_0000_0000_0001);
    let mut ends = [0; 7];
    for turn in 0..60_000 {
        let draft = match turn % 3 {
            0 => valid(&mut rng),
            1 => woven(&mut rng),
            _ => reversed(&mut rng),
        };
        let left = accepted(&drawn(&mut rng, &draft.bytes));
        ends[left.ran().ended as usize] += 1;
    }
    println!("runs by how they ended, 1 to 6: {:?}", &ends[1..]);
    for ended in [1, 2, 4, 5, 6] {
        assert!(ends[ended] > 100, "ended {ended}: {}", ends[ended]);
    }
}

#[test]
fn random_plans_that_are_often_refused() {
    let mut rng = Rng::new(0x4D41_0000_0000_0002);
    let mut results = [0; 12];
    for _ in 0..5_000 {
        let plan = mutated(&mut rng);
        let (result, _) = agreed(&Library, &drawn(&mut rng, &plan));
        results[result as usize] += 1;
    }
    println!("runs with the answers 0 to 11: {results:?}");
    for result in [0, 1, 2, 3, 4, 5, 7, 8] {
        assert!(results[result] > 20, "{result}: {}", results[result]);
    }
}

/// Runs the small plan by runs of so many steps each, each lent the untaken readings, and gives chip, state and outputs.
fn in_pieces(steps: u64) -> (Vec<u8>, Vec<u8>, Vec<i32>) {
    let mut call = small(60);
    let mut taken = 0;
    let mut outputs = Vec::new();
    loop {
        call.budget = steps;
        call.readings = Buffer::plain(&number_bytes(&READINGS[taken..]));
        let left = accepted(&call);
        let ran = left.ran();
        taken += ran.taken as usize;
        outputs.extend(&numbers(left.outputs.lent())[..ran.given as usize]);
        if ran.ended != 4 {
            return (left.chip.lent().into(), left.state.lent().into(), outputs);
        }
        call = left;
    }
}

#[test]
fn a_run_is_its_steps_however_they_are_called() {
    let whole = in_pieces(10_000);
    assert_eq!(whole.2, [5, 12, 10]);
    for steps in 1..=40 {
        assert_eq!(in_pieces(steps), whole, "{steps} steps a call");
    }
}

#[test]
fn torn_bytes_are_erased_from_the_highest_address_down() {
    let mut state = State::first();
    (state.write, state.erase) = (3, 40);
    let mut call = Call {
        chip: Buffer::plain(&[0x00; 60]),
        ..run_from(&state, SMALL, 60, &[], 0)
    };
    for budget in 0..=40 {
        call.budget = budget;
        let mut chip = [0x00; 60];
        chip[43 - budget as usize..43].fill(ERASED);
        assert_eq!(accepted(&call).chip.lent(), chip);
    }
}

#[test]
fn a_stop_is_answered_whatever_else_is_at_work() {
    for (stop, ended) in [(Stop::Ended, 1), (Stop::Divisor, 2), (Stop::CountFull, 3)] {
        let mut state = State::first();
        state.stop = Some(stop);
        state.erase = 5;
        let ran = accepted(&run_from(&state, SMALL, 60, &READINGS, 5)).ran();
        assert_eq!((ran.ended, ran.steps), (ended, 0));
        (state.erase, state.place, state.saving) = (0, 16, Some(7));
        let ran = accepted(&run_from(&state, SMALL, 60, &READINGS, 5)).ran();
        assert_eq!((ran.ended, ran.steps), (ended, 0));
    }
}

#[test]
fn dead_in_ro_alone_becomes_pending() {
    // EXCLUDE, END with one cell: DE is empty and the cell is in RO.
    let plan = [0x00, 0x0D, 0x01];
    for (mark, after) in [
        (Mark::Include, Mark::Pending),
        (Mark::Pending, Mark::Pending),
        (Mark::Kept, Mark::Kept),
        (Mark::Dead, Mark::Pending),
    ] {
        let mut state = State::first();
        state.marks[0] = mark;
        let left = accepted(&run_from(&state, &plan, 0, &[], 0));
        assert_eq!(state_of(&left).marks[0], after);
    }
}
