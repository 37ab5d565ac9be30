//! The reference machine on document 01's rows about runs, and on document 001's three programs.

mod common;

use reference::analyse;
use reference::journal::{read, Kind, BYTE_CHIP, ERASED, PAGE_CHIP};
use reference::machine::{Ended, Machine, Mark, Ran, State, Stop, SET_WORDS};

use common::plan;

const SMALL: &[u8] = include_bytes!("../../../examples/small.plan");

/// The words found for a plan, as many as run wants.
fn sets(plan: &[u8]) -> Vec<u64> {
    let mut words = analyse(plan).expect("the plan is accepted").set_words();
    words.resize(SET_WORDS, 0);
    words
}

/// A host with one plan, its sets, a chip of one kind, with marks of one kind, and a state.
struct Host {
    plan: Vec<u8>,
    sets: Vec<u64>,
    page: usize,
    kind: Kind,
    chip: Vec<u8>,
    state: State,
}

impl Host {
    fn new(plan: &[u8], chip: usize) -> Host {
        Host {
            plan: plan.to_vec(),
            sets: sets(plan),
            page: BYTE_CHIP,
            kind: Kind::A3,
            chip: vec![ERASED; chip],
            state: State::first(),
        }
    }

    /// The same with a page chip.
    fn with_pages(plan: &[u8], chip: usize) -> Host {
        Host {
            page: PAGE_CHIP,
            ..Host::new(plan, chip)
        }
    }

    /// The same until Q-8.
    fn with_a2(plan: &[u8], chip: usize) -> Host {
        Host {
            kind: Kind::A2,
            ..Host::new(plan, chip)
        }
    }

    fn run(&mut self, readings: &[i32], room: usize, budget: u64) -> Result<Ran, u32> {
        let machine = Machine::of_kind(&self.plan, &self.sets, self.page, self.kind)?;
        machine.run(&mut self.chip, &mut self.state, readings, room, budget)
    }
}

/// The answer and the outputs of one long run.
fn all(plan: &[u8], chip: usize, readings: &[i32]) -> (Ended, Vec<i32>) {
    let ran = Host::new(plan, chip)
        .run(readings, 1000, 1_000_000)
        .unwrap();
    (ran.ended, ran.given)
}

#[test]
fn the_small_plan_gives_5_12_10() {
    let expected = (Ended::NoReading, vec![5, 12, 10]);
    for chip in [0, 23, 24, 100] {
        assert_eq!(all(SMALL, chip, &[5, 7, -2]), expected);
    }
}

/// The small plan's first save.
const FIRST: [u8; 24] = [
    0xA1, 0x00, 0x05, 0x00, 0x00, 0x00, 0xA3, 0x11, 0x00, 0x0F, 0x00, 0x01, 0x00, 0x00, 0x00, 0x01,
    0x00, 0x00, 0x00, 0x14, 0x00, 0x44, 0x00, 0x5A,
];

#[test]
fn twenty_four_bytes_hold_the_first_save_and_twenty_three_none() {
    let mut host = Host::new(SMALL, 24);
    host.run(&[5], 10, 1000).unwrap();
    assert_eq!(host.chip, FIRST);
    let mut host = Host::new(SMALL, 23);
    host.run(&[5], 10, 1000).unwrap();
    assert_eq!(host.chip, [ERASED; 23]);
}

#[test]
fn until_q_8_twenty_bytes_held_the_first_save_and_nineteen_none() {
    let first = [
        0xA1, 0x00, 0x05, 0x00, 0x00, 0x00, 0xA2, 0x11, 0x00, 0x0F, 0x00, 0x01, 0x00, 0x00, 0x00,
        0x01, 0x00, 0x00, 0x00, 0x5A,
    ];
    let mut host = Host::with_a2(SMALL, 20);
    host.run(&[5], 10, 1000).unwrap();
    assert_eq!(host.chip, first);
    let mut host = Host::with_a2(SMALL, 19);
    host.run(&[5], 10, 1000).unwrap();
    assert_eq!(host.chip, [ERASED; 19]);
}

#[test]
fn cut_after_33_bytes_cell_0_is_5_and_both_counts_are_1() {
    let mut host = Host::new(SMALL, 60);
    let mut steps = 0;
    while host.state.write < 33 {
        assert_eq!(
            host.run(&[5, 7][host.state.readings as usize..], 10, 1)
                .unwrap()
                .steps,
            1
        );
        steps += 1;
    }
    assert!(steps > 33);
    let chip = read(SMALL, &host.chip, BYTE_CHIP).unwrap();
    assert_eq!((chip.end, chip.torn, chip.value(0)), (24, 9, 5));
    assert_eq!((chip.last().readings, chip.last().outputs), (1, 1));
}

#[test]
fn each_exit_in_its_order() {
    let mut host = Host::new(SMALL, 0);
    let ended = |ran: Result<Ran, u32>| ran.map(|ran| (ran.ended, ran.steps));
    assert_eq!(ended(host.run(&[], 0, 0)), Ok((Ended::Spent, 0)));
    assert_eq!(ended(host.run(&[], 0, 1)), Ok((Ended::Spent, 1)));
    assert_eq!(ended(host.run(&[], 0, 1)), Ok((Ended::NoReading, 0)));
    assert_eq!(ended(host.run(&[], 0, 0)), Ok((Ended::Spent, 0)));
    assert_eq!(ended(host.run(&[5], 0, 9)), Ok((Ended::BufferFull, 2)));
    let mut host = Host::new(&[0x00, 0x01], 0);
    assert_eq!(
        ended(host.run(&[], 0, 9)),
        Ok((Ended::Stopped(Stop::Ended), 1))
    );
    assert_eq!(
        ended(host.run(&[], 0, 0)),
        Ok((Ended::Stopped(Stop::Ended), 0))
    );
}

#[test]
fn division_and_its_stop() {
    // SET 0, SET 1, DIV 2 0 1, EMIT 2, END.
    let divide = |a: i32, b: i32| {
        let mut plan = vec![0x02, 0x02, 0x00];
        plan.extend(a.to_le_bytes());
        plan.extend([0x02, 0x01]);
        plan.extend(b.to_le_bytes());
        plan.extend([0x06, 0x02, 0x00, 0x01, 0x08, 0x02, 0x01]);
        all(&plan, 0, &[])
    };
    let ended = Ended::Stopped(Stop::Ended);
    assert_eq!(divide(7, -2), (ended, vec![-3]));
    assert_eq!(divide(i32::MIN, -1), (ended, vec![i32::MIN]));
    assert_eq!(divide(1, 0), (Ended::Stopped(Stop::Divisor), vec![]));
}

#[test]
fn sums_wrap_and_index_minus_1_of_4_is_place_3() {
    // 2,147,483,647 + 1.
    let mut plan = vec![0x01, 0x02, 0x00];
    plan.extend(i32::MAX.to_le_bytes());
    plan.extend([
        0x02, 0x01, 1, 0, 0, 0, 0x04, 0x00, 0x00, 0x01, 0x08, 0x00, 0x01,
    ]);
    assert_eq!(all(&plan, 0, &[]).1, [i32::MIN]);
    // Cell 3 of the table 0 to 3 gets 9 by index -1 in cell 4; EMIT it.
    let mut plan = vec![0x05, 0x02, 0x04];
    plan.extend((-1_i32).to_le_bytes());
    plan.extend([
        0x02, 0x05, 9, 0, 0, 0, 0x0C, 0x00, 0x04, 0x04, 0x05, 0x08, 0x03, 0x01,
    ]);
    assert_eq!(all(&plan, 0, &[]).1, [9]);
}

#[test]
fn a_full_count_stops_and_takes_none() {
    // READ 0, EMIT 0, END.
    let plan = [0x00, 0x07, 0x00, 0x08, 0x00, 0x01];
    let mut host = Host::new(&plan, 0);
    host.state.readings = u32::MAX;
    assert_eq!(host.run(&[], 1, 9).unwrap().ended, Ended::NoReading);
    let ran = host.run(&[4], 1, 9).unwrap();
    assert_eq!((ran.ended, ran.taken), (Ended::Stopped(Stop::CountFull), 0));
    let mut host = Host::new(&plan, 0);
    host.state.outputs = u32::MAX;
    assert_eq!(host.run(&[4], 0, 9).unwrap().ended, Ended::BufferFull);
    let ran = host.run(&[], 1, 9).unwrap();
    assert_eq!(
        (ran.ended, ran.given),
        (Ended::Stopped(Stop::CountFull), vec![])
    );
}

#[test]
fn marks_by_the_rule_at_exclude_and_the_last_byte() {
    // EXCLUDE, CHECKPOINT, END with four cells: cell 0 in DE, 1 in RO, 2 in both, 3 in neither.
    let plan = [0x03, 0x0D, 0x0E, 0x01];
    let mut host = Host::new(&plan, 100);
    host.sets = vec![0; SET_WORDS];
    host.sets[0] = 0b0101;
    host.sets[4] = 0b0110;
    host.state.marks[1] = Mark::Dead;
    host.run(&[], 0, 1).unwrap();
    let marks = |host: &Host| host.state.marks[..4].to_vec();
    use Mark::*;
    assert_eq!(marks(&host), [Dead, Pending, Dead, Include]);
    host.run(&[], 0, 30).unwrap();
    assert_eq!(marks(&host), [Dead, Pending, Dead, Include]);
    host.run(&[], 0, 1).unwrap();
    assert_eq!(marks(&host), [Dead, Kept, Dead, Include]);
    assert_eq!((host.state.place, host.state.write), (3, 30));
}

#[test]
fn a_save_passed_over_changes_nothing() {
    let plan = [0x00, 0x0D, 0x0E, 0x01];
    let mut host = Host::new(&plan, 23);
    host.sets = vec![0; SET_WORDS];
    host.sets[4] = 1;
    host.run(&[], 0, 2).unwrap();
    assert_eq!((host.state.place, host.state.marks[0]), (3, Mark::Pending));
    assert_eq!((host.state.write, host.state.saving), (0, None));
}

#[test]
fn torn_bytes_are_erased_highest_address_first() {
    let mut host = Host::new(SMALL, 5);
    host.chip = vec![0; 5];
    (host.state.write, host.state.erase) = (1, 3);
    host.run(&[], 0, 1).unwrap();
    assert_eq!(host.chip, [0, 0, 0, ERASED, 0]);
    host.run(&[], 0, 2).unwrap();
    assert_eq!(host.chip, [0, ERASED, ERASED, ERASED, 0]);
    assert_eq!((host.state.place, host.state.erase), (1, 0));
}

#[test]
fn refusals_9_to_11() {
    let mut host = Host::new(SMALL, 10);
    host.sets.truncate(511);
    assert_eq!(host.run(&[], 0, 1), Err(9));
    let mut host = Host::new(SMALL, 10);
    host.state.write = 11;
    assert_eq!(host.run(&[], 0, 1), Err(10));
    let mut host = Host::new(SMALL, 65_537);
    assert_eq!(host.run(&[], 0, 1), Err(11));
    host.state.place = 2;
    assert_eq!(host.run(&[], 0, 1), Err(10));
}

#[test]
fn each_part_of_soundness() {
    let altered: [fn(&mut State); 12] = [
        |s| s.place = 2,
        |s| s.place = 20,
        |s| s.exclude = 14,
        |s| s.cells[3] = 1,
        |s| s.marks[255] = Mark::Dead,
        |s| (s.write, s.erase) = (60, 41),
        |s| (s.write, s.erase) = (u32::MAX, u32::MAX),
        |s| s.saving = Some(0),
        |s| (s.place, s.saving, s.erase) = (16, Some(0), 1),
        |s| (s.place, s.saving) = (16, Some(36)),
        |s| (s.place, s.saving, s.write) = (16, Some(0), 65),
        |s| (s.place, s.saving, s.write) = (16, Some(35), 100),
    ];
    for (number, alter) in altered.iter().enumerate() {
        let mut host = Host::new(SMALL, 100);
        alter(&mut host.state);
        assert_eq!(host.run(&[], 0, 1), Err(10), "number {number}");
    }
    let sound: [fn(&mut State); 4] = [
        |s| s.exclude = 15,
        |s| (s.place, s.saving, s.write) = (16, Some(0), 64),
        |s| (s.place, s.saving, s.write) = (16, Some(35), 99),
        |s| (s.write, s.erase) = (60, 40),
    ];
    for alter in sound {
        let mut host = Host::new(SMALL, 100);
        alter(&mut host.state);
        assert!(host.run(&[], 0, 1).is_ok());
    }
}

#[test]
fn sieve_gives_the_first_16_primes() {
    let plan = plan(include_str!("../../../examples/sieve.hex"));
    let primes = [2, 3, 5, 7, 11, 13, 17, 19, 23, 29, 31, 37, 41, 43, 47, 53];
    for chip in [0, 500, 5000] {
        let expected = (Ended::Stopped(Stop::Ended), primes.to_vec());
        assert_eq!(all(&plan, chip, &[]), expected);
    }
}

#[test]
fn cell_takes_two_rounds() {
    let plan = plan(include_str!("../../../examples/cell.hex"));
    let grid = [1, 1, 0, 0, 1, 1, 0, 1, 0, 0, 1, 1, 0, 1, 1, 0];
    let mut cells = grid;
    // A round is two updates of the interior: into G1, and back into G0.
    for _ in 0..4 {
        let old = cells;
        for (row, column) in [(1, 1), (1, 2), (2, 1), (2, 2)] {
            let near = |k: usize| k - 1..=k + 1;
            let sum: i32 = near(row)
                .flat_map(|r| near(column).map(move |c| old[4 * r + c]))
                .sum();
            cells[4 * row + column] = i32::from(sum >= 5);
        }
    }
    let expected = (Ended::Stopped(Stop::Ended), cells.to_vec());
    for chip in [0, 1000] {
        assert_eq!(all(&plan, chip, &grid), expected);
    }
}

#[test]
fn a_run_in_many_calls_is_the_run_in_one() {
    for text in [
        include_str!("../../../examples/cell.hex"),
        include_str!("../../../examples/sieve.hex"),
        include_str!("../../../examples/contour.hex"),
    ] {
        let plan = plan(text);
        let readings: Vec<i32> = (0..25).map(|k| k * 7 % 20 % 2).collect();
        let mut one = Host::new(&plan, 400);
        let whole = one.run(&readings, 100, 1_000_000).unwrap();
        let mut many = Host::new(&plan, 400);
        let mut given = Vec::new();
        for budget in [1, 2, 3, 7].into_iter().cycle() {
            let rest = &readings[many.state.readings as usize..];
            let ran = many.run(&rest[..rest.len().min(1)], 1, budget).unwrap();
            given.extend(ran.given);
            if ran.ended == whole.ended && ran.steps < budget && rest.len() <= 1 {
                break;
            }
            if let Ended::Stopped(_) = ran.ended {
                break;
            }
        }
        assert_eq!(given, whole.given);
        assert_eq!((many.state, many.chip), (one.state, one.chip));
    }
}

/// The small plan's first save on a page chip: 24 bytes and 8 of FF.
const FIRST_PAGES: [u8; 32] = [
    0xA1, 0x00, 0x05, 0x00, 0x00, 0x00, 0xA3, 0x11, 0x00, 0x0F, 0x00, 0x01, 0x00, 0x00, 0x00, 0x01,
    0x00, 0x00, 0x00, 0x14, 0x00, 0x44, 0x00, 0x5A, 0xFF, 0xFF, 0xFF, 0xFF, 0xFF, 0xFF, 0xFF, 0xFF,
];

#[test]
fn two_pages_hold_the_first_save_and_one_none() {
    for (length, chip) in [
        (0, vec![]),
        (16, vec![ERASED; 16]),
        (32, FIRST_PAGES.to_vec()),
        (48, [&FIRST_PAGES[..], &[ERASED; 16]].concat()),
    ] {
        let mut host = Host::with_pages(SMALL, length);
        let ran = host.run(&[5, 7], 10, 1000).unwrap();
        assert_eq!((ran.ended, ran.given), (Ended::NoReading, vec![5, 12]));
        assert_eq!(host.chip, chip, "{length} bytes");
    }
    for length in [15, 17, 24, 31, 33] {
        let mut host = Host::with_pages(SMALL, length);
        assert_eq!(host.run(&[5], 10, 1000), Err(11), "{length} bytes");
    }
}

#[test]
fn a_step_stores_a_page() {
    let mut host = Host::with_pages(SMALL, 64);
    // SET, READ, ADD, EMIT, EXCLUDE, and the CHECKPOINT that begins to save.
    host.run(&[5], 10, 6).unwrap();
    assert_eq!((host.state.write, host.state.saving), (0, Some(0)));
    host.run(&[], 10, 1).unwrap();
    assert_eq!((host.state.write, host.state.saving), (16, Some(16)));
    assert_eq!(host.chip[..16], FIRST_PAGES[..16]);
    assert_eq!(host.chip[16..], [ERASED; 48]);
    host.run(&[], 10, 1).unwrap();
    assert_eq!((host.state.write, host.state.saving), (32, None));
    assert_eq!(host.state.place, 17);
    assert_eq!(host.chip[..32], FIRST_PAGES);
    assert_eq!(host.chip[32..], [ERASED; 32]);
}

#[test]
fn a_step_erases_a_page_the_highest_first() {
    let mut host = Host::with_pages(SMALL, 64);
    host.chip.fill(0x00);
    (host.state.write, host.state.erase) = (16, 32);
    for (erase, erased) in [(16, 32..48), (0, 16..48)] {
        assert_eq!(host.run(&[], 0, 1).unwrap().steps, 1);
        assert_eq!((host.state.write, host.state.erase), (16, erase));
        let mut chip = [0x00; 64];
        chip[erased].fill(ERASED);
        assert_eq!(host.chip, chip);
    }
}

#[test]
fn a_state_counts_in_pages() {
    let fields: [fn(&mut State, u32); 3] = [
        |s, bytes| s.write = bytes,
        |s, bytes| s.erase = bytes,
        |s, bytes| (s.place, s.saving) = (16, Some(bytes)),
    ];
    // The save before the first EXCLUDE has three records: 36 bytes, so three pages.
    for alter in fields {
        for bytes in 0..48 {
            let mut host = Host::with_pages(SMALL, 64);
            alter(&mut host.state, bytes);
            let answer = host.run(&[], 0, 1).map(|ran| ran.steps);
            let is_whole = bytes % 16 == 0;
            assert_eq!(answer, if is_whole { Ok(1) } else { Err(10) }, "{bytes}");
        }
    }
}

#[test]
fn the_rest_of_a_save_fits_with_its_filling() {
    // Of the save's cells one is Dead: 30 bytes, so 32 with the filling.
    for (write, stored, chip, sound) in [
        (0, 0, 32, true),
        (16, 0, 32, false),
        (16, 16, 32, true),
        (32, 16, 32, false),
        (16, 0, 48, true),
        (16, 32, 64, false),
        // A chip that is no whole pages: 11 where the state is sound for its length.
        (16, 16, 33, true),
        (16, 16, 31, false),
        (0, 0, 30, false),
    ] {
        let mut host = Host::with_pages(SMALL, chip);
        host.state.marks[1] = Mark::Dead;
        (host.state.place, host.state.write) = (16, write);
        host.state.saving = Some(stored);
        let answer = host.run(&[], 0, 0).err();
        let expected = match (sound, chip % 16) {
            (false, _) => Some(10),
            (true, 0) => None,
            (true, _) => Some(11),
        };
        assert_eq!(answer, expected, "{write} {stored} {chip}");
    }
}
