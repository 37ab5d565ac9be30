//! The example host, on either kind of chip: killed and started again, it loses no output. Hosts
//! with mistakes do, and are caught. And the fold tool (`folding`) and the notes tool (`noting`).

mod board;
mod building;
mod folding;
mod noting;
mod trial;

use std::path::Path;
use std::process::Command;
use std::time::Duration;

use board::{Board, Cut, End};
use building::{cut_host, folder, host, host_with, Edit};
use claim::marks::{remarked, with_a2};
use differential::examples::{mean, programs, SMALL};
use differential::rng::Rng;
use reference::journal::{owner, BYTE_CHIP, PAGE_CHIP};
use trial::{cut_everywhere, killed_at_random, longest_life, Counts};

/// The kinds of chip, by their page length.
const KINDS: [usize; 2] = [BYTE_CHIP, PAGE_CHIP];

/// The last is a mistake on a page chip alone.
const MISTAKES: [Edit; 6] = [
    Edit {
        name: "flushed_with_the_next_output",
        budget: 1,
        old: r#"if (printf("%" PRIu32 " %" PRId64 "\n", number, value) < 0 || fflush(stdout) != 0)"#,
        new: r#"if (fflush(stdout) != 0 || printf("%" PRIu32 " %" PRId64 "\n", number, value) < 0)"#,
    },
    Edit {
        name: "chip_before_outputs",
        budget: 1_000,
        old: "
    for (k = 0; k < given; k++)
        hand_on(number + (uint32_t)k, signed_at(outputs + k * NUMBER_SIZE));
    update_chip(host, write, erase);",
        new: "
    update_chip(host, write, erase);
    for (k = 0; k < given; k++)
        hand_on(number + (uint32_t)k, signed_at(outputs + k * NUMBER_SIZE));",
    },
    Edit {
        name: "erased_from_the_lowest",
        budget: 1_000,
        old: "
    for (at = write + erase; at > write + left; at -= unit)
        write_chip(host, at - unit, erased);",
        new: "
    for (at = write + left; at < write + erase; at += unit)
        write_chip(host, at, erased);",
    },
    Edit {
        name: "stored_from_the_highest",
        budget: 1_000,
        old: "
    for (at = write; at < end; at += unit)
        write_chip(host, at, host->chip + at);",
        new: "
    for (at = end; at > write; at -= unit)
        write_chip(host, at - unit, host->chip + at - unit);",
    },
    Edit {
        name: "numbered_by_the_count_after_the_call",
        budget: 1,
        old: "hand_on(number + (uint32_t)k,",
        new: "number = in_state(host, PITSKELO_STATE_OUTPUTS), hand_on(number + (uint32_t)k,",
    },
    Edit {
        name: "a_page_in_two_writes",
        budget: 1,
        old: "
    if (pwrite(host->chip_file, bytes, unit, (off_t)address) != (ssize_t)unit)
        fail(\"the chip\");
    if (host->pause > 0)
        nanosleep(&pause, NULL);",
        new: "
    if (pwrite(host->chip_file, bytes + unit / 2, unit / 2, (off_t)address + unit / 2) < 0)
        fail(\"the chip\");
    if (host->pause > 0)
        nanosleep(&pause, NULL);
    if (pwrite(host->chip_file, bytes, unit / 2, (off_t)address) < 0)
        fail(\"the chip\");",
    },
];

fn mistakes(page: usize) -> &'static [Edit] {
    match page {
        BYTE_CHIP => &MISTAKES[..5],
        _ => &MISTAKES,
    }
}

/// 24 readings for MEAN, and its outputs. Sums pass the range of a cell.
fn mean_run() -> (Vec<i32>, Vec<i32>) {
    let readings: Vec<i32> = (0..24).map(|k| k * 37 % 101 * 9_000_000 - 400).collect();
    let sum = |last: usize| {
        let window = &readings[last.saturating_sub(7)..=last];
        window.iter().fold(0, |sum: i32, r| sum.wrapping_add(*r))
    };
    let outputs = (0..24).map(|last| sum(last) / 8).collect();
    (readings, outputs)
}

/// A board for MEAN, with room for all its saves, and the outputs.
fn mean_board(host: &Path, folder: &Path, page: usize) -> (Board, Vec<i32>) {
    let (readings, expected) = mean_run();
    let board = Board::new(host, folder, &mean(), &readings, 2_048, page);
    (board, expected)
}

/// Document 01's small plan with its three readings, on a chip that holds its three saves.
fn small_board(host: &Path, folder: &Path, page: usize) -> (Board, Vec<i32>) {
    let chip_len = 3 * 24_usize.next_multiple_of(page);
    let board = Board::new(host, folder, SMALL, &[5, 7, -2], chip_len, page);
    (board, vec![5, 12, 10])
}

/// A board with three saves of several steps each: of the small plan on a byte chip, of MEAN on a page chip.
fn short_board(host: &Path, folder: &Path, page: usize) -> (Board, Vec<i32>) {
    match page {
        BYTE_CHIP => small_board(host, folder, page),
        _ => {
            let (board, expected) = mean_board(host, folder, page);
            board.set_readings(&mean_run().0[..3]);
            (board, expected[..3].to_vec())
        }
    }
}

fn done(told: &str) -> End {
    End::Done(format!("host: {told}\n"))
}

fn print(name: &str, board: &Board, counts: Counts) {
    println!(
        "{name}, pages of {}: {} trials, {} kills, {} inside saves, {} inside erasing; {} outputs came again",
        board.page, counts.trials, counts.kills, counts.in_saves, counts.in_erasing, counts.repeated
    );
}

#[test]
fn it_goes_on_when_there_are_new_readings() {
    let folder = folder("host-readings");
    let host = host(&folder);
    for page in KINDS {
        let (board, _) = small_board(&host, &folder, page);
        let life = board.start(0, Cut::Never);
        assert_eq!(life.outputs, [(0, 5), (1, 12), (2, 10)]);
        assert_eq!(life.end, done("no reading left"));
        let chip = board.chip();
        board.set_readings(&[5, 7, -2, 4, 2_147_483_647]);
        let life = board.start(0, Cut::Never);
        // The chip has no room for more saves, so these come again at each start.
        assert_eq!(life.outputs, [(3, 14), (4, -2_147_483_635)]);
        assert_eq!(life.end, done("no reading left"));
        assert_eq!(board.start(0, Cut::Never).outputs, life.outputs);
        assert_eq!(board.chip(), chip);
    }
}

#[test]
fn what_is_refused_is_told_and_the_chip_stays() {
    let folder = folder("host-refusals");
    let host = host(&folder);
    let refused = |board: &Board, told: &str| {
        let chip = board.chip();
        let life = board.start(0, Cut::Never);
        let told = format!("exit status: 1: host: {told}\n");
        assert_eq!((life.outputs.len(), life.end), (0, End::Failed(told)));
        assert_eq!(board.chip(), chip);
    };
    for page in KINDS {
        let (board, _) = small_board(&host, &folder, page);
        let mut chip = board.chip();
        chip[0] = 0x00;
        board.set_chip(&chip);
        refused(&board, "recover: refused 12");
        board.set_chip(&vec![0xFF; 65_537]);
        refused(&board, "recover: refused 11");
        let too_long = Board::new(&host, &folder, &[0x01; 2_049], &[], 60, page);
        refused(&too_long, "analyse: refused 1");
    }
}

#[test]
fn what_is_to_be_done_with_a_chip_of_old_marks_or_another_plans_is_told() {
    let folder = folder("host-owners");
    let host = host(&folder);
    for (page, old) in [
        (
            BYTE_CHIP,
            "the chip has old marks: fold it onto a blank one",
        ),
        (
            PAGE_CHIP,
            "the chip has old marks: no page chip is folded, erase it",
        ),
    ] {
        let (board, _) = small_board(&host, &folder, page);
        board.start(0, Cut::Never);
        let own = board.chip();
        let with_a2 = with_a2(SMALL, &own, page).expect("the chip has saves");
        let other = |_, _| Some(owner(SMALL) + 1);
        let other = remarked(SMALL, &own, page, other).expect("the chip has saves");
        for (chip, told) in [
            (with_a2, format!("host: {old}\nhost: recover: refused 15\n")),
            (
                other,
                "host: the chip belongs to another plan\nhost: recover: refused 16\n".into(),
            ),
        ] {
            board.set_chip(&chip);
            let life = board.start(0, Cut::Never);
            let told = format!("exit status: 1: {told}");
            assert_eq!((life.outputs.len(), life.end), (0, End::Failed(told)));
            assert_eq!(board.chip(), chip);
        }
    }
}

#[test]
fn killed_at_random_moments_it_loses_nothing() {
    let folder = folder("host-random");
    let host = host(&folder);
    let mut rng = Rng::new(0x4B49_4C4C);
    let primes = [2, 3, 5, 7, 11, 13, 17, 19, 23, 29, 31, 37, 41, 43, 47, 53];
    let [_, (name, sieve), _] = programs();
    for page in KINDS {
        let (board, expected) = mean_board(&host, &folder, page);
        must_lose_nothing("MEAN", &board, &expected, &mut rng);
        let board = Board::new(&host, &folder, &sieve, &[], 2_048, page);
        must_lose_nothing(name, &board, &primes, &mut rng);
    }
}

/// Trials until enough kills fell into saves and into erasing.
fn must_lose_nothing(name: &str, board: &Board, expected: &[i32], rng: &mut Rng) {
    let longest = longest_life(board, expected).unwrap();
    let mut counts = Counts::default();
    while counts.in_saves < 100 || counts.in_erasing < 25 {
        assert!(counts.trials < 40, "too few of some kind: {counts:?}");
        counts += killed_at_random(board, expected, longest, rng).unwrap();
    }
    print(name, board, counts);
    assert!(counts.repeated > 0);
}

#[test]
fn cut_everywhere_it_loses_nothing() {
    for budget in [1, 7, 1_000] {
        let folder = folder(&format!("host-everywhere-{budget}"));
        let host = cut_host(&folder, budget, None);
        for page in KINDS {
            let (board, expected) = short_board(&host, &folder, page);
            let counts = cut_everywhere(&board, &expected).unwrap();
            print(&format!("{budget} steps a call"), &board, counts);
            assert!(counts.kills > 0);
            assert!(budget > 1 || counts.in_saves > 0 && counts.in_erasing > 0);
        }
    }
}

#[test]
fn mistakes_are_caught_by_some_cut() {
    for page in KINDS {
        for edit in mistakes(page) {
            let folder = folder(&format!("host-cut-{}", edit.name));
            let host = cut_host(&folder, edit.budget, Some(edit));
            let (board, expected) = short_board(&host, &folder, page);
            let fault = cut_everywhere(&board, &expected).expect_err(edit.name);
            println!("{}, pages of {page}: {fault}", edit.name);
        }
    }
}

#[test]
fn mistakes_are_caught_by_random_kills() {
    let mut rng = Rng::new(0x4B49_4C4D);
    for page in KINDS {
        let unaltered = folder("host-unaltered");
        let (board, expected) = mean_board(&host(&unaltered), &unaltered, page);
        let longest = longest_life(&board, &expected).unwrap();
        let mut fault = |host: &Path, folder: &Path, trials| {
            let (board, expected) = mean_board(host, folder, page);
            first_fault(&board, &expected, trials, longest, &mut rng)
        };
        for budget in [1, 1_000] {
            let host = host_with(&unaltered, budget, None);
            assert_eq!(fault(&host, &unaltered, 3), None);
        }
        for edit in mistakes(page) {
            let folder = folder(&format!("host-killed-{}", edit.name));
            let host = host_with(&folder, edit.budget, Some(edit));
            let fault = fault(&host, &folder, 40).expect(edit.name);
            println!("{}, pages of {page}: {fault}", edit.name);
        }
    }
}

/// What is found wrong with a board's host in so many trials at most.
fn first_fault(
    board: &Board,
    expected: &[i32],
    trials: usize,
    longest: Duration,
    rng: &mut Rng,
) -> Option<String> {
    (0..trials).find_map(|_| killed_at_random(board, expected, longest, rng).err())
}

#[test]
fn valgrind_finds_nothing() {
    if Command::new("valgrind").arg("--version").output().is_err() {
        println!("skipped: valgrind is not installed");
        return;
    }
    let folder = folder("host-valgrind");
    let host = host(&folder);
    let arguments = ["--quiet", "--leak-check=full", "--error-exitcode=99"];
    for page in KINDS {
        let (board, expected) = mean_board(&host, &folder, page);
        let life = board.start_under("valgrind", &arguments);
        assert_eq!(life.end, done("stopped: ended"));
        assert_eq!(life.outputs, (0..).zip(expected).collect::<Vec<_>>());
    }
}
