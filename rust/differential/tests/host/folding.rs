//! The fold tool: killed and started again it folds the host's chip all the same, and the host goes
//! on with the new chip and loses no output, also where the old chip has the marks until request Q-8,
//! which the host refuses. Tools with mistakes are caught.

use std::path::Path;
use std::time::Duration;

use claim::folds::found_number;
use claim::marks::remarked;
use differential::call::sets_of;
use differential::examples::{mean, SMALL};
use differential::folds::save_of;
use differential::rng::Rng;
use reference::journal::{owner, read_as, Kind, BYTE_CHIP, ERASED, MAX_CHIP};
use reference::machine::State;
use reference::Machine;

use crate::board::{Board, Cut, End};
use crate::building::{cut_fold_tool, cut_host, fold_tool, folder, host, Edit};
use crate::mean_board;
use crate::trial::Trial;

/// Microseconds for a byte of the new chip where the tool is killed from outside.
const PAUSE: u32 = 200;

const MISTAKES: [Edit; 3] = [
    Edit {
        name: "written_from_the_highest",
        budget: 1_000,
        old: "
    for (; stored < now_stored; stored++)
        write_chip(fold, stored);
    return now_stored;",
        new: "
    uint64_t at;
    for (at = now_stored; at > stored; at--)
        write_chip(fold, at - 1);
    return now_stored;",
    },
    Edit {
        name: "begun_anew",
        budget: 1,
        old: "stored = stored_on(&fold);",
        new: "stored = 0 * stored_on(&fold);",
    },
    Edit {
        name: "up_to_the_first_ff",
        budget: 1,
        old: "
    size_t stored = fold->new_len;
    while (stored > 0 && fold->new_chip[stored - 1] == 0xFF)
        stored--;",
        new: "
    size_t stored = 0;
    while (stored < fold->new_len && fold->new_chip[stored] != 0xFF)
        stored++;",
    },
];

/// A board for the small plan with room for two of its three saves. The value of the last two has
/// FF bytes.
fn small_board(host: &Path, folder: &Path) -> (Board, Vec<i32>) {
    let board = Board::new(host, folder, SMALL, &READINGS, 50, BYTE_CHIP);
    (board, vec![5, -2, -4])
}

fn blank(length: usize) -> Vec<u8> {
    vec![ERASED; length]
}

/// A fold of a board's chip that is under way.
struct Fold<'a> {
    board: &'a Board,
    tool: &'a Path,
    old: Vec<u8>,
    save: Vec<u8>,
    kills: usize,
    /// Kills that left a part of the save.
    within: usize,
}

impl<'a> Fold<'a> {
    /// Begins onto a blank chip with so many bytes more than the save has.
    fn new(board: &'a Board, tool: &'a Path, plan: &[u8], more: usize) -> Fold<'a> {
        let old = board.chip();
        let save = save_of(plan, &old);
        board.set_new_chip(&blank(save.len() + more));
        Fold {
            board,
            tool,
            old,
            save,
            kills: 0,
            within: 0,
        }
    }

    /// Starts the tool once more, and gives whether it finished. What is wrong is an error.
    fn live(&mut self, pause: u32, cut: Cut) -> Result<bool, String> {
        let end = self.board.fold(self.tool, pause, cut);
        if self.board.chip() != self.old {
            return Err("the old chip was altered".to_string());
        }
        let new = self.board.new_chip();
        let stored = found_number(&new);
        if !self.save.starts_with(&new[..stored]) {
            return Err(format!("no beginning of the save: {new:02X?}"));
        }
        match end {
            End::Killed => {
                self.kills += 1;
                self.within += usize::from((1..self.save.len()).contains(&stored));
                Ok(false)
            }
            End::Done(told) if told != finished(self.save.len()) => Err(told),
            End::Done(_) if stored < self.save.len() => Err("finished too early".to_string()),
            End::Done(_) => {
                self.board.set_chip(&new);
                Ok(true)
            }
            End::Failed(told) => Err(told),
        }
    }
}

fn finished(bytes: usize) -> String {
    format!("fold: finished, {bytes} bytes\n")
}

/// A host that is cut, then a fold with these cuts, of which each follows a start, then the host to
/// its end on the new chip.
fn folded_once(
    mut trial: Trial,
    board: &Board,
    tool: &Path,
    cuts: &[Cut],
) -> Result<usize, String> {
    let mut fold = Fold::new(board, tool, SMALL, 25);
    let mut is_finished = false;
    for &cut in cuts {
        is_finished = is_finished || fold.live(0, cut)?;
    }
    assert!(is_finished || fold.live(0, Cut::Never)?, "killed by nobody");
    assert!(trial.live(0, Cut::Never)?, "killed by nobody");
    Ok(fold.within)
}

/// Trials with every cut of a host's run, each followed by a fold with every cut, and by one whose
/// starts are cut a byte later each time. Gives how many cuts left a part of the save.
fn cut_everywhere(host: &Path, tool: &Path, folder: &Path) -> Result<usize, String> {
    let (board, expected) = small_board(host, folder);
    let mut within = 0;
    for first in 1.. {
        let mut trial = Trial::new(&board, &expected);
        if trial.live(0, Cut::Before(first))? {
            break;
        }
        let chip = board.chip();
        let writes = save_of(SMALL, &chip).len();
        for cut in 1..=writes + 1 {
            board.set_chip(&chip);
            within += folded_once(trial.clone(), &board, tool, &[Cut::Before(cut)])?;
        }
        board.set_chip(&chip);
        let later: Vec<Cut> = (1..=8).map(Cut::Before).collect();
        within += folded_once(trial.clone(), &board, tool, &later)?;
    }
    Ok(within)
}

#[test]
fn cut_everywhere_the_fold_goes_on_and_so_does_the_host() {
    for budget in [1, 7, 1_000] {
        let folder = folder(&format!("fold-everywhere-{budget}"));
        let (host, tool) = (
            cut_host(&folder, 1, None),
            cut_fold_tool(&folder, budget, None),
        );
        let within = cut_everywhere(&host, &tool, &folder).unwrap();
        println!("{budget} bytes a call: {within} cuts within the save");
        assert!(within >= 500);
    }
}

/// The readings of the small board.
const READINGS: [i32; 3] = [5, -7, -2];

/// The chip of the small board, as the reference until Q-8 leaves it after so many steps, and how many
/// outputs it has given.
fn old_chip(steps: u64) -> (Vec<u8>, usize) {
    let (sets, mut chip) = (sets_of(SMALL), blank(50));
    let mut state = State::first();
    let machine = Machine::of_kind(SMALL, &sets, BYTE_CHIP, Kind::A2);
    let ran = machine.and_then(|machine| machine.run(&mut chip, &mut state, &READINGS, 9, steps));
    let given = ran.expect("the first state is sound").given.len();
    (chip, given)
}

/// What the host says of a chip that the reference until Q-8 left, unless it goes on with it.
fn told_of_old(chip: &[u8]) -> Option<&'static str> {
    let held = read_as(SMALL, chip, BYTE_CHIP, Kind::A2).expect("a run leaves a sound chip");
    let is_a3 = read_as(SMALL, chip, BYTE_CHIP, Kind::A3).is_ok();
    match (is_a3, held.saves.is_empty()) {
        (true, _) => None,
        (false, true) => Some("host: recover: refused 12\n"),
        (false, false) => Some(
            "host: the chip has old marks: fold it onto a blank one\nhost: recover: refused 15\n",
        ),
    }
}

/// The small plan on an old chip after each step: the host refuses it, the tool folds it with a cut
/// before every byte, and the host goes on with the new one.
#[test]
fn an_old_chip_is_refused_folded_and_goes_on() {
    let folder = folder("fold-old-marks");
    let (host, tool) = (host(&folder), cut_fold_tool(&folder, 1, None));
    let (board, expected) = small_board(&host, &folder);
    // SET, for each reading four commands, CHECKPOINT and JUMP, and the 20 bytes of two saves.
    let [mut refused, mut damaged, mut within] = [0; 3];
    for steps in 0..=1 + 3 * 6 + 2 * 20 {
        let (chip, given) = old_chip(steps);
        let trial = Trial::on_chip(&board, &expected, &chip, given);
        let Some(told) = told_of_old(&chip) else {
            continue;
        };
        let life = board.start(0, Cut::Never);
        let failed = End::Failed(format!("exit status: 1: {told}"));
        assert_eq!((life.outputs.len(), life.end), (0, failed), "{steps} steps");
        assert_eq!(board.chip(), chip);
        refused += usize::from(told.ends_with("15\n"));
        damaged += usize::from(told.ends_with("12\n"));
        for cut in 1..=save_of(SMALL, &chip).len() + 1 {
            board.set_chip(&chip);
            let cuts = [Cut::Before(cut)];
            within += folded_once(trial.clone(), &board, &tool, &cuts).unwrap();
        }
    }
    println!("{refused} chips with old marks, {damaged} with a torn one alone, {within} cuts");
    // The first save is torn within its mark after 7 to 19 bytes, and whole after all later steps.
    assert_eq!((damaged, refused), (13, 1 + 3 * 6 + 2 * 20 - (5 + 1 + 19)));
    assert!(within >= 500);
}

#[test]
fn mistakes_of_the_fold_tool_are_caught_by_some_cut() {
    for edit in &MISTAKES {
        let folder = folder(&format!("fold-cut-{}", edit.name));
        let host = cut_host(&folder, 1, None);
        let tool = cut_fold_tool(&folder, edit.budget, Some(edit));
        let fault = cut_everywhere(&host, &tool, &folder).expect_err(edit.name);
        println!("{}: {fault}", edit.name);
    }
}

/// What random trials met.
#[derive(Default)]
struct Counts {
    folds: usize,
    kills: usize,
    within: usize,
}

/// A fold of MEAN's chip by a tool that is killed at random moments, or after a random number of
/// bytes.
fn fold_at_random(
    board: &Board,
    tool: &Path,
    rng: &mut Rng,
    counts: &mut Counts,
) -> Result<(), String> {
    let mut fold = Fold::new(board, tool, &mean(), rng.below(600));
    loop {
        let cut = match rng.below(4) {
            0 => Cut::Never,
            1 => Cut::After(Duration::from_micros(rng.below(20_000) as u64)),
            _ => Cut::Changed(1 + rng.below(60)),
        };
        if fold.live(PAUSE, cut)? {
            counts.folds += 1;
            counts.kills += fold.kills;
            counts.within += fold.within;
            return Ok(());
        }
    }
}

/// One trial: the host is killed after a random number of changed bytes, and before every other
/// start its chip is folded.
fn killed_at_random(
    board: &Board,
    tool: &Path,
    expected: &[i32],
    rng: &mut Rng,
    counts: &mut Counts,
) -> Result<(), String> {
    let mut trial = Trial::new(board, expected);
    while !trial.live(20, Cut::Changed(1 + rng.below(300)))? {
        if rng.below(2) == 0 {
            fold_at_random(board, tool, rng, counts)?;
        }
    }
    Ok(())
}

#[test]
fn killed_at_random_moments_fold_and_host_lose_nothing() {
    let folder = folder("fold-random");
    let tool = fold_tool(&folder);
    let (board, expected) = mean_board(&host(&folder), &folder, BYTE_CHIP);
    let mut rng = Rng::new(0x464F_4C44);
    let mut counts = Counts::default();
    while counts.folds < 40 || counts.within < 40 {
        killed_at_random(&board, &tool, &expected, &mut rng, &mut counts).unwrap();
    }
    let Counts {
        folds,
        kills,
        within,
    } = counts;
    println!("MEAN: {folds} folds, {kills} kills of the tool, {within} within the save");
}

#[test]
fn what_a_fold_is_refused_for_is_told_and_both_chips_stay() {
    let folder = folder("fold-refusals");
    let (tool, host) = (fold_tool(&folder), host(&folder));
    let (board, _) = small_board(&host, &folder);
    let refused = |board: &Board, old: &[u8], new: &[u8], told: &str| {
        board.set_chip(old);
        board.set_new_chip(new);
        let told = format!("exit status: 1: fold: {told}\n");
        assert_eq!(board.fold(&tool, 0, Cut::Never), End::Failed(told));
        assert_eq!((&board.chip()[..], &board.new_chip()[..]), (old, new));
    };
    board.start(0, Cut::Never);
    let old = board.chip();
    let other = remarked(SMALL, &old, BYTE_CHIP, |_, _| Some(owner(SMALL) + 1));
    let other = other.expect("the chip has saves");
    let told = "the chip belongs to another plan\nfold: fold: refused 16";
    refused(&board, &other, &blank(30), told);
    refused(&board, &old, &blank(23), "fold: refused 14");
    refused(&board, &old, &[0x00; 30], "fold: refused 13");
    refused(&board, &[0x00, ERASED], &blank(30), "fold: refused 12");
    refused(&board, &blank(MAX_CHIP + 1), &blank(30), "fold: refused 11");
    refused(&board, &old, &blank(MAX_CHIP + 1), "fold: refused 11");
    let too_long = Board::new(&host, &folder, &[0x01; 2_049], &[], 60, BYTE_CHIP);
    refused(&too_long, &old, &blank(30), "analyse: refused 1");
}
