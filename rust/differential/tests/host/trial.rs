//! A trial: one chip from the host's first start until the host ends by itself, cut or not. What the host
//! prints is held to the outputs of the uncut run, and where the cuts fell is counted.

use std::ops::AddAssign;
use std::time::{Duration, Instant};

use differential::rng::Rng;
use reference::journal::Chip;

use crate::board::{Board, Cut, End};

/// Microseconds for a chip byte where a host is killed from outside: so it is in a save most of the time.
const PAUSE: u32 = 20;

/// A trial that is cut more often is taken to have no end.
const MOST_KILLS: usize = 2_000;

#[derive(Clone, Copy, Debug, Default)]
pub struct Counts {
    pub trials: usize,
    pub kills: usize,
    /// Kills of a host that was storing a save, of which the chip has a part.
    pub in_saves: usize,
    /// Kills of a host that was erasing such a part, and was not done with it.
    pub in_erasing: usize,
    /// Outputs that came again.
    pub repeated: usize,
}

impl AddAssign for Counts {
    fn add_assign(&mut self, other: Counts) {
        self.trials += other.trials;
        self.kills += other.kills;
        self.in_saves += other.in_saves;
        self.in_erasing += other.in_erasing;
        self.repeated += other.repeated;
    }
}

#[derive(Clone)]
pub struct Trial<'a> {
    board: &'a Board,
    expected: &'a [i32],
    /// The number of the first output not yet printed.
    next: usize,
    pub counts: Counts,
}

impl<'a> Trial<'a> {
    /// Begins on an erased chip.
    pub fn new(board: &'a Board, expected: &'a [i32]) -> Self {
        board.erase();
        Trial {
            board,
            expected,
            next: 0,
            counts: Counts::default(),
        }
    }

    /// Goes on with a chip, when so many outputs were handed on.
    pub fn on_chip(board: &'a Board, expected: &'a [i32], chip: &[u8], given: usize) -> Self {
        let mut trial = Trial::new(board, expected);
        board.set_chip(chip);
        trial.next = given;
        trial
    }

    /// Starts the host once more, and gives whether it ended by itself with all outputs printed. What is
    /// wrong is an error.
    pub fn live(&mut self, pause: u32, cut: Cut) -> Result<bool, String> {
        let before = self.contents()?;
        let life = self.board.start(pause, cut);
        self.take(before.last().outputs as usize, &life.outputs)?;
        let after = self.contents()?;
        if !after.saves.starts_with(&before.saves) {
            return Err("a whole save was lost".to_string());
        }
        match life.end {
            End::Killed => {
                self.count(&before, &after, life.outputs.is_empty());
                Ok(false)
            }
            End::Done(_) if self.next == self.expected.len() => {
                self.counts.trials += 1;
                Ok(true)
            }
            End::Done(told) => Err(format!("ended with {} outputs: {told}", self.next)),
            End::Failed(told) => Err(told),
        }
    }

    fn contents(&self) -> Result<Chip, String> {
        let contents = self.board.contents();
        contents.map_err(|number| format!("the chip is damaged: {number}"))
    }

    /// Takes what one start printed: its numbers run on from what the chip had saved, none is left out, and
    /// each number has the one value.
    fn take(&mut self, saved: usize, outputs: &[(u32, i32)]) -> Result<(), String> {
        if saved > self.next {
            return Err(format!("output {} is missing", self.next));
        }
        for (number, (printed, value)) in (saved..).zip(outputs) {
            if *printed as usize != number {
                return Err(format!("output {printed} where {number} was due"));
            }
            if self.expected.get(number) != Some(value) {
                return Err(format!("output {number} is {value}"));
            }
        }
        let end = saved + outputs.len();
        self.counts.repeated += end.min(self.next) - saved;
        self.next = self.next.max(end);
        Ok(())
    }

    /// Counts a kill by what it left on the chip. Torn bytes that were there at the start are erased first, and
    /// the tests' plans give an output before each save: where nothing was printed, no save was begun. This holds
    /// for a host with one step a call; others print before they erase, and all their torn chips count as saves.
    fn count(&mut self, before: &Chip, after: &Chip, silent: bool) {
        self.counts.kills += 1;
        if after.torn == 0 {
            return;
        }
        if !silent {
            self.counts.in_saves += 1;
        } else if after.torn < before.torn {
            self.counts.in_erasing += 1;
        }
    }
}

/// The longest that a host is let live: three times what it takes from save to save, as timed in a run
/// without a kill, with all outputs.
pub fn longest_life(board: &Board, expected: &[i32]) -> Result<Duration, String> {
    let mut trial = Trial::new(board, expected);
    let begun = Instant::now();
    let done = trial.live(PAUSE, Cut::Never)?;
    assert!(done, "killed by nobody");
    let saves = trial.contents()?.saves.len();
    Ok(3 * begun.elapsed() / saves as u32)
}

/// One trial with kills from outside: at random moments, or after a random number of changed chip bytes, by
/// which more of them fall into saves and into erasing.
pub fn killed_at_random(
    board: &Board,
    expected: &[i32],
    longest: Duration,
    rng: &mut Rng,
) -> Result<Counts, String> {
    let mut trial = Trial::new(board, expected);
    while trial.counts.kills < MOST_KILLS {
        let cut = match rng.below(2) {
            0 => Cut::After(longest * rng.below(1_000) as u32 / 1_000),
            _ => Cut::Changed(1 + rng.below(120)),
        };
        if trial.live(PAUSE, cut)? {
            return Ok(trial.counts);
        }
    }
    panic!("no end after {MOST_KILLS} kills");
}

/// Trials with every cut of a run, each followed by every cut from the next start's first erased byte, or page, to a
/// little behind the last.
pub fn cut_everywhere(board: &Board, expected: &[i32]) -> Result<Counts, String> {
    let mut counts = Counts::default();
    for first in 1.. {
        let mut trial = Trial::new(board, expected);
        if trial.live(0, Cut::Before(first))? {
            break;
        }
        counts += trial.counts;
        trial.counts = Counts::default();
        let chip = board.chip();
        let torn_pages = trial.contents()?.torn / board.page;
        for second in 1..=torn_pages + 3 {
            board.set_chip(&chip);
            counts += cut_twice(trial.clone(), second)?;
        }
    }
    Ok(counts)
}

/// The rest of a trial that was cut once.
fn cut_twice(mut trial: Trial, second: usize) -> Result<Counts, String> {
    let done = trial.live(0, Cut::Before(second))? || trial.live(0, Cut::Never)?;
    assert!(done, "killed by nobody");
    Ok(trial.counts)
}
