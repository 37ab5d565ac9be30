//! Random lists of calls for one kind of chip, each drawn from a seed: under one day's sets, or
//! over the two days of document 02's request Q-3; with folds of the chip, of its request Q-6; and
//! with A2 marks, or from these to A3 ones, of its request Q-8; with notes on the chip, of its
//! request Q-14.

use std::fmt;
use std::ops::Range;
use std::thread::{available_parallelism, scope};

use reference::journal::BYTE_CHIP;
use reference::layout::STATE_BYTES;
use reference::machine::SET_WORDS;

use crate::calls::{spoiled, try_call};
use crate::days::Days;
use crate::engine::Engine;
use crate::folds::fold;
use crate::marks::Marks;
use crate::met::Met;
use crate::notes::{note, Notes};
use crate::plans::{plan, set_points};
use crate::rng::Rng;
use crate::sentence::{Sentence, Violation};
use crate::watch::{Start, Watch};

/// A sort of lists: which day's sets their calls get, the page length of their chips, whether these
/// are folded, which marks they have, and where notes are put on them.
#[derive(Clone, Copy, Debug, PartialEq, Eq)]
pub struct Sort {
    pub days: Days,
    pub page: usize,
    pub folds: bool,
    pub marks: Marks,
    pub notes: Notes,
}

impl Sort {
    /// Lists without folds.
    pub fn of(days: Days, page: usize) -> Sort {
        Sort {
            days,
            page,
            folds: false,
            marks: Marks::A3,
            notes: Notes::Nowhere,
        }
    }

    /// Lists with folds, which byte chips alone have.
    pub fn folding(days: Days) -> Sort {
        Sort {
            folds: true,
            ..Sort::of(days, BYTE_CHIP)
        }
    }

    /// The same with A2 marks to the end, for an engine as until Q-8.
    pub fn with_a2(self) -> Sort {
        Sort {
            marks: Marks::A2,
            ..self
        }
    }

    /// The same with notes put on the chip: today's dead sets say where, so over two days from the
    /// change on, and once A2 marks have changed, on these before the fold.
    pub fn with_notes(self, notes: Notes) -> Sort {
        Sort { notes, ..self }
    }

    /// The same without notes, for the part of a list before a change.
    fn without_notes(self) -> Sort {
        self.with_notes(Notes::Nowhere)
    }

    /// Lists begun as until Q-8, whose chip the engine folds, and goes on.
    pub fn changing_marks(days: Days) -> Sort {
        Sort {
            marks: Marks::Change,
            ..Sort::folding(days)
        }
    }
}

impl fmt::Display for Sort {
    fn fmt(&self, text: &mut fmt::Formatter) -> fmt::Result {
        let folds = if self.folds { ", with folds" } else { "" };
        let marks = match self.marks {
            Marks::A3 => "",
            Marks::A2 => ", A2 marks",
            Marks::Change => ", A2 marks and then A3",
        };
        let notes = match self.notes {
            Notes::Nowhere => String::new(),
            notes => format!(", notes {notes:?}"),
        };
        let (days, page) = (self.days, self.page);
        write!(text, "{days:?}, pages of {page}{folds}{marks}{notes}")
    }
}

/// Watches the lists of these seeds, on as many threads as the machine runs at once. Gives the
/// lowest seed whose list violates a sentence, if one does.
pub fn watch_lists(
    engine: &(impl Engine + Sync),
    sort: Sort,
    seeds: Range<u64>,
    met: &mut Met,
) -> Result<(), (u64, Violation)> {
    let count = available_parallelism().map_or(1, usize::from);
    let outcomes: Vec<_> = scope(|scope| {
        let spawn = |first: usize| {
            let seeds = seeds.clone().skip(first).step_by(count);
            scope.spawn(move || watch_some(engine, sort, seeds))
        };
        let threads: Vec<_> = (0..count).map(spawn).collect();
        let joined = threads.into_iter().map(|thread| thread.join());
        joined.map(|outcome| outcome.expect("no panic")).collect()
    });
    let mut violations = Vec::new();
    for (met_there, violated) in outcomes {
        met.add_all(&met_there);
        violations.extend(violated);
    }
    match violations.into_iter().min_by_key(|(seed, _)| *seed) {
        Some(violated) => Err(violated),
        None => Ok(()),
    }
}

/// Watches the lists up to the first that violates a sentence.
fn watch_some(
    engine: &impl Engine,
    sort: Sort,
    mut seeds: impl Iterator<Item = u64>,
) -> (Met, Option<(u64, Violation)>) {
    let mut met = Met::default();
    let violated = seeds.find_map(|seed| {
        let violation = watch_list(engine, sort, seed, &mut met).err()?;
        Some((seed, violation))
    });
    (met, violated)
}

/// Watches the list of this sort and seed, and adds what it met.
pub fn watch_list(
    engine: &impl Engine,
    sort: Sort,
    seed: u64,
    met: &mut Met,
) -> Result<(), Violation> {
    // An odd factor spreads neighbouring seeds, and takes none but 0 to 0.
    let mut rng = Rng::new((seed + 1).wrapping_mul(0x9E37_79B9_7F4A_7C15));
    let mut watch = Watch::new(engine, start(&mut rng, sort));
    watch.met = std::mem::take(met);
    watch.met.count("lists");
    match sort.marks {
        Marks::A3 => {}
        Marks::A2 => watch.keep_a2(),
        Marks::Change => watch.begin_a2(),
    }
    if sort.days == Days::Either {
        watch.lend_either(Rng::new(1 | rng.word()));
    }
    let outcome = match (sort.marks, sort.days) {
        (Marks::Change, _) => call_over_marks(&mut watch, &mut rng, sort),
        (_, Days::Change) => call_over_change(&mut watch, &mut rng, sort),
        (_, Days::Today | Days::Either) => call_all(&mut watch, &mut rng, sort),
    };
    *met = std::mem::take(&mut watch.met);
    outcome
}

/// What a list begins with. Over two days most plans keep set points, so that their sets differ.
fn start(rng: &mut Rng, sort: Sort) -> Start {
    let page = sort.page;
    Start {
        plan: match sort.days {
            Days::Change | Days::Either if rng.below(8) > 0 => set_points(rng),
            _ => plan(rng),
        },
        readings: readings(rng),
        page,
        chip: match (rng.below(4), sort.days) {
            (0, _) => rng.below(72).next_multiple_of(page),
            (_, Days::Today) if !sort.folds => rng.below(481).next_multiple_of(page),
            // Longer ones have room for saves of either day, and before and behind a fold.
            _ => rng.below(961).next_multiple_of(page),
        },
        state: spoiled(&[0; STATE_BYTES], rng),
        sets: (0..SET_WORDS + rng.below(3)).map(|_| rng.word()).collect(),
    }
}

fn call_all<E: Engine>(watch: &mut Watch<E>, rng: &mut Rng, sort: Sort) -> Result<(), Violation> {
    call_some(watch, rng, sort, 5, 18)?;
    finish(watch, rng).map(|_| ())
}

/// Makes at least so many calls, and below `more` others; a fold counts as one.
fn call_some<E: Engine>(
    watch: &mut Watch<E>,
    rng: &mut Rng,
    sort: Sort,
    least: usize,
    more: usize,
) -> Result<(), Violation> {
    for _ in 0..least + rng.below(more) {
        // These come beside the calls, so that a list has as many of them as one without notes.
        if sort.notes != Notes::Nowhere && rng.below(4) == 0 {
            lead_into_save(watch, rng)?;
            note(watch, rng, sort.notes)?;
        }
        match watch.is_good() {
            _ if sort.folds && rng.below(6) == 0 => {
                lead_into_save(watch, rng)?;
                fold(watch, rng)?;
            }
            true => call_when_good(watch, rng)?,
            false => call_when_spoiled(watch, rng)?,
        }
    }
    Ok(())
}

/// A list that is begun under the sets until Q-3, on which the day changes at some call.
fn call_over_change<E: Engine>(
    watch: &mut Watch<E>,
    rng: &mut Rng,
    sort: Sort,
) -> Result<(), Violation> {
    watch.begin_until();
    call_some(watch, rng, sort.without_notes(), 1, 8)?;
    lead_into_save(watch, rng)?;
    let folds = watch.folds();
    if folds > 0 {
        watch.met.count("changes of day after a fold");
    }
    watch.change_day(spoiled(watch.state(), rng));
    if sort.notes != Notes::Nowhere {
        note(watch, rng, sort.notes)?;
    }
    match rng.below(2) {
        0 => lead_into_save(watch, rng)?,
        _ => {
            // Where the next save begins, bytes that were left of a torn one would show.
            watch.recover()?;
            watch.run_between_pages(1 + rng.below(2), 80)?;
        }
    }
    watch.cut(spoiled(watch.state(), rng));
    call_some(watch, rng, sort, 3, 8)?;
    if watch.folds() > folds {
        watch.met.count("changes of day before a fold");
    }
    if finish(watch, rng)? {
        watch.met.count("stops reached after the change");
    }
    Ok(())
}

/// A list that is begun as until Q-8, whose marks change at some call. Where the day of Q-3 changes
/// too, that comes first, or at once with it.
fn call_over_marks<E: Engine>(
    watch: &mut Watch<E>,
    rng: &mut Rng,
    sort: Sort,
) -> Result<(), Violation> {
    if sort.days == Days::Change {
        watch.begin_until();
    }
    call_some(watch, rng, sort.without_notes(), 1, 8)?;
    lead_into_save(watch, rng)?;
    if sort.days == Days::Change {
        watch.change_day(spoiled(watch.state(), rng));
        if rng.below(2) == 0 {
            call_some(watch, rng, sort.without_notes(), 1, 4)?;
            lead_into_save(watch, rng)?;
        }
    }
    watch.change_marks(spoiled(watch.state(), rng))?;
    if sort.notes != Notes::Nowhere {
        note(watch, rng, sort.notes)?;
    }
    if watch.is_old() || rng.below(2) == 0 {
        fold(watch, rng)?;
    }
    call_some(watch, rng, sort, 3, 8)?;
    if finish(watch, rng)? {
        watch.met.count("stops reached after the change of marks");
    }
    Ok(())
}

/// Mostly runs on for some saves, and then often to where one is torn.
fn lead_into_save<E: Engine>(watch: &mut Watch<E>, rng: &mut Rng) -> Result<(), Violation> {
    let lead = rng.below(4);
    if lead > 0 && !watch.is_good() {
        watch.recover()?;
    }
    if lead > 0 {
        // A save takes fewer steps where they store pages.
        let most = match watch.page() {
            BYTE_CHIP => rng.pick(&[1, 60, 180]),
            _ => rng.pick(&[1, 15, 45]),
        };
        let untaken = watch.untaken();
        watch.run(untaken, most, rng.below(most) as u64)?;
    }
    if lead > 1 {
        let pages = 48 / watch.page();
        watch.run_between_pages(1 + rng.below(pages), 60)?;
    }
    Ok(())
}

/// Readings, mostly small so that comparisons go both ways.
fn readings(rng: &mut Rng) -> Vec<i32> {
    let any = rng.word() as i32;
    (0..rng.below(30))
        .map(|_| match rng.below(8) {
            0 => any,
            1 => -1,
            _ => rng.below(30) as i32 - 9,
        })
        .collect()
}

/// A budget: often few steps, so that cuts fall everywhere.
fn budget(rng: &mut Rng) -> u64 {
    let most = rng.pick(&[2, 12, 12, 48, 48, 144]);
    rng.below(most) as u64
}

fn call_when_good<E: Engine>(watch: &mut Watch<E>, rng: &mut Rng) -> Result<(), Violation> {
    match rng.below(12) {
        0 => try_call(watch, rng)?,
        1 => watch.recover()?,
        2 => watch.cut(spoiled(watch.state(), rng)),
        3..7 => run(watch, rng)?,
        7..10 => {
            run(watch, rng)?;
            watch.cut(spoiled(watch.state(), rng));
        }
        _ => {
            // A save has few pages on a page chip, so that other cuts seldom fall between them.
            watch.run_between_pages(2 + rng.below(2), 40)?;
            watch.cut(spoiled(watch.state(), rng));
            watch.recover()?;
            watch.run_between_pages(1, 40)?;
            watch.cut(spoiled(watch.state(), rng));
        }
    }
    Ok(())
}

fn call_when_spoiled<E: Engine>(watch: &mut Watch<E>, rng: &mut Rng) -> Result<(), Violation> {
    match rng.below(10) {
        0 => try_call(watch, rng)?,
        1 => watch.cut_recovery(rng.below(STATE_BYTES + 1))?,
        2 => watch.cut(spoiled(watch.state(), rng)),
        _ => watch.recover()?,
    }
    Ok(())
}

fn run<E: Engine>(watch: &mut Watch<E>, rng: &mut Rng) -> Result<(), Violation> {
    let untaken = watch.untaken();
    let lent = match rng.below(3) {
        0 => rng.below(untaken + 1),
        _ => untaken,
    };
    let room = rng.pick(&[0, 1, 2, 200, 200, 200]);
    watch.run(lent, room, budget(rng)).map(|_| ())
}

/// Where the uncut run is known to stop: runs with what is needed must reach that stop. They are given more budget than
/// the steps that are left, so that one too many shows. Gives whether it is reached.
fn finish<E: Engine>(watch: &mut Watch<E>, rng: &mut Rng) -> Result<bool, Violation> {
    if watch.steps_left().is_some() && !watch.is_good() {
        watch.recover()?;
    }
    while let Some(left) = watch.steps_left() {
        let (lent, room, budget) = match (rng.below(2), watch.untaken()) {
            (0, untaken) => (untaken, left as usize, left + 1),
            (_, untaken) => (untaken.min(1), 1, 1 + rng.below(80) as u64),
        };
        let ran = watch.run(lent, room, budget)?;
        if ran.is_stopped() {
            watch.met.count("stops reached");
            if watch.folds() > 0 {
                watch.met.count("stops reached after a fold");
            }
            if watch.notes() > 0 {
                watch.met.count("stops reached after a note");
            }
            return Ok(true);
        }
        if ran.steps == 0 {
            let text = format!("{ran:?} with {left} steps left");
            let sentence = Sentence::StopReached;
            return Err(Violation { sentence, text });
        }
    }
    Ok(false)
}
