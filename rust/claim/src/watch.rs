//! The watch over one list of calls. It makes the calls, keeps document 01's tally from the steps alone, and after each
//! call checks every sentence of its section 'Lists, cuts and the uncut run'.
//!
//! To know what each step of a run was, the watch first takes the run's steps one by one on copies, each as a run with
//! budget 1. These are runs of a list too, so the sentences are checked after each of them. Then it makes the call
//! itself, which has to leave and answer the same.

use reference::folding::Folded;
use reference::journal::{read_as, Kind, BYTE_CHIP, ERASED};
use reference::layout::STATE_BYTES;
use reference::machine::State;
use reference::spent;

use crate::days::{dead_sets, DeadSets, TwoDays};
use crate::engine::{fill, Engine, Lent, LentFold, LentPlace, Ran, UNTIL};
use crate::marks::{count_change, refusal_of_old};
use crate::met::Met;
use crate::record::Record;
use crate::rng::Rng;
use crate::sentence::{hold, shown, Sentence, Violation};
use crate::step::Step;

/// Up to how many commands the watch looks for the uncut run's stop.
const LIMIT: usize = 400;

/// What a list begins with: a plan and its readings, the page length and the length of an erased chip, any state, and any
/// words for the sets, which the engine's analysis fills.
pub struct Start {
    pub plan: Vec<u8>,
    pub readings: Vec<i32>,
    pub page: usize,
    pub chip: usize,
    pub state: Vec<u8>,
    pub sets: Vec<u64>,
}

/// Where a list stands.
#[derive(Clone)]
struct Point {
    chip: Vec<u8>,
    state: Vec<u8>,
    tally: usize,
    /// The tally just after the last final byte, or 0.
    saved: usize,
    highest: usize,
    /// Steps, and those of them that erased, since the last accepted recovery.
    steps: u64,
    erased: u64,
    /// The outputs so far, repetitions aside.
    so_far: Vec<i32>,
}

/// Where each accepted call gets the sets of either day: those of both, and what draws between them.
struct Either {
    sets: [Vec<u64>; 2],
    rng: Rng,
}

/// A list of calls to an engine, with one plan, one list of readings and one kind of chip.
pub struct Watch<'e, E> {
    engine: &'e E,
    /// The kind of the marks that are written.
    kind: Kind,
    /// Whether the reference as until Q-8 answers the list's calls, and not the engine.
    stands_in: bool,
    plan: Vec<u8>,
    sets: Vec<u64>,
    page: usize,
    readings: Vec<i32>,
    /// The dead cells before each command, by the reference's analysis.
    dead: DeadSets,
    /// Of a list over the two days of Q-3, what it meets.
    days: Option<TwoDays>,
    either: Option<Either>,
    record: Record,
    stop_after: Option<usize>,
    point: Point,
    /// Whether an accepted call left the state and no cut has since spoiled it.
    good: bool,
    /// How often the chip was folded, and until it is recovered, the chip that it was folded from.
    folds: usize,
    old: Option<Vec<u8>>,
    /// How many notes were put on the chip.
    notes: usize,
    pub met: Met,
}

impl<'e, E: Engine> Watch<'e, E> {
    pub fn new(engine: &'e E, start: Start) -> Self {
        assert_eq!(start.state.len(), STATE_BYTES);
        let mut record = Record::new(&start.plan, &start.readings);
        let mut sets = start.sets;
        engine.analyse(&start.plan, &mut sets);
        let analysis = reference::analyse(&start.plan).expect("the plan is accepted");
        Watch {
            engine,
            kind: Kind::A3,
            stands_in: false,
            sets,
            page: start.page,
            dead: dead_sets(&start.plan, &analysis),
            days: None,
            either: None,
            plan: start.plan,
            readings: start.readings,
            stop_after: record.stop_within(LIMIT),
            record,
            point: Point {
                chip: vec![ERASED; start.chip],
                state: start.state,
                tally: 0,
                saved: 0,
                highest: 0,
                steps: 0,
                erased: 0,
                so_far: Vec::new(),
            },
            good: false,
            folds: 0,
            old: None,
            notes: 0,
            met: Met::default(),
        }
    }

    /// Says, before the first call, that the engine writes A2 marks to the end.
    pub fn keep_a2(&mut self) {
        self.kind = Kind::A2;
    }

    /// Begins the list as until Q-8, before its first call: the reference of that day answers.
    pub fn begin_a2(&mut self) {
        self.keep_a2();
        self.stands_in = true;
    }

    /// The marks change: the state is spoiled as by a cut, and from now on the engine is called. It
    /// must refuse to recover the chip, unless no mark stands on it, until it has folded it.
    pub fn change_marks(&mut self, spoiled: Vec<u8>) -> Result<(), Violation> {
        assert!(self.stands_in, "a list begun until Q-8");
        self.cut(spoiled);
        (self.kind, self.stands_in) = (Kind::A3, false);
        count_change(&self.plan, &self.point.chip, &mut self.met);
        self.recover_old()
    }

    /// Whether the chip is one of A2 marks, which the engine has to fold before it recovers it.
    pub fn is_old(&self) -> bool {
        let is_a3 = |chip: &[u8]| read_as(&self.plan, chip, self.page, Kind::A3).is_ok();
        self.kind == Kind::A3 && !is_a3(&self.point.chip)
    }

    /// A recovery of the chip as it is when the marks have changed, on copies: what is accepted here is made again.
    pub fn recover_old(&mut self) -> Result<(), Violation> {
        let mut left = self.point.clone();
        let lent = lend(&self.plan, &self.sets, self.page, &mut left);
        let answer = self.engine.recover(lent);
        let expected = refusal_of_old(&self.plan, &self.point.chip);
        let text = || format!("{answer:?}, not {expected:?}: chip {}", shown(&left.chip));
        hold(answer.err() == expected, Sentence::OldMarks, text)?;
        let is_left =
            left.chip == self.point.chip && (answer.is_ok() || left.state == self.point.state);
        let text = || format!("refused {answer:?} altered what was lent");
        hold(is_left, Sentence::RefusedCall, text)
    }

    /// Begins the list under the sets until Q-3, before its first call. Cells are held that are not dead by them: those
    /// not dead by today's are among them.
    pub fn begin_until(&mut self) {
        let days = self.look_at_days();
        fill(&mut self.sets, &days.until);
        self.dead = dead_sets(&self.plan, &days.until);
        self.days = Some(days);
    }

    /// The day changes: the state is spoiled as by a cut, and the list goes on with the chip, and today's sets, as the
    /// engine's analysis finds them.
    pub fn change_day(&mut self, spoiled: Vec<u8>) {
        let days = self.days.as_mut().expect("a list begun until Q-3");
        let (chip, met) = (&self.point.chip, &mut self.met);
        days.change(&self.plan, self.page, chip, met);
        self.dead = dead_sets(&self.plan, &days.today);
        self.engine.analyse(&self.plan, &mut self.sets);
        self.cut(spoiled);
    }

    /// Lets each accepted call get the sets of either day.
    pub fn lend_either(&mut self, rng: Rng) {
        let days = self.look_at_days();
        let mut until = self.sets.clone();
        fill(&mut until, &days.until);
        self.either = Some(Either {
            sets: [until, self.sets.clone()],
            rng,
        });
        self.days = Some(days);
    }

    fn look_at_days(&mut self) -> TwoDays {
        let days = TwoDays::of(&self.plan);
        days.count_list(&mut self.met);
        days
    }

    /// Draws the sets of the next accepted call, where it gets those of either day.
    fn draw_sets(&mut self) {
        if let Some(either) = &mut self.either {
            let day = either.rng.below(2);
            self.met
                .count(["calls with the sets until Q-3", "calls with today's sets"][day]);
            self.sets.clone_from(&either.sets[day]);
        }
    }

    /// The engine that answers the calls now.
    pub fn engine(&self) -> &'e dyn Engine {
        match self.stands_in {
            true => &UNTIL,
            false => self.engine,
        }
    }

    /// The kind of the marks that are written now.
    pub fn kind(&self) -> Kind {
        self.kind
    }

    pub fn plan(&self) -> &[u8] {
        &self.plan
    }

    pub fn sets(&self) -> &[u64] {
        &self.sets
    }

    pub fn page(&self) -> usize {
        self.page
    }

    pub fn chip(&self) -> &[u8] {
        &self.point.chip
    }

    pub fn state(&self) -> &[u8] {
        &self.point.state
    }

    pub fn is_good(&self) -> bool {
        self.good
    }

    pub fn folds(&self) -> usize {
        self.folds
    }

    /// Whether the chip was folded since the last recovery.
    pub fn is_just_folded(&self) -> bool {
        self.old.is_some()
    }

    pub fn notes(&self) -> usize {
        self.notes
    }

    pub fn tally(&self) -> usize {
        self.point.tally
    }

    /// The outputs so far, repetitions aside.
    pub fn so_far(&self) -> &[i32] {
        &self.point.so_far
    }

    /// How many readings there are "from the next untaken one on".
    pub fn untaken(&mut self) -> usize {
        self.readings.len() - self.record.at(self.point.tally).readings as usize
    }

    /// "n plus twice the chip's length", where the uncut run is known to stop.
    fn most_steps(&self) -> Option<u64> {
        let most = self.stop_after? + 2 * self.point.chip.len();
        Some(most as u64)
    }

    /// How many steps may still follow the last recovery, where the uncut run is known to stop.
    pub fn steps_left(&self) -> Option<u64> {
        Some(self.most_steps()?.saturating_sub(self.point.steps))
    }

    /// A recovery that no cut ends.
    pub fn recover(&mut self) -> Result<(), Violation> {
        let recovered = self.recovered()?;
        self.met.count("recoveries");
        if let Some(days) = &self.days {
            days.recovered(&recovered, &mut self.met);
        }
        self.point.state = recovered;
        self.point.tally = self.point.saved;
        (self.point.steps, self.point.erased) = (0, 0);
        self.good = true;
        agree(&mut self.record, &self.dead, &self.point)?;
        self.compare_with_old()
    }

    /// A cut in a recovery: of the state only the first bytes are the recovered ones.
    pub fn cut_recovery(&mut self, overwritten: usize) -> Result<(), Violation> {
        let mut state = self.recovered()?;
        state[overwritten..].copy_from_slice(&self.point.state[overwritten..]);
        self.met.count("cuts in a recovery");
        self.cut(state);
        Ok(())
    }

    /// The state that a recovery leaves, which must be accepted and leave the chip alone.
    fn recovered(&mut self) -> Result<Vec<u8>, Violation> {
        self.draw_sets();
        let mut left = self.point.clone();
        let lent = lend(&self.plan, &self.sets, self.page, &mut left);
        let answer = self.engine().recover(lent);
        let before = &self.point.chip;
        let refused = || format!("{answer:?}, chip {}", shown(before));
        hold(answer.is_ok(), Sentence::RecoveryRefused, refused)?;
        let altered = || format!("chip {} became {}", shown(before), shown(&left.chip));
        hold(left.chip == *before, Sentence::ChipByRecovery, altered)?;
        Ok(left.state)
    }

    /// A call of folding, of the list's chip onto a new one of which so many bytes are stored. It
    /// must be accepted, leave the old chip alone, and store the next bytes alone.
    pub fn fold(&mut self, new: &mut [u8], stored: u64, budget: u64) -> Result<Folded, Violation> {
        assert_eq!(self.page, BYTE_CHIP, "both are byte chips");
        self.draw_sets();
        self.met.count("calls of folding");
        let before = new.to_vec();
        let mut old = self.point.chip.clone();
        let answer = self.engine().fold(LentFold {
            plan: &self.plan,
            sets: &self.sets,
            old: &mut old,
            new,
            stored,
            budget,
        });
        let refused = |number| Violation {
            sentence: Sentence::FoldRefused,
            text: format!(
                "refused {number}, {stored} bytes stored on {}",
                shown(&before)
            ),
        };
        let folded = answer.map_err(refused)?;
        let altered = || format!("chip {} became {}", shown(&self.point.chip), shown(&old));
        hold(old == self.point.chip, Sentence::OldChip, altered)?;
        let is_next = stores_next(folded, [&before, new], stored, budget);
        let text = || {
            format!(
                "{folded:?} from {stored} with budget {budget}: {}",
                shown(new)
            )
        };
        hold(is_next, Sentence::FoldBytes, text)?;
        Ok(folded)
    }

    /// The fold is finished: the list goes on with the new chip, which one call alone would leave
    /// too, and with what is given in the state, as after a cut.
    pub fn go_on_with(&mut self, new: Vec<u8>, spoiled: Vec<u8>) -> Result<(), Violation> {
        let mut whole = vec![ERASED; new.len()];
        self.fold(&mut whole, 0, u64::MAX)?;
        let text = || format!("{}, in one call {}", shown(&new), shown(&whole));
        hold(new == whole, Sentence::FoldBytes, text)?;
        self.cut(spoiled);
        self.old = Some(std::mem::replace(&mut self.point.chip, new));
        self.folds += 1;
        if let Some(days) = &mut self.days {
            days.fold();
        }
        Ok(())
    }

    /// Where the chip was folded since the last recovery: the state recovered from the old one is
    /// the same "except for write position and bytes to erase". Of one with A2 marks the reference as
    /// until Q-8 recovers it.
    fn compare_with_old(&mut self) -> Result<(), Violation> {
        let Some(chip) = self.old.take() else {
            return Ok(());
        };
        let is_a3 = read_as(&self.plan, &chip, self.page, Kind::A3).is_ok();
        let engine: &dyn Engine = match self.kind == Kind::A2 || is_a3 {
            true => self.engine(),
            false => &UNTIL,
        };
        let mut old = Point {
            chip,
            ..self.point.clone()
        };
        let lent = lend(&self.plan, &self.sets, self.page, &mut old);
        let answer = engine.recover(lent);
        let refused = || format!("the old chip: {answer:?}");
        hold(answer.is_ok(), Sentence::RecoveryRefused, refused)?;
        let (from_old, mut new) = (state_of(&old)?, state_of(&self.point)?);
        (new.write, new.erase) = (from_old.write, from_old.erase);
        let new = new.to_bytes();
        let differs = (0..STATE_BYTES).find(|&at| new[at] != old.state[at]);
        let text = || {
            format!(
                "byte {differs:?} of the state, old chip {}",
                shown(&old.chip)
            )
        };
        hold(differs.is_none(), Sentence::FoldedState, text)
    }

    /// Asks the engine whether a note may stand on the chip from this place on: it must answer as
    /// the reference does, and alter nothing. A chip with A2 marks it refuses as a recovery.
    pub fn ask_place(&mut self, place: u64) -> Result<(), Violation> {
        let (mut plan, mut chip) = (self.plan.clone(), self.point.chip.clone());
        let answer = self.engine().spent(LentPlace {
            plan: &mut plan,
            page: self.page,
            chip: &mut chip,
            place,
        });
        self.met.count("questions for a place");
        let expected = spent(&self.plan, &self.point.chip, self.page, self.kind, place);
        let is_left = plan == self.plan && chip == self.point.chip;
        let text = || format!("place {place}: {answer:?}, not {expected:?}, or altered");
        hold(answer == expected && is_left, Sentence::Spent, text)
    }

    /// Puts a note on the chip, which the state does not know: a recovery has to follow. What the
    /// chip was folded from is not the noted one.
    pub fn put_note(&mut self, at: usize, note: &[u8]) {
        self.point.chip[at..at + note.len()].copy_from_slice(note);
        self.old = None;
        self.good = false;
        self.notes += 1;
    }

    /// A cut, after which the state holds what is given.
    pub fn cut(&mut self, spoiled: Vec<u8>) {
        self.met.count("cuts");
        if let (true, Some(state)) = (self.good, State::from_bytes(&self.point.state)) {
            if let Some(name) = between_pages(&state, self.point.erased) {
                self.met.count(name);
            }
        }
        self.point.state = spoiled;
        self.good = false;
    }

    /// A run, lent so many of the untaken readings and places for so many outputs.
    pub fn run(&mut self, lent: usize, room: usize, budget: u64) -> Result<Ran, Violation> {
        self.run_to(lent, room, budget, usize::MAX)
    }

    /// A run with all that it needs, which ends where it stands between two pages for the `times`-th time, or else with
    /// the budget.
    pub fn run_between_pages(&mut self, times: usize, budget: u64) -> Result<Ran, Violation> {
        let untaken = self.untaken();
        self.run_to(untaken, budget as usize, budget, times)
    }

    fn run_to(
        &mut self,
        lent: usize,
        room: usize,
        budget: u64,
        times: usize,
    ) -> Result<Ran, Violation> {
        assert!(self.good, "a run on a spoiled state is in no list");
        self.draw_sets();
        let next = self.readings.len() - self.untaken();
        let readings = self.readings[next..next + lent].to_vec();
        let before = self.point.clone();
        let mut walked = vec![0; room];
        let (expected, budget) = self.walk(&readings, &mut walked, budget, times)?;

        let mut left = Point {
            chip: before.chip,
            state: before.state,
            ..self.point.clone()
        };
        let mut outputs = vec![0; room];
        let lent = lend(&self.plan, &self.sets, self.page, &mut left);
        let ran = accepted(self.engine().run(lent, &readings, &mut outputs, budget))?;
        self.met.count("runs");
        let (from, to) = (before.tally, left.tally);
        check_traffic(&mut self.record, from, to, ran, &outputs)?;
        agree(&mut self.record, &self.dead, &left)?;
        let is_same = ran == expected && outputs == walked;
        let left_same = left.chip == self.point.chip && left.state == self.point.state;
        let both = || format!("budget {budget}: {ran:?}, by steps {expected:?}");
        hold(is_same && left_same, Sentence::StepsOfRun, both)?;
        Ok(ran)
    }

    /// Takes the steps of a run one by one, from where the list stands to where the run leaves it, or to where it stands
    /// between two pages for the `times`-th time. Gives the budget too, which then is the number of these steps.
    fn walk(
        &mut self,
        readings: &[i32],
        outputs: &mut [i32],
        mut budget: u64,
        mut times: usize,
    ) -> Result<(Ran, u64), Violation> {
        let mut walked = Ran::default();
        let mut before = state_of(&self.point)?;
        loop {
            let one = (budget - walked.steps).min(1);
            let engine = self.engine();
            let lent = lend(&self.plan, &self.sets, self.page, &mut self.point);
            let room = &mut outputs[walked.written..];
            let ran = accepted(engine.run(lent, &readings[walked.taken..], room, one))?;
            let too_many = || format!("{} steps with budget {one}", ran.steps);
            hold(ran.steps <= one, Sentence::StepsOfRun, too_many)?;
            let after = state_of(&self.point)?;
            self.note(&before, &after, ran, room)?;
            walked = walked.then(ran);
            if ran.steps == 0 {
                return Ok((walked, budget));
            }
            if between_pages(&after, self.point.erased).is_some() {
                times -= 1;
                budget = if times == 0 { walked.steps } else { budget };
            }
            before = after;
        }
    }

    /// Notes a run of no step or of one, and checks the sentences after it.
    fn note(
        &mut self,
        before: &State,
        after: &State,
        ran: Ran,
        outputs: &[i32],
    ) -> Result<(), Violation> {
        let from = self.point.tally;
        if ran.steps == 1 {
            let step = Step::between(&self.plan, before, after);
            self.step(step);
            self.count_filling(before, after);
            if let Some(days) = &mut self.days {
                days.step(step, [before, after], &self.point.chip, &mut self.met);
            }
        }
        let to = self.point.tally;
        check_traffic(&mut self.record, from, to, ran, outputs)?;
        self.give(before.outputs as usize, &outputs[..ran.written])?;
        agree(&mut self.record, &self.dead, &self.point)?;
        check_so_far(&mut self.record, &self.point)?;
        let (steps, most) = (self.point.steps, self.most_steps());
        let is_within = most.is_none_or(|most| steps <= most);
        let text = || format!("{steps} steps, more than {most:?}");
        hold(is_within, Sentence::StepBound, text)
    }

    fn step(&mut self, step: Step) {
        self.met.count("steps");
        let point = &mut self.point;
        point.steps += 1;
        point.tally += step.adds();
        point.highest = point.highest.max(point.tally);
        match step {
            Step::StoredLast => {
                point.saved = point.tally;
                self.met.count("whole saves");
                if self.folds > 0 {
                    self.met.count("saves behind a fold");
                }
                if self.notes > 0 {
                    self.met.count("saves behind a note");
                }
            }
            Step::PassedOver => self.met.count("saves passed over"),
            Step::Erased => {
                point.erased += 1;
                self.met.add("bytes erased", self.page as u64);
            }
            Step::Command | Step::Began | Step::Stored => {}
        }
    }

    /// Counts a save whose last page is filled behind its MARK.
    fn count_filling(&mut self, before: &State, after: &State) {
        let is_whole = before.saving.is_some() && after.saving.is_none();
        let stored = self.point.chip.get(..after.write as usize);
        if is_whole && stored.is_some_and(|bytes| bytes.ends_with(&[ERASED])) {
            self.met.count("saves with filling");
        }
    }

    /// Adds the outputs whose numbers are next; those given before must be the same again.
    fn give(&mut self, first: usize, values: &[i32]) -> Result<(), Violation> {
        for (number, &value) in (first..).zip(values) {
            let so_far = &mut self.point.so_far;
            if number == so_far.len() {
                so_far.push(value);
                self.met.count("fresh outputs");
            } else {
                self.met.count("repeated outputs");
            }
            let text = || format!("output {number} is {value}, so far {so_far:?}");
            hold(so_far.get(number) == Some(&value), Sentence::SoFar, text)?;
        }
        Ok(())
    }
}

fn lend<'a>(plan: &'a [u8], sets: &'a [u64], page: usize, point: &'a mut Point) -> Lent<'a> {
    Lent {
        plan,
        sets,
        page,
        chip: &mut point.chip,
        state: &mut point.state,
    }
}

/// Whether a fold stored the next bytes, no more than the budget and, unless it is finished, no
/// fewer, and the new chip is as it was before and behind them.
fn stores_next(folded: Folded, [before, after]: [&[u8]; 2], stored: u64, budget: u64) -> bool {
    let Some(bytes) = folded.stored.checked_sub(stored) else {
        return false;
    };
    let as_many = bytes == budget || folded.finished && bytes < budget;
    let (from, to) = (stored as usize, folded.stored as usize);
    as_many && to <= before.len() && before[..from] == after[..from] && before[to..] == after[to..]
}

/// What a cut is called that falls between two pages, where so many were erased since the last recovery: a save is torn
/// where some of its pages are stored and not all; erasing is cut where some torn pages are erased and not all.
fn between_pages(state: &State, erased: u64) -> Option<&'static str> {
    match state.saving {
        Some(1..) => Some("torn saves"),
        None if state.erase > 0 && erased > 0 => Some("cuts in erasing"),
        _ => None,
    }
}

/// The state that stands in the bytes; a run would refuse bytes that are none.
fn state_of(point: &Point) -> Result<State, Violation> {
    State::from_bytes(&point.state).ok_or_else(|| Violation {
        sentence: Sentence::RunRefused,
        text: "the bytes left are no state".into(),
    })
}

fn accepted(answer: Result<Ran, u32>) -> Result<Ran, Violation> {
    answer.map_err(|number| Violation {
        sentence: Sentence::RunRefused,
        text: format!("refused {number}"),
    })
}

/// "place, counts, kind of stop and every cell not dead before that place are the uncut run's after as many commands as
/// the tally says".
fn agree(record: &mut Record, dead: &DeadSets, point: &Point) -> Result<(), Violation> {
    let state = state_of(point)?;
    let frame = record.at(point.tally);
    let place = || {
        format!(
            "tally {}: {}, not {}",
            point.tally, state.place, frame.place
        )
    };
    hold(state.place == frame.place, Sentence::Place, place)?;
    let counts = [state.readings, state.outputs];
    let uncut = [frame.readings, frame.outputs];
    let text = || format!("tally {}: {counts:?}, not {uncut:?}", point.tally);
    hold(counts == uncut, Sentence::Counts, text)?;
    let text = || {
        format!(
            "tally {}: {:?}, not {:?}",
            point.tally, state.stop, frame.stop
        )
    };
    hold(state.stop == frame.stop, Sentence::Stop, text)?;
    let dead = &dead[&frame.place];
    for (cell, &value) in frame.cells.iter().enumerate() {
        let is_dead = dead.contains(&(cell as u8));
        let here = state.cells[cell];
        let text = || format!("tally {}: cell {cell} is {here}, not {value}", point.tally);
        hold(is_dead || here == value, Sentence::Cells, text)?;
    }
    Ok(())
}

/// "takes the readings and writes the outputs, numbers and order included, that the uncut run has between the tallies
/// before and after it"; the number of the first is the count before, which `agree` compared.
fn check_traffic(
    record: &mut Record,
    from: usize,
    to: usize,
    ran: Ran,
    outputs: &[i32],
) -> Result<(), Violation> {
    let taken = record.taken(from, to);
    let text = || format!("tally {from} to {to}: {} taken, not {taken}", ran.taken);
    hold(ran.taken == taken, Sentence::Readings, text)?;
    let given = record.given(from, to);
    let written = outputs.get(..ran.written);
    let text = || format!("tally {from} to {to}: {written:?}, not {given:?}");
    hold(written == Some(given), Sentence::Outputs, text)
}

fn check_so_far(record: &mut Record, point: &Point) -> Result<(), Violation> {
    let is_stopped = record.at(point.tally).stop.is_some();
    let uncut = match is_stopped {
        true => record.all_given(),
        false => record.given(0, point.highest),
    };
    let text = || format!("{:?}, not {uncut:?}", point.so_far);
    hold(point.so_far == uncut, Sentence::SoFar, text)
}

#[cfg(test)]
mod tests {
    use super::*;
    use crate::engine::Reference;
    use crate::plans::SMALL;
    use reference::journal::BYTE_CHIP;
    use reference::machine::SET_WORDS;

    /// A plan before its first call, with document 01's readings.
    fn before_all(plan: &[u8]) -> Watch<'static, Reference> {
        let start = Start {
            plan: plan.to_vec(),
            readings: vec![5, 7, -2],
            page: BYTE_CHIP,
            chip: 0,
            state: vec![0xFF; STATE_BYTES],
            sets: vec![0; SET_WORDS],
        };
        Watch::new(&Reference, start)
    }

    fn violated(answer: Result<(), Violation>) -> Option<Sentence> {
        answer.err().map(|violation| violation.sentence)
    }

    #[test]
    fn outputs_so_far_have_no_gap_and_repeat_the_same() {
        let mut watch = before_all(SMALL);
        assert_eq!(violated(watch.give(0, &[5, 12])), None);
        assert_eq!(violated(watch.give(1, &[12, 10])), None);
        assert_eq!(watch.so_far(), [5, 12, 10]);
        assert_eq!(violated(watch.give(1, &[10])), Some(Sentence::SoFar));
        assert_eq!(violated(watch.give(4, &[0])), Some(Sentence::SoFar));
    }

    #[test]
    fn outputs_so_far_go_to_the_highest_tally() {
        let mut watch = before_all(SMALL);
        let mut checked = |highest, so_far: &[i32]| {
            watch.point.highest = highest;
            watch.point.so_far = so_far.to_vec();
            violated(check_so_far(&mut watch.record, &watch.point))
        };
        // The first EMIT is the fourth command, and six later comes the next.
        assert_eq!(checked(3, &[]), None);
        assert_eq!(checked(3, &[5]), Some(Sentence::SoFar));
        assert_eq!(checked(4, &[5]), None);
        assert_eq!(checked(9, &[5]), None);
        assert_eq!(checked(10, &[5]), Some(Sentence::SoFar));
        assert_eq!(checked(10, &[5, 12]), None);
    }

    #[test]
    fn after_a_stop_all_outputs_are_so_far() {
        // EMIT 0, EMIT 0, END.
        let mut watch = before_all(&[0x00, 0x08, 0x00, 0x08, 0x00, 0x01]);
        watch.point.tally = 3;
        watch.point.highest = 1;
        watch.point.so_far = vec![0];
        let answer = check_so_far(&mut watch.record, &watch.point);
        assert_eq!(violated(answer), Some(Sentence::SoFar));
        watch.point.so_far = vec![0, 0];
        assert_eq!(
            violated(check_so_far(&mut watch.record, &watch.point)),
            None
        );
    }

    #[test]
    fn before_the_change_cells_are_held_that_were_live_until_then() {
        // EXCLUDE, CHECKPOINT, READ 1, PUT of cell 1 to the table of cell 0 alone, EMIT 0, JUMP to EXCLUDE.
        let plan = [1, 0x0D, 0x0E, 0x07, 1, 0x0C, 0, 1, 1, 1, 8, 0, 9, 1, 0];
        for (is_until, sentence) in [(false, None), (true, Some(Sentence::Cells))] {
            let mut watch = before_all(&plan);
            watch.point.chip = vec![ERASED; 36];
            let todays = watch.sets.clone();
            if is_until {
                watch.begin_until();
                watch.sets = todays;
            }
            watch.recover().unwrap();
            // Two saves, which by today's sets have a MARK alone, and the four commands between them.
            watch.run(1, 1, 20 + 4 + 20).unwrap();
            watch.cut(vec![0x00; STATE_BYTES]);
            assert_eq!(violated(watch.recover()), sentence);
        }
    }
}
