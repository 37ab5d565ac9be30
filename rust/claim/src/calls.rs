//! Calls of any content, most of which are refused. A refused call among those of a list must alter nothing.

use reference::journal::{
    owner, read, Chip, Kind, BYTE_CHIP, ERASED, MARK_A2, MARK_A3, MAX_CHIP, PAGE_CHIP,
};
use reference::layout::{NUMBERS_AT, STATE_BYTES};
use reference::machine::SET_WORDS;

use crate::engine::{Engine, Lent};
use crate::marks::{remarked, with_a2};
use crate::plans::plan;
use crate::rng::Rng;
use crate::sentence::{Sentence, Violation};
use crate::watch::Watch;

/// The refusals by number, as they are counted.
const REFUSED: [&str; 17] = [
    "accepted, so in no list",
    "refused 1",
    "refused 2",
    "refused 3",
    "refused 4",
    "refused 5",
    "refused 6",
    "refused 7",
    "refused 8",
    "refused 9",
    "refused 10",
    "refused 11",
    "refused 12",
    "refused 13",
    "refused 14",
    "refused 15",
    "refused 16",
];

/// Everything that is lent to a call, with the outputs' places.
#[derive(Clone, PartialEq, Eq)]
struct Content {
    plan: Vec<u8>,
    sets: Vec<u64>,
    page: usize,
    chip: Vec<u8>,
    state: Vec<u8>,
    outputs: Vec<i32>,
}

impl Content {
    /// What the list would lend.
    fn of_list<E: Engine>(watch: &Watch<E>, rng: &mut Rng) -> Content {
        Content {
            plan: watch.plan().to_vec(),
            sets: watch.sets().to_vec(),
            page: watch.page(),
            chip: watch.chip().to_vec(),
            state: watch.state().to_vec(),
            outputs: vec![-77; rng.below(4)],
        }
    }

    /// The same for either kind of chip, with one or two things spoiled.
    fn spoiled<E: Engine>(watch: &Watch<E>, rng: &mut Rng) -> Content {
        let page = rng.pick(&[BYTE_CHIP, PAGE_CHIP]);
        let mut content = Content {
            page,
            ..Content::of_list(watch, rng)
        };
        for _ in 0..1 + rng.below(2) {
            spoil_content(&mut content, rng);
        }
        content
    }

    /// The same with other marks on the chip alone.
    fn with_other_marks<E: Engine>(watch: &Watch<E>, rng: &mut Rng) -> Content {
        let mut content = Content::of_list(watch, rng);
        spoil_marks(&content.plan, &mut content.chip, content.page, rng);
        content
    }
}

/// Makes a call of random content, where the list stands. It gets copies of the list's chip and state, so that it
/// alters nothing where it is accepted: then it is no call of the list.
pub fn try_call<E: Engine>(watch: &mut Watch<E>, rng: &mut Rng) -> Result<(), Violation> {
    let of_marks = rng.below(4) == 0;
    let mut content = match of_marks {
        true => Content::with_other_marks(watch, rng),
        false => Content::spoiled(watch, rng),
    };
    let before = content.clone();
    let lent = Lent {
        plan: &content.plan,
        sets: &content.sets,
        page: content.page,
        chip: &mut content.chip,
        state: &mut content.state,
    };
    let engine = watch.engine();
    let answer = match rng.below(2) {
        // Of the marks a run asks nothing.
        _ if of_marks => engine.recover(lent),
        0 => engine.recover(lent),
        _ => engine
            .run(lent, &[1, 2, 3], &mut content.outputs, 20)
            .map(|_| ()),
    };
    let number = answer.err().unwrap_or(0);
    let is_number = (number as usize) < REFUSED.len();
    if (number == 0 || content == before) && is_number {
        watch.met.count(REFUSED[number as usize]);
        if number > 0 && content.page != watch.page() {
            watch.met.count("refused calls of the other kind");
        }
        return Ok(());
    }
    Err(Violation {
        sentence: Sentence::RefusedCall,
        text: format!("refused {number} altered what was lent, or is no number"),
    })
}

/// Spoils one of the plan, the words, the chip and the state.
fn spoil_content(content: &mut Content, rng: &mut Rng) {
    match rng.below(8) {
        0..4 => content.plan = refused_plan(rng),
        4 => content.sets.truncate(rng.below(SET_WORDS)),
        5 => spoil_chip(&mut content.chip, rng),
        6 if content.state.len() == STATE_BYTES => content.state = spoiled(&content.state, rng),
        _ => content.state.resize(rng.below(2 * STATE_BYTES), 0),
    }
}

/// Document 01's examples of refused plans, or a random plan with a byte altered or cut off.
pub(crate) fn refused_plan(rng: &mut Rng) -> Vec<u8> {
    let mut altered = plan(rng);
    match rng.below(12) {
        0 => vec![],
        1 => vec![0x00, 0x7F],
        2 => vec![0x00, 0x08],
        3 => vec![0x00, 0x08, 0x01],
        4 => vec![0x00, 0x0B, 0x00, 0x00, 0x02, 0x00],
        5 => [vec![0x00], vec![0x01; 513]].concat(),
        6 => vec![0x00],
        7 => vec![0x00, 0x09, 0x02, 0x00],
        8 => {
            altered.truncate(rng.below(altered.len()));
            altered
        }
        _ => {
            let at = rng.below(altered.len());
            altered[at] = rng.byte();
            altered
        }
    }
}

pub(crate) fn spoil_chip(chip: &mut Vec<u8>, rng: &mut Rng) {
    match rng.below(3) {
        0 => chip.resize(MAX_CHIP + 1, 0xFF),
        1 => *chip = vec![0x00, 0xFF],
        _ => {
            let at = rng.below(chip.len() + 1);
            chip.truncate(at);
            chip.extend([rng.byte(), rng.byte()]);
        }
    }
}

/// Gives the chip's whole saves A2 marks, lets one of them name another plan, or puts the first byte
/// of the other kind's mark behind them, where it has any.
pub(crate) fn spoil_marks(plan: &[u8], chip: &mut Vec<u8>, page: usize, rng: &mut Rng) {
    let Ok(held) = read(plan, chip, page) else {
        return;
    };
    let (by, at) = (1_u32 << rng.below(32), rng.below(held.saves.len().max(1)));
    let other = match rng.below(5) {
        0..2 => with_a2(plan, chip, page),
        2..4 => remarked(plan, chip, page, |number, mark| match number == at {
            true => Some(owner(plan) ^ by),
            false => mark.owner,
        }),
        _ => with_other_tag(chip, &held),
    };
    if let Some(other) = other {
        *chip = other;
    }
}

/// The chip with whole saves and behind them the first byte of the other kind's mark alone.
fn with_other_tag(chip: &[u8], held: &Chip) -> Option<Vec<u8>> {
    let tag = match held.saves.last()?.mark.kind() {
        Kind::A2 => MARK_A3,
        Kind::A3 => MARK_A2,
    };
    let mut chip = chip.to_vec();
    chip[held.end..].fill(ERASED);
    *chip.get_mut(held.end)? = tag;
    Some(chip)
}

/// A state of the right length that may hold anything: often much like the one given.
pub fn spoiled(state: &[u8], rng: &mut Rng) -> Vec<u8> {
    let mut state = state.to_vec();
    match rng.below(5) {
        0 => state.iter_mut().for_each(|byte| *byte = rng.byte()),
        1 => state.fill(rng.pick(&[0x00, 0xFF])),
        2 => state[NUMBERS_AT..]
            .iter_mut()
            .for_each(|byte| *byte = rng.below(3) as u8),
        3 => {
            for _ in 0..1 + rng.below(6) {
                state[rng.below(STATE_BYTES)] = rng.byte();
            }
        }
        _ => {}
    }
    state
}
