//! Folds in a list (document 02, Q-6): between two calls the list's chip is folded onto a blank
//! one, and the list goes on with that. The fold is made of calls with any budget; some are cut and
//! their answer is lost, and refused calls stand among them.

use reference::folding::save_bytes;
use reference::journal::{read, BYTE_CHIP, ERASED, MAX_CHIP};

use crate::altered::without_trailing_ff;
use crate::calls::{refused_plan, spoil_chip, spoil_marks, spoiled};
use crate::engine::{Engine, LentFold};
use crate::met::Met;
use crate::rng::Rng;
use crate::sentence::{hold, Sentence, Violation};
use crate::watch::Watch;

/// The refusals of folds by number, as they are counted; there is no 10 and no 15.
const REFUSED: [&str; 17] = [
    "accepted, so in no list",
    "folds refused 1",
    "folds refused 2",
    "folds refused 3",
    "folds refused 4",
    "folds refused 5",
    "folds refused 6",
    "folds refused 7",
    "folds refused 8",
    "folds refused 9",
    "folds refused 10",
    "folds refused 11",
    "folds refused 12",
    "folds refused 13",
    "folds refused 14",
    "folds refused 15",
    "folds refused 16",
];

/// The number of bytes stored on a new chip, as a host finds it that has lost it: up to the last
/// that is not FF. Where the save has FF behind that, the chip is the same with more of it stored.
pub fn found_number(new: &[u8]) -> usize {
    without_trailing_ff(new)
}

/// Folds the list's chip onto a blank one that is long enough, with which the list goes on.
pub fn fold<E: Engine>(watch: &mut Watch<E>, rng: &mut Rng) -> Result<(), Violation> {
    let save = count_old(watch);
    let is_old = watch.is_old();
    let length = new_length(rng, save, watch.chip().len());
    let mut new = vec![ERASED; length];
    let (mut least, mut most) = (0, 0);
    loop {
        // Where the last bytes stored are FF, each of these numbers is right.
        let stored = (least + rng.below(most - least + 1)) as u64;
        if rng.below(4) == 0 {
            try_fold(watch, rng, &new, stored)?;
        }
        if is_old && rng.below(3) == 0 {
            // Until the new chip is finished, the old one is refused as before.
            watch.recover_old()?;
            watch.met.count("old chips refused within a fold");
        }
        let answer = watch.fold(&mut new, stored, budget(rng, save))?;
        (least, most) = (found_number(&new), answer.stored as usize);
        if rng.below(3) == 0 {
            count_cut(&mut watch.met, least, most, save);
            watch
                .met
                .add("cuts in a fold from A2 to A3", u64::from(is_old));
            most = least;
        } else if answer.finished {
            return finish(watch, rng, new, save);
        }
    }
}

/// Counts what the chip holds that is folded, and gives the length of its save.
fn count_old<E: Engine>(watch: &mut Watch<E>) -> usize {
    let held = read(watch.plan(), watch.chip(), BYTE_CHIP).expect("a list leaves a sound chip");
    let named = [
        ("folds", true),
        (
            "folds of a chip without a whole save",
            held.saves.is_empty(),
        ),
        ("folds of a chip with several saves", held.saves.len() > 1),
        ("folds of a chip with torn bytes", held.torn > 0),
        ("folds in a list that had one", watch.folds() > 0),
        ("folds from A2 to A3", watch.is_old()),
        ("folds behind a note", watch.notes() > 0),
    ];
    for (name, is_met) in named {
        watch.met.add(name, u64::from(is_met));
    }
    save_bytes(watch.plan(), &held, watch.kind()).len()
}

/// A length that the save fits: just, or with room for more of them, below the old chip's or above.
fn new_length(rng: &mut Rng, save: usize, old: usize) -> usize {
    let length = match rng.below(8) {
        0 if save > 0 => save,
        1 => save + rng.below(60),
        2 => old,
        3..6 => rng.below(old + 1),
        _ => old + 1 + rng.below(200),
    };
    length.max(save)
}

/// A budget: mostly few bytes, so that cuts fall everywhere.
fn budget(rng: &mut Rng, save: usize) -> u64 {
    match rng.below(10) {
        0 => 0,
        1 => 1,
        2 => u64::MAX,
        3 => save as u64,
        4..7 => rng.below(10) as u64,
        _ => rng.below(50) as u64,
    }
}

/// Counts a cut after which the answer is lost: it ended the call as a budget of these bytes would.
fn count_cut(met: &mut Met, found: usize, stored: usize, save: usize) {
    met.count("cuts in a fold");
    if found > 0 && found < save {
        met.count("cuts within the save");
    }
    if found < stored {
        met.count("numbers found again below the lost one");
    }
}

/// The list goes on with the new chip, and what it held may be in the state still.
fn finish<E: Engine>(
    watch: &mut Watch<E>,
    rng: &mut Rng,
    new: Vec<u8>,
    save: usize,
) -> Result<(), Violation> {
    let old = watch.chip().len();
    let named = [
        ("folds to a shorter chip", new.len() < old),
        ("folds to a longer chip", new.len() > old),
        ("folds to a chip as long as the save", new.len() == save),
    ];
    for (name, is_met) in named {
        watch.met.add(name, u64::from(is_met));
    }
    let spoiled = spoiled(watch.state(), rng);
    watch.go_on_with(new, spoiled)
}

/// Everything that is lent to a fold.
#[derive(Clone, PartialEq, Eq)]
struct Content {
    plan: Vec<u8>,
    sets: Vec<u64>,
    old: Vec<u8>,
    new: Vec<u8>,
    stored: u64,
}

impl Content {
    /// Spoils one of the plan, the words, the chips and the number.
    fn spoil(&mut self, rng: &mut Rng) {
        match rng.below(11) {
            0 => self.plan = refused_plan(rng),
            1 => self.sets.truncate(rng.below(self.sets.len())),
            2 => spoil_chip(&mut self.old, rng),
            10 => spoil_marks(&self.plan, &mut self.old, BYTE_CHIP, rng),
            3 => self.new.resize(MAX_CHIP + 1, ERASED),
            4..6 => {
                self.new.resize(self.new.len().max(1), ERASED);
                let at = rng.below(self.new.len());
                self.new[at] = rng.byte();
            }
            6..8 => {
                let more = self.stored.saturating_add(1);
                self.stored = rng.pick(&[0, more, 1 << 32, u64::MAX]);
            }
            _ => self.new.truncate(self.stored as usize),
        }
    }
}

/// Makes a fold of random content, where the list's fold stands. It gets copies, so that it alters
/// nothing where it is accepted: then it is no call of the list.
fn try_fold<E: Engine>(
    watch: &mut Watch<E>,
    rng: &mut Rng,
    new: &[u8],
    stored: u64,
) -> Result<(), Violation> {
    let mut content = Content {
        plan: watch.plan().to_vec(),
        sets: watch.sets().to_vec(),
        old: watch.chip().to_vec(),
        new: new.to_vec(),
        stored,
    };
    for _ in 0..1 + rng.below(2) {
        content.spoil(rng);
    }
    let before = content.clone();
    let answer = watch.engine().fold(LentFold {
        plan: &content.plan,
        sets: &content.sets,
        old: &mut content.old,
        new: &mut content.new,
        stored: content.stored,
        budget: 20,
    });
    let number = answer.err().unwrap_or(0) as usize;
    let is_right = number < REFUSED.len() && (number == 0 || content == before);
    let text = || format!("fold refused {number} altered what was lent, or is no number");
    hold(is_right, Sentence::RefusedCall, text)?;
    watch.met.count(REFUSED[number]);
    Ok(())
}
