//! What an engine is to the harness, and the Rust version as one.

use reference::folding::{fold_until, Folded};
use reference::journal::Kind;
use reference::{fold, spent, Analysis, Machine};

/// What the host lends to every call, and the page length of the chip, which says for which kind the call is. A state is
/// bytes, as docs/STATE.md lays them out.
pub struct Lent<'a> {
    pub plan: &'a [u8],
    pub sets: &'a [u64],
    pub page: usize,
    pub chip: &'a mut [u8],
    pub state: &'a mut [u8],
}

/// What the host lends to a call of folding: an old chip and a new one, how many bytes are stored
/// on that, and how many more the call may store. The old one can be altered, so that it shows
/// where an engine does.
pub struct LentFold<'a> {
    pub plan: &'a [u8],
    pub sets: &'a [u64],
    pub old: &'a mut [u8],
    pub new: &'a mut [u8],
    pub stored: u64,
    pub budget: u64,
}

/// What the service desk lends to a question for the place of a note. Plan and chip can be altered,
/// so that it shows where an engine does.
pub struct LentPlace<'a> {
    pub plan: &'a mut [u8],
    pub page: usize,
    pub chip: &'a mut [u8],
    pub place: u64,
}

/// What an accepted run answers: how it ended, as a number of the C interface, and its steps, readings taken and
/// outputs written.
#[derive(Clone, Copy, Debug, Default, PartialEq, Eq)]
pub struct Ran {
    pub ended: u32,
    pub steps: u64,
    pub taken: usize,
    pub written: usize,
}

impl Ran {
    pub fn is_stopped(&self) -> bool {
        (1..=3).contains(&self.ended)
    }

    /// This run followed by another, as one.
    pub fn then(self, next: Ran) -> Ran {
        Ran {
            ended: next.ended,
            steps: self.steps + next.steps,
            taken: self.taken + next.taken,
            written: self.written + next.written,
        }
    }
}

/// An engine: its analysis, recovery, run, folding, and the places that it tells for notes. A
/// refusal is the number of document 01 or 02.
pub trait Engine {
    /// Fills the words with DE and RO of an accepted plan; later words remain.
    fn analyse(&self, plan: &[u8], sets: &mut [u64]);

    fn recover(&self, lent: Lent) -> Result<(), u32>;

    fn run(
        &self,
        lent: Lent,
        readings: &[i32],
        outputs: &mut [i32],
        budget: u64,
    ) -> Result<Ran, u32>;

    fn fold(&self, lent: LentFold) -> Result<Folded, u32>;

    fn spent(&self, lent: LentPlace) -> Result<bool, u32>;
}

/// The Rust version.
pub struct Reference;

/// The Rust version with marks of this kind (document 02, Q-8): with A2 it is the one until then.
pub struct OfKind(pub Kind);

/// The Rust version until Q-8.
pub(crate) static UNTIL: OfKind = OfKind(Kind::A2);

impl Engine for Reference {
    fn analyse(&self, plan: &[u8], sets: &mut [u64]) {
        OfKind(Kind::A3).analyse(plan, sets);
    }

    fn recover(&self, lent: Lent) -> Result<(), u32> {
        OfKind(Kind::A3).recover(lent)
    }

    fn run(
        &self,
        lent: Lent,
        readings: &[i32],
        outputs: &mut [i32],
        budget: u64,
    ) -> Result<Ran, u32> {
        OfKind(Kind::A3).run(lent, readings, outputs, budget)
    }

    fn fold(&self, lent: LentFold) -> Result<Folded, u32> {
        OfKind(Kind::A3).fold(lent)
    }

    fn spent(&self, lent: LentPlace) -> Result<bool, u32> {
        OfKind(Kind::A3).spent(lent)
    }
}

impl OfKind {
    fn machine<'a>(&self, lent: &Lent<'a>) -> Result<Machine<'a>, u32> {
        Machine::of_kind(lent.plan, lent.sets, lent.page, self.0)
    }
}

impl Engine for OfKind {
    fn analyse(&self, plan: &[u8], sets: &mut [u64]) {
        fill(
            sets,
            &reference::analyse(plan).expect("the plan is accepted"),
        );
    }

    fn recover(&self, lent: Lent) -> Result<(), u32> {
        self.machine(&lent)?.recover_bytes(lent.chip, lent.state)
    }

    fn run(
        &self,
        lent: Lent,
        readings: &[i32],
        outputs: &mut [i32],
        budget: u64,
    ) -> Result<Ran, u32> {
        let room = outputs.len();
        let machine = self.machine(&lent)?;
        let ran = machine.run_bytes(lent.chip, lent.state, readings, room, budget)?;
        outputs[..ran.given.len()].copy_from_slice(&ran.given);
        Ok(Ran {
            ended: ran.ended.number(),
            steps: ran.steps,
            taken: ran.taken,
            written: ran.given.len(),
        })
    }

    fn fold(&self, lent: LentFold) -> Result<Folded, u32> {
        let (words, old) = (lent.sets.len(), &*lent.old);
        let fold = match self.0 {
            Kind::A2 => fold_until,
            Kind::A3 => fold,
        };
        fold(lent.plan, words, old, lent.new, lent.stored, lent.budget)
    }

    fn spent(&self, lent: LentPlace) -> Result<bool, u32> {
        spent(lent.plan, lent.chip, lent.page, self.0, lent.place)
    }
}

/// Puts DE and RO as found at the front of the words.
pub(crate) fn fill(sets: &mut [u64], found: &Analysis) {
    let words = found.set_words();
    sets[..words.len()].copy_from_slice(&words);
}
