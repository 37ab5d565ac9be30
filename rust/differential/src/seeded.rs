//! Calls of the C entries, each drawn from a seed. Those of even seeds have no fault and are accepted; those of odd seeds
//! are hostile: something of what is lent is wrong, often two things at once.

use reference::journal::{BYTE_CHIP, ERASED, MAX_CHIP, PAGE_CHIP};
use reference::layout::STATE_BYTES;
use reference::program::{CHECKPOINT, END, EXCLUDE};
use reference::Machine;

use crate::buffer::Buffer;
use crate::call::{number_bytes, words, Call, Entry, DEAD_WORDS, SET_WORDS};
use crate::examples::{programs, SMALL};
use crate::faults;
use crate::folds::{old_chip, save_of, NewChip};
use crate::journals::{self, filled, stored};
use crate::owners;
use crate::places;
use crate::plans::{crowded, large, long, reversed, stream, valid, woven, Draft};
use crate::rng::Rng;
use crate::states::{faulty, in_save, sound, value, Shape};

/// A call, and the names of its faults.
pub struct Seeded {
    pub call: Call,
    pub faults: Vec<&'static str>,
    /// Whether it is a question for a place, without a fault, on a chip that a list of calls left.
    pub is_left: bool,
}

/// The call of this seed.
pub fn seeded(entry: Entry, seed: u64) -> Seeded {
    // An odd factor spreads neighbouring seeds, and takes none but 0 to 0.
    let mut rng = Rng::new((seed + 1).wrapping_mul(0x9E37_79B9_7F4A_7C15));
    let mut content = content(&mut rng, entry);
    let mut faults = Vec::new();
    if seed % 2 == 1 {
        // More folds have two, since they have more refusals whose order shows so.
        let two = if entry == Entry::Fold { 2 } else { 1 };
        for _ in 0..rng.pick(&[1, two, 2]) {
            faults.push(content.spoil(&mut rng, entry));
        }
    }
    Seeded {
        call: content.lent(&mut rng, entry),
        is_left: content.is_left && faults.is_empty(),
        faults,
    }
}

/// The bytes of what is lent, and the budget; of a fold the chip is the old one.
#[derive(Default)]
struct Content {
    plan: Vec<u8>,
    dead: Vec<u8>,
    sets: Vec<u8>,
    chip: Vec<u8>,
    is_left: bool,
    place: u64,
    new_chip: NewChip,
    state: Vec<u8>,
    readings: Vec<u8>,
    outputs: Vec<u8>,
    budget: u64,
}

fn content(rng: &mut Rng, entry: Entry) -> Content {
    let is_run = matches!(entry, Entry::Run | Entry::PageRun);
    let many = is_run && rng.below(12) == 0;
    let mut content = Content {
        plan: match many {
            true => stream(rng).bytes,
            false => plan(rng, entry),
        },
        ..Content::default()
    };
    match entry {
        Entry::Check => {}
        Entry::Analyse => {
            content.dead = vec![rng.byte(); 8 * DEAD_WORDS + rng.below(20)];
            content.sets = vec![rng.byte(); 8 * SET_WORDS + rng.below(20)];
        }
        Entry::Recover | Entry::PageRecover => content.for_recover(rng, entry.page()),
        Entry::Run | Entry::PageRun => content.for_run(rng, entry.page(), many),
        Entry::Fold => content.for_fold(rng),
        Entry::Spent | Entry::PageSpent => content.for_spent(rng, entry),
    }
    content
}

/// An accepted plan. The reference's analysis is slow on large ones, so analyse seldom gets one.
fn plan(rng: &mut Rng, entry: Entry) -> Vec<u8> {
    let seldom = match entry {
        Entry::Analyse => 100,
        _ => 4,
    };
    match rng.below(16) {
        0..4 => claim::plans::plan(rng),
        4..8 => stream(rng).bytes,
        8 => valid(rng).bytes,
        9..11 => woven(rng).bytes,
        11 => reversed(rng).bytes,
        12 => SMALL.to_vec(),
        13 => {
            let [(_, cell), (_, sieve), (_, contour)] = programs();
            [cell, sieve, contour][rng.below(3)].clone()
        }
        14 if rng.below(seldom) == 0 => any_of(rng, &[large, crowded, long]),
        14 => valid(rng).bytes,
        _ => {
            let plans = journals::plans();
            plans[rng.below(plans.len())].clone()
        }
    }
}

/// An accepted plan of one of these, which make some that are too large.
fn any_of(rng: &mut Rng, makers: &[fn(&mut Rng) -> Draft]) -> Vec<u8> {
    loop {
        let plan = rng.pick(makers)(rng).bytes;
        if reference::check(&plan).is_ok() {
            return plan;
        }
    }
}

/// Words of DE and RO, with a rest of some bytes: those found for the plan, or others, which are as good.
fn sets(rng: &mut Rng, plan: &[u8]) -> Vec<u8> {
    let mut words = match rng.below(4) {
        // The reference's analysis takes long on long plans.
        0 if plan.len() < 100 => reference::analyse(plan).map_or(vec![], |found| found.set_words()),
        _ => vec![],
    };
    let kind = rng.below(4);
    words.resize_with(SET_WORDS + rng.below(3), || match kind {
        0 => 0,
        1 => rng.word() & rng.word() & rng.word(),
        2 => rng.word() | rng.word(),
        _ => rng.word(),
    });
    let mut bytes = crate::call::word_bytes(&words);
    bytes.resize(bytes.len() + rng.below(8), 0xA5);
    bytes
}

/// Readings or outputs: how many. The library takes 1,024 at a time, so many are often about 1,024 or twice that.
fn how_many(rng: &mut Rng, many: bool) -> usize {
    match many {
        false => rng.pick(&[0, 1, 2, 5, 60, 100]),
        true => match rng.below(3) {
            0 => rng.pick(&[1_023, 1_024, 1_025, 2_047, 2_048, 2_049]),
            _ => rng.below(8_000),
        },
    }
}

fn budget(rng: &mut Rng, many: bool) -> u64 {
    let budget = match (many, rng.below(6)) {
        (true, _) => 2_000 + rng.below(18_001),
        (false, 0) => rng.below(3),
        // The library stores fewer than 16 bytes of a save in another way than more.
        (false, 1) => 13 + rng.below(6),
        (false, 2) => rng.below(40),
        (false, 3) => rng.below(300),
        (false, 4) => rng.below(2_000),
        (false, _) => match rng.below(8) {
            0 => rng.below(20_001),
            _ => rng.below(300),
        },
    };
    budget as u64
}

/// Signed numbers as bytes, with a rest of some bytes.
fn numbers(rng: &mut Rng, count: usize) -> Vec<u8> {
    let numbers: Vec<i32> = (0..count).map(|_| value(rng)).collect();
    let mut bytes = number_bytes(&numbers);
    bytes.resize(bytes.len() + rng.below(4), 0xA5);
    bytes
}

impl Content {
    fn has_checkpoint(&self) -> bool {
        !Shape::of(&self.plan, BYTE_CHIP).checkpoints.is_empty()
    }

    /// A chip of this page length as the engine leaves it; seldom a large one, which takes the reference long where saves
    /// fill it.
    fn sound_chip(&self, rng: &mut Rng, page: usize) -> Vec<u8> {
        let ends = [PAGE_CHIP, MAX_CHIP - PAGE_CHIP, MAX_CHIP];
        match (self.has_checkpoint(), rng.below(200)) {
            (_, 0..3) => vec![ERASED; rng.pick(&ends)],
            (false, _) => vec![ERASED; rng.below(100).next_multiple_of(page)],
            (true, 3) => {
                let length = rng.pick(&[4_000, 20_000, MAX_CHIP]);
                filled(rng, &self.plan, length, page)
            }
            (true, _) => stored(rng, &self.plan, page),
        }
    }

    fn for_recover(&mut self, rng: &mut Rng, page: usize) {
        self.sets = sets(rng, &self.plan);
        self.chip = self.sound_chip(rng, page);
        self.state = match rng.below(2) {
            0 => vec![rng.byte(); STATE_BYTES],
            _ => (0..STATE_BYTES).map(|_| rng.byte()).collect(),
        };
    }

    /// What a run is lent; `many` readings and places for outputs where the plan uses them.
    fn for_run(&mut self, rng: &mut Rng, page: usize, many: bool) {
        self.sets = sets(rng, &self.plan);
        let (readings, room) = (how_many(rng, many), how_many(rng, many));
        self.readings = numbers(rng, readings);
        self.outputs = vec![rng.byte(); 4 * room + rng.below(4)];
        self.budget = budget(rng, many);
        match rng.below(4) {
            0 => self.reach(rng, page).expect("the engine goes on"),
            _ => self.stand(rng, page),
        }
    }

    /// A chip of any bytes and a sound state.
    fn stand(&mut self, rng: &mut Rng, page: usize) {
        let length = match rng.below(100) {
            0 => rng.pick(&[MAX_CHIP, MAX_CHIP - PAGE_CHIP, PAGE_CHIP]),
            1..10 => rng.below(4_000).next_multiple_of(page),
            10..30 => rng.below(40).next_multiple_of(page),
            _ => rng.below(400).next_multiple_of(page),
        };
        self.chip = match rng.below(2) {
            0 => vec![ERASED; length],
            _ => (0..length).map(|_| rng.byte()).collect(),
        };
        let shape = Shape::of(&self.plan, page);
        self.state = sound(rng, &shape, length).to_bytes().into();
    }

    /// The chip and the state that a recovery and a run leave, or their refusal.
    fn reach(&mut self, rng: &mut Rng, page: usize) -> Result<(), u32> {
        let mut chip = self.sound_chip(rng, page);
        let length = (chip.len() + rng.below(200)).next_multiple_of(page);
        chip.resize(length.min(MAX_CHIP), ERASED);
        let mut state = vec![0; STATE_BYTES];
        let sets = words(&self.sets);
        let machine = Machine::new(&self.plan, &sets, page)?;
        machine.recover_bytes(&chip, &mut state)?;
        let budget = rng.below(80) as u64;
        machine.run_bytes(&mut chip, &mut state, &[3, -1, 7, 0], 9, budget)?;
        (self.chip, self.state) = (chip, state);
        Ok(())
    }

    /// What a fold is lent. Every tenth plan has 256 cells, and of the others few have no
    /// CHECKPOINT.
    fn for_fold(&mut self, rng: &mut Rng) {
        if rng.below(10) == 0 {
            self.plan = vec![0xFF, EXCLUDE, CHECKPOINT, END];
        }
        while !self.has_checkpoint() && rng.below(10) > 0 {
            self.plan = plan(rng, Entry::Fold);
        }
        self.sets = sets(rng, &self.plan);
        self.chip = match self.has_checkpoint() {
            true => old_chip(rng, &self.plan, &words(&self.sets)),
            false => vec![ERASED; rng.below(100)],
        };
        self.new_chip = NewChip::for_save(rng, save_of(&self.plan, &self.chip));
        self.budget = self.new_chip.budget(rng);
    }

    /// What a question for a place is lent. Few plans have no CHECKPOINT.
    fn for_spent(&mut self, rng: &mut Rng, entry: Entry) {
        while !self.has_checkpoint() && rng.below(20) > 0 {
            self.plan = plan(rng, entry);
        }
        let page = entry.page();
        (self.chip, self.is_left) = match (self.has_checkpoint(), rng.below(100)) {
            (true, 1..) => places::chip(rng, &self.plan, page),
            _ => (self.sound_chip(rng, page), false),
        };
        self.place = places::place(rng, &self.plan, &self.chip, page);
    }

    /// Spoils something of what the entry is lent, and gives the fault's name.
    fn spoil(&mut self, rng: &mut Rng, entry: Entry) -> &'static str {
        let is_saving = reference::check(&self.plan).is_ok() && self.has_checkpoint();
        if let Some(fault) = is_saving.then(|| self.spoil_kind(rng, entry)).flatten() {
            return fault;
        }
        if let Some(fault) = is_saving.then(|| self.spoil_marks(rng, entry)).flatten() {
            return fault;
        }
        match (entry, rng.below(10)) {
            (Entry::Check, _) | (_, 0..4) => self.spoil_plan(rng),
            (Entry::Spent | Entry::PageSpent, _) => self.spoil_question(rng, entry.page()),
            (Entry::Analyse, 4..7) => {
                let length = faults::short_words(rng, DEAD_WORDS);
                self.dead.truncate(length);
                "too few words of dead sets"
            }
            (Entry::Analyse, _) | (_, 4) => {
                let length = faults::short_words(rng, SET_WORDS);
                self.sets.truncate(length);
                "too few words of DE and RO"
            }
            (_, 5) => {
                self.chip = faults::long_chip(rng, std::mem::take(&mut self.chip));
                "a chip that is too long"
            }
            (Entry::Fold, _) => self.spoil_chips(rng),
            (Entry::Recover | Entry::PageRecover, 6) => {
                let length = rng.pick(&[0, STATE_BYTES - 1, STATE_BYTES + 1, 2 * STATE_BYTES]);
                self.state.resize(length, 0);
                "a state of another length"
            }
            (Entry::Recover | Entry::PageRecover, _) => {
                self.chip = faults::chip(rng, std::mem::take(&mut self.chip));
                "an altered chip"
            }
            (Entry::Run | Entry::PageRun, _) => self.spoil_state(rng, entry.page()),
        }
    }

    /// Spoils the plan or the chip of a question for a place. More of its plans have a CHECKPOINT
    /// than those of other calls, so that more of its faults are the chip's already.
    fn spoil_question(&mut self, rng: &mut Rng, page: usize) -> &'static str {
        let chip = std::mem::take(&mut self.chip);
        let (name, chip) = match rng.below(6) {
            0..2 => (self.spoil_plan(rng), chip),
            2 => ("a chip that is too long", faults::long_chip(rng, chip)),
            _ => ("an altered chip", faults::chip(rng, chip)),
        };
        self.chip = chip;
        if name == "an altered chip" {
            self.fill_page(page);
        }
        name
    }

    /// Spoils one of a fold's chips, or the number of bytes stored.
    fn spoil_chips(&mut self, rng: &mut Rng) -> &'static str {
        match rng.below(8) {
            0 => {
                let bytes = &mut self.new_chip.bytes;
                *bytes = faults::long_chip(rng, std::mem::take(bytes));
                "a new chip that is too long"
            }
            1 => {
                self.chip = faults::chip(rng, std::mem::take(&mut self.chip));
                "an altered chip"
            }
            _ => self.new_chip.spoil(rng),
        }
    }

    /// Now and then spoils something that has to do with the kinds of chip, where the plan is accepted and saves.
    fn spoil_kind(&mut self, rng: &mut Rng, entry: Entry) -> Option<&'static str> {
        let page = entry.page();
        let other = BYTE_CHIP + PAGE_CHIP - page;
        match (entry, rng.below(16)) {
            (Entry::Check | Entry::Analyse, _) => None,
            (Entry::Run | Entry::PageRun, 0..2) => {
                self.reach(rng, other).ok()?;
                self.fill_page(page);
                Some("chip and state of the other kind")
            }
            (_, 0..2) => {
                self.chip = stored(rng, &self.plan, other);
                self.fill_page(page);
                Some("a chip of the other kind")
            }
            (Entry::PageRecover | Entry::PageRun | Entry::PageSpent, 2..4) => {
                self.chip = faults::broken_page(rng, std::mem::take(&mut self.chip), page);
                Some("a chip that is no whole pages")
            }
            (Entry::PageRecover | Entry::PageSpent, 4..7) => {
                let sound = stored(rng, &self.plan, page);
                self.chip = faults::filling(rng, &self.plan, sound, page)?;
                Some("filling with a wrong byte")
            }
            (Entry::PageRun, 4..6) => self.leave_no_filling(rng, page),
            _ => None,
        }
    }

    /// Now and then spoils the marks of the chip that a recovery or a fold reads, where the plan is accepted and saves.
    fn spoil_marks(&mut self, rng: &mut Rng, entry: Entry) -> Option<&'static str> {
        let page = entry.page();
        let of_fold = match entry {
            Entry::Recover | Entry::PageRecover | Entry::Spent | Entry::PageSpent => false,
            Entry::Fold => true,
            _ => return None,
        };
        let (plan, chip) = (&self.plan, &self.chip);
        let (name, other) = match rng.below(40) {
            0..4 if !of_fold => ("A2 marks", owners::a2_marks(rng, plan, page)),
            4..6 if !of_fold => ("a torn A2 alone", owners::torn_a2(rng, plan, page)),
            6..8 => (
                "marks of both kinds",
                owners::both_kinds(rng, plan, chip, page)?,
            ),
            8..10 => (
                "a mark of another length",
                owners::another_plan(rng, plan, chip, page, false)?,
            ),
            10..12 => (
                "a mark of another sum",
                owners::another_plan(rng, plan, chip, page, true)?,
            ),
            12..14 => (
                "an earlier mark of another plan",
                owners::earlier_of_another_plan(rng, plan, chip, page)?,
            ),
            14 => (
                "a chip of another plan",
                owners::of_another_plan(rng, plan, page, &journals::plans()),
            ),
            _ => return None,
        };
        self.chip = other;
        Some(name)
    }

    /// Makes the chip a number of whole pages, so that its length is no ground for a refusal.
    fn fill_page(&mut self, page: usize) {
        let length = self.chip.len().next_multiple_of(page);
        self.chip.resize(length, ERASED);
    }

    /// A state that saves, and a chip that ends between the save's MARK and its filling's end.
    fn leave_no_filling(&mut self, rng: &mut Rng, page: usize) -> Option<&'static str> {
        let shape = Shape::of(&self.plan, page);
        let state = in_save(rng, &shape, 400)?;
        let end = state.write as usize + shape.save(&state) - state.saving? as usize;
        let filling = end.next_multiple_of(page) - end;
        if filling == 0 {
            return None;
        }
        self.chip.resize(end + rng.below(filling), ERASED);
        self.state = state.to_bytes().into();
        Some("a save that fits but for its filling")
    }

    fn spoil_plan(&mut self, rng: &mut Rng) -> &'static str {
        // The plan may be refused already.
        if reference::check(&self.plan).is_ok() {
            self.plan = faults::plan(rng, &self.plan);
        }
        "an altered plan"
    }

    fn spoil_state(&mut self, rng: &mut Rng, page: usize) -> &'static str {
        if reference::check(&self.plan).is_err() {
            self.state = vec![rng.byte(); STATE_BYTES];
            return "a state of any bytes";
        }
        let (name, state) = faulty(rng, &Shape::of(&self.plan, page), self.chip.len());
        self.state = state;
        name
    }

    /// Lends it at any address, with any numbers, empty slices now and then as null pointers.
    fn lent(&self, rng: &mut Rng, entry: Entry) -> Call {
        Call {
            plan: Buffer::holding(rng, &self.plan),
            dead: Buffer::holding(rng, &self.dead),
            sets: Buffer::holding(rng, &self.sets),
            chip: Buffer::holding(rng, &self.chip),
            new_chip: Buffer::holding(rng, &self.new_chip.bytes),
            stored: self.new_chip.stored,
            place: self.place,
            state: Buffer::holding(rng, &self.state),
            readings: Buffer::holding(rng, &self.readings),
            outputs: Buffer::holding(rng, &self.outputs),
            budget: self.budget,
            numbers: [(); 4].map(|()| rng.word()),
            nulls: rng.below(2) == 0,
            ..Call::new(entry)
        }
    }
}
