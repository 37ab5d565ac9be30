//! A call of one of the C interface's nine entries: all that is lent to it, who answers it (the
//! library through C, or the reference), and how two answers are compared, every byte of every
//! buffer included.

use reference::journal::{Kind, BYTE_CHIP, PAGE_CHIP};
use reference::Machine;

use crate::buffer::Buffer;

pub use crate::c::Library;

/// The least lengths of the two buffers that analyse fills, in words.
pub const DEAD_WORDS: usize = 2_048;
pub const SET_WORDS: usize = 512;

#[derive(Clone, Copy, Debug, PartialEq, Eq)]
pub enum Entry {
    Check,
    Analyse,
    Recover,
    Run,
    PageRecover,
    PageRun,
    Fold,
    Spent,
    PageSpent,
}

impl Entry {
    pub const ALL: [Entry; 9] = [
        Entry::Check,
        Entry::Analyse,
        Entry::Recover,
        Entry::Run,
        Entry::PageRecover,
        Entry::PageRun,
        Entry::Fold,
        Entry::Spent,
        Entry::PageSpent,
    ];

    /// The recovery of chips of this page length.
    pub fn recover(page: usize) -> Entry {
        Entry::of_kind(page, [Entry::Recover, Entry::PageRecover])
    }

    /// The run on chips of this page length.
    pub fn run(page: usize) -> Entry {
        Entry::of_kind(page, [Entry::Run, Entry::PageRun])
    }

    /// The call that tells places for notes on chips of this page length.
    pub fn spent(page: usize) -> Entry {
        Entry::of_kind(page, [Entry::Spent, Entry::PageSpent])
    }

    fn of_kind(page: usize, [of_bytes, of_pages]: [Entry; 2]) -> Entry {
        match page {
            BYTE_CHIP => of_bytes,
            PAGE_CHIP => of_pages,
            _ => panic!("no entry has pages of {page} bytes"),
        }
    }

    /// The refusals that its calls can get. A fold is lent no state, so it has no 10, and it takes A2
    /// marks, so it has no 15. Who asks for a place lends no words either, so there is no 9.
    pub fn refusals(self) -> impl Iterator<Item = usize> {
        (1..=16).filter(move |number| match self {
            Entry::Check => *number <= 8,
            Entry::Analyse => *number <= 9,
            Entry::Run | Entry::PageRun => *number <= 11,
            Entry::Recover | Entry::PageRecover => !(13..=14).contains(number),
            Entry::Fold => ![10, 15].contains(number),
            Entry::Spent | Entry::PageSpent => ![9, 10, 13, 14].contains(number),
        })
    }

    /// The page length of its chips; check and analyse have none.
    pub fn page(self) -> usize {
        match self {
            Entry::PageRecover | Entry::PageRun | Entry::PageSpent => PAGE_CHIP,
            _ => BYTE_CHIP,
        }
    }
}

/// What is lent to a call. An entry uses what its declaration has and must leave the rest alone.
#[derive(Clone, Debug)]
pub struct Call {
    pub entry: Entry,
    pub plan: Buffer,
    pub dead: Buffer,
    pub sets: Buffer,
    /// The chip; of a fold the old one.
    pub chip: Buffer,
    /// The new chip of a fold, and how many bytes are stored on it.
    pub new_chip: Buffer,
    pub stored: u64,
    /// The place on the chip that is asked for.
    pub place: u64,
    pub state: Buffer,
    pub readings: Buffer,
    pub outputs: Buffer,
    pub budget: u64,
    /// What the number parameters hold, in their order. Of one of 32 bits it is the lower half, and no call may alter the
    /// upper half.
    pub numbers: [u64; 4],
    /// Whether empty slices are lent as null pointers.
    pub nulls: bool,
}

/// What a run answers in its numbers.
#[derive(Clone, Copy, Debug, PartialEq, Eq)]
pub struct Ran {
    pub ended: u32,
    pub steps: u64,
    pub taken: u64,
    pub given: u64,
}

/// What a fold answers in its numbers.
#[derive(Clone, Copy, Debug, PartialEq, Eq)]
pub struct Folded {
    pub stored: u64,
    pub finished: u32,
}

impl Call {
    /// A call that lends empty slices, to be filled in.
    pub fn new(entry: Entry) -> Call {
        let empty = || Buffer::plain(&[]);
        Call {
            entry,
            plan: empty(),
            dead: empty(),
            sets: empty(),
            chip: empty(),
            new_chip: empty(),
            stored: 0,
            place: 0,
            state: empty(),
            readings: empty(),
            outputs: empty(),
            budget: 0,
            numbers: [0xC0DE_0001_C0DE_0001; 4],
            nulls: false,
        }
    }

    /// A recovery of a byte chip, lent these.
    pub fn recover(plan: &[u8], sets: &[u64], chip: &[u8], state: &[u8]) -> Call {
        Call {
            plan: Buffer::plain(plan),
            sets: Buffer::plain(&word_bytes(sets)),
            chip: Buffer::plain(chip),
            state: Buffer::plain(state),
            ..Call::new(Entry::Recover)
        }
    }

    /// A run on a byte chip, lent these, but no reading, no place for an output and no budget yet.
    pub fn run(plan: &[u8], sets: &[u64], chip: &[u8], state: &[u8]) -> Call {
        Call {
            entry: Entry::Run,
            ..Call::recover(plan, sets, chip, state)
        }
    }

    /// A fold of an old chip onto a new one, lent these, with no byte stored and no budget yet.
    pub fn fold(plan: &[u8], sets: &[u64], old: &[u8], new: &[u8]) -> Call {
        Call {
            plan: Buffer::plain(plan),
            sets: Buffer::plain(&word_bytes(sets)),
            chip: Buffer::plain(old),
            new_chip: Buffer::plain(new),
            ..Call::new(Entry::Fold)
        }
    }

    /// A question for a place on a byte chip, lent these.
    pub fn spent(plan: &[u8], chip: &[u8], place: u64) -> Call {
        Call {
            plan: Buffer::plain(plan),
            chip: Buffer::plain(chip),
            place,
            ..Call::new(Entry::Spent)
        }
    }

    /// The buffers with their names.
    pub fn buffers(&self) -> [(&'static str, &Buffer); 8] {
        [
            ("plan", &self.plan),
            ("dead", &self.dead),
            ("sets", &self.sets),
            ("chip", &self.chip),
            ("the new chip", &self.new_chip),
            ("state", &self.state),
            ("readings", &self.readings),
            ("outputs", &self.outputs),
        ]
    }

    pub fn buffers_mut(&mut self) -> [&mut Buffer; 8] {
        [
            &mut self.plan,
            &mut self.dead,
            &mut self.sets,
            &mut self.chip,
            &mut self.new_chip,
            &mut self.state,
            &mut self.readings,
            &mut self.outputs,
        ]
    }

    /// The numbers that an accepted run left.
    pub fn ran(&self) -> Ran {
        let [ended, steps, taken, given] = self.numbers;
        Ran {
            ended: ended as u32,
            steps,
            taken,
            given,
        }
    }

    /// The numbers that an accepted fold left.
    pub fn folded(&self) -> Folded {
        let [stored, finished, ..] = self.numbers;
        Folded {
            stored,
            finished: finished as u32,
        }
    }

    /// The number that an accepted question for a place left.
    pub fn may(&self) -> u32 {
        self.numbers[0] as u32
    }

    /// The first of the numbers and buffers that is not as expected, if one is not.
    fn differs(&self, expected: &Call) -> Option<String> {
        if self.numbers != expected.numbers {
            return Some(format!(
                "the numbers are {:X?}, not {:X?}",
                self.numbers, expected.numbers
            ));
        }
        let pairs = self.buffers().into_iter().zip(expected.buffers());
        for ((name, found), (_, expected)) in pairs {
            if let Some(place) = found.differs_from(expected) {
                return Some(format!("wrong byte in {name} at {place}"));
            }
        }
        None
    }
}

/// One who answers calls.
pub trait Callee {
    /// Answers the call: gives the result and alters what is lent.
    fn answer(&self, call: &mut Call) -> u32;
}

/// The result of a call, and what it left.
pub type Answer = (u32, Call);

/// The callee's answer to a copy of the call.
pub fn answered(callee: &impl Callee, call: &Call) -> Answer {
    let mut left = call.clone();
    let result = callee.answer(&mut left);
    (result, left)
}

/// What of an answer is not as expected, by its name, if something is not.
pub fn difference(found: &Answer, expected: &Answer) -> Option<String> {
    if found.0 != expected.0 {
        return Some(format!("the result is {}, not {}", found.0, expected.0));
    }
    found.1.differs(&expected.1)
}

/// The callee's answer to the call if it is the reference's, else what differs.
pub fn agree(callee: &impl Callee, call: &Call) -> Result<Answer, String> {
    let found = answered(callee, call);
    match difference(&found, &answered(&Reference, call)) {
        None => Ok(found),
        Some(difference) => Err(format!("result {}: {difference}", found.0)),
    }
}

/// The reference, on the same bytes.
pub struct Reference;

impl Callee for Reference {
    fn answer(&self, call: &mut Call) -> u32 {
        let answer = match call.entry {
            Entry::Check => expect_check(call),
            Entry::Analyse => expect_analyse(call),
            Entry::Recover | Entry::PageRecover => expect_recover(call),
            Entry::Run | Entry::PageRun => expect_run(call),
            Entry::Fold => expect_fold(call),
            Entry::Spent | Entry::PageSpent => expect_spent(call),
        };
        answer.err().unwrap_or(0)
    }
}

/// Sets the lower half of a number.
pub fn set_lower(number: &mut u64, value: u32) {
    *number = *number >> 32 << 32 | u64::from(value);
}

fn expect_check(call: &mut Call) -> Result<(), u32> {
    let checked = reference::check(call.plan.lent())?;
    let values = [checked.cells, checked.instructions, checked.excludes];
    for (number, value) in call.numbers.iter_mut().zip(values) {
        set_lower(number, value);
    }
    Ok(())
}

fn expect_analyse(call: &mut Call) -> Result<(), u32> {
    let found = reference::analyse(call.plan.lent())?;
    if call.dead.words() < DEAD_WORDS || call.sets.words() < SET_WORDS {
        return Err(reference::refusal::BUFFER_TOO_SHORT);
    }
    put_words(call.dead.lend(), &found.dead_words());
    put_words(call.sets.lend(), &found.set_words());
    Ok(())
}

fn expect_recover(call: &mut Call) -> Result<(), u32> {
    let sets = words(call.sets.lent());
    let machine = Machine::new(call.plan.lent(), &sets, call.entry.page())?;
    machine.recover_bytes(call.chip.lent(), call.state.lend())
}

fn expect_run(call: &mut Call) -> Result<(), u32> {
    let sets = words(call.sets.lent());
    let readings = numbers(call.readings.lent());
    let room = call.outputs.len() / 4;
    let (chip, state) = (call.chip.lend(), call.state.lend());
    let machine = Machine::new(call.plan.lent(), &sets, call.entry.page())?;
    let ran = machine.run_bytes(chip, state, &readings, room, call.budget)?;
    put_numbers(call.outputs.lend(), &ran.given);
    let [ended, steps, taken, given] = &mut call.numbers;
    set_lower(ended, ran.ended.number());
    (*steps, *taken, *given) = (ran.steps, ran.taken as u64, ran.given.len() as u64);
    Ok(())
}

fn expect_fold(call: &mut Call) -> Result<(), u32> {
    let (plan, old, set_words) = (call.plan.lent(), call.chip.lent(), call.sets.words());
    let new = call.new_chip.lend();
    let folded = reference::fold(plan, set_words, old, new, call.stored, call.budget)?;
    let [stored, finished, ..] = &mut call.numbers;
    *stored = folded.stored;
    set_lower(finished, u32::from(folded.finished));
    Ok(())
}

fn expect_spent(call: &mut Call) -> Result<(), u32> {
    let (plan, chip, page) = (call.plan.lent(), call.chip.lent(), call.entry.page());
    let may = reference::spent(plan, chip, page, Kind::A3, call.place)?;
    set_lower(&mut call.numbers[0], u32::from(may));
    Ok(())
}

/// As `agree`, of a callee that must agree.
#[track_caller]
pub fn agreed(callee: &impl Callee, call: &Call) -> Answer {
    agree(callee, call).unwrap_or_else(|difference| panic!("{difference}\n{call:02X?}"))
}

/// DE and RO of an accepted plan as the reference finds them, in as many words as run and recovery want.
pub fn sets_of(plan: &[u8]) -> Vec<u64> {
    let found = reference::analyse(plan).expect("the plan is accepted");
    let mut words = found.set_words();
    words.resize(SET_WORDS, 0);
    words
}

/// The words that the bytes hold; "a rest too short for one number is left unused".
pub fn words(bytes: &[u8]) -> Vec<u64> {
    let (words, _) = bytes.as_chunks();
    words.iter().map(|word| u64::from_le_bytes(*word)).collect()
}

/// The signed numbers that the bytes hold.
pub fn numbers(bytes: &[u8]) -> Vec<i32> {
    let (numbers, _) = bytes.as_chunks();
    let number = |bytes: &[u8; 4]| i32::from_le_bytes(*bytes);
    numbers.iter().map(number).collect()
}

/// Puts the words at the front of the bytes.
pub fn put_words(bytes: &mut [u8], words: &[u64]) {
    for (place, word) in bytes.chunks_exact_mut(8).zip(words) {
        place.copy_from_slice(&word.to_le_bytes());
    }
}

/// Puts the numbers at the front of the bytes.
pub fn put_numbers(bytes: &mut [u8], numbers: &[i32]) {
    for (place, number) in bytes.chunks_exact_mut(4).zip(numbers) {
        place.copy_from_slice(&number.to_le_bytes());
    }
}

/// The bytes of words.
pub fn word_bytes(words: &[u64]) -> Vec<u8> {
    let mut bytes = vec![0; 8 * words.len()];
    put_words(&mut bytes, words);
    bytes
}

/// The bytes of signed numbers.
pub fn number_bytes(numbers: &[i32]) -> Vec<u8> {
    let mut bytes = vec![0; 4 * numbers.len()];
    put_numbers(&mut bytes, numbers);
    bytes
}
