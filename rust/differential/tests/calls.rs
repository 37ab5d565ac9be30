//! Calls of the nine C entries drawn from seeds, half of them hostile, answered by the library and
//! by the reference: the same result, and the same in every byte of every buffer and in every
//! number after the call. `PITSKELO_CALLS` sets how many calls of each entry there are.

use std::env;
use std::ops::Range;

use claim::altered::{Alter, Altered};
use claim::{Engine, Lent, LentFold, Met};
use differential::call::{
    agree, answered, difference, set_lower, words, Answer, Call, Callee, Entry, Library, Reference,
    SET_WORDS,
};
use differential::misspent::Misspent;
use differential::owners::{self, torn_mark};
use differential::places;
use differential::seeded::{seeded, Seeded};
use differential::states::{FAULTS, FAULTS_OF_PAGES};
use reference::folding::save_bytes;
use reference::journal::{owner, read, read_as, Chip, Kind, Save, BYTE_CHIP, ERASED, MAX_CHIP};
use reference::machine::State;

/// How many readings or outputs the library takes at a time.
const STRETCH: u64 = 1_024;

/// The results by number, as they are counted.
const RESULTS: [&str; 17] = [
    "accepted",
    "refused 1",
    "refused 2",
    "refused 3",
    "refused 4",
    "refused 5",
    "refused 6",
    "refused 7",
    "refused 8",
    "refused 9",
    "refused 10",
    "refused 11",
    "refused 12",
    "refused 13",
    "refused 14",
    "refused 15",
    "refused 16",
];

/// How runs end, by number, as they are counted.
const ENDS: [&str; 7] = [
    "not ended",
    "stopped, ended",
    "stopped, divisor",
    "stopped, count full",
    "budget spent",
    "no reading left",
    "output buffer full",
];

/// How many of a thousand calls must at least get each refusal of their entry.
const EACH_REFUSAL: u64 = 10;

/// The same for what else recoveries must meet.
const OF_RECOVERIES: [(&str, u64); 23] = [
    ("an altered plan", 50),
    ("too few words of DE and RO", 10),
    ("a state of another length", 10),
    ("a chip that is too long", 10),
    ("an altered chip", 50),
    ("a chip of the other kind", 10),
    ("words with a rest", 400),
    ("more words than need be", 400),
    ("a null chip", 2),
    ("recoveries of no save", 100),
    ("recoveries of saves", 100),
    ("recoveries with bytes to erase", 100),
    ("recoveries with a last EXCLUDE", 50),
    ("chips over 3,000 bytes", 2),
    ("A2 marks", 5),
    ("a torn A2 alone", 3),
    ("marks of both kinds", 3),
    ("a mark of another length", 3),
    ("a mark of another sum", 3),
    ("an earlier mark of another plan", 2),
    ("a chip of another plan", 2),
    ("16, by an earlier mark alone", 2),
    ("torn marks that name another plan", 1),
];

/// The same for what else runs must meet.
const OF_RUNS: [(&str, u64); 27] = [
    ("an altered plan", 50),
    ("too few words of DE and RO", 10),
    ("a chip that is too long", 10),
    ("chip and state of the other kind", 10),
    ("words with a rest", 400),
    ("readings with a rest", 400),
    ("outputs with a rest", 400),
    ("null readings", 5),
    ("null outputs", 5),
    ("stopped, ended", 50),
    ("stopped, divisor", 10),
    ("stopped, count full", 10),
    ("budget spent", 100),
    ("no reading left", 50),
    ("output buffer full", 50),
    ("runs again with larger budgets", 100),
    ("runs that save at first", 50),
    ("runs that save at last", 10),
    ("runs that store over 100 bytes", 5),
    ("runs that erase", 20),
    ("runs of over 10,000 steps", 5),
    ("over 1,024 readings taken", 5),
    ("over 1,024 outputs given", 5),
    ("over 1,024 of both", 3),
    ("readings taken to a stretch's end", 1),
    ("outputs given to a stretch's end", 1),
    ("a count full after a stretch", 1),
];

/// The same for what recoveries of page chips must meet beside this.
const OF_PAGE_RECOVERIES: [(&str, u64); 4] = [
    ("a chip that is no whole pages", 10),
    ("filling with a wrong byte", 10),
    ("recoveries behind filling", 50),
    ("recoveries with a page torn in part", 50),
];

/// The same for runs on page chips.
const OF_PAGE_RUNS: [(&str, u64); 4] = [
    ("a chip that is no whole pages", 10),
    ("a save that fits but for its filling", 10),
    ("runs that end a save with filling", 10),
    ("runs that erase pages in part", 5),
];

/// The same for chips of lengths at which a page chip's answer changes.
const LENGTHS: [(&str, u64); 6] = [
    ("chips of 15 bytes", 1),
    ("chips of 16 bytes", 1),
    ("chips of 17 bytes", 1),
    ("chips of 65,520 bytes", 1),
    ("chips of 65,536 bytes", 1),
    ("chips of 65,537 bytes", 1),
];

/// The same for what else folds must meet.
const OF_FOLDS: [(&str, u64); 50] = [
    ("an altered plan", 40),
    ("too few words of DE and RO", 10),
    ("a chip that is too long", 10),
    ("a new chip that is too long", 5),
    ("an altered chip", 5),
    ("a chip of the other kind", 10),
    ("a wrong byte before the number", 3),
    ("a wrong byte behind the number", 6),
    ("a number that is too high", 6),
    ("a number that is too low", 1),
    ("a new chip that is too short", 5),
    ("words with a rest", 400),
    ("more words than need be", 400),
    ("a null chip", 1),
    ("a null new chip", 20),
    ("old chips of 65,537 bytes", 5),
    ("new chips of 65,537 bytes", 2),
    ("old chips of 65,536 bytes", 1),
    ("new chips of 65,536 bytes", 8),
    ("numbers of 2^32 or more", 8),
    ("numbers of 2^64 - 1", 1),
    ("budgets of 2^32 or more", 80),
    ("budgets of 2^64 - 1", 20),
    ("folds that are finished", 200),
    ("folds that are not finished", 60),
    ("folds finished in one call", 20),
    ("folds finished with the budget", 30),
    ("folds that lack one byte", 18),
    ("no budget and not finished", 18),
    ("no budget at the end", 9),
    ("folds of an empty save", 80),
    ("saves of 256 records", 3),
    ("FF within the save", 80),
    ("numbers that FF leaves open", 25),
    ("new chips as long as the save", 50),
    ("old chips with torn bytes", 100),
    ("old chips of several saves", 100),
    ("old chips with a cell saved twice", 60),
    ("old chips with a cell of value 0", 70),
    ("old chips with records that do not rise", 60),
    ("marks of both kinds", 3),
    ("a mark of another length", 3),
    ("a mark of another sum", 3),
    ("an earlier mark of another plan", 2),
    ("a chip of another plan", 2),
    ("16, by an earlier mark alone", 2),
    ("torn marks that name another plan", 1),
    ("folds of A2 marks", 150),
    ("folds of A2 marks that are finished", 100),
    ("folds of a torn A2 alone", 10),
];

/// The same for what else questions for a place must meet.
const OF_PLACES: [(&str, u64); 32] = [
    ("an altered plan", 50),
    ("a chip that is too long", 10),
    ("an altered chip", 30),
    ("a chip of the other kind", 10),
    ("a null chip", 1),
    ("chips of 65,536 bytes", 1),
    ("chips of 65,537 bytes", 1),
    ("chips that a list left", 100),
    ("chips that a list left, with 1", 10),
    ("accepted with 1", 50),
    ("accepted with 0", 200),
    ("values of live cells", 50),
    ("values in the last save, with 1", 20),
    ("values in an earlier save, with 1", 20),
    ("dead at its own CHECKPOINT alone, with 0", 2),
    ("live at its own CHECKPOINT, with 1", 5),
    ("values of cells above 63", 4),
    ("other bytes of a record", 50),
    ("cell numbers", 10),
    ("bytes of a MARK or filling", 20),
    ("bytes of a torn save", 20),
    ("values in a torn save", 10),
    ("places behind the chip", 20),
    ("values but for high bits", 5),
    ("places of 2^64 - 1", 1),
    ("A2 marks", 5),
    ("a torn A2 alone", 3),
    ("marks of both kinds", 3),
    ("a mark of another length", 3),
    ("a mark of another sum", 3),
    ("an earlier mark of another plan", 2),
    ("a chip of another plan", 2),
];

/// The same for what questions for a place on page chips must meet beside this.
const OF_PAGE_PLACES: [(&str, u64); 2] = [
    ("a chip that is no whole pages", 10),
    ("filling with a wrong byte", 10),
];

/// The same for how many bytes of a torn mark stand on the chip; a recovery refuses those of A2.
const TORN_A3: [&str; 17] = [
    "an A3 mark torn after 1 byte",
    "an A3 mark torn after 2",
    "an A3 mark torn after 3",
    "an A3 mark torn after 4",
    "an A3 mark torn after 5",
    "an A3 mark torn after 6",
    "an A3 mark torn after 7",
    "an A3 mark torn after 8",
    "an A3 mark torn after 9",
    "an A3 mark torn after 10",
    "an A3 mark torn after 11",
    "an A3 mark torn after 12",
    "an A3 mark torn after 13",
    "an A3 mark torn after 14",
    "an A3 mark torn after 15",
    "an A3 mark torn after 16",
    "an A3 mark torn after 17",
];
const TORN_A2: [&str; 13] = [
    "an A2 mark torn after 1 byte",
    "an A2 mark torn after 2",
    "an A2 mark torn after 3",
    "an A2 mark torn after 4",
    "an A2 mark torn after 5",
    "an A2 mark torn after 6",
    "an A2 mark torn after 7",
    "an A2 mark torn after 8",
    "an A2 mark torn after 9",
    "an A2 mark torn after 10",
    "an A2 mark torn after 11",
    "an A2 mark torn after 12",
    "an A2 mark torn after 13",
];

/// How many of ten thousand calls must at least meet each of them.
const EACH_TORN: u64 = 3;

/// Two faults of a fold, by their refusals, of which the first is given: what is met of each, too.
const BOTH: [(&str, u32, u32); 20] = [
    ("9, where 11 has a ground", 9, 11),
    ("9, where 12 has a ground", 9, 12),
    ("9, where 13 has a ground", 9, 13),
    ("9, where 14 has a ground", 9, 14),
    ("11, where 12 has a ground", 11, 12),
    ("11, where 13 has a ground", 11, 13),
    ("11, where 14 has a ground", 11, 14),
    ("12, where 13 has a ground", 12, 13),
    ("12, where 14 has a ground", 12, 14),
    ("13, where 14 has a ground", 13, 14),
    ("the plan's refusal, where 9 has a ground", 8, 9),
    ("the plan's refusal, where 11 has a ground", 8, 11),
    ("the plan's refusal, where 13 has a ground", 8, 13),
    ("the plan's refusal, where 14 has a ground", 8, 14),
    ("the plan's refusal, where 16 has a ground", 8, 16),
    ("9, where 16 has a ground", 9, 16),
    ("11, where 16 has a ground", 11, 16),
    ("12, where a mark is another plan's", 12, 16),
    ("16, where 13 has a ground", 16, 13),
    ("16, where 14 has a ground", 16, 14),
];

fn calls(of_the_gate: u64) -> u64 {
    env::var("PITSKELO_CALLS").map_or(of_the_gate, |number| number.parse().unwrap())
}

/// Asserts that library and reference agree on the call, and gives the result and what is left.
fn agreed(seed: u64, call: &Call) -> Answer {
    agree(&Library, call)
        .unwrap_or_else(|difference| panic!("seed {seed}, {difference}\n{call:02X?}"))
}

/// Makes the calls of the seeds from 0 on, counts what they met, and asserts that half of them are
/// hostile and that each refusal that the entry has, and what the floors say, is met often enough.
fn make_calls(entry: Entry, calls: u64, floors: &[(&str, u64)]) -> Met {
    let mut met = Met::default();
    for seed in 0..calls {
        let Seeded {
            call,
            faults,
            is_left,
        } = seeded(entry, seed);
        let (result, left) = agreed(seed, &call);
        met.count("calls");
        met.count(RESULTS[result as usize]);
        count_faults(&mut met, entry, seed, &faults, result);
        match entry {
            Entry::Check | Entry::Analyse => {}
            Entry::Recover | Entry::PageRecover => count_recovery(&mut met, &call, result, &left),
            Entry::Run | Entry::PageRun => count_run(&mut met, seed, &call, result, &left),
            Entry::Fold => count_fold(&mut met, &call, &faults, result, &left),
            Entry::Spent | Entry::PageSpent => {
                count_place(&mut met, &call, is_left, result, &left);
            }
        }
    }
    print!("{met}");
    met.assert_floors_per("calls", &[("hostile calls", 500), ("accepted", 500)]);
    for refusal in entry.refusals() {
        met.assert_floors_per("calls", &[(RESULTS[refusal], EACH_REFUSAL)]);
    }
    met.assert_floors_per("calls", floors);
    met
}

/// Counts a call's only fault, which must have its refusal where it has just one. A call without a fault must be accepted.
fn count_faults(met: &mut Met, entry: Entry, seed: u64, faults: &[&'static str], result: u32) {
    if faults.is_empty() {
        assert_eq!(result, 0, "seed {seed} has no fault");
        return;
    }
    met.count("hostile calls");
    if let [fault] = *faults {
        met.count(fault);
        if let Some(refusal) = refusal_of(entry, fault) {
            assert_eq!(result, refusal, "seed {seed}: {fault}");
        }
    }
}

/// The refusal that a call gets which has this fault alone, where it is always the same.
fn refusal_of(entry: Entry, fault: &str) -> Option<u32> {
    // The last of the states' faults may leave a sound state.
    let mut of_state = FAULTS[..FAULTS.len() - 1].iter().chain(&FAULTS_OF_PAGES);
    match (fault, entry) {
        ("a save that fits but for its filling", _) => Some(10),
        (_, Entry::Fold) => refusal_of_fold(fault),
        _ if of_marks(fault).is_some() => of_marks(fault),
        // A run may find that the state does not fit the chip.
        ("a chip that is no whole pages", Entry::PageRecover | Entry::PageSpent) => Some(11),
        ("filling with a wrong byte", _) => Some(12),
        _ => of_state.any(|(name, _)| *name == fault).then_some(10),
    }
}

/// The same of a chip's marks in a recovery.
fn of_marks(fault: &str) -> Option<u32> {
    let mut of_marks = owners::FAULTS.iter();
    let found = of_marks.find(|(name, _)| *name == fault);
    found.map(|(_, refusal)| *refusal)
}

/// The same of a fold; an altered chip may be sound.
fn refusal_of_fold(fault: &str) -> Option<u32> {
    match fault {
        "too few words of DE and RO" => Some(9),
        "a chip that is too long" | "a new chip that is too long" => Some(11),
        "a wrong byte before the number"
        | "a wrong byte behind the number"
        | "a number that is too high"
        | "a number that is too low" => Some(13),
        "a new chip that is too short" => Some(14),
        _ => of_marks(fault),
    }
}

fn count_all(met: &mut Met, met_here: &[(&'static str, bool)]) {
    for (name, is_met) in met_here {
        met.add(name, u64::from(*is_met));
    }
}

fn count_chip(met: &mut Met, call: &Call) {
    let length = call.chip.len();
    let named = [
        ("chips of 15 bytes", length == 15),
        ("chips of 16 bytes", length == 16),
        ("chips of 17 bytes", length == 17),
        ("chips of 65,520 bytes", length == MAX_CHIP - 16),
        ("chips of 65,536 bytes", length == MAX_CHIP),
        ("chips of 65,537 bytes", length == MAX_CHIP + 1),
        ("a null chip", call.nulls && call.chip.is_empty()),
    ];
    count_all(met, &named);
}

fn count_lent(met: &mut Met, call: &Call) {
    count_chip(met, call);
    let named = [
        ("words with a rest", !call.sets.len().is_multiple_of(8)),
        ("more words than need be", call.sets.words() > SET_WORDS),
        ("a null state", call.nulls && call.state.is_empty()),
    ];
    count_all(met, &named);
}

/// Counts of the marks on the chip that a recovery or a fold read, to what its remainder tears one and whose it is.
fn count_marks(met: &mut Met, call: &Call, result: u32) {
    let (plan, chip, page) = (call.plan.lent(), call.chip.lent(), call.entry.page());
    if result != 0 && result != 12 && result < 15 {
        return;
    }
    let Ok(held) = read(plan, chip, page) else {
        return;
    };
    let owners: Vec<_> = held.saves.iter().map(|save| save.mark.owner).collect();
    let is_last_own = owners.last() == Some(&Some(owner(plan)));
    let mut named = vec![("16, by an earlier mark alone", result == 16 && is_last_own)];
    if let Some((kind, stored)) = torn_mark(plan, chip, page) {
        let torn = &chip[held.end..];
        let names = |owner: &[u8]| !torn.windows(owner.len()).any(|bytes| bytes == owner);
        let is_named = kind == Kind::A3 && stored == 17;
        named.extend([
            (
                "torn marks that name another plan",
                is_named && result == 0 && names(&owner(plan).to_le_bytes()),
            ),
            match kind {
                Kind::A2 => (TORN_A2[stored - 1], true),
                Kind::A3 => (TORN_A3[stored - 1], true),
            },
        ]);
    }
    count_all(met, &named);
}

fn count_recovery(met: &mut Met, call: &Call, result: u32, left: &Call) {
    count_lent(met, call);
    count_marks(met, call, result);
    if result != 0 {
        return;
    }
    let state = State::from_bytes(left.state.lent()).expect("recovery leaves a state");
    let (saved, torn) = (state.write, state.write + state.erase);
    let named = [
        ("recoveries behind filling", ends_with_ff(left, 0..saved)),
        (
            "recoveries with a page torn in part",
            ends_with_ff(left, saved..torn),
        ),
        ("recoveries of no save", state.write == 0),
        ("recoveries of saves", state.write > 0),
        ("recoveries with bytes to erase", state.erase > 0),
        ("recoveries with a last EXCLUDE", state.exclude > 0),
        ("chips over 3,000 bytes", left.chip.len() > 3_000),
    ];
    count_all(met, &named);
}

/// Whether there are bytes of the chip from here to there and the last is FF.
fn ends_with_ff(call: &Call, range: Range<u32>) -> bool {
    let bytes = &call.chip.lent()[range.start as usize..range.end as usize];
    bytes.last() == Some(&ERASED)
}

fn count_run(met: &mut Met, seed: u64, call: &Call, result: u32, left: &Call) {
    count_lent(met, call);
    let named = [
        (
            "readings with a rest",
            !call.readings.len().is_multiple_of(4),
        ),
        ("outputs with a rest", !call.outputs.len().is_multiple_of(4)),
        ("null readings", call.nulls && call.readings.is_empty()),
        ("null outputs", call.nulls && call.outputs.is_empty()),
    ];
    count_all(met, &named);
    if result != 0 {
        return;
    }
    met.count(ENDS[left.ran().ended as usize]);
    count_work(met, call, left);
    count_stretches(met, left);
    // A run that its budget did not end is the same with any larger one.
    if left.ran().ended != 4 {
        met.count("runs again with larger budgets");
        for budget in [1 << 32, u64::MAX] {
            let again = Call {
                budget,
                ..call.clone()
            };
            let (result, left_again) = agreed(seed, &again);
            assert_eq!((result, left_again.ran()), (0, left.ran()), "seed {seed}");
        }
    }
}

fn count_work(met: &mut Met, call: &Call, left: &Call) {
    let [before, after] = [call, left]
        .map(|call| State::from_bytes(call.state.lent()).expect("an accepted run's state is one"));
    let stored = after.write - before.write;
    let (write, torn) = (before.write, before.write + before.erase);
    let erases = after.erase < before.erase;
    let named = [
        (
            "runs that end a save with filling",
            after.saving.is_none() && ends_with_ff(left, write..after.write),
        ),
        (
            "runs that erase pages in part",
            erases && ends_with_ff(call, write..torn),
        ),
        ("runs that save at first", before.saving.is_some()),
        ("runs that save at last", after.saving.is_some()),
        ("runs that store over 100 bytes", stored > 100),
        ("runs that erase", erases),
        ("runs of over 10,000 steps", left.ran().steps > 10_000),
    ];
    count_all(met, &named);
}

fn count_stretches(met: &mut Met, left: &Call) {
    let ran = left.ran();
    let (taken, given) = (ran.taken, ran.given);
    let is_whole = |number: u64| number > 0 && number.is_multiple_of(STRETCH);
    let is_full = ran.ended == 3 && taken.max(given) >= STRETCH;
    let named = [
        ("over 1,024 readings taken", taken > STRETCH),
        ("over 1,024 outputs given", given > STRETCH),
        ("over 1,024 of both", taken.min(given) > STRETCH),
        ("readings taken to a stretch's end", is_whole(taken)),
        ("outputs given to a stretch's end", is_whole(given)),
        ("a count full after a stretch", is_full),
    ];
    count_all(met, &named);
}

fn count_fold(met: &mut Met, call: &Call, faults: &[&'static str], result: u32, left: &Call) {
    count_lent(met, call);
    count_marks(met, call, result);
    count_both(met, faults, result);
    let (old, new) = (call.chip.len(), call.new_chip.len());
    let named = [
        ("a null new chip", call.nulls && new == 0),
        ("old chips of 65,537 bytes", old == MAX_CHIP + 1),
        ("new chips of 65,537 bytes", new == MAX_CHIP + 1),
        ("old chips of 65,536 bytes", old == MAX_CHIP),
        ("new chips of 65,536 bytes", new == MAX_CHIP),
        ("numbers of 2^32 or more", call.stored >= 1 << 32),
        ("numbers of 2^64 - 1", call.stored == u64::MAX),
        ("budgets of 2^32 or more", call.budget >= 1 << 32),
        ("budgets of 2^64 - 1", call.budget == u64::MAX),
    ];
    count_all(met, &named);
    if result == 0 {
        let (plan, chip) = (call.plan.lent(), call.chip.lent());
        let held = read(plan, chip, BYTE_CHIP).expect("the old chip is sound");
        count_old(met, &held);
        let save = save_bytes(plan, &held, Kind::A3);
        count_stored(met, call, left, &save);
        let is_a2 = read_as(plan, chip, BYTE_CHIP, Kind::A3).is_err();
        count_old_marks(met, is_a2, &held, left);
    }
}

/// Counts accepted folds of chips with A2 marks.
fn count_old_marks(met: &mut Met, is_a2: bool, held: &Chip, left: &Call) {
    let (is_whole, is_finished) = (!held.saves.is_empty(), left.folded().finished == 1);
    let named = [
        ("folds of A2 marks", is_a2 && is_whole),
        (
            "folds of A2 marks that are finished",
            is_a2 && is_whole && is_finished,
        ),
        ("folds of a torn A2 alone", is_a2 && !is_whole),
    ];
    count_all(met, &named);
}

/// Counts two faults of which the one with the lower refusal shows.
fn count_both(met: &mut Met, faults: &[&'static str], result: u32) {
    let refusal = |fault: &str| match fault {
        "an altered plan" => Some(8),
        "an altered chip" => Some(12),
        _ => refusal_of_fold(fault),
    };
    let mut refusals: Vec<u32> = faults.iter().filter_map(|fault| refusal(fault)).collect();
    // 16 comes between 12 and 13.
    refusals.sort_unstable_by_key(|&number| if number == 16 { 25 } else { 2 * number });
    for (name, first, second) in BOTH {
        // Each of 1 to 8 is the plan's.
        let is_met = refusals == [first, second] && result.max(8) == first;
        met.add(name, u64::from(is_met));
    }
}

/// Counts what an accepted fold did of the save.
fn count_stored(met: &mut Met, call: &Call, left: &Call, save: &[u8]) {
    let (before, after) = (call.stored as usize, left.folded().stored as usize);
    let new = call.new_chip.lent();
    let (is_empty, no_budget) = (save.is_empty(), call.budget == 0);
    let is_finished = after == save.len();
    let is_spent = !no_budget && (after - before) as u64 == call.budget;
    let in_one = is_finished && before == 0 && !is_empty;
    let ends_with_ff = before > 0 && save[before - 1] == ERASED;
    let named = [
        ("folds that are finished", is_finished),
        ("folds that are not finished", !is_finished),
        ("folds finished in one call", in_one),
        ("folds finished with the budget", is_finished && is_spent),
        ("folds that lack one byte", after + 1 == save.len()),
        ("no budget and not finished", no_budget && !is_finished),
        (
            "no budget at the end",
            no_budget && is_finished && !is_empty,
        ),
        ("folds of an empty save", is_empty),
        ("saves of 256 records", save.len() == 6 * 256 + 18),
        ("FF within the save", save.contains(&ERASED)),
        ("numbers that FF leaves open", ends_with_ff),
        (
            "new chips as long as the save",
            new.len() == save.len() && !is_empty,
        ),
    ];
    count_all(met, &named);
}

/// Counts what the old chip of an accepted fold holds.
fn count_old(met: &mut Met, held: &Chip) {
    let records = || held.saves.iter().flat_map(|save| &save.records);
    let mut times = [0; 256];
    for (cell, _) in records() {
        times[usize::from(*cell)] += 1;
    }
    let is_rising = |save: &Save| save.records.is_sorted();
    let named = [
        ("old chips with torn bytes", held.torn > 0),
        ("old chips of several saves", held.saves.len() > 1),
        (
            "old chips with a cell saved twice",
            times.iter().any(|&times| times > 1),
        ),
        (
            "old chips with a cell of value 0",
            records().any(|(cell, _)| held.value(*cell) == 0),
        ),
        (
            "old chips with records that do not rise",
            !held.saves.iter().all(is_rising),
        ),
    ];
    count_all(met, &named);
}

/// Counts what the place is that is asked for, and whether a list left the chip.
fn count_place(met: &mut Met, call: &Call, is_left: bool, result: u32, left: &Call) {
    count_chip(met, call);
    count_marks(met, call, result);
    if result == 0 {
        let may = left.may() == 1;
        count_all(met, &places::features(call, left));
        met.add("chips that a list left", is_left.into());
        met.add("chips that a list left, with 1", (is_left && may).into());
    }
}

#[test]
fn checks() {
    make_calls(Entry::Check, calls(200_000), &[]);
}

#[test]
fn analyses() {
    make_calls(Entry::Analyse, calls(25_000), &[]);
}

/// Asserts that the calls tore a mark of either kind after each of its bytes.
fn assert_torn(met: &Met) {
    for name in TORN_A3.iter().chain(&TORN_A2) {
        let (met, calls) = (met.get(name), met.get("calls"));
        assert!(10_000 * met >= EACH_TORN * calls, "{met} {name}");
    }
}

#[test]
fn recoveries() {
    let met = make_calls(Entry::Recover, calls(200_000), &OF_RECOVERIES);
    assert_torn(&met);
}

#[test]
fn runs() {
    let mut floors = OF_RUNS.to_vec();
    floors.extend(FAULTS.map(|(name, _)| (name, 3)));
    make_calls(Entry::Run, calls(200_000), &floors);
}

#[test]
fn page_recoveries() {
    let floors = [&OF_RECOVERIES[..], &OF_PAGE_RECOVERIES, &LENGTHS].concat();
    let met = make_calls(Entry::PageRecover, calls(200_000), &floors);
    assert_torn(&met);
}

#[test]
fn page_runs() {
    let mut floors = [&OF_RUNS[..], &OF_PAGE_RUNS, &LENGTHS].concat();
    floors.extend(FAULTS.map(|(name, _)| (name, 2)));
    floors.extend(FAULTS_OF_PAGES.map(|(name, _)| (name, 2)));
    make_calls(Entry::PageRun, calls(200_000), &floors);
}

#[test]
fn folds() {
    let mut floors = OF_FOLDS.to_vec();
    floors.extend(BOTH.map(|(name, ..)| (name, 1)));
    let met = make_calls(Entry::Fold, calls(200_000), &floors);
    assert_torn(&met);
}

#[test]
fn places() {
    let met = make_calls(Entry::Spent, calls(25_000), &OF_PLACES);
    assert_torn(&met);
}

#[test]
fn page_places() {
    let floors = [&OF_PLACES[..], &OF_PAGE_PLACES, &LENGTHS].concat();
    let met = make_calls(Entry::PageSpent, calls(25_000), &floors);
    assert_torn(&met);
}

/// The reference as an engine with an error, as one who answers folds.
struct Misfold(Altered<claim::Reference>);

impl Callee for Misfold {
    fn answer(&self, call: &mut Call) -> u32 {
        let answer = self.0.fold(LentFold {
            plan: call.plan.lent(),
            sets: &words(call.sets.lent()),
            old: call.chip.lend(),
            new: call.new_chip.lend(),
            stored: call.stored,
            budget: call.budget,
        });
        if let Ok(folded) = answer {
            call.numbers[0] = folded.stored;
            set_lower(&mut call.numbers[1], folded.finished.into());
        }
        answer.err().unwrap_or(0)
    }
}

/// The same of recoveries.
struct Misread(Altered<claim::Reference>);

impl Callee for Misread {
    fn answer(&self, call: &mut Call) -> u32 {
        let answer = self.0.recover(Lent {
            plan: call.plan.lent(),
            sets: &words(call.sets.lent()),
            page: call.entry.page(),
            chip: call.chip.lend(),
            state: call.state.lend(),
        });
        answer.err().unwrap_or(0)
    }
}

/// How many of a thousand calls of the entry find the callee.
fn found(callee: &impl Callee, entry: Entry) -> usize {
    let differs = |seed: &u64| agree(callee, &seeded(entry, *seed).call).is_err();
    (0..1_000).filter(differs).count()
}

fn altered(alter: Alter) -> Altered<claim::Reference> {
    let engine = claim::Reference;
    Altered { engine, alter }
}

/// Every chip of a list is its plan's own, so no list finds the last two of these.
#[test]
fn errors_of_marks_are_found_in_recoveries() {
    for entry in [Entry::Recover, Entry::PageRecover] {
        assert_eq!(found(&Misread(altered(Alter::Nothing)), entry), 0);
        for alter in [
            Alter::TakesA2,
            Alter::TakesTornA2,
            Alter::AsksNoOwner,
            Alter::AsksLastOwner,
        ] {
            let found = found(&Misread(altered(alter)), entry);
            println!("{alter:?}: {found} of 1000 calls of {entry:?}");
            assert!(found >= 2, "{alter:?}: {found} of {entry:?}");
        }
    }
}

/// Recovery takes records in any order and of any value, so no list finds the first two of these;
/// and every chip of a list is its plan's own, so none finds the last two.
#[test]
fn errors_of_folds_are_found() {
    for (alter, least) in [
        (Alter::FoldFalling, 20),
        (Alter::FoldZeros, 20),
        (Alter::FoldDropsLast, 20),
        (Alter::FoldFirstMark, 20),
        (Alter::FoldFirstValues, 20),
        (Alter::FoldTorn, 20),
        (Alter::FoldEndsEarly, 20),
        (Alter::FoldWritesA2, 20),
        (Alter::FoldOtherSum, 20),
        (Alter::FoldOtherLength, 20),
        (Alter::FoldKeepsOwner, 20),
        (Alter::FoldLosesA2, 20),
        (Alter::FoldRefusesA2, 20),
        (Alter::FoldRefusesTornA2, 10),
        (Alter::FoldAsksNoOwner, 2),
        (Alter::FoldAsksLastOwner, 2),
    ] {
        let found = found(&Misfold(altered(alter)), Entry::Fold);
        println!("{alter:?}: {found} of 1000 calls");
        assert!(found >= least, "{alter:?}: {found}");
    }
}

#[test]
fn errors_of_places_are_found() {
    for entry in [Entry::Spent, Entry::PageSpent] {
        assert_eq!(found(&Misspent::Nothing, entry), 0);
        for misspent in Misspent::ALL {
            let found = found(&misspent, entry);
            println!("{misspent:?}: {found} of 1000 calls of {entry:?}");
            // A byte chip has no filling.
            let is_found = found >= 2 || (misspent, entry) == (Misspent::NoFilling, Entry::Spent);
            assert!(is_found, "{misspent:?}: {found} of {entry:?}");
        }
    }
}

/// Where an answer is made wrong: in the result, in a number, or in a byte of a buffer or around it.
#[derive(Clone, Copy, Debug)]
enum Spot {
    Result,
    Number(usize),
    Byte(usize, usize),
}

impl Spot {
    /// Every spot of an answer.
    fn all(answer: &Answer) -> Vec<Spot> {
        let mut spots = vec![Spot::Result];
        spots.extend((0..4).map(Spot::Number));
        for (buffer, bytes) in answer.1.clone().buffers_mut().into_iter().enumerate() {
            spots.extend((0..bytes.all().len()).map(|at| Spot::Byte(buffer, at)));
        }
        spots
    }

    /// Alters one bit there.
    fn spoil(self, answer: &mut Answer) {
        match self {
            Spot::Result => answer.0 ^= 1,
            Spot::Number(number) => answer.1.numbers[number] ^= 1 << 40,
            Spot::Byte(buffer, at) => answer.1.buffers_mut()[buffer].all()[at] ^= 1,
        }
    }

    /// What the difference must name.
    fn name(self, answer: &Answer) -> &'static str {
        match self {
            Spot::Result => "the result",
            Spot::Number(_) => "the numbers",
            Spot::Byte(buffer, _) => answer.1.buffers()[buffer].0,
        }
    }
}

/// The calls above fail on any wrong byte: in each spot of some answers a bit is altered, and the difference is found.
#[test]
fn a_wrong_bit_anywhere_is_found() {
    for entry in Entry::ALL {
        // Calls without a fault and hostile ones.
        for seed in 0..4 {
            let call = seeded(entry, seed).call;
            let expected = answered(&Reference, &call);
            let found = answered(&Library, &call);
            assert_eq!(difference(&found, &expected), None);
            for spot in Spot::all(&found) {
                let mut wrong = found.clone();
                spot.spoil(&mut wrong);
                let difference = difference(&wrong, &expected).unwrap_or_default();
                let name = spot.name(&found);
                assert!(difference.contains(name), "{entry:?} {seed} {spot:?}");
            }
        }
    }
}
