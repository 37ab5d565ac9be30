//! What random questions for a place of a note (document 02, Q-14) are lent: chips that lists left
//! or that are made by hand, and places at their records and around them; and what such a place is.

use reference::analysis::is_dead;
use reference::journal::{read, Chip, Kind, MAX_CHIP, PAGE_CHIP, RECORD};
use reference::machine::SET_WORDS;
use reference::notes::{last_checkpoint, values, Value};

use crate::call::{sets_of, Call};
use crate::journals::{filled, left, stored};
use crate::rng::Rng;

/// The bytes of a record, and how many of them stand before its value and behind the value's first.
const RECORD_LEN: usize = 6;
const BEFORE_VALUE: usize = 2;
const VALUE_LEN: usize = 4;

/// A chip for an accepted plan that saves, and whether a list of calls left it: half of them are
/// such as lists leave. It is seldom large, since the reference takes long for such a one.
pub fn chip(rng: &mut Rng, plan: &[u8], page: usize) -> (Vec<u8>, bool) {
    match rng.below(200) {
        0..100 => (left_by_list(rng, plan, page), true),
        100 => {
            let ends = [4_000, 20_000, MAX_CHIP - PAGE_CHIP, MAX_CHIP];
            let length = rng.pick(&ends);
            (filled(rng, plan, length, page), false)
        }
        _ => (stored(rng, plan, page), false),
    }
}

/// A chip as a list leaves it, under the plan's own sets where the reference finds them soon. Of a
/// few lists the first is taken that leaves a whole save.
pub fn left_by_list(rng: &mut Rng, plan: &[u8], page: usize) -> Vec<u8> {
    let sets = match plan.len() < 140 {
        true => sets_of(plan),
        false => (0..SET_WORDS).map(|_| rng.word() & rng.word()).collect(),
    };
    let mut chip = Vec::new();
    for _ in 0..4 {
        chip = left(rng, plan, &sets, page, Kind::A3);
        if !read(plan, &chip, page)
            .map_or(vec![], |held| held.saves)
            .is_empty()
        {
            break;
        }
    }
    chip
}

/// A place to ask for: mostly a record's value or near one, else anywhere, up to 2^64 - 1.
pub fn place(rng: &mut Rng, plan: &[u8], chip: &[u8], page: usize) -> u64 {
    let held = read(plan, chip, page).expect("the chip is sound");
    let values = values(&held, page);
    let of_others = |value: &Value| value.checkpoint != last_checkpoint(&held);
    let others: Vec<Value> = values.iter().copied().filter(of_others).collect();
    let torn = torn_values(&held, chip);
    let at = match rng.below(10) {
        0 => rng.below(chip.len() + 8),
        1..3 if !torn.is_empty() => rng.pick(&torn),
        // There the last CHECKPOINT and the record's own may say something else.
        3..6 if !others.is_empty() => rng.pick(&others).at,
        _ if !values.is_empty() => rng.pick(&values).at,
        _ => rng.below(chip.len() + 1),
    };
    let at = at as u64;
    match rng.below(16) {
        0..9 => at,
        9..12 => at + rng.below(RECORD_LEN) as u64 + 1,
        12..14 => at.saturating_sub(1 + rng.below(RECORD_LEN) as u64),
        // Right but for what a narrower number would lose.
        14 => at + rng.pick(&[1 << 16, 1 << 32, 1 << 63, 3 << 32]),
        _ => rng.pick(&[0, u64::MAX, u64::MAX - 1, 0_u64.wrapping_sub(at), 1 << 32]),
    }
}

/// Where the values begin of records in the torn save, which may be torn themselves.
pub fn torn_values(held: &Chip, chip: &[u8]) -> Vec<usize> {
    let records = (held.end..held.end + held.torn).step_by(RECORD_LEN);
    let records = records.take_while(|&at| chip.get(at) == Some(&RECORD));
    records.map(|at| at + BEFORE_VALUE).collect()
}

/// What the place of an accepted question is, by name.
pub fn features(call: &Call, left: &Call) -> Vec<(&'static str, bool)> {
    let (plan, chip, page) = (call.plan.lent(), call.chip.lent(), call.entry.page());
    let held = read(plan, chip, page).expect("the chip is sound");
    let may = left.may() == 1;
    let mut features = of_bytes(&held, call).to_vec();
    features.extend([("accepted with 1", may), ("accepted with 0", !may)]);
    let values = values(&held, page);
    if let Some(value) = values.iter().find(|value| value.at as u64 == call.place) {
        features.extend(of_value(plan, &held, page, value, may));
    }
    features
}

/// What the value of a record is whose place is asked for.
fn of_value(
    plan: &[u8],
    held: &Chip,
    page: usize,
    value: &Value,
    may: bool,
) -> [(&'static str, bool); 6] {
    let own = is_dead(plan, value.cell, value.checkpoint).expect("the plan is accepted");
    let last = held.saves.last().map_or(0, |save| save.pages(page).len());
    let is_earlier = value.at < held.end - last;
    [
        ("values of live cells", !may),
        ("values in the last save, with 1", !is_earlier && may),
        ("values in an earlier save, with 1", is_earlier && may),
        ("dead at its own CHECKPOINT alone, with 0", own && !may),
        ("live at its own CHECKPOINT, with 1", !own && may),
        ("values of cells above 63", value.cell > 63),
    ]
}

/// Which bytes of the chip the place names.
fn of_bytes(held: &Chip, call: &Call) -> [(&'static str, bool); 8] {
    let (chip, page) = (call.chip.lent(), call.entry.page());
    let values = values(held, page);
    let is_value = |place: u64| values.iter().any(|value| value.at as u64 == place);
    let place = usize::try_from(call.place).unwrap_or(usize::MAX);
    let in_record = |value: &Value| {
        let record = value.at - BEFORE_VALUE..value.at + VALUE_LEN;
        record.contains(&place)
    };
    let in_record = values.iter().any(in_record);
    let in_torn = place >= held.end && place < held.end + held.torn;
    let narrowed = [16, 32, 63].map(|bits| call.place & ((1 << bits) - 1));
    let is_wide = narrowed.into_iter().any(is_value) && !is_value(call.place);
    [
        (
            "other bytes of a record",
            in_record && !is_value(call.place),
        ),
        ("cell numbers", is_value(call.place.wrapping_add(1))),
        ("bytes of a MARK or filling", place < held.end && !in_record),
        ("bytes of a torn save", in_torn),
        (
            "values in a torn save",
            torn_values(held, chip).contains(&place),
        ),
        ("places behind the chip", place >= chip.len()),
        ("values but for high bits", is_wide),
        ("places of 2^64 - 1", call.place == u64::MAX),
    ]
}
