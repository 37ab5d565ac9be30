//! Chips whose marks are not the plan's own (document 02, Q-8): of the other kind, of both kinds,
//! or naming another plan; and how far a torn mark goes.

use claim::marks::remarked;
use reference::journal::{
    owner, read, Chip, Kind, Mark, BYTE_CHIP, ERASED, MARK_A2, MARK_A3, MAX_CHIP, RECORD,
};

use crate::journals::{save, stored, stored_with};
use crate::rng::Rng;

/// Faults of a chip's marks, with the refusal that each alone gives a recovery. A fold takes the
/// first two.
pub const FAULTS: [(&str, u32); 6] = [
    ("A2 marks", 15),
    ("a torn A2 alone", 12),
    ("marks of both kinds", 12),
    ("a mark of another length", 16),
    ("a mark of another sum", 16),
    ("an earlier mark of another plan", 16),
];

/// A chip with whole marks of this kind, and often torn bytes behind them.
fn with_marks(rng: &mut Rng, plan: &[u8], page: usize, kind: Kind) -> Vec<u8> {
    loop {
        let chip = stored_with(rng, plan, page, kind);
        if held(plan, &chip, page).is_some() {
            return chip;
        }
    }
}

/// What the chip holds, if it has a whole mark.
fn held(plan: &[u8], chip: &[u8], page: usize) -> Option<Chip> {
    let held = read(plan, chip, page).ok()?;
    (!held.saves.is_empty()).then_some(held)
}

/// A chip with A2 marks, as until Q-8.
pub fn a2_marks(rng: &mut Rng, plan: &[u8], page: usize) -> Vec<u8> {
    with_marks(rng, plan, page, Kind::A2)
}

/// A chip whose only mark is a torn A2.
pub fn torn_a2(rng: &mut Rng, plan: &[u8], page: usize) -> Vec<u8> {
    let save = save(rng, plan, Mark::FIRST, Kind::A2);
    let records = 6 * save.records.len();
    let mut chip = save.bytes();
    chip.truncate(records + 1 + rng.below(Kind::A2.mark_len() - 1));
    let erased = rng.pick(&[0, 1, 30]);
    chip.resize((chip.len() + erased).next_multiple_of(page), ERASED);
    chip
}

/// The chip, or one of the other kind of mark, with a save behind it whose mark is not of its kind:
/// whole or torn. None where it has no whole mark, or no room for that.
pub fn both_kinds(rng: &mut Rng, plan: &[u8], chip: &[u8], page: usize) -> Option<Vec<u8>> {
    let mut chip = chip.to_vec();
    if rng.below(2) == 0 {
        chip = claim::marks::with_a2(plan, &chip, page)?;
    }
    let held = held(plan, &chip, page)?;
    let kind = match held.last().kind() {
        Kind::A2 => Kind::A3,
        Kind::A3 => Kind::A2,
    };
    let next = save(rng, plan, held.last(), kind);
    let mut bytes = next.bytes();
    let records = 6 * next.records.len();
    bytes.truncate(records + 1 + rng.below(kind.mark_len()));
    chip.truncate(held.end);
    chip.extend(bytes);
    chip.resize(chip.len().next_multiple_of(page), ERASED);
    (chip.len() <= MAX_CHIP).then_some(chip)
}

/// What is another owner than the plan's: in its length or in its sum alone, often by 1 or in one
/// byte, or zeros.
fn other_owner(rng: &mut Rng, plan: &[u8], in_sum: bool) -> u32 {
    let own = owner(plan);
    let [length, sum] = [own as u16, (own >> 16) as u16];
    let field = if in_sum { sum } else { length };
    let other = loop {
        let any = rng.word() as u16;
        let by_bit = field ^ (1 << rng.below(16));
        let other = rng.pick(&[
            field.wrapping_add(1),
            field.wrapping_sub(1),
            field.swap_bytes(),
            by_bit,
            0,
            any,
        ]);
        if other != field {
            break u32::from(other);
        }
    };
    match in_sum {
        true => u32::from(length) + 65_536 * other,
        false => other + 65_536 * u32::from(sum),
    }
}

/// The chip, whatever its marks are, with A3 ones of which the last, or some, name another plan by
/// this field alone.
pub fn another_plan(
    rng: &mut Rng,
    plan: &[u8],
    chip: &[u8],
    page: usize,
    in_sum: bool,
) -> Option<Vec<u8>> {
    let last = held(plan, chip, page)?.saves.len() - 1;
    let (other, from) = (other_owner(rng, plan, in_sum), rng.pick(&[last, 0]));
    remarked(plan, chip, page, |number, _| match number >= from {
        true => Some(other),
        false => Some(owner(plan)),
    })
}

/// The same, but the last mark is the plan's own. None where there is but one.
pub fn earlier_of_another_plan(
    rng: &mut Rng,
    plan: &[u8],
    chip: &[u8],
    page: usize,
) -> Option<Vec<u8>> {
    let last = held(plan, chip, page)?.saves.len() - 1;
    if last == 0 {
        return None;
    }
    let (any, in_sum) = (rng.below(2) == 0, rng.below(2) == 0);
    let other = match any {
        // Zeros are no A2 mark.
        true => rng.pick(&[0, u32::MAX]),
        false => other_owner(rng, plan, in_sum),
    };
    let at = rng.below(last);
    remarked(plan, chip, page, |number, _| match number == at {
        true => Some(other),
        false => Some(owner(plan)),
    })
}

/// A chip that another plan wrote: one that is much like this plan, or one of those given.
pub fn of_another_plan(rng: &mut Rng, plan: &[u8], page: usize, others: &[Vec<u8>]) -> Vec<u8> {
    for _ in 0..20 {
        let mut alike = plan.to_vec();
        let at = 1 + rng.below(plan.len() - 1);
        alike[at] = alike[at].wrapping_add(rng.pick(&[1, 0xFF]));
        if is_saving(&alike) && rng.below(4) > 0 {
            return stored(rng, &alike, page);
        }
    }
    let other = &others[rng.below(others.len())];
    stored(rng, other, page)
}

/// Whether the plan is accepted and has a CHECKPOINT.
fn is_saving(plan: &[u8]) -> bool {
    let shape = |plan: &[u8]| crate::states::Shape::of(plan, BYTE_CHIP);
    reference::check(plan).is_ok() && !shape(plan).checkpoints.is_empty()
}

/// Of a sound chip that ends within a mark, the kind of that mark and how many bytes of it stand
/// there.
pub fn torn_mark(plan: &[u8], chip: &[u8], page: usize) -> Option<(Kind, usize)> {
    let held = read(plan, chip, page).ok()?;
    let end = chip.iter().rposition(|&byte| byte != ERASED)? + 1;
    let mut torn = chip.get(held.end..end)?;
    while let [RECORD, _, _, _, _, _, rest @ ..] = torn {
        torn = rest;
    }
    match *torn.first()? {
        MARK_A2 => Some((Kind::A2, torn.len())),
        MARK_A3 => Some((Kind::A3, torn.len())),
        _ => None,
    }
}
