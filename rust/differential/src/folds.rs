//! What random calls of folding are lent: old chips, and new ones on which a part of the save
//! stands, right or with a fault.

use reference::folding::{save_bytes, store};
use reference::journal::{read, Kind, BYTE_CHIP, ERASED, MARK_A2, MARK_A3, MAX_CHIP, RECORD};
use reference::refusal::NEW_CHIP_DIFFERS;

use crate::journals::{every_cell, filled, left, stored_with};
use crate::rng::Rng;
use crate::states::edge;

/// An old chip for an accepted plan that saves: left by a list of calls with these sets, or made by
/// hand; with A3 marks, or with A2 ones as until request Q-8. It is seldom large, since the reference
/// takes long for such a one.
pub fn old_chip(rng: &mut Rng, plan: &[u8], sets: &[u64]) -> Vec<u8> {
    let kind = rng.pick(&Kind::ALL);
    match rng.below(200) {
        0..8 => vec![ERASED; rng.below(100)],
        8..80 => left(rng, plan, sets, BYTE_CHIP, kind),
        80..95 => every_cell(rng, plan, kind),
        95 => {
            let length = rng.pick(&[4_000, 20_000, MAX_CHIP]);
            filled(rng, plan, length, BYTE_CHIP)
        }
        _ => stored_with(rng, plan, BYTE_CHIP, kind),
    }
}

/// The save that an old chip folds to, in bytes: none where the chip has no whole one.
pub fn save_of(plan: &[u8], old: &[u8]) -> Vec<u8> {
    let held = read(plan, old, BYTE_CHIP).expect("the old chip is sound");
    save_bytes(plan, &held, Kind::A3)
}

/// A new chip and the number of bytes that are stored on it, with the save that it is to get.
#[derive(Clone, Default)]
pub struct NewChip {
    pub bytes: Vec<u8>,
    pub stored: u64,
    save: Vec<u8>,
}

impl NewChip {
    /// A chip that is long enough, with a right number.
    pub fn for_save(rng: &mut Rng, save: Vec<u8>) -> NewChip {
        let stored = right_number(rng, &save);
        let more = match rng.below(100) {
            0..2 => MAX_CHIP - save.len(),
            2..30 => 0,
            30..40 => 1,
            40..70 => rng.below(20),
            _ => rng.below(200),
        };
        let mut bytes = save[..stored].to_vec();
        bytes.resize(save.len() + more, ERASED);
        NewChip {
            bytes,
            stored: stored as u64,
            save,
        }
    }

    /// A budget: about what is left of the save, or far more than that.
    pub fn budget(&self, rng: &mut Rng) -> u64 {
        let left = self.save.len() as u64 - self.stored;
        match rng.below(10) {
            0 => 0,
            1 => 1,
            2..4 => left,
            4 => left.saturating_sub(1),
            5 => left + 1,
            // With these a sum of 64 bits, or a number of 32, would be 0 or little.
            6 => rng.pick(&[
                u64::MAX,
                u64::MAX - self.stored,
                0_u64.wrapping_sub(self.stored),
            ]),
            7 => rng.pick(&[1 << 32, (1 << 32) + 1, 1 << 63]),
            _ => rng.below(20) as u64,
        }
    }

    /// Gives the chip or the number a fault, which alone gives 13 or 14, and gives its name.
    pub fn spoil(&mut self, rng: &mut Rng) -> &'static str {
        loop {
            let fault = match rng.below(12) {
                0..3 => self.spoil_front(rng),
                3..5 => self.spoil_rest(rng),
                5 => self.raise_number(rng),
                6..8 => self.lower_number(rng),
                _ => self.shorten(rng),
            };
            if let Some(name) = fault {
                return name;
            }
        }
    }

    /// The bytes before the number, as far as the chip has them.
    fn front(&self) -> usize {
        self.bytes.len().min(self.stored as usize)
    }

    fn spoil_front(&mut self, rng: &mut Rng) -> Option<&'static str> {
        let last = self.front().checked_sub(1)?;
        let at = edge(rng, last);
        let other = 1 + rng.below(255) as u8;
        self.bytes[at] = match rng.below(2) {
            0 if self.bytes[at] != ERASED => ERASED,
            _ => self.bytes[at].wrapping_add(other),
        };
        Some("a wrong byte before the number")
    }

    fn spoil_rest(&mut self, rng: &mut Rng) -> Option<&'static str> {
        let front = self.front();
        let last = (self.bytes.len() - front).checked_sub(1)?;
        let any = rng.below(255) as u8;
        self.bytes[front + edge(rng, last)] =
            rng.pick(&[RECORD, MARK_A2, MARK_A3, 0x00, 0xFE, any]);
        Some("a wrong byte behind the number")
    }

    fn raise_number(&mut self, rng: &mut Rng) -> Option<&'static str> {
        let [save, chip] = [&self.save, &self.bytes].map(|bytes| bytes.len() as u64);
        let more = rng.pick(&[0, 0, 1, 2, 40]);
        let numbers = [
            self.stored.saturating_add(1 + more),
            1 + rng.pick(&[save, chip]),
            self.stored | 1 << 32,
            rng.pick(&[1 << 16, 1 << 32, 1 << 63, u64::MAX]),
        ];
        self.stored = self.wrong_number(rng, &numbers)?;
        Some("a number that is too high")
    }

    fn lower_number(&mut self, rng: &mut Rng) -> Option<&'static str> {
        let least = self.stored.checked_sub(1)?;
        let any = rng.below(self.front().max(1)) as u64;
        self.stored = self.wrong_number(rng, &[0, least, any])?;
        Some("a number that is too low")
    }

    /// One of the numbers, unless it is right too: where the save has FF, several are.
    fn wrong_number(&self, rng: &mut Rng, of: &[u64]) -> Option<u64> {
        let number = rng.pick(of);
        let answer = store(&self.save, &mut self.bytes.clone(), number, 0);
        (answer == Err(NEW_CHIP_DIFFERS)).then_some(number)
    }

    /// Leaves the chip shorter than the save, and as long as the bytes before the number or longer.
    fn shorten(&mut self, rng: &mut Rng) -> Option<&'static str> {
        let (front, longest) = (self.front(), self.save.len().checked_sub(1)?);
        let room = longest.checked_sub(front)?;
        self.bytes.truncate(front + edge(rng, room));
        Some("a new chip that is too short")
    }
}

/// A number of bytes that may be stored: none, all, one less, or any, often one behind FF.
fn right_number(rng: &mut Rng, save: &[u8]) -> usize {
    let behind_ff: Vec<usize> = (1..=save.len()).filter(|n| save[n - 1] == ERASED).collect();
    match rng.below(8) {
        0..2 => 0,
        2 => save.len(),
        3 => save.len().saturating_sub(1),
        4..6 if !behind_ff.is_empty() => rng.pick(&behind_ff),
        _ => rng.below(save.len() + 1),
    }
}
