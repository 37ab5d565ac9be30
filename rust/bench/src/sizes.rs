//! How many bytes the saves of document 001's programs have: by the library, and by the reference where every cell is
//! saved or only read-only cells are left out.

use differential::buffer::Buffer;
use differential::call::{number_bytes, words, Call, Callee, Entry, Library, Reference};
use differential::examples::programs;
use reference::journal::{read, BYTE_CHIP, ERASED, MAX_CHIP};
use reference::layout::STATE_BYTES;

use crate::baseline::{DEAD_WORDS, SET_WORDS};

/// The readings of CELL, a pattern, and of CONTOUR, a map. SIEVE takes none.
const PATTERN: [i32; 16] = [1, 1, 0, 0, 1, 1, 0, 1, 0, 0, 1, 1, 0, 1, 1, 0];
const MAP: [i32; 25] = [
    0, 3, 7, 4, 1, 2, 8, 12, 9, 3, 5, 11, 18, 13, 6, 3, 9, 14, 10, 2, 1, 4, 6, 3, 0,
];

/// The bytes of each save that one program makes from its beginning to its end, under one rule.
#[derive(Clone, Debug, PartialEq, Eq)]
pub struct Sizes {
    pub program: &'static str,
    pub rule: &'static str,
    pub saves: Vec<usize>,
}

impl Sizes {
    pub fn total(&self) -> usize {
        self.saves.iter().sum()
    }
}

/// Of each program in turn: every cell saved, read-only cells left out, and what the library saves.
pub fn sizes() -> Vec<Sizes> {
    let mut all = Vec::new();
    for (program, plan) in programs() {
        let readings: &[i32] = match program {
            "CELL" => &PATTERN,
            "CONTOUR" => &MAP,
            _ => &[],
        };
        let sets = sets(&plan);
        let none = vec![0; SET_WORDS];
        for (rule, saves) in [
            ("every cell", saves(&Reference, &plan, &none, readings)),
            (
                "less read-only",
                saves(&Reference, &plan, &read_only(&sets), readings),
            ),
            ("this engine", saves(&Library, &plan, &sets, readings)),
        ] {
            all.push(Sizes {
                program,
                rule,
                saves,
            });
        }
    }
    all
}

/// DE and RO as the library finds them.
fn sets(plan: &[u8]) -> Vec<u64> {
    let mut call = Call {
        plan: Buffer::plain(plan),
        dead: Buffer::plain(&[0; 8 * DEAD_WORDS]),
        sets: Buffer::plain(&[0; 8 * SET_WORDS]),
        ..Call::new(Entry::Analyse)
    };
    assert_eq!(Library.answer(&mut call), 0, "the plan is accepted");
    words(call.sets.lent())
}

/// The words with every DE empty.
fn read_only(sets: &[u64]) -> Vec<u64> {
    let mut words = sets.to_vec();
    for both in words.chunks_exact_mut(8) {
        both[..4].fill(0);
    }
    words
}

/// The bytes of each save on the chip after a run to the plan's end.
fn saves(callee: &impl Callee, plan: &[u8], sets: &[u64], readings: &[i32]) -> Vec<usize> {
    let mut call = Call {
        readings: Buffer::plain(&number_bytes(readings)),
        outputs: Buffer::plain(&[0; 4 * 100]),
        budget: 1_000_000,
        ..Call::recover(plan, sets, &[ERASED; MAX_CHIP], &[0; STATE_BYTES])
    };
    assert_eq!(callee.answer(&mut call), 0, "the recovery is accepted");
    call.entry = Entry::Run;
    assert_eq!(callee.answer(&mut call), 0, "the run is accepted");
    assert_eq!(call.ran().ended, 1, "the plan ends");
    let held = read(plan, call.chip.lent(), BYTE_CHIP).expect("the chip is sound");
    held.saves.iter().map(|save| save.bytes().len()).collect()
}
