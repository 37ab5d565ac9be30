//! What a hostile call is made of: plans that check refuses, chips that recovery refuses, and buffers that are too short
//! or too long.

use reference::journal::{read, ERASED, MARK_A2, MARK_A3, MARK_END, MAX_CHIP, RECORD};
use reference::program::{
    EMIT, END, EXCLUDE, FIRST_INSTRUCTION, GET, JUMP, LENGTHS, MAX_BYTES, PUT,
};

use crate::journals::altered;
use crate::plans::{crowded, mutated, noise};
use crate::rng::Rng;

/// A plan that is mostly refused, by each of the refusals 1 to 8: the accepted one with a fault, or another.
pub fn plan(rng: &mut Rng, accepted: &[u8]) -> Vec<u8> {
    match rng.below(15) {
        0 => wrong_length(rng, accepted),
        1 => {
            let unknown = rng.pick(&[0x00, 0x0F, 0x10, 0x7F, 0x81, 0xFF]);
            with_command(rng, accepted, &[unknown])
        }
        2 => cut(rng, accepted),
        3 => no_such_cell(rng, accepted),
        4 => bad_table(rng, accepted),
        5 | 14 => too_many(rng),
        6 => no_end(rng, accepted),
        7 => bad_target(rng, accepted),
        8..11 => mutated(rng),
        11 => noise(rng),
        12 => (0..rng.below(300)).map(|_| rng.byte()).collect(),
        _ => {
            let mut plan = accepted.to_vec();
            let at = rng.below(plan.len());
            plan[at] = rng.byte();
            plan
        }
    }
}

/// Empty, or over 2,048 bytes.
fn wrong_length(rng: &mut Rng, accepted: &[u8]) -> Vec<u8> {
    let mut plan = accepted.to_vec();
    match rng.below(2) {
        0 => plan.clear(),
        _ => plan.resize(MAX_BYTES + 1 + rng.below(40), END),
    }
    plan
}

/// The offsets of the accepted plan's commands, and its length.
fn offsets(accepted: &[u8]) -> Vec<usize> {
    let mut offsets = vec![FIRST_INSTRUCTION];
    let mut at = FIRST_INSTRUCTION;
    while at < accepted.len() {
        at += LENGTHS[usize::from(accepted[at])];
        offsets.push(at);
    }
    offsets
}

/// The accepted plan with one command more, anywhere. Targets stay as they are: 2 to 5 are tried before them.
fn with_command(rng: &mut Rng, accepted: &[u8], command: &[u8]) -> Vec<u8> {
    let at = rng.pick(&offsets(accepted));
    [&accepted[..at], command, &accepted[at..]].concat()
}

/// The accepted plan and a GET whose operands pass the end.
fn cut(rng: &mut Rng, accepted: &[u8]) -> Vec<u8> {
    let command = [GET, 0, 0, 1, 0];
    let kept = 1 + rng.below(4);
    [accepted, &command[..kept]].concat()
}

fn no_such_cell(rng: &mut Rng, accepted: &[u8]) -> Vec<u8> {
    let past_last = accepted[0].saturating_add(1 + rng.byte() % 4);
    with_command(rng, accepted, &[EMIT, past_last])
}

fn bad_table(rng: &mut Rng, accepted: &[u8]) -> Vec<u8> {
    let last = accepted[0];
    let [base, len] = match rng.below(3) {
        0 => [0, 0],
        1 => [last, 2],
        _ => [last.saturating_add(1), 1],
    };
    let command = match rng.below(2) {
        0 => [GET, 0, base, len, 0],
        _ => [PUT, base, len, 0, 0],
    };
    with_command(rng, accepted, &command)
}

fn too_many(rng: &mut Rng) -> Vec<u8> {
    match rng.below(3) {
        0 => crowded(rng).bytes,
        1 => [vec![rng.byte()], vec![END; 513 + rng.below(20)]].concat(),
        _ => [vec![rng.byte()], vec![EXCLUDE; 65], vec![END]].concat(),
    }
}

fn no_end(rng: &mut Rng, accepted: &[u8]) -> Vec<u8> {
    match rng.below(3) {
        0 => accepted[..1].to_vec(),
        1 => [accepted, &[EXCLUDE]].concat(),
        _ => [accepted, &[EMIT, 0]].concat(),
    }
}

/// A jump to 0, into operands, past the end, or to an offset that is one only in its lower byte.
fn bad_target(rng: &mut Rng, accepted: &[u8]) -> Vec<u8> {
    let end = accepted.len() as u16;
    let t = rng.pick(&[0, end + 1, end + 2, end + 3, 0x8001, 0xFFFF]);
    let [low, high] = t.to_le_bytes();
    [accepted, &[JUMP, low, high]].concat()
}

/// The length in bytes of a buffer that holds fewer words than it should.
pub fn short_words(rng: &mut Rng, least: usize) -> usize {
    match rng.below(4) {
        0 => 0,
        1 => 8 * least - 8,
        2 => 8 * least - 1,
        _ => rng.below(8 * least),
    }
}

/// A chip over 65,536 bytes that begins as the one given does.
pub fn long_chip(rng: &mut Rng, mut chip: Vec<u8>) -> Vec<u8> {
    let fill = rng.pick(&[ERASED, ERASED, 0x00]);
    let more = match rng.below(3) {
        0 => rng.pick(&[1, 15, 16, 32]),
        _ => 1 + rng.below(9),
    };
    chip.resize(MAX_CHIP + more, fill);
    chip
}

/// A chip that begins as the one given does and is no number of whole pages.
pub fn broken_page(rng: &mut Rng, mut chip: Vec<u8>, page: usize) -> Vec<u8> {
    let whole = chip.len() / page * page;
    let length = match rng.below(6) {
        0 => rng.pick(&[page - 1, page + 1]),
        1 => MAX_CHIP - rng.pick(&[1, page - 1, page + 1]),
        2 => whole + page - 1,
        3 => whole + 1,
        _ => whole + 1 + rng.below(page - 1),
    };
    chip.resize(length, ERASED);
    chip
}

/// The sound chip with one wrong byte in the filling behind one of its saves, if one has filling.
pub fn filling(rng: &mut Rng, plan: &[u8], mut chip: Vec<u8>, page: usize) -> Option<Vec<u8>> {
    let mut filling = Vec::new();
    let mut end = 0;
    for save in read(plan, &chip, page).ok()?.saves {
        let mark_end = end + save.bytes().len();
        end += save.pages(page).len();
        filling.extend(mark_end..end);
    }
    if filling.is_empty() {
        return None;
    }
    let at = match rng.below(4) {
        0 => filling[0],
        1 => filling[filling.len() - 1],
        _ => rng.pick(&filling),
    };
    let any = rng.below(255) as u8;
    chip[at] = rng.pick(&[RECORD, MARK_A2, MARK_A3, MARK_END, 0x00, 0xFE, any]);
    Some(chip)
}

/// A chip that recovery often refuses: altered, of bytes that mean something, or of any.
pub fn chip(rng: &mut Rng, sound: Vec<u8>) -> Vec<u8> {
    match rng.below(8) {
        0 => {
            let some = [RECORD, MARK_A2, MARK_A3, MARK_END, 0, 1, 2, 3, ERASED];
            (0..rng.below(40)).map(|_| rng.pick(&some)).collect()
        }
        1 => (0..rng.below(100)).map(|_| rng.byte()).collect(),
        _ => altered(rng, sound),
    }
}
