//! The rows about recovery that `crates/vectors` prints: its expected output, in `crates/vectors/stdout`, is what the
//! reference reads of the same chips.

use std::fmt::Write;
use std::fs;
use std::path::Path;

use reference::journal::{read_for_recovery, BYTE_CHIP, ERASED, MAX_CHIP};

const SMALL: &[u8] = &[
    0x02, 0x02, 0x00, 0x00, 0x00, 0x00, 0x00, 0x07, 0x01, 0x04, 0x00, 0x00, 0x01, 0x08, 0x00, 0x0D,
    0x0E, 0x09, 0x07, 0x00,
];
/// A cell, a CHECKPOINT and END; and a plan without a CHECKPOINT.
const ONE_CELL: &[u8] = &[0x00, 0x0E, 0x01];
const NO_CHECKPOINT: &[u8] = &[0x00, 0x01];

/// The small plan's first two saves.
const SAVES: [u8; 48] = [
    0xA1, 0x00, 0x05, 0x00, 0x00, 0x00, 0xA3, 0x11, 0x00, 0x0F, 0x00, 0x01, 0x00, 0x00, 0x00, 0x01,
    0x00, 0x00, 0x00, 0x14, 0x00, 0x44, 0x00, 0x5A, 0xA1, 0x00, 0x0C, 0x00, 0x00, 0x00, 0xA3, 0x11,
    0x00, 0x0F, 0x00, 0x02, 0x00, 0x00, 0x00, 0x02, 0x00, 0x00, 0x00, 0x14, 0x00, 0x44, 0x00, 0x5A,
];

/// A whole MARK of `ONE_CELL`, and one with A2.
const MARK: [u8; 18] = [
    0xA3, 0x02, 0x00, 0x00, 0x00, 0x00, 0x00, 0x00, 0x00, 0x00, 0x00, 0x00, 0x00, 0x03, 0x00, 0x0F,
    0x00, 0x5A,
];
const MARK_A2: [u8; 14] = [
    0xA2, 0x02, 0x00, 0x00, 0x00, 0x00, 0x00, 0x00, 0x00, 0x00, 0x00, 0x00, 0x00, 0x5A,
];

/// One that has taken 4,294,902,016 readings, and one more up to its count.
const COUNTED: [u8; 23] = [
    0xA3, 0x02, 0x00, 0x00, 0x00, 0x00, 0x01, 0xFF, 0xFF, 0x00, 0x00, 0x00, 0x00, 0x03, 0x00, 0x0F,
    0x00, 0x5A, 0xA3, 0x02, 0x00, 0x00, 0x00,
];

/// A row: its name and what the chip holds, as `vectors` writes it.
fn row(name: &str, plan: &[u8], chip: &[u8]) -> String {
    let mut line = format!("{name}:");
    match read_for_recovery(plan, chip, BYTE_CHIP) {
        Err(number) => write!(line, " {number}").unwrap(),
        Ok(chip) => {
            let last = chip.last();
            write!(line, " 0 {} {}", chip.end, chip.torn).unwrap();
            write!(line, " {} {}", last.place, last.exclude).unwrap();
            write!(line, " {} {}", last.readings, last.outputs).unwrap();
            for cell in 0..3 {
                write!(line, " {}", chip.value(cell) as u32).unwrap();
            }
        }
    }
    line + "\n"
}

fn stored() -> String {
    let mut chip = [ERASED; 56];
    let mut text = String::new();
    for stored in 0..=SAVES.len() {
        chip[..stored].copy_from_slice(&SAVES[..stored]);
        text += &row(&format!("stored {stored}"), SMALL, &chip);
    }
    text
}

fn altered(byte: u8) -> String {
    let mut text = String::new();
    for at in 24..48 {
        let mut chip = SAVES;
        chip[at] = byte;
        text += &row(&format!("byte {byte:02X} at {at}"), SMALL, &chip);
    }
    text
}

fn edges() -> String {
    let all_cells = [0xA1, 0x00, 0x01, 0x02, 0x03, 0x04];
    let no_exclude = [0xA3, 0x02, 0x00];
    let then = |bytes: &[u8], last: &[u8]| [bytes, last].concat();
    [
        row("no CHECKPOINT, A1", NO_CHECKPOINT, &[0xA1]),
        row("no CHECKPOINT, A3", NO_CHECKPOINT, &[0xA3]),
        row("no CHECKPOINT, FF", NO_CHECKPOINT, &[0xFF]),
        row("all cells, A1", ONE_CELL, &then(&all_cells, &[0xA1])),
        row("all cells, A3", ONE_CELL, &then(&all_cells, &[0xA3])),
        row("low byte of the place", ONE_CELL, &[0xA3, 0x02]),
        row("low byte of no place", ONE_CELL, &[0xA3, 0x01]),
        row(
            "low byte 0 for no EXCLUDE",
            ONE_CELL,
            &then(&no_exclude, &[0x00]),
        ),
        row(
            "low byte of no EXCLUDE",
            ONE_CELL,
            &then(&no_exclude, &[0x01]),
        ),
        row(
            "a count that FF lifts",
            ONE_CELL,
            &then(&COUNTED, &[0x00, 0x01]),
        ),
        row(
            "a count that FF cannot lift",
            ONE_CELL,
            &then(&COUNTED, &[0x00, 0x00]),
        ),
    ]
    .concat()
}

/// Marks of each kind, of both, torn ones, and those of another plan.
fn owners() -> String {
    let then = |bytes: &[u8], last: &[u8]| [bytes, last].concat();
    let other = |at: usize| {
        let mut mark = MARK;
        mark[at] += 1;
        mark
    };
    [
        row("A2", ONE_CELL, &MARK_A2),
        row("A2, torn A2", ONE_CELL, &then(&MARK_A2, &[0xA2])),
        row("A2, torn A3", ONE_CELL, &then(&MARK_A2, &[0xA3])),
        row("torn A2", ONE_CELL, &[0xA2, 0x02]),
        row("torn A3", ONE_CELL, &[0xA3, 0x02]),
        row("another length", ONE_CELL, &other(13)),
        row("another sum", ONE_CELL, &other(15)),
        row(
            "another plan's, then its own",
            ONE_CELL,
            &then(&other(13), &MARK),
        ),
    ]
    .concat()
}

#[test]
fn vectors_prints_what_the_reference_answers() {
    let record = |value| [0xA1, 0x00, value, 0x00, 0x00, 0x00];
    let twice = [&record(1)[..], &record(2), &MARK].concat();
    let long = vec![ERASED; MAX_CHIP + 1];
    let rows = [
        stored(),
        altered(0x00),
        altered(0x03),
        altered(0xA1),
        altered(0xFF),
        edges(),
        row("00, then FF", ONE_CELL, &[0x00, 0xFF, 0xFF, 0xFF]),
        row("no bytes", ONE_CELL, &[]),
        row("a refused plan", &[0x00], &[]),
        row("a cell twice", ONE_CELL, &twice),
        owners(),
        row("65537 bytes of FF", ONE_CELL, &long),
        row("65536 bytes of FF", ONE_CELL, &long[..MAX_CHIP]),
    ]
    .concat();

    let file = Path::new(env!("CARGO_MANIFEST_DIR")).join("../../crates/vectors/stdout");
    let stdout = fs::read_to_string(file).expect("crates/vectors/stdout can be read");
    let from = stdout.find("stored 0:").expect("the rows begin");
    let to = stdout.find("readings 5 7 -2:").expect("the rows end");
    assert_eq!(rows, stdout[from..to]);
}
