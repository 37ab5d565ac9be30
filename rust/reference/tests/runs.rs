//! The rows about runs that `crates/vectors` prints: its expected output, in `crates/vectors/stdout`, is what the
//! reference answers of the same runs.

mod common;

use std::fmt::{Display, Write};
use std::fs;
use std::path::Path;

use reference::analyse;
use reference::journal::{read, BYTE_CHIP, ERASED};
use reference::machine::{Machine, Ran, State, SET_WORDS};

use common::plan;

const SMALL: &[u8] = include_bytes!("../../../examples/small.plan");

fn list<T: Display>(name: &str, numbers: impl IntoIterator<Item = T>) -> String {
    let mut text = format!(" {name}");
    for number in numbers {
        write!(text, " {number}").unwrap();
    }
    text
}

/// How a call ended, with its numbers, and the outputs' places after it.
fn answer(ran: Result<Ran, u32>, outputs: &mut [i32]) -> String {
    let text = match ran {
        Err(number) => format!(" refused {number} 0 0 0"),
        Ok(ran) => {
            outputs[..ran.given.len()].copy_from_slice(&ran.given);
            let ended = ran.ended.number();
            format!(" {ended} {} {} {}", ran.steps, ran.taken, ran.given.len())
        }
    };
    text + &list("outputs", outputs.iter())
}

/// A row: a run of a plan with the words of the small plan's EXCLUDE.
struct Row<'a> {
    plan: &'a [u8],
    words: usize,
    chip: usize,
    state: State,
    readings: &'a [i32],
    outputs: Vec<i32>,
    budget: u64,
}

impl Row<'_> {
    fn text(mut self, name: &str) -> String {
        let mut sets = vec![0; self.words];
        sets[0] = 6;
        sets[4] = 4;
        let mut chip = vec![ERASED; self.chip];
        let (state, room) = (&mut self.state, self.outputs.len());
        let ran = Machine::new(self.plan, &sets, BYTE_CHIP)
            .and_then(|machine| machine.run(&mut chip, state, self.readings, room, self.budget));
        let mut text = format!("{name}:") + &answer(ran, &mut self.outputs);
        if chip.len() <= 64 {
            text += &list("chip", chip);
        }
        text + "\n"
    }
}

fn small<'a>(chip: usize, readings: &'a [i32], outputs: &[i32], budget: u64) -> Row<'a> {
    Row {
        plan: SMALL,
        words: SET_WORDS,
        chip,
        state: State::first(),
        readings,
        outputs: outputs.to_vec(),
        budget,
    }
}

/// A plan from the first state, on no chip.
fn plain(plan: &[u8]) -> Row<'_> {
    Row {
        plan,
        outputs: vec![7],
        ..small(0, &[3], &[], 100)
    }
}

/// SET 0 a, SET 1 b, the command on cells 0 and 1 into 0, EMIT 0, END.
fn arithmetic(a: i32, b: i32, opcode: u8) -> Vec<u8> {
    let set = |cell: u8, value: i32| [&[0x02, cell][..], &value.to_le_bytes()].concat();
    let rest = vec![opcode, 0, 0, 1, 0x08, 0, 0x01];
    [vec![1], set(0, a), set(1, b), rest].concat()
}

fn stops() -> String {
    let mut readings_full = plain(&[0x00, 0x07, 0x00, 0x01]);
    readings_full.state.readings = u32::MAX;
    let mut outputs_full = plain(&[0x00, 0x08, 0x00, 0x01]);
    outputs_full.state.outputs = u32::MAX;
    let index = [
        0x05, 0x02, 0x04, 0xFF, 0xFF, 0xFF, 0xFF, 0x02, 0x05, 0x09, 0x00, 0x00, 0x00, 0x0C, 0x00,
        0x04, 0x04, 0x05, 0x08, 0x03, 0x01,
    ];
    [
        plain(&[0x00, 0x01]).text("ended"),
        plain(&[0x01, 0x06, 0x00, 0x00, 0x01, 0x01]).text("divisor"),
        readings_full.text("readings full"),
        outputs_full.text("outputs full"),
        plain(&arithmetic(7, -2, 0x06)).text("7 / -2"),
        plain(&arithmetic(i32::MIN, -1, 0x06)).text("-2147483648 / -1"),
        plain(&arithmetic(i32::MAX, 1, 0x04)).text("2147483647 + 1"),
        plain(&index).text("index -1 of 4"),
    ]
    .concat()
}

fn refusals() -> String {
    let end = || Row {
        readings: &[],
        budget: 1,
        ..plain(&[0x00, 0x01])
    };
    let mut words = end();
    words.words = 511;
    let mut past = end();
    past.state.write = 1;
    let mut long = end();
    long.chip = 65_537;
    [
        words.text("511 words"),
        past.text("write position 1 past the end"),
        long.text("65537 bytes of FF, run"),
    ]
    .concat()
}

fn rows() -> String {
    [
        small(0, &[5, 7, -2], &[0; 3], 1000).text("readings 5 7 -2"),
        small(24, &[5], &[0], 1000).text("24 bytes of chip"),
        small(23, &[5], &[0], 1000).text("23 bytes of chip"),
        small(48, &[5, 7], &[0; 3], 40).text("cut inside a save"),
        small(0, &[5], &[7; 2], 0).text("no budget"),
        small(0, &[5], &[7; 2], 3).text("budget spent"),
        small(0, &[5], &[7; 2], 1000).text("no reading left"),
        small(0, &[5], &[], 1000).text("output buffer full"),
        stops(),
        refusals(),
    ]
    .concat()
}

/// One of document 001's programs with its own sets, from an erased chip to its end: its outputs, and how many cells
/// each save holds.
fn program(name: &str, text: &str, readings: &[i32]) -> String {
    let plan = plan(text);
    let mut sets = analyse(&plan).unwrap().set_words();
    sets.resize(SET_WORDS, 0);
    let mut chip = vec![ERASED; 8000];
    let mut outputs = [0; 25];
    let machine = Machine::new(&plan, &sets, BYTE_CHIP).unwrap();
    let (state, room) = (&mut State::first(), outputs.len());
    let ran = machine.run(&mut chip, state, readings, room, 1_000_000);
    let held = read(&plan, &chip, BYTE_CHIP).expect("the engine leaves a sound chip");
    let all = format!("saves of {} cells", usize::from(plan[0]) + 1);
    let sizes = held.saves.iter().map(|save| save.records.len());
    format!("{name} run:") + &answer(ran, &mut outputs) + &list(&all, sizes) + "\n"
}

fn programs() -> [String; 3] {
    let cell = [1, 1, 0, 0, 1, 1, 0, 1, 0, 0, 1, 1, 0, 1, 1, 0];
    let contour = [
        0, 3, 7, 4, 1, 2, 8, 12, 9, 3, 5, 11, 18, 13, 6, 3, 9, 14, 10, 2, 1, 4, 6, 3, 0,
    ];
    [
        program("CELL", include_str!("../../../examples/cell.hex"), &cell),
        program("SIEVE", include_str!("../../../examples/sieve.hex"), &[]),
        program(
            "CONTOUR",
            include_str!("../../../examples/contour.hex"),
            &contour,
        ),
    ]
}

#[test]
fn vectors_prints_what_the_reference_answers() {
    let file = Path::new(env!("CARGO_MANIFEST_DIR")).join("../../crates/vectors/stdout");
    let stdout = fs::read_to_string(file).expect("crates/vectors/stdout can be read");
    let at = stdout.find("readings 5 7 -2:").expect("the rows begin");
    assert_eq!(rows(), stdout[at..]);
    for program in programs() {
        assert!(stdout.contains(&program), "{program}");
    }
}
