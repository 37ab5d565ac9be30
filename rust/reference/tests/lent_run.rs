//! What `crates/lent_run` prints of the small plan: its expected output, in `crates/lent_run/stdout`, is what the
//! reference answers of the same power-ups.

use std::fs;
use std::path::Path;

use reference::analyse;
use reference::journal::{BYTE_CHIP, ERASED};
use reference::machine::{Machine, State, Stop, SET_WORDS};

const SMALL: &[u8] = include_bytes!("../../../examples/small.plan");
const READINGS: [i32; 3] = [5, 7, -2];
/// The bytes of one of the plan's saves.
const SAVE: usize = 24;

/// A line to a call: its answer, the registers and the plan's three cells.
fn line(name: &str, answer: &str, state: &State) -> String {
    let registers = [
        state.place,
        state.exclude,
        state.readings,
        state.outputs,
        state.stop.map_or(0, Stop::number),
        state.write,
        state.erase,
        state.saving.map_or(0, |stored| stored + 1),
    ];
    let registers = registers.map(|number| number.to_string()).join(" ");
    let [a, b, c, ..] = state.cells;
    format!("{name}: {answer} registers {registers} cells {a} {b} {c}\n")
}

/// Recovery, a step and a run with the budget, from the first reading that the chip does not count.
fn power_up(chip: &mut [u8], budget: u64) -> String {
    let mut sets = analyse(SMALL).unwrap().set_words();
    sets.resize(SET_WORDS, 0);
    let mut state = State::first();
    let machine = Machine::new(SMALL, &sets, BYTE_CHIP).unwrap();
    machine.recover(chip, &mut state).unwrap();
    let mut text = line("recover", "0", &state);
    let readings = &READINGS[state.readings as usize..];
    let mut outputs = [0; 3];
    for (name, budget) in [("step", 1), ("run", budget)] {
        let ran = machine.run(chip, &mut state, readings, 3, budget).unwrap();
        let given = ran.given.len();
        outputs[..given].copy_from_slice(&ran.given);
        let answer = format!("{} {} {} {given}", ran.ended.number(), ran.steps, ran.taken);
        text += &line(name, &answer, &state);
    }
    text += &format!("outputs {} {} {}\n", outputs[0], outputs[1], outputs[2]);
    for save in chip.chunks(SAVE) {
        let bytes: Vec<String> = save.iter().map(|byte| format!("{byte:02x}")).collect();
        text += &format!("chip {}\n", bytes.join(" "));
    }
    text
}

#[test]
fn lent_run_prints_what_the_reference_answers() {
    let file = Path::new(env!("CARGO_MANIFEST_DIR")).join("../../crates/lent_run/stdout");
    let stdout = fs::read_to_string(file).expect("crates/lent_run/stdout can be read");
    let mut chip = [ERASED; 3 * SAVE];
    let text = power_up(&mut chip, 44) + &power_up(&mut chip, 1000);
    assert_eq!(text, stdout);
}
