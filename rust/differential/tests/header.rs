//! A C host: compiles a program against the header, links it with the archive alone, and runs it.

use std::fs::{self, File};
use std::path::Path;
use std::process::{Command, Output};

const CRATE: &str = env!("CARGO_MANIFEST_DIR");

fn text(bytes: &[u8]) -> String {
    String::from_utf8_lossy(bytes).into_owned()
}

fn must_succeed(what: &str, output: &Output) {
    assert!(
        output.status.success(),
        "{what} failed ({}):\n{}{}",
        output.status,
        text(&output.stdout),
        text(&output.stderr)
    );
}

/// What the program prints: for a byte chip, which it folds too, and then for a page chip.
const PRINTED: &str = "check input: 0, 3 7 1\n\
     check unknown: 2, 1001 1002 1003\n\
     check null: 1, 1001 1002 1003\n\
     analyse unknown: 2, A5 A5 A5 A5 A5 A5 A5 A5, 5A 5A 5A\n\
     analyse null: 9, A5 A5 A5 A5 A5 A5 A5 A5, 5A 5A 5A\n\
     analyse input: 0, 07 06 04 06 06 06 06 A5, 06 04 5A\n\
     recover erased: 0, 0, 1 0 0 0 0 0 0 0\n\
     run no room: 0, 6 3 1 0,\n\
     run some steps: 0, 4 28 0 1, 5\n\
     run no readings: 0, 5 0 0 0,\n\
     run the rest: 0, 5 60 2 2, 12 10\n\
     recover whole: 0, 10, 17 15 3 3 0 72 0 0\n\
     A1 00 05 00 00 00 A3 11 00 0F 00 01 00 00 00 01 00 00 00 14 00 44 00 5A\n\
     recover cut: 0, 5, 17 15 1 1 0 24 9 0\n\
     recover short sets: 9\n\
     recover short state: 10\n\
     recover long chip: 11\n\
     recover damaged: 12\n\
     run no state: 10, 1001 1002 1003 1004,\n\
     recover null: 0, 0, 1 0 0 0 0 0 0 0\n\
     run long chip: 11, 1001 1002 1003 1004,\n\
     run past the end: 10, 1001 1002 1003 1004,\n\
     recover an old mark: 15\n\
     spent an old mark: 15, 1001\n\
     recover another plan's mark: 16\n\
     spent a live cell: 0, 0\n\
     spent a dead cell: 0, 1\n\
     spent a cell number: 0, 0\n\
     spent far: 0, 0\n\
     spent null: 0, 0\n\
     spent long chip: 11, 1001\n\
     spent another plan's mark: 16, 1001\n\
     spent damaged: 12, 1001\n\
     fold no save: 0, 0 1,\n\
     fold no budget: 0, 0 0,\n\
     fold some bytes: 0, 7 0, A1 00 05 00 00 00 A3\n\
     fold short sets: 9, 1001 1002, A1 00 05 00 00 00 A3\n\
     fold long chip: 11, 1001 1002, A1 00 05 00 00 00 A3\n\
     fold damaged: 12, 1001 1002, A1 00 05 00 00 00 A3\n\
     fold other plan: 16, 1001 1002, A1 00 05 00 00 00 A3\n\
     fold other number: 13, 1001 1002, A1 00 05 00 00 00 A3\n\
     fold short chip: 14, 1001 1002, A1 00 05 00 00 00 A3\n\
     fold the rest: 0, 24 1, \
     A1 00 05 00 00 00 A3 11 00 0F 00 01 00 00 00 01 00 00 00 14 00 44 00 5A\n\
     fold again: 0, 24 1, \
     A1 00 05 00 00 00 A3 11 00 0F 00 01 00 00 00 01 00 00 00 14 00 44 00 5A\n\
     recover old: 0, 5, 17 15 1 1 0 24 2 0\n\
     recover new: 0, 5, 17 15 1 1 0 24 0 0\n\
     recover A2: 15\n\
     fold A2: 0, 24 1, \
     A1 00 05 00 00 00 A3 11 00 0F 00 01 00 00 00 01 00 00 00 14 00 44 00 5A\n\
     recover A3: 0, 5, 17 15 1 1 0 24 0 0\n\
     page recover erased: 0, 0, 1 0 0 0 0 0 0 0\n\
     page run no room: 0, 6 3 1 0,\n\
     page run some steps: 0, 4 6 0 1, 5\n\
     page run no readings: 0, 5 0 0 0,\n\
     page run the rest: 0, 5 16 2 2, 12 10\n\
     page recover whole: 0, 10, 17 15 3 3 0 96 0 0\n\
     A1 00 05 00 00 00 A3 11 00 0F 00 01 00 00 00 01 00 00 00 14 00 44 00 5A \
     FF FF FF FF FF FF FF FF\n\
     page recover cut: 0, 5, 17 15 1 1 0 32 16 0\n\
     page recover short sets: 9\n\
     page recover short state: 10\n\
     page recover long chip: 11\n\
     page recover damaged: 12\n\
     page run no state: 10, 1001 1002 1003 1004,\n\
     page recover null: 0, 0, 1 0 0 0 0 0 0 0\n\
     page run long chip: 11, 1001 1002 1003 1004,\n\
     page run past the end: 10, 1001 1002 1003 1004,\n\
     page recover part of a page: 11\n\
     page recover one save: 0, 0, 17 15 1 1 0 32 0 0\n\
     page run part of a page: 11, 1001 1002 1003 1004,\n\
     page run within a page: 10, 1001 1002 1003 1004,\n\
     page recover filled with 00: 12\n\
     page recover an old mark: 15\n\
     page spent an old mark: 15, 1001\n\
     page recover another plan's mark: 16\n\
     page spent a live cell: 0, 0\n\
     page spent a dead cell: 0, 1\n\
     page spent a cell number: 0, 0\n\
     page spent far: 0, 0\n\
     page spent null: 0, 0\n\
     page spent long chip: 11, 1001\n\
     page spent another plan's mark: 16, 1001\n\
     page spent damaged: 12, 1001\n";

#[test]
fn a_c_program_runs_the_small_plan() {
    let root = Path::new(CRATE).join("../..");
    let small_plan = root.join("examples/small.plan");
    let program = Path::new(env!("CARGO_TARGET_TMPDIR")).join("header");

    assert_eq!(
        fs::read(&small_plan).expect("examples/small.plan is there"),
        [
            0x02, 0x02, 0x00, 0x00, 0x00, 0x00, 0x00, 0x07, 0x01, 0x04, 0x00, 0x00, 0x01, 0x08,
            0x00, 0x0D, 0x0E, 0x09, 0x07, 0x00,
        ]
    );

    let compiled = Command::new("cc")
        .args(["-std=c99", "-Wall", "-Wextra", "-Werror", "-I"])
        .arg(root.join("include"))
        .arg("-o")
        .arg(&program)
        .arg(Path::new(CRATE).join("tests/header.c"))
        .arg(env!("PITSKELO_ARCHIVE"))
        .output()
        .unwrap_or_else(|error| panic!("this test needs the C compiler `cc`: {error}"));
    must_succeed("cc", &compiled);

    let run = Command::new(&program)
        .stdin(File::open(&small_plan).expect("examples/small.plan can be read"))
        .output()
        .expect("the compiled program can be run");
    must_succeed("the C program", &run);
    assert_eq!(text(&run.stdout), PRINTED);
}
