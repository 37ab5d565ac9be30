//! Runs the program plan-sets, as the gate built it. What document 01 says outright is written out;
//! the rest is held to the reference's listing.

use std::fs::File;
use std::io::Write;
use std::path::{Path, PathBuf};
use std::process::{Command, Stdio};

use differential::examples::{programs, SMALL};
use differential::plans::{self, plan};
use differential::rng::Rng;

fn program() -> PathBuf {
    let program = Path::new(env!("CARGO_MANIFEST_DIR")).join("../../target/bin/plan_sets");
    assert!(
        program.exists(),
        "make it with `tools/library` in the repository's root"
    );
    program
}

/// What plan-sets writes, given this input.
fn plan_sets(input: &[u8]) -> String {
    let mut child = Command::new(program())
        .stdin(Stdio::piped())
        .stdout(Stdio::piped())
        .spawn()
        .expect("plan_sets runs");
    // It stops reading where the input is too long, so the rest may find the pipe closed.
    let _ = child.stdin.take().expect("a pipe").write_all(input);
    let output = child.wait_with_output().expect("plan_sets ends");
    assert!(output.status.success(), "{}", output.status);
    String::from_utf8(output.stdout).expect("the listing is text")
}

#[track_caller]
fn agreed(plan: &[u8]) -> String {
    let found = plan_sets(plan);
    assert_eq!(found, reference::listing(plan), "plan {plan:02X?}");
    found
}

#[test]
fn the_small_plan() {
    assert_eq!(agreed(SMALL), "cells 3\n15 dead 1 2 fixed 2 saved 0\n");
}

#[test]
fn the_three_programs() {
    for (_, plan) in programs() {
        agreed(&plan);
    }
}

#[test]
fn empty_sets_leave_their_word_alone() {
    let text = "cells 1\n1 dead fixed 0 saved\n";
    assert_eq!(agreed(&[0x00, 0x0D, 0x01]), text);
}

#[test]
fn each_refusal_of_a_plan() {
    let refused = [
        vec![],
        vec![0x00, 0x7F],
        vec![0x00, 0x08],
        vec![0x00, 0x08, 0x01],
        vec![0x00, 0x0B, 0x00, 0x00, 0x02, 0x00],
        plan(1, &[&[0x01; 513]]),
        vec![0x00],
        vec![0x00, 0x09, 0x02, 0x00],
    ];
    for (number, plan) in (1..).zip(refused) {
        assert_eq!(agreed(&plan), format!("refused {number}\n"));
    }
}

#[test]
fn input_that_is_too_long() {
    // 341 times SET 0 and END: 2,048 bytes, and one more.
    let mut longest = plan(1, &[&[0x02, 0, 0, 0, 0, 0].repeat(341), &[0x01]]);
    assert_eq!(longest.len(), 2_048);
    assert_eq!(agreed(&longest), "cells 1\n");
    longest.push(0x01);
    assert_eq!(agreed(&longest), "refused 1\n");
    assert_eq!(agreed(&[0x01; 100_000]), "refused 1\n");
}

#[test]
fn input_that_never_ends() {
    let zeros = File::open("/dev/zero").expect("/dev/zero opens");
    let output = Command::new(program())
        .stdin(zeros)
        .output()
        .expect("plan_sets ends");
    assert_eq!(output.stdout, b"refused 1\n");
}

#[test]
fn sixty_four_excludes_and_256_cells() {
    let listing = agreed(&plan(256, &[&[0x0D; 64], &[0x0E, 0x08, 0xFF, 0x01]]));
    let lines: Vec<&str> = listing.lines().collect();
    assert_eq!(lines.len(), 65);
    assert_eq!(lines[0], "cells 256");
    let all: String = (0..=255).map(|cell| format!(" {cell}")).collect();
    // The region of each but the last is the next EXCLUDE alone.
    for (offset, line) in (1..64).zip(&lines[1..]) {
        assert_eq!(*line, format!("{offset} dead fixed{all} saved"));
    }
    let but_last: String = (0..=254).map(|cell| format!(" {cell}")).collect();
    assert_eq!(lines[64], format!("64 dead{but_last} fixed{all} saved"));
}

#[test]
fn random_plans() {
    let mut rng = Rng::new(0x5E75);
    let mut lines = 0;
    for _ in 0..200 {
        lines += agreed(&plans::valid(&mut rng).bytes).lines().count();
        agreed(&plans::mutated(&mut rng));
    }
    assert!(lines > 300, "enough EXCLUDEs to see: {lines} lines");
}
