//! The plans in `examples/`: document 01's small plan, and document 001's three programs rewritten
//! as plans, with the sets at their EXCLUDEs.
//!
//! Figures 3(d) and 5(d) name the arrays only. In a plan the loop counters, the values in between
//! and the constants are cells too, and stand in the sets where they belong.

use reference::program::{Instruction, FIRST_INSTRUCTION};
use reference::{analyse, analyse_until, check, listing, Checked, Set};

/// The bytes of a plan written as text. A line is hexadecimal bytes, then `#`, their offset, `:`
/// and what they mean: first byte 0, then a command to a line. Lines without bytes are comment.
fn plan(text: &str) -> Vec<u8> {
    let mut plan = Vec::new();
    for line in text.lines() {
        let (bytes, comment) = line.split_once('#').unwrap_or((line, ""));
        let bytes: Vec<u8> = bytes
            .split_whitespace()
            .map(|byte| u8::from_str_radix(byte, 16).expect(line))
            .collect();
        if bytes.is_empty() {
            continue;
        }
        let offset = comment.split(':').next().unwrap().trim();
        assert_eq!(offset, plan.len().to_string(), "the offset in: {line}");
        let length = match plan.len() {
            0 => 1,
            _ => Instruction::decode(&bytes).expect(line).1,
        };
        assert_eq!(bytes.len(), length, "one command in: {line}");
        plan.extend(bytes);
    }
    plan
}

fn accepted(cells: u32, instructions: u32, excludes: u32) -> Result<Checked, u32> {
    Ok(Checked {
        cells,
        instructions,
        excludes,
    })
}

/// The offset, DE and RO of each EXCLUDE.
fn excludes(plan: &[u8]) -> Vec<(usize, Set, Set)> {
    analyse(plan).unwrap().excludes
}

#[test]
fn the_small_plan() {
    let small = include_bytes!("../../../examples/small.plan");
    assert_eq!(listing(small), "cells 3\n15 dead 1 2 fixed 2 saved 0\n");
}

/// Figure 3(d) has at S14: DE the interior of G1, RO the borders of G0 and G1.
#[test]
fn cell() {
    let plan = plan(include_str!("../../../examples/cell.hex"));
    assert_eq!(check(&plan), accepted(55, 78, 1));
    // R, C and the values in between. R and C are dead in the paper's appendix too. The interior of
    // G1 is not: S5 writes it by PUTs to tables of two cells, which must write nothing, so a path
    // leads from the CHECKPOINT to S10's GET with no sure write. Its four cells are saved each time,
    // which costs space, not correctness.
    let de = Set::from([0x2A, 0x2B, 0x2C, 0x2D, 0x2E, 0x2F, 0x30]);
    let ro = Set::from([
        // The border of G0, as in the figure.
        0x00, 0x01, 0x02, 0x03, //
        0x04, 0x07, //
        0x08, 0x0B, //
        0x0C, 0x0D, 0x0E, 0x0F, //
        // The border of G1, as in the figure.
        0x10, 0x11, 0x12, 0x13, //
        0x14, 0x17, //
        0x18, 0x1B, //
        0x1C, 0x1D, 0x1E, 0x1F, //
        // D.
        0x20, 0x21, 0x22, 0x23, 0x24, 0x25, 0x26, 0x27, 0x28, //
        // The constants.
        0x31, 0x32, 0x33, 0x34, 0x35, 0x36,
    ]);
    assert_eq!(excludes(&plan), [(338, de, ro)]);
}

/// Figure 5(d) has at S9: DE the places of P above J, RO those up to J.
#[test]
fn sieve() {
    let plan = plan(include_str!("../../../examples/sieve.hex"));
    assert_eq!(check(&plan), accepted(23, 24, 1));
    // K and the values in between, and nothing of P. The figure's sets have J inside and change
    // from round to round; document 01 has one set for each EXCLUDE, so they exist only with the
    // loop unrolled. For the one S6, its GET may read all of P and no PUT surely writes any.
    let de = Set::from([0x12, 0x13, 0x14]);
    // P(1), which section 4.2 has read-only even with the EXCLUDE before the loop, and the
    // constants. The rest of P is in S7's table, so it is saved each time, which costs space, not
    // correctness.
    let ro = Set::from([0x00, 0x15, 0x16]);
    assert_eq!(excludes(&plan), [(88, de, ro)]);
}

/// Figure 6(d) has at S3 and S10: DE empty, RO MAP; at S8: DE empty, RO all but MAP(I,J).
#[test]
fn contour() {
    let plan = plan(include_str!("../../../examples/contour.hex"));
    assert_eq!(check(&plan), accepted(43, 51, 3));
    // After S2 and S9, before S3 and S10. The figure prints DE empty, but the paper's appendix has
    // J dead at S11, the only CHECKPOINT, so by the definitions DE is J there. Here it is J and
    // the values in between.
    let de = Set::from([0x1F, 0x20, 0x21, 0x22, 0x23]);
    let ro = Set::from([
        // MAP, as in the figure: S8, which writes it, lies behind S7.
        0x00, 0x01, 0x02, 0x03, 0x04, //
        0x05, 0x06, 0x07, 0x08, 0x09, //
        0x0A, 0x0B, 0x0C, 0x0D, 0x0E, //
        0x0F, 0x10, 0x11, 0x12, 0x13, //
        0x14, 0x15, 0x16, 0x17, 0x18, //
        // D.
        0x19, 0x1A, 0x1B, 0x1C, //
        // The constants.
        0x24, 0x25, 0x26, 0x27, 0x28, 0x29, 0x2A,
    ]);
    // After S7, before S8. No CHECKPOINT comes before S9, so DE is empty as in the figure. RO is
    // all but MAP, where the figure has all but MAP(I,J): a PUT may write its whole table.
    let all_but_map = Set::from([
        0x19, 0x1A, 0x1B, 0x1C, // D
        0x1D, 0x1E, 0x1F, // THRESHOLD, I, J
        0x20, 0x21, 0x22, 0x23, // the values in between
        0x24, 0x25, 0x26, 0x27, 0x28, 0x29, 0x2A, // the constants
    ]);
    assert_eq!(
        excludes(&plan),
        [
            (89, de.clone(), ro.clone()),
            (176, Set::new(), all_but_map),
            (182, de, ro),
        ]
    );
}

/// The len of each PUT of a plan.
fn puts(plan: &[u8]) -> Vec<u8> {
    let mut lengths = Vec::new();
    let mut offset = FIRST_INSTRUCTION;
    while offset < plan.len() {
        let (instruction, length) = Instruction::decode(&plan[offset..]).unwrap();
        if let Instruction::Put { table, .. } = instruction {
            lengths.push(table.len);
        }
        offset += length;
    }
    lengths
}

/// None of these plans has a PUT with len 1, so request Q-3 changes none of their sets or saves.
#[test]
fn the_sets_are_those_found_until_q_3() {
    let small = include_bytes!("../../../examples/small.plan").to_vec();
    for (plan, lengths) in [
        (small, vec![]),
        (
            plan(include_str!("../../../examples/cell.hex")),
            vec![16, 16, 2, 2, 2, 2],
        ),
        (plan(include_str!("../../../examples/sieve.hex")), vec![15]),
        (
            plan(include_str!("../../../examples/contour.hex")),
            vec![25, 25],
        ),
        (plan(include_str!("../../../examples/mean.hex")), vec![8]),
    ] {
        assert_eq!(puts(&plan), lengths);
        assert_eq!(analyse(&plan), analyse_until(&plan));
    }
}
