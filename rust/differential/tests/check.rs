//! Holds the library's check to the reference: on the result, and on the three numbers as they
//! stand after the call. Where document 01 says the answer outright, it is stated here as well.

use differential::plans::{self, plan, Draft, COMMANDS};
use differential::rng::Rng;
use differential::Answer;

/// What the three numbers hold before each call. No plan has such numbers, and all three differ: one
/// not filled, one altered by a refused call and two exchanged all show.
const PRESET: [u32; 3] = [0xC0DE_0001, 0xC0DE_0002, 0xC0DE_0003];

const SMALL_PLAN: [u8; 20] = [
    0x02, 0x02, 0x00, 0x00, 0x00, 0x00, 0x00, 0x07, 0x01, 0x04, 0x00, 0x00, 0x01, 0x08, 0x00, 0x0D,
    0x0E, 0x09, 0x07, 0x00,
];

const END: &[u8] = &[0x01];

// Faults, in a plan of one cell.
const UNKNOWN: &[u8] = &[0x7F];
const CUT: &[u8] = &[0x08];
const NO_SUCH_CELL: &[u8] = &[0x08, 0x01];
const BAD_TABLE: &[u8] = &[0x0B, 0x00, 0x00, 0x02, 0x00];
const BAD_TARGET: &[u8] = &[0x09, 0x00, 0x00];

/// Asserts that library and reference agree on the plan, and gives the answer.
#[track_caller]
fn agreed(plan: &[u8]) -> Answer {
    let expected = match reference::check(plan) {
        Ok(checked) => (0, [checked.cells, checked.instructions, checked.excludes]),
        Err(number) => (number, PRESET),
    };
    let found = differential::check(plan, PRESET);
    assert!(
        found == expected,
        "library {found:X?}, reference {expected:X?}, plan {plan:02X?}"
    );
    found
}

#[track_caller]
fn accepted(plan: &[u8], cells: u32, commands: u32, excludes: u32) {
    assert_eq!(agreed(plan), (0, [cells, commands, excludes]));
}

#[track_caller]
fn refused(plan: &[u8], number: u32) {
    assert_eq!(agreed(plan), (number, PRESET));
}

#[test]
fn the_examples_of_the_table_of_refusals() {
    refused(&[], 1);
    refused(&[0x00, 0x7F], 2);
    refused(&[0x00, 0x08], 3);
    refused(&[0x00, 0x08, 0x01], 4);
    refused(&[0x00, 0x0B, 0x00, 0x00, 0x02, 0x00], 5);
    refused(&plan(1, &[&[0x01; 513]]), 6);
    refused(&[0x00], 7);
    refused(&[0x00, 0x09, 0x02, 0x00], 8);
}

#[test]
fn the_small_plan() {
    accepted(&SMALL_PLAN, 3, 7, 1);
}

#[test]
fn an_empty_plan_however_it_is_lent() {
    assert_eq!(differential::check_null(PRESET), (1, PRESET));
    // Rust's own empty slice dangles; the other lies before the bytes of an accepted plan.
    refused(&[], 1);
    refused(&SMALL_PLAN[..0], 1);
}

#[test]
fn the_numbers_before_the_call_do_not_matter() {
    for before in [[0; 3], [u32::MAX; 3], [3, 7, 1], [1, 3, 7]] {
        assert_eq!(differential::check(&SMALL_PLAN, before), (0, [3, 7, 1]));
        assert_eq!(differential::check(&[0x00, 0x7F], before), (2, before));
    }
}

#[test]
fn plan_lengths() {
    let sets = COMMANDS[1].0.repeat(341);
    let longest = plan(1, &[&sets, END]);
    assert_eq!(longest.len(), 2_048);
    accepted(&longest, 1, 342, 0);
    refused(&plan(1, &[&sets, END, END]), 1);
    // 1 comes before 2.
    refused(&[0x7F; 2_048], 2);
    refused(&[0x7F; 2_049], 1);
    // A length taken for a 16-bit number would be 2, and the plan accepted.
    refused(&plan(1, &[&[0x01; 65_537]]), 1);
}

#[test]
fn numbers_of_commands() {
    accepted(&plan(1, &[&[0x01; 511]]), 1, 511, 0);
    accepted(&plan(1, &[&[0x01; 512]]), 1, 512, 0);
    refused(&plan(1, &[&[0x01; 513]]), 6);
    // EXCLUDEs are commands like others, and operands are none.
    let excludes_and = |emits| plan(1, &[&[0x0D; 64], &[0x08, 0x00].repeat(emits), END]);
    accepted(&excludes_and(447), 1, 512, 64);
    refused(&excludes_and(448), 6);
}

#[test]
fn numbers_of_excludes() {
    let excludes = |count| plan(1, &[&vec![0x0D; count], END]);
    accepted(&excludes(63), 1, 64, 63);
    accepted(&excludes(64), 1, 65, 64);
    refused(&excludes(65), 6);
    refused(&excludes(511), 6);
    // A byte of an operand is no EXCLUDE.
    let operand = [0x02, 0x00, 0x0D, 0x0D, 0x0D, 0x0D];
    accepted(&plan(1, &[&[0x0D; 64], &operand, END]), 1, 66, 64);
}

#[test]
fn cell_counts() {
    for cells in 1..=256 {
        accepted(&plan(cells, &[END]), cells as u32, 1, 0);
    }
}

#[test]
fn every_cell_in_every_place_of_a_command() {
    for (command, places) in COMMANDS {
        for &place in places {
            for cells in 1..=256 {
                let mut plan = plan(cells, &[command, END]);
                for cell in 0..=255 {
                    plan[1 + place] = cell;
                    if usize::from(cell) < cells {
                        accepted(&plan, cells as u32, 2, 0);
                    } else {
                        refused(&plan, 4);
                    }
                }
            }
        }
    }
}

#[test]
fn every_table_of_some_cell_counts() {
    // GET and PUT, and the place of base; len follows it.
    for (command, place) in [(COMMANDS[10].0, 2), (COMMANDS[11].0, 1)] {
        for cells in [1, 2, 3, 127, 128, 129, 254, 255, 256] {
            let mut plan = plan(cells, &[command, END]);
            for base in 0..=255 {
                for len in 0..=255 {
                    plan[1 + place] = base;
                    plan[2 + place] = len;
                    if len > 0 && usize::from(base) + usize::from(len) <= cells {
                        accepted(&plan, cells as u32, 2, 0);
                    } else {
                        refused(&plan, 5);
                    }
                }
            }
        }
    }
}

#[test]
fn every_command_byte() {
    for byte in 0..=255 {
        match COMMANDS.iter().find(|(command, _)| command[0] == byte) {
            Some((command, _)) => {
                let excludes = u32::from(byte == 0x0D);
                accepted(&plan(1, &[command, END]), 1, 2, excludes);
            }
            None => {
                refused(&plan(1, &[&[byte]]), 2);
                refused(&plan(1, &[&[byte], END]), 2);
                refused(&plan(1, &[END, &[byte], &[0x00; 8]]), 2);
            }
        }
    }
}

#[test]
fn each_command_as_the_last() {
    for (command, _) in COMMANDS {
        let alone = plan(1, &[command]);
        let after_another = plan(1, &[END, command]);
        if let 0x01 | 0x09 = command[0] {
            accepted(&alone, 1, 1, 0);
            accepted(&after_another, 1, 2, 0);
        } else {
            refused(&alone, 7);
            refused(&after_another, 7);
        }
    }
}

#[test]
fn plans_cut_anywhere() {
    // The bytes cut off still lie behind the slice, so a read past its end shows.
    for (command, _) in COMMANDS {
        let whole = plan(1, &[command, END]);
        for kept in 2..=command.len() {
            refused(&whole[..kept], 3);
        }
    }
    let all = plan(1, &COMMANDS.map(|(command, _)| command));
    for kept in 0..=all.len() {
        agreed(&all[..kept]);
    }
    for kept in 0..=SMALL_PLAN.len() {
        agreed(&SMALL_PLAN[..kept]);
    }
}

/// Tries every t in place of the two bytes at `at`.
fn every_target(mut plan: Vec<u8>, at: usize, offsets: &[u16], commands: u32) {
    for t in 0..=u16::MAX {
        plan[at..at + 2].copy_from_slice(&t.to_le_bytes());
        if offsets.contains(&t) {
            accepted(&plan, 1, commands, 0);
        } else {
            refused(&plan, 8);
        }
    }
}

#[test]
fn every_target_of_jump_and_less() {
    // SET at 1 with command bytes for its value, JUMP at 7, LESS at 10, END at 15.
    let commands: [&[u8]; 4] = [
        &[0x02, 0x00, 0x01, 0x01, 0x01, 0x01],
        &[0x09, 0x01, 0x00],
        &[0x0A, 0x00, 0x00, 0x01, 0x00],
        END,
    ];
    let plan = plan(1, &commands);
    every_target(plan.clone(), 8, &[1, 7, 10, 15], 4);
    every_target(plan, 13, &[1, 7, 10, 15], 4);
}

#[test]
fn every_target_in_a_plan_of_2048_bytes() {
    let sets = COMMANDS[1].0.repeat(340);
    let longest = plan(1, &[&sets, &[0x01; 4], &[0x09, 0x00, 0x00]]);
    assert_eq!(longest.len(), 2_048);
    let mut offsets: Vec<u16> = (0..340).map(|set| 1 + 6 * set).collect();
    offsets.extend([2_041, 2_042, 2_043, 2_044, 2_045]);
    every_target(longest, 2_046, &offsets, 345);
}

#[test]
fn one_bad_target_among_many() {
    // The first, a middle one and the last of 512 jumps go astray: to 0, into operands, one past
    // the last command, to the plan's end.
    let jumps = plan(1, &[&[0x09, 0x01, 0x00].repeat(512)]);
    accepted(&jumps, 1, 512, 0);
    for jump in [0, 255, 511] {
        for t in [0, 2, 3, 1_535, 1_536, 1_537, 65_535_u16] {
            let mut astray = jumps.clone();
            let at = 1 + 3 * jump + 1;
            astray[at..at + 2].copy_from_slice(&t.to_le_bytes());
            refused(&astray, 8);
        }
    }
}

#[test]
fn within_one_command_the_lower_number_is_given() {
    // 3 before 4: d doesn't exist, and the operands are cut.
    refused(&[0x00, 0x04, 0x01], 3);
    // 3 before 5: len is 0, and the operands are cut.
    refused(&[0x00, 0x0B, 0x00, 0x00, 0x00], 3);
    refused(&[0x00, 0x0C, 0x00, 0x00, 0x00], 3);
    // 4 before 5: of d and i, or i and a, one doesn't exist, and the table doesn't fit.
    for len in [0x00, 0x02] {
        refused(&[0x00, 0x0B, 0x01, 0x00, len, 0x00, 0x01], 4);
        refused(&[0x00, 0x0B, 0x00, 0x00, len, 0x01, 0x01], 4);
        refused(&[0x00, 0x0C, 0x00, len, 0x01, 0x00, 0x01], 4);
        refused(&[0x00, 0x0C, 0x00, len, 0x00, 0x01, 0x01], 4);
    }
}

#[test]
fn of_two_commands_the_earlier_is_refused() {
    let add = COMMANDS[3].0;
    // A cut command can only be the last: else what follows is its operands.
    for (earlier, number) in [(UNKNOWN, 2), (NO_SUCH_CELL, 4), (BAD_TABLE, 5)] {
        for later in [UNKNOWN, CUT, NO_SUCH_CELL, BAD_TABLE] {
            refused(&plan(1, &[earlier, later]), number);
            refused(&plan(1, &[add, earlier, add, later]), number);
        }
    }
}

#[test]
fn two_to_five_before_six_seven_and_eight() {
    for (fault, number) in [(UNKNOWN, 2), (CUT, 3), (NO_SUCH_CELL, 4), (BAD_TABLE, 5)] {
        // Before the fault stand 513 commands, or 65 EXCLUDEs, or a bad target; and as the fault
        // is the last command, 7 would hold too.
        refused(&plan(1, &[&[0x01; 513], fault]), number);
        refused(&plan(1, &[&[0x0D; 65], fault]), number);
        refused(&plan(1, &[BAD_TARGET, fault]), number);
    }
}

#[test]
fn six_before_seven_before_eight() {
    refused(&plan(1, &[BAD_TARGET, &[0x0E; 512]]), 6);
    refused(&plan(1, &[BAD_TARGET, &[0x0E; 511]]), 7);
    refused(&plan(1, &[BAD_TARGET, &[0x0E; 510], END]), 8);
    refused(&plan(1, &[BAD_TARGET, &[0x0D; 65]]), 6);
    refused(&plan(1, &[BAD_TARGET, &[0x0D; 65], END]), 6);
    refused(&plan(1, &[BAD_TARGET, &[0x0D; 64]]), 7);
    refused(&plan(1, &[BAD_TARGET, &[0x0D; 64], END]), 8);
}

#[test]
fn every_plan_of_up_to_three_bytes() {
    agreed(&[]);
    for a in 0..=255 {
        agreed(&[a]);
        for b in 0..=255 {
            agreed(&[a, b]);
            for c in 0..=255 {
                agreed(&[a, b, c]);
            }
        }
    }
}

/// How often the random plans below get each answer from 0 to 8. When the generators change, the
/// new numbers are those that the test prints; none may be under 100.
const HITS: [u32; 9] = [
    30_911, 2_609, 11_967, 19_207, 15_955, 1_459, 2_627, 6_721, 8_544,
];

#[test]
fn random_plans() {
    let mut rng = Rng::new(0x0123_4567_89AB_CDEF);
    let mut hits = [0; 9];
    let mut hit = |answer: Answer| hits[answer.0 as usize] += 1;
    for _ in 0..20_000 {
        hit(agreed(&plans::noise(&mut rng)));
    }
    for _ in 0..50_000 {
        hit(agreed(&plans::mutated(&mut rng)));
    }
    for _ in 0..24_000 {
        hit(drafted(&plans::valid(&mut rng)));
    }
    for _ in 0..4_000 {
        hit(drafted(&plans::crowded(&mut rng)));
    }
    for _ in 0..2_000 {
        hit(drafted(&plans::long(&mut rng)));
    }
    for (answer, count) in hits.iter().enumerate() {
        println!("random plans with the answer {answer}: {count}");
    }
    assert_eq!(hits.iter().sum::<u32>(), 100_000);
    assert!(hits.iter().all(|&count| count >= 100));
    assert_eq!(hits, HITS);
}

/// A draft has the one answer that its size leaves it.
fn drafted(draft: &Draft) -> Answer {
    let answer = agreed(&draft.bytes);
    let commands = draft.offsets.len();
    let excludes = draft.excludes();
    if draft.bytes.len() > 2_048 {
        assert_eq!(answer, (1, PRESET));
    } else if commands > 512 || excludes > 64 {
        assert_eq!(answer, (6, PRESET));
    } else {
        let cells = u32::from(draft.bytes[0]) + 1;
        assert_eq!(answer, (0, [cells, commands as u32, excludes as u32]));
    }
    answer
}
