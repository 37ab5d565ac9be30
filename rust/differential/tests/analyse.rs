//! Holds the library's analyse to the reference: on the result, and on every byte of the two
//! buffers as it stands after the call. Where document 01 says the answer outright, it is stated
//! here as well.

use differential::analyse_null;
use differential::buffer::Buffer;
use differential::examples::{programs, SMALL};
use differential::features::features;
use differential::plans::{self, linked, plan, COMMANDS};
use differential::rng::Rng;
use reference::Analysis;

/// The least lengths of the two buffers, in bytes: 2,048 words and 512.
const DEAD: usize = 16_384;
const SETS: usize = 4_096;

/// What the reference says of a plan: its sets, or the refusal of it.
type Answer = Result<Analysis, u32>;

/// One of the functions that make random plans.
type Maker = fn(&mut Rng) -> Vec<u8>;

/// Asserts that the library does with these buffers what the reference says of the plan, and gives
/// the result.
#[track_caller]
fn agreed(plan: &[u8], answer: &Answer, mut dead: Buffer, mut sets: Buffer) -> u32 {
    let (expected, dead_words, set_words) = match answer {
        Err(number) => (*number, vec![], vec![]),
        Ok(_) if dead.words() < 2_048 || sets.words() < 512 => (9, vec![], vec![]),
        Ok(analysis) => (0, analysis.dead_words(), analysis.set_words()),
    };
    let dead_after = dead.with(&dead_words);
    let sets_after = sets.with(&set_words);
    let result = differential::analyse(plan, dead.lend(), sets.lend());
    assert_eq!(result, expected, "the result, plan {plan:02X?}");
    let differs = (dead.differs(&dead_after), sets.differs(&sets_after));
    assert_eq!(differs, (None, None), "wrong bytes, plan {plan:02X?}");
    result
}

/// As `agreed`, with buffers of these lengths.
#[track_caller]
fn agreed_in(plan: &[u8], answer: &Answer, dead: usize, sets: usize) -> u32 {
    let dead = Buffer::new(dead, 0, || 0xA5);
    let sets = Buffer::new(sets, 0, || 0x5A);
    agreed(plan, answer, dead, sets)
}

#[track_caller]
fn accepted(plan: &[u8]) {
    let result = agreed_in(plan, &reference::analyse(plan), DEAD, SETS);
    assert_eq!(result, 0);
}

/// The plan's sets as the library gives them: dead before each command, then DE and RO of each
/// EXCLUDE.
fn sets(plan: &[u8], commands: usize, excludes: usize) -> (Vec<[u64; 4]>, Vec<[u64; 4]>) {
    let mut dead = vec![0xA5; DEAD];
    let mut sets = vec![0x5A; SETS];
    assert_eq!(differential::analyse(plan, &mut dead, &mut sets), 0);
    let word = |bytes: &[u8]| u64::from_le_bytes(bytes.try_into().unwrap());
    let set = |bytes: &[u8]| [0, 8, 16, 24].map(|at| word(&bytes[at..at + 8]));
    let first = |bytes: &[u8], count| bytes.chunks(32).take(count).map(set).collect();
    (first(&dead, commands), first(&sets, 2 * excludes))
}

/// 512 commands, 64 of them EXCLUDE: all of the least buffers is filled.
fn fullest() -> Vec<u8> {
    // EXCLUDE, READ 0, CHECKPOINT, EMIT 1, READ 1, CHECKPOINT, EMIT 0.
    let round = [0x0D, 0x07, 0, 0x0E, 0x08, 1, 0x07, 1, 0x0E, 0x08, 0];
    let fullest = plan(3, &[&round.repeat(64), &[0x0E; 63], &[0x09, 1, 0]]);
    let checked = reference::check(&fullest).unwrap();
    assert_eq!((checked.instructions, checked.excludes), (512, 64));
    fullest
}

#[test]
fn the_small_plan() {
    accepted(SMALL);
    let of_word_0 = |word: u64| [word, 0, 0, 0];
    let (dead, de_and_ro) = sets(SMALL, 7, 1);
    // The third command is at offset 9: cell 2 only.
    assert_eq!(dead, [7, 6, 4, 6, 6, 6, 6].map(of_word_0));
    assert_eq!(de_and_ro, [6, 4].map(of_word_0));
}

#[test]
fn an_exclude_alone() {
    let exclude_alone = [0x00, 0x0D, 0x01];
    accepted(&exclude_alone);
    let (dead, de_and_ro) = sets(&exclude_alone, 2, 1);
    assert_eq!(dead, [[1, 0, 0, 0]; 2]);
    assert_eq!(de_and_ro, [[0; 4], [1, 0, 0, 0]]);
}

#[test]
fn the_three_programs() {
    for (_, plan) in programs() {
        accepted(&plan);
    }
}

#[test]
fn buffer_lengths() {
    for plan in [SMALL, &fullest()] {
        let answer = reference::analyse(plan);
        for (dead, sets, result) in [
            (DEAD, SETS, 0),
            // 2,047 words, and 511.
            (DEAD - 8, SETS, 9),
            (DEAD, SETS - 8, 9),
            // Of the last word a byte is missing.
            (DEAD - 1, SETS, 9),
            (DEAD, SETS - 1, 9),
            // Nothing at all, and the two lengths exchanged.
            (0, SETS, 9),
            (DEAD, 0, 9),
            (0, 0, 9),
            (SETS, DEAD, 9),
            // As many bytes as there should be words.
            (2_048, 512, 9),
        ] {
            assert_eq!(agreed_in(plan, &answer, dead, sets), result);
        }
    }
}

#[test]
fn all_later_bytes_remain() {
    for plan in [SMALL, &fullest()] {
        let answer = reference::analyse(plan);
        for more in [1, 7, 8, 9, 63, 65, 8_193, 65_537] {
            assert_eq!(agreed_in(plan, &answer, DEAD + more, SETS), 0);
            assert_eq!(agreed_in(plan, &answer, DEAD, SETS + more), 0);
            assert_eq!(agreed_in(plan, &answer, DEAD + more, SETS + more), 0);
        }
    }
}

#[test]
fn buffers_at_any_address() {
    let answer = reference::analyse(SMALL);
    for dead_shift in 0..8 {
        for sets_shift in 0..8 {
            let mut dead = Buffer::new(DEAD, dead_shift, || 0xA5);
            let mut sets = Buffer::new(SETS, sets_shift, || 0x5A);
            assert_eq!(dead.lend().as_ptr() as usize % 8, dead_shift);
            assert_eq!(sets.lend().as_ptr() as usize % 8, sets_shift);
            assert_eq!(agreed(SMALL, &answer, dead, sets), 0);
        }
    }
}

#[test]
fn what_the_buffers_held_does_not_matter() {
    let mut rng = Rng::new(0x1357_9BDF_0246_8ACE);
    for plan in [SMALL, &fullest()] {
        let answer = reference::analyse(plan);
        for fill in [0x00, 0xFF] {
            let dead = Buffer::new(DEAD, 0, || fill);
            let sets = Buffer::new(SETS, 0, || fill);
            assert_eq!(agreed(plan, &answer, dead, sets), 0);
        }
        for _ in 0..20 {
            let dead = Buffer::new(DEAD, 0, || rng.byte());
            let sets = Buffer::new(SETS, 0, || rng.byte());
            assert_eq!(agreed(plan, &answer, dead, sets), 0);
        }
    }
}

#[test]
fn null_pointers() {
    let mut dead = vec![0xA5; DEAD];
    let mut sets = vec![0x5A; SETS];
    let unknown: &[u8] = &[0x00, 0x7F];
    for (plan, number) in [(Some(SMALL), 9), (Some(unknown), 2), (None, 1)] {
        assert_eq!(analyse_null(plan, None, None), number);
        assert_eq!(analyse_null(plan, Some(&mut dead), None), number);
        assert_eq!(analyse_null(plan, None, Some(&mut sets)), number);
    }
    assert_eq!(analyse_null(None, Some(&mut dead), Some(&mut sets)), 1);
    assert_eq!(dead, vec![0xA5; DEAD]);
    assert_eq!(sets, vec![0x5A; SETS]);
}

#[test]
fn one_to_eight_before_nine() {
    let bad_table: &[u8] = &[0x00, 0x0B, 0x00, 0x00, 0x02, 0x00];
    let refused: [&[u8]; 8] = [
        &[],
        &[0x00, 0x7F],
        &[0x00, 0x08],
        &[0x00, 0x08, 0x01],
        bad_table,
        &plan(1, &[&[0x01; 513]]),
        &[0x00],
        &[0x00, 0x09, 0x02, 0x00],
    ];
    for (number, plan) in (1..).zip(refused) {
        let answer = reference::analyse(plan);
        for dead in [0, DEAD - 8, DEAD - 1, DEAD, DEAD + 9] {
            for sets in [0, SETS - 8, SETS - 1, SETS, SETS + 9] {
                assert_eq!(agreed_in(plan, &answer, dead, sets), number);
            }
        }
    }
}

#[test]
fn every_cell_count() {
    for cells in 1..=256 {
        // EXCLUDE, CHECKPOINT, END: every cell is in every set.
        accepted(&plan(cells, &[&[0x0D, 0x0E, 0x01]]));
    }
}

#[test]
fn every_cell_in_every_place_of_a_command() {
    for (command, places) in COMMANDS {
        for place in places {
            for cell in 0..=255 {
                // EXCLUDE, the command, CHECKPOINT, EMIT of the cell, END.
                let mut plan = plan(256, &[&[0x0D], command, &[0x0E, 0x08, cell, 0x01]]);
                plan[2 + place] = cell;
                accepted(&plan);
            }
        }
    }
}

#[test]
fn tables_from_and_to_every_edge_of_a_word() {
    let edges = [0, 1, 63, 64, 65, 127, 128, 129, 191, 192, 193, 255, 256];
    let get_all: &[u8] = &[0x0B, 0, 0, 255, 255];
    // GET and PUT, and the place of base; len follows it.
    for (command, place) in [(COMMANDS[10].0, 2), (COMMANDS[11].0, 1)] {
        for base in edges {
            for end in edges {
                let (Ok(base), Ok(len @ 1..)) = (u8::try_from(base), u8::try_from(end - base))
                else {
                    continue;
                };
                for after in [&[], get_all] {
                    // EXCLUDE, the command, CHECKPOINT, then perhaps GET, END.
                    let mut plan = plan(256, &[&[0x0D], command, &[0x0E], after, &[0x01]]);
                    plan[2 + place] = base;
                    plan[3 + place] = len;
                    accepted(&plan);
                }
            }
        }
    }
}

/// All of 256 cells but these.
fn all_but(cells: impl IntoIterator<Item = u8>) -> [u64; 4] {
    let mut words = [u64::MAX; 4];
    for cell in cells {
        words[usize::from(cell / 64)] &= !(1 << (cell % 64));
    }
    words
}

/// The plan of 256 cells of EXCLUDE, CHECKPOINT, PUT, GET that reads all cells but the last, END; and what the library
/// says of it: dead before the PUT, DE and RO.
#[track_caller]
fn put_before_get(base: u8, len: u8, i: u8, a: u8) -> [[u64; 4]; 3] {
    let put: &[u8] = &[0x0C, base, len, i, a];
    let plan = plan(256, &[&[0x0D, 0x0E], put, &[0x0B, 255, 0, 255, 0, 0x01]]);
    accepted(&plan);
    let (dead, de_and_ro) = sets(&plan, 5, 1);
    assert_eq!(dead[1], dead[2], "CHECKPOINT goes on to the PUT");
    [dead[2], de_and_ro[0], de_and_ro[1]]
}

/// Behind the PUT all cells but 255 are live, so that before it one more is dead where it is surely written.
#[test]
fn a_put_surely_writes_a_table_of_one_cell_alone() {
    for base in 0..255 {
        // Index and value are another cell, and then the cell itself.
        let other = if base == 7 { 8 } else { 7 };
        let before = all_but((0..255).filter(|&cell| cell != base));
        let written = all_but([base, 255]);
        let one = put_before_get(base, 1, other, other);
        assert_eq!(one, [before, before, written], "cell {base}");
        for (i, a) in [(base, other), (other, base), (base, base)] {
            let none = all_but(0..255);
            let itself = put_before_get(base, 1, i, a);
            assert_eq!(
                itself,
                [none, none, written],
                "cell {base}, index {i}, value {a}"
            );
        }
    }
    // The last cell is dead behind the PUT, and before it too.
    let none = all_but(0..255);
    assert_eq!(put_before_get(255, 1, 7, 7), [none, none, all_but([255])]);
}

#[test]
fn a_put_surely_writes_no_cell_of_a_longer_table() {
    let none = all_but(0..255);
    let tables = (0..=253)
        .map(|base| (base, 2))
        .chain([(0, 3), (62, 4), (1, 254), (0, 255)]);
    for (base, len) in tables {
        let last = base + (len - 1);
        let written = all_but((base..=last).chain([255]));
        let answer = put_before_get(base, len, 7, 8);
        assert_eq!(answer, [none, none, written], "{len} cells from {base}");
    }
    // To the last cell, which GET writes without reading it.
    let written = all_but(1..=255);
    assert_eq!(put_before_get(1, 255, 7, 8), [none, none, written]);
}

/// JUMP to the last of the chain, EMIT 64, END, the chain, END. Of the chain each command, t added,
/// jumps to the one before it, and the first to EMIT.
fn chain(command: &[u8], length: usize) -> Vec<u8> {
    let mut plan = plan(65, &[&[0x09, 0, 0], &[0x08, 64], &[0x01]]);
    let mut t = [4, 0];
    for _ in 0..length {
        let offset = plan.len() as u16;
        plan.extend(command);
        plan.extend(t);
        t = offset.to_le_bytes();
    }
    plan[2..4].copy_from_slice(&t);
    plan.push(0x01);
    plan
}

#[test]
fn the_longest_chains_of_jumps_backward() {
    let jumps = chain(&[0x09], 508);
    let branches = chain(&[0x0A, 0, 0], 408);
    accepted(&jumps);
    accepted(&branches);
    // Cell 64 is live before the first command, and before LESS cell 0.
    assert_eq!(sets(&jumps, 1, 0).0, [[u64::MAX, 0, 0, 0]]);
    assert_eq!(sets(&branches, 1, 0).0, [[u64::MAX - 1, 0, 0, 0]]);
}

/// Every plan of four of some commands, PUT with this len among them. Gives how many there are.
#[track_caller]
fn every_plan_of_four(len: u8) -> u32 {
    let put = [0x0C, 0, len, 1, 1];
    let mut commands: Vec<(&[u8], Option<usize>)> = vec![
        (&[0x01], None),    // END
        (&[0x07, 0], None), // READ 0
        (&[0x07, 1], None), // READ 1
        (&[0x08, 0], None), // EMIT 0
        (&[0x08, 1], None), // EMIT 1
        (&put, None),       // PUT to cell 0 alone, or to both
        (&[0x0D], None),    // EXCLUDE
        (&[0x0E], None),    // CHECKPOINT
    ];
    for place in 0..4 {
        commands.push((&[0x09], Some(place))); // JUMP
        commands.push((&[0x0A, 1, 1], Some(place))); // LESS 1 1
    }
    let mut plans = 0;
    for number in 0..1 << 16 {
        let four = [0, 4, 8, 12].map(|shift| commands[number >> shift & 0xF]);
        if let [0x01 | 0x09] = four[3].0 {
            accepted(&linked(2, &four));
            plans += 1;
        }
    }
    plans
}

#[test]
fn every_plan_of_four_of_some_commands() {
    for len in [1, 2] {
        assert_eq!(every_plan_of_four(len), 16 * 16 * 16 * 5);
    }
}

/// A length of at least `least` bytes, or one below.
fn random_len(rng: &mut Rng, least: usize, enough: bool) -> usize {
    if enough {
        return least + rng.below(20);
    }
    match rng.below(4) {
        0 => 0,
        1 => least - 8,
        2 => least - 1,
        _ => rng.below(least),
    }
}

/// A buffer at any address, filled with 0 bits, with 1 bits or with any.
fn random_buffer(rng: &mut Rng, len: usize) -> Buffer {
    let shift = rng.below(8);
    match rng.below(3) {
        0 => Buffer::new(len, shift, || 0x00),
        1 => Buffer::new(len, shift, || 0xFF),
        _ => Buffer::new(len, shift, || rng.byte()),
    }
}

/// As `agreed`, with random buffers: whether the first has enough bytes, and whether the second.
fn agreed_at_random(rng: &mut Rng, plan: &[u8], answer: &Answer, enough: [bool; 2]) -> u32 {
    let dead_len = random_len(rng, DEAD, enough[0]);
    let sets_len = random_len(rng, SETS, enough[1]);
    let dead = random_buffer(rng, dead_len);
    let sets = random_buffer(rng, sets_len);
    agreed(plan, answer, dead, sets)
}

/// A plan that check accepts, or one that it refuses.
fn drawn(rng: &mut Rng, make: Maker, accepted: bool) -> Vec<u8> {
    loop {
        let plan = make(rng);
        if reference::check(&plan).is_ok() == accepted {
            return plan;
        }
    }
}

/// How many of the random plans below have each feature. When the generators change, the new
/// numbers are those that the test prints; none may be under 100.
const FEATURES: [(&str, u32); 43] = [
    ("1 cell", 5_017),
    ("63 cells", 497),
    ("64 cells", 455),
    ("65 cells", 485),
    ("127 cells", 474),
    ("128 cells", 502),
    ("129 cells", 481),
    ("191 cells", 489),
    ("192 cells", 484),
    ("193 cells", 479),
    ("255 cells", 1_436),
    ("256 cells", 4_051),
    ("both dead and live in word 0", 41_161),
    ("both dead and live in word 1", 9_115),
    ("both dead and live in word 2", 6_786),
    ("both dead and live in word 3", 4_584),
    ("300 commands", 500),
    ("a command out of reach", 20_181),
    ("a read of what is written", 39_960),
    ("a GET that makes live", 11_190),
    ("a JUMP to itself", 5_535),
    ("a LESS to itself", 3_929),
    ("a LESS forward", 19_240),
    ("a LESS backward", 17_804),
    ("a LESS of two ways", 1_495),
    ("a value over 4 JUMPs backward", 4_343),
    ("a PUT of 1 that makes dead", 4_038),
    ("a PUT of 1 that reads its cell", 11_130),
    ("a PUT of 2 over a live cell", 2_430),
    ("a PUT of 255 over a live cell", 1_002),
    ("a PUT of 2 to 255 over a live cell", 6_617),
    ("dead sets that grew with Q-3", 4_038),
    ("a DE that grew with Q-3", 1_210),
    ("2 EXCLUDEs, 2 CHECKPOINTs", 10_051),
    ("a region without CHECKPOINT", 20_082),
    ("a region of unlike CHECKPOINTs", 631),
    ("a region of an EXCLUDE alone", 6_243),
    ("a DE that changes past EXCLUDE", 6_500),
    ("an RO that changes past EXCLUDE", 9_977),
    ("a cell in DE and RO", 13_301),
    ("a cell in DE alone", 7_844),
    ("a cell in RO alone", 22_594),
    ("a cell in neither", 22_041),
];

#[test]
fn random_plans() {
    let mut rng = Rng::new(0x0123_4567_89AB_CDEF);
    let makers: [(Maker, u32); 8] = [
        (|rng| plans::woven(rng).bytes, 29_500),
        (|rng| plans::reversed(rng).bytes, 10_000),
        (|rng| plans::valid(rng).bytes, 10_000),
        (|rng| plans::large(rng).bytes, 300),
        (|rng| plans::crowded(rng).bytes, 180),
        (|rng| plans::long(rng).bytes, 20),
        (|rng| plans::putting(rng).bytes, 2_000),
        (claim::plans::set_points, 2_000),
    ];
    assert_eq!(makers.map(|(_, plans)| plans).iter().sum::<u32>(), 54_000);
    let mut counts = FEATURES.map(|(name, _)| (name, 0));
    for (make, plans) in makers {
        for _ in 0..plans {
            let plan = drawn(&mut rng, make, true);
            let answer = reference::analyse(&plan);
            assert_eq!(agreed_at_random(&mut rng, &plan, &answer, [true, true]), 0);
            let features = features(&plan, &answer.unwrap());
            assert_eq!(features.len(), counts.len());
            for (count, (name, has)) in counts.iter_mut().zip(features) {
                *count = (name, count.1 + u32::from(has));
            }
        }
    }
    for (name, count) in counts {
        println!("random plans with {name}: {count}");
    }
    assert!(counts.iter().all(|&(_, count)| count >= 100));
    assert_eq!(counts, FEATURES);
}

/// How often the random plans below get each answer from 0 to 8, in buffers long enough. When the
/// generators change, the new numbers are those that the test prints; none may be under 100.
const HITS: [u32; 9] = [747, 464, 2_113, 3_180, 2_931, 229, 200, 1_161, 1_375];

#[test]
fn random_plans_in_long_and_short_buffers() {
    let mut rng = Rng::new(0xFEDC_BA98_7654_3210);
    let mut plans = Vec::new();
    for _ in 0..4_000 {
        plans.push(plans::noise(&mut rng));
        plans.push(plans::mutated(&mut rng));
        plans.push(plans::mutated(&mut rng));
    }
    for _ in 0..200 {
        plans.push(drawn(&mut rng, |rng| plans::crowded(rng).bytes, false));
        plans.push(drawn(&mut rng, |rng| plans::long(rng).bytes, false));
    }
    let mut hits = [0; 9];
    for plan in plans {
        let answer = reference::analyse(&plan);
        let result = agreed_at_random(&mut rng, &plan, &answer, [true, true]);
        hits[result as usize] += 1;
        for enough in [[false, true], [true, false], [false, false]] {
            let short = agreed_at_random(&mut rng, &plan, &answer, enough);
            assert_eq!(short, if result == 0 { 9 } else { result });
        }
    }
    for (answer, count) in hits.iter().enumerate() {
        println!("random plans with the answer {answer}: {count}");
    }
    assert!(hits.iter().all(|&count| count >= 100));
    assert_eq!(hits, HITS);
}
