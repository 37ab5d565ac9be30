//! Holds the baseline to the reference, so that the library is timed against what is right.

use bench::baseline::{analyse, check, DEAD_WORDS, SET_WORDS};
use bench::plans::plans;
use differential::plans::{crowded, large, long, mutated, noise, putting, reversed, woven};
use differential::rng::Rng;

/// The buffer before a call, and as it must be after a call that begins it with these words.
fn buffers(len: usize, words: &[u64]) -> (Vec<u64>, Vec<u64>) {
    let before = vec![0xA5A5_A5A5_A5A5_A5A5; len];
    let mut after = before.clone();
    after[..words.len()].copy_from_slice(words);
    (before, after)
}

/// Asserts that baseline and reference agree on the plan, in buffers of so many words, and gives
/// the result.
#[track_caller]
fn agreed(plan: &[u8], dead_len: usize, sets_len: usize) -> u32 {
    assert_eq!(check(plan), reference::check(plan), "plan {plan:02X?}");
    let (expected, dead_words, set_words) = match reference::analyse(plan) {
        Err(number) => (Err(number), vec![], vec![]),
        Ok(_) if dead_len < DEAD_WORDS || sets_len < SET_WORDS => (Err(9), vec![], vec![]),
        Ok(analysis) => (Ok(()), analysis.dead_words(), analysis.set_words()),
    };
    let (mut dead, dead_after) = buffers(dead_len, &dead_words);
    let (mut sets, sets_after) = buffers(sets_len, &set_words);
    let result = analyse(plan, &mut dead, &mut sets);
    assert_eq!(result, expected, "the result, plan {plan:02X?}");
    assert!(dead == dead_after, "the dead sets, plan {plan:02X?}");
    assert!(sets == sets_after, "DE and RO, plan {plan:02X?}");
    result.err().unwrap_or(0)
}

#[test]
fn the_timed_plans() {
    // Their names, and their numbers of cells, commands and EXCLUDEs.
    let expected = [
        ("straight", [256, 512, 64]),
        ("jumps backward", [256, 509, 15]),
        ("many LESS", [256, 512, 64]),
        ("nested loops", [256, 449, 64]),
        ("tables", [256, 435, 31]),
        ("CELL", [55, 78, 1]),
        ("SIEVE", [23, 24, 1]),
        ("CONTOUR", [43, 51, 3]),
    ];
    let plans = plans();
    assert_eq!(plans.len(), expected.len());
    for ((name, plan), expected) in plans.into_iter().zip(expected) {
        let checked = check(&plan).expect(name);
        let numbers = [checked.cells, checked.instructions, checked.excludes];
        assert_eq!((name, numbers), expected);
        assert_eq!(agreed(&plan, DEAD_WORDS, SET_WORDS), 0);
    }
}

#[test]
fn random_plans() {
    let mut rng = Rng::new(0x0F1E_2D3C_4B5A_6978);
    let mut plans = Vec::new();
    for _ in 0..2_000 {
        plans.push(woven(&mut rng).bytes);
        plans.push(reversed(&mut rng).bytes);
        plans.push(mutated(&mut rng));
        plans.push(noise(&mut rng));
    }
    for _ in 0..50 {
        plans.push(crowded(&mut rng).bytes);
        plans.push(putting(&mut rng).bytes);
    }
    for _ in 0..15 {
        plans.push(large(&mut rng).bytes);
        plans.push(long(&mut rng).bytes);
    }
    let mut hits = [0; 10];
    for plan in plans {
        let dead_len = DEAD_WORDS - 1 + rng.below(16);
        let sets_len = SET_WORDS - 1 + rng.below(16);
        hits[agreed(&plan, dead_len, sets_len) as usize] += 1;
    }
    println!("random plans with the answers 0 to 9: {hits:?}");
    assert!(hits.iter().all(|&count| count >= 20));
}
