//! Holds the plain chip reader to the reference, so that the library is timed against what is right.

use bench::baseline::check;
use bench::journals::{byte_chips, owner, page_chips, read, read_for_recovery, Held, PLAN};
use differential::examples::programs;
use differential::journals::{altered, plans, stored_with};
use differential::rng::Rng;
use reference::journal::{self, Chip, Kind, BYTE_CHIP, MAX_CHIP, PAGE_CHIP};

/// Asserts that both give the same, also where a recovery refuses it, and gives the result.
#[track_caller]
fn agreed<const PAGE: usize>(plan: &[u8], chip: &[u8]) -> u32 {
    let is_a3 = journal::read_as(plan, chip, PAGE, Kind::A3).is_ok();
    let held = |chip: Chip| Held {
        end: chip.end,
        torn: chip.torn,
        last: chip.last(),
        is_other: chip.check_owner(plan).is_err(),
        is_old: !is_a3,
        values: std::array::from_fn(|cell| chip.value(cell as u8) as u32),
    };
    let cells = check(plan).expect("the plan is accepted").cells as usize;
    let expected = journal::read(plan, chip, PAGE).map(held);
    let found = read::<PAGE>(plan, cells, chip, owner(plan));
    assert_eq!(found, expected, "plan {plan:02X?} chip {chip:02X?}");
    let expected = journal::read_for_recovery(plan, chip, PAGE).map(held);
    let found = read_for_recovery::<PAGE>(plan, cells, chip, owner(plan));
    assert_eq!(found, expected, "plan {plan:02X?} chip {chip:02X?}");
    found.err().unwrap_or(0)
}

#[test]
fn the_owner_of_each_plan() {
    let [_, (_, sieve), _] = programs();
    let all_ff = [0xFF; 2_048];
    for plan in [&all_ff[..], &sieve, PLAN, &[0x00]] {
        assert_eq!(owner(plan), journal::owner(plan));
    }
}

#[test]
fn the_timed_chips() {
    for (name, chip) in byte_chips() {
        assert!(chip.len() <= MAX_CHIP, "{name}");
        assert_eq!(agreed::<BYTE_CHIP>(PLAN, &chip), 0, "{name}");
    }
    for (name, chip) in page_chips() {
        assert_eq!(chip.len(), MAX_CHIP, "{name}");
        assert_eq!(agreed::<PAGE_CHIP>(PLAN, &chip), 0, "{name}");
    }
}

#[test]
fn random_byte_chips() {
    random_chips::<BYTE_CHIP>();
}

#[test]
fn random_page_chips() {
    random_chips::<PAGE_CHIP>();
}

fn random_chips<const PAGE: usize>() {
    let mut rng = Rng::new(0x5EED_0000_C41B_0001);
    let plans = plans();
    let mut accepted = 0;
    let mut hits = [0; 17];
    for _ in 0..20_000 {
        let plan = &plans[rng.below(plans.len())];
        let chip = stored_with(&mut rng, plan, PAGE, Kind::A3);
        accepted += usize::from(agreed::<PAGE>(plan, &chip) == 0);
        hits[agreed::<PAGE>(plan, &altered(&mut rng, chip)) as usize] += 1;
        let old = stored_with(&mut rng, plan, PAGE, Kind::A2);
        hits[agreed::<PAGE>(plan, &old) as usize] += 1;
    }
    assert_eq!(accepted, 20_000);
    println!("pages of {PAGE}, altered and old chips with the answers 0 to 16: {hits:?}");
    assert!(hits[0] >= 1_000 && hits[12] >= 1_000 && hits[15] >= 1_000 && hits[16] >= 300);
}
