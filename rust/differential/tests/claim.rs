//! Document 01's demand 3 on the library, through C, over random lists of calls for either kind of
//! chip, over lists that go over the two days of document 02's request Q-3, over lists with folds,
//! of its request Q-6, over lists that the reference begins with the marks until its request Q-8
//! and the library folds, and over all these with notes in spent cells, of its request Q-14; and
//! that the same lists find altered engines, so that the watch over this library is seen to be
//! awake. `CLAIM_LISTS` sets how many lists of each kind there are.

use std::env;

use claim::altered::{Alter, Altered};
use claim::{watch_list, watch_lists, Days, Engine, Met, Notes, Sort};
use differential::call::Library;
use reference::journal::{BYTE_CHIP, PAGE_CHIP};

/// The lists for the library and each kind of chip, unless `CLAIM_LISTS` says another number.
const LISTS: u64 = 100_000;

/// One list over two days, with folds, or over the change of marks, for so many of one day and without.
const OF_ONE_DAY: u64 = 10;

/// One list with notes of each sort for so many without, and the least of them, since fewer meet
/// too little of what is rare.
const OF_NOTES: u64 = 100;
const LEAST_OF_NOTES: u64 = 500;

const KINDS: [usize; 2] = [BYTE_CHIP, PAGE_CHIP];

const ALL_DAYS: [Days; 3] = [Days::Today, Days::Change, Days::Either];

/// The lists within which an altered engine must be caught.
const FEW: u64 = 300;

/// The same for lists over two days.
const FEW_OVER_TWO_DAYS: u64 = 1_000;

fn lists() -> u64 {
    env::var("CLAIM_LISTS").map_or(LISTS, |number| number.parse().unwrap())
}

#[track_caller]
fn keeps_the_claim(engine: &(impl Engine + Sync), sort: Sort, lists: u64) {
    let mut met = Met::default();
    if let Err((seed, violation)) = watch_lists(engine, sort, 0..lists, &mut met) {
        panic!("{sort}, seed {seed}: {violation}");
    }
    println!("Lists of {sort}:");
    print!("{met}");
    met.assert_floors(sort);
}

/// As `keeps_the_claim`, for each kind of chip.
#[track_caller]
fn kinds_keep_the_claim(engine: &(impl Engine + Sync), days: Days, lists: u64) {
    for page in KINDS {
        keeps_the_claim(engine, Sort::of(days, page), lists);
    }
}

#[test]
fn the_library_keeps_the_claim() {
    kinds_keep_the_claim(&Library, Days::Today, lists());
}

#[test]
fn lists_over_two_days_keep_the_claim() {
    for days in [Days::Change, Days::Either] {
        kinds_keep_the_claim(&Library, days, lists() / OF_ONE_DAY);
    }
}

#[test]
fn lists_with_folds_keep_the_claim() {
    for days in ALL_DAYS {
        keeps_the_claim(&Library, Sort::folding(days), lists() / OF_ONE_DAY);
    }
}

#[test]
fn lists_over_the_change_of_marks_keep_the_claim() {
    for days in ALL_DAYS {
        keeps_the_claim(&Library, Sort::changing_marks(days), lists() / OF_ONE_DAY);
    }
}

/// The sorts of lists with notes of these days.
fn with_notes(days: Days) -> [Sort; 4] {
    let sorts = [
        Sort::of(days, BYTE_CHIP),
        Sort::of(days, PAGE_CHIP),
        Sort::folding(days),
        Sort::changing_marks(days),
    ];
    sorts.map(|sort| sort.with_notes(Notes::Spent))
}

#[test]
fn lists_with_notes_keep_the_claim() {
    for days in ALL_DAYS {
        for sort in with_notes(days) {
            let lists = LEAST_OF_NOTES.max(lists() / OF_NOTES);
            keeps_the_claim(&Library, sort, lists);
        }
    }
}

fn altered(alter: Alter) -> Altered<Library> {
    Altered {
        engine: Library,
        alter,
    }
}

#[test]
fn the_wrapper_alone_keeps_the_claim() {
    for days in ALL_DAYS {
        let engine = altered(Alter::Nothing);
        kinds_keep_the_claim(&engine, days, FEW);
        keeps_the_claim(&engine, Sort::folding(days), FEW);
        keeps_the_claim(&engine, Sort::changing_marks(days), FEW);
    }
}

/// Asserts that the lists of this sort find the alteration.
#[track_caller]
fn caught(alter: Alter, sort: Sort) {
    let engine = altered(alter);
    let few = match sort.days {
        Days::Today => FEW,
        Days::Change | Days::Either => FEW_OVER_TWO_DAYS,
    };
    let found = (0..few).find_map(|seed| {
        let violation = watch_list(&engine, sort, seed, &mut Met::default()).err()?;
        Some((seed, violation))
    });
    let (seed, violation) = found.unwrap_or_else(|| panic!("{alter:?}, {sort}, is not caught"));
    println!("{alter:?}, {sort}, seed {seed}: {violation}");
}

#[test]
fn alterations_are_caught() {
    for alter in [
        Alter::DeadStaysDead,
        Alter::KeptByPassedOver,
        Alter::SurePut,
        Alter::SurePutOfTwo,
        Alter::SurePutBeside,
        Alter::EraseUpward,
        Alter::WholeBefore5A,
        Alter::CountedBeforeGiven,
        Alter::OnlySaysSo,
        Alter::TakesOneMore,
        Alter::RefusedClears,
        Alter::RecoveryErases,
        Alter::InventsAStep,
    ] {
        for page in KINDS {
            caught(alter, Sort::of(Days::Today, page));
        }
    }
    for alter in [
        Alter::FillsWithZeros,
        Alter::TornBytes,
        Alter::GoesOnBehindMark,
        Alter::GoesOnPageLater,
    ] {
        caught(alter, Sort::of(Days::Today, PAGE_CHIP));
    }
}

#[test]
fn alterations_are_caught_over_two_days() {
    for alter in [
        Alter::SurePut,
        Alter::SurePutOfTwo,
        Alter::SurePutBeside,
        Alter::LeavesTorn,
        Alter::RefusesDeadCells,
    ] {
        for page in KINDS {
            caught(alter, Sort::of(Days::Change, page));
            caught(alter, Sort::of(Days::Either, page));
        }
    }
}

#[test]
fn alterations_of_folds_are_caught() {
    for alter in [
        Alter::FoldDropsLast,
        Alter::FoldFirstMark,
        Alter::FoldFirstValues,
        Alter::FoldTorn,
        Alter::FoldEndsEarly,
        Alter::FoldErasesOld,
        Alter::FoldOverspends,
        Alter::FoldRefusesBegun,
        Alter::FoldNeverEnds,
    ] {
        for days in ALL_DAYS {
            caught(alter, Sort::folding(days));
        }
    }
}

#[test]
fn alterations_of_places_are_caught() {
    let [bytes, pages, _, marks] = with_notes(Days::Today);
    for (alter, sort) in [
        (Alter::SpentNowhere, bytes),
        (Alter::SpentNowhere, pages),
        (Alter::SpentErases, bytes),
        (Alter::SpentTakesA2, marks),
    ] {
        caught(alter, sort);
    }
}

#[test]
fn alterations_of_marks_are_caught() {
    for page in KINDS {
        caught(Alter::SavesOtherSum, Sort::of(Days::Today, page));
    }
    for alter in [
        Alter::TakesA2,
        Alter::TakesTornA2,
        Alter::FoldWritesA2,
        Alter::FoldOtherSum,
        Alter::FoldOtherLength,
        Alter::FoldKeepsOwner,
        Alter::FoldLosesA2,
        Alter::FoldRefusesA2,
        Alter::FoldRefusesTornA2,
    ] {
        for days in ALL_DAYS {
            caught(alter, Sort::changing_marks(days));
        }
    }
}
