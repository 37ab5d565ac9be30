//! Document 01's demand 3 on the Rust version, over random lists of calls for either kind of chip,
//! over lists that go over the two days of document 02's request Q-3, over lists with folds, of its
//! request Q-6, and over lists begun with the marks until its request Q-8; and that the same lists
//! find each of the altered engines.

use std::env;
use std::ops::Range;

use claim::altered::{Alter, Altered};
use claim::{
    watch_list, watch_lists, Days, Engine, Met, OfKind, Reference, Sentence, Sort, Violation,
};
use reference::journal::{Kind, BYTE_CHIP, PAGE_CHIP};

/// The lists for the Rust version and each kind of chip, unless `CLAIM_LISTS` says another number.
const LISTS: u64 = 4_000;

/// The Rust version until Q-8.
const UNTIL: OfKind = OfKind(Kind::A2);

/// One list over two days, with folds, or with other marks, for so many of one day and without.
const OF_ONE_DAY: u64 = 2;

/// One list as document 01 has it, with A2 marks, for so many with A3 marks.
const OF_01: u64 = 8;

const KINDS: [usize; 2] = [BYTE_CHIP, PAGE_CHIP];

const ALL_DAYS: [Days; 3] = [Days::Today, Days::Change, Days::Either];

/// The lists within which an altered engine must be caught.
const FEW: Range<u64> = 0..1_000;

/// The lists of other marks that must not catch one.
const FEWER: Range<u64> = 0..300;

/// The sentences of document 01's section. What the harness checks beside them is no catch.
const OF_THE_CLAIM: [Sentence; 11] = [
    Sentence::Place,
    Sentence::Counts,
    Sentence::Stop,
    Sentence::Cells,
    Sentence::Readings,
    Sentence::Outputs,
    Sentence::SoFar,
    Sentence::RecoveryRefused,
    Sentence::RunRefused,
    Sentence::StepBound,
    Sentence::StopReached,
];

fn lists() -> u64 {
    env::var("CLAIM_LISTS").map_or(LISTS, |number| number.parse().unwrap())
}

fn altered(alter: Alter) -> Altered<Reference> {
    Altered {
        engine: Reference,
        alter,
    }
}

/// The first of few seeds whose list of this sort the altered engine violates in one of these
/// sentences.
#[track_caller]
fn caught(alter: Alter, sort: Sort, by: &[Sentence]) {
    let (seed, violation) = first_caught(alter, sort, by)
        .unwrap_or_else(|| panic!("{alter:?}, {sort}, is not caught by {FEW:?}"));
    println!("{alter:?}, {sort}, seed {seed}: {violation}");
}

fn first_caught(alter: Alter, sort: Sort, by: &[Sentence]) -> Option<(u64, Violation)> {
    let engine = altered(alter);
    let violation = |seed| watch_list(&engine, sort, seed, &mut Met::default()).err();
    let mut violations = FEW.filter_map(|seed| Some((seed, violation(seed)?)));
    violations.find(|(_, violation)| by.contains(&violation.sentence))
}

#[track_caller]
fn keeps_the_claim(engine: &(impl Engine + Sync), sort: Sort, seeds: Range<u64>) {
    let mut met = Met::default();
    if let Err((seed, violation)) = watch_lists(engine, sort, seeds, &mut met) {
        panic!("{sort}, seed {seed}: {violation}");
    }
    println!("Lists of {sort}:");
    print!("{met}");
    met.assert_floors(sort);
}

/// As `keeps_the_claim`, for each kind of chip.
#[track_caller]
fn kinds_keep_the_claim(engine: &(impl Engine + Sync), days: Days, seeds: Range<u64>) {
    for page in KINDS {
        keeps_the_claim(engine, Sort::of(days, page), seeds.clone());
    }
}

#[test]
fn the_rust_version_keeps_the_claim() {
    kinds_keep_the_claim(&Reference, Days::Today, 0..lists());
}

#[test]
fn lists_over_two_days_keep_the_claim() {
    for days in [Days::Change, Days::Either] {
        kinds_keep_the_claim(&Reference, days, 0..lists() / OF_ONE_DAY);
    }
}

#[test]
fn lists_with_folds_keep_the_claim() {
    for days in ALL_DAYS {
        keeps_the_claim(&Reference, Sort::folding(days), 0..lists() / OF_ONE_DAY);
    }
}

/// Begun by the Rust version until Q-8, under the sets of either day.
#[test]
fn lists_over_the_change_of_marks_keep_the_claim() {
    for days in ALL_DAYS {
        let sort = Sort::changing_marks(days);
        keeps_the_claim(&Reference, sort, 0..lists() / OF_ONE_DAY);
    }
}

/// Document 01's own lists, whose saves have A2 marks.
#[test]
fn the_rust_version_until_q_8_keeps_the_claim() {
    for days in ALL_DAYS {
        for page in KINDS {
            let sort = Sort::of(days, page).with_a2();
            keeps_the_claim(&UNTIL, sort, 0..lists() / OF_01);
        }
        let sort = Sort::folding(days).with_a2();
        keeps_the_claim(&UNTIL, sort, 0..lists() / OF_01);
    }
}

/// What the two kinds share holds for any page length.
#[test]
fn pages_of_any_length_keep_the_claim() {
    for page in BYTE_CHIP + 1..PAGE_CHIP {
        let sort = Sort::of(Days::Today, page);
        let watched = watch_lists(&Reference, sort, 0..100, &mut Met::default());
        if let Err((seed, violation)) = watched {
            panic!("{sort}, seed {seed}: {violation}");
        }
    }
}

#[test]
fn the_wrapper_alone_keeps_the_claim() {
    for days in ALL_DAYS {
        let engine = altered(Alter::Nothing);
        kinds_keep_the_claim(&engine, days, FEW);
        keeps_the_claim(&engine, Sort::folding(days), FEW);
        keeps_the_claim(&engine, Sort::changing_marks(days), FEW);
    }
}

#[test]
fn the_errors_to_rule_out_are_caught_by_the_claim() {
    for alter in [
        Alter::DeadStaysDead,
        Alter::KeptByPassedOver,
        Alter::SurePut,
        Alter::SurePutOfTwo,
        Alter::SurePutBeside,
        Alter::EraseUpward,
        Alter::WholeBefore5A,
        Alter::CountedBeforeGiven,
        Alter::OnlySaysSo,
    ] {
        for page in KINDS {
            caught(alter, Sort::of(Days::Today, page), &OF_THE_CLAIM);
        }
    }
}

/// Filling that is not tested, a length that is not, and a save that fits without its filling alone are not among them:
/// no list has the chip that would show them.
#[test]
fn errors_of_pages_are_caught_by_the_claim() {
    for alter in [
        Alter::FillsWithZeros,
        Alter::TornBytes,
        Alter::GoesOnBehindMark,
        Alter::GoesOnPageLater,
    ] {
        caught(alter, Sort::of(Days::Today, PAGE_CHIP), &OF_THE_CLAIM);
    }
}

/// They are in force from the change on, or at every other call.
#[test]
fn wrong_rules_of_put_are_caught_over_two_days() {
    for alter in [Alter::SurePut, Alter::SurePutOfTwo, Alter::SurePutBeside] {
        for days in [Days::Change, Days::Either] {
            for page in KINDS {
                caught(alter, Sort::of(days, page), &OF_THE_CLAIM);
            }
        }
    }
}

/// On one day a torn save comes again with the same cells, each where it stood, and no save holds a cell of DE: these
/// errors show where the sets change, and nowhere else.
#[test]
fn errors_that_show_at_a_change_of_day_are_caught_there() {
    for alter in [Alter::LeavesTorn, Alter::RefusesDeadCells] {
        for page in KINDS {
            let today = Sort::of(Days::Today, page);
            let found = watch_lists(&altered(alter), today, FEW, &mut Met::default());
            assert!(found.is_ok(), "{alter:?}, {today}: {found:?}");
            for days in [Days::Change, Days::Either] {
                caught(alter, Sort::of(days, page), &[Sentence::RecoveryRefused]);
            }
        }
    }
}

/// They are folds to a save that recovers to another state, or to none.
#[test]
fn errors_of_folds_are_caught_by_the_claim() {
    for alter in [
        Alter::FoldDropsLast,
        Alter::FoldFirstMark,
        Alter::FoldFirstValues,
        Alter::FoldTorn,
        Alter::FoldEndsEarly,
    ] {
        for days in ALL_DAYS {
            caught(alter, Sort::folding(days), &OF_THE_CLAIM);
        }
    }
}

/// Recovery takes records in any order and of any value, so the lists cannot find these. A longer
/// save shows only where the new chip has no room for it. The calls drawn from seeds find both.
#[test]
fn a_fold_to_other_bytes_of_the_same_state_is_not_caught() {
    for days in ALL_DAYS {
        let sort = Sort::folding(days);
        let falling = altered(Alter::FoldFalling);
        let found = watch_lists(&falling, sort, FEW, &mut Met::default());
        assert!(found.is_ok(), "{sort}: {found:?}");
        assert!(first_caught(Alter::FoldZeros, sort, &OF_THE_CLAIM).is_none());
        caught(Alter::FoldZeros, sort, &[Sentence::FoldRefused]);
    }
}

#[test]
fn each_sentence_of_folds_is_seen_to_fail() {
    for (alter, sentence) in [
        (Alter::FoldRefusesBegun, Sentence::FoldRefused),
        (Alter::FoldErasesOld, Sentence::OldChip),
        (Alter::FoldOverspends, Sentence::FoldBytes),
        (Alter::FoldNeverEnds, Sentence::FoldBytes),
        (Alter::FoldDropsLast, Sentence::FoldedState),
        (Alter::RefusedClears, Sentence::RefusedCall),
    ] {
        caught(alter, Sort::folding(Days::Today), &[sentence]);
    }
}

/// A save that names another plan, or a fold to such a one or to an A2 mark, cannot be recovered.
#[test]
fn wrong_marks_are_caught_by_the_claim() {
    for page in KINDS {
        let sort = Sort::of(Days::Today, page);
        caught(Alter::SavesOtherSum, sort, &[Sentence::RecoveryRefused]);
    }
    for alter in [
        Alter::FoldWritesA2,
        Alter::FoldOtherSum,
        Alter::FoldOtherLength,
    ] {
        for days in ALL_DAYS {
            caught(alter, Sort::folding(days), &[Sentence::RecoveryRefused]);
            let sort = Sort::changing_marks(days);
            caught(alter, sort, &[Sentence::RecoveryRefused]);
        }
    }
}

/// They show where a chip until Q-8 is recovered or folded, and nowhere else.
#[test]
fn errors_that_show_at_the_change_of_marks_are_caught_there() {
    for (alter, by) in [
        (Alter::TakesA2, &[Sentence::OldMarks][..]),
        (Alter::TakesTornA2, &[Sentence::OldMarks]),
        (Alter::FoldKeepsOwner, &[Sentence::RecoveryRefused]),
        (Alter::FoldLosesA2, &OF_THE_CLAIM),
        (Alter::FoldRefusesA2, &[Sentence::FoldRefused]),
        (Alter::FoldRefusesTornA2, &[Sentence::FoldRefused]),
    ] {
        is_not_caught(&altered(alter), Sort::folding(Days::Today));
        for days in ALL_DAYS {
            caught(alter, Sort::changing_marks(days), by);
        }
    }
}

/// An engine as until Q-8 loses no output either; that it takes an old chip is seen at the change.
#[test]
fn the_engine_until_q_8_is_caught_at_the_change_of_marks() {
    for page in KINDS {
        is_not_caught(&UNTIL, Sort::of(Days::Today, page));
    }
    for days in ALL_DAYS {
        let sort = Sort::changing_marks(days);
        let found = watch_lists(&UNTIL, sort, FEW, &mut Met::default());
        let sentence = found.err().map(|(_, violation)| violation.sentence);
        assert_eq!(sentence, Some(Sentence::OldMarks), "{sort}");
    }
}

/// Every chip of a list is its plan's own, so no list finds them. The calls drawn from seeds do.
#[test]
fn marks_of_another_plan_are_in_no_list() {
    for alter in [
        Alter::AsksNoOwner,
        Alter::AsksLastOwner,
        Alter::FoldAsksNoOwner,
        Alter::FoldAsksLastOwner,
    ] {
        is_not_caught(&altered(alter), Sort::folding(Days::Today));
        is_not_caught(&altered(alter), Sort::changing_marks(Days::Today));
    }
}

/// Asserts that few lists of this sort do not find the engine.
#[track_caller]
fn is_not_caught(engine: &(impl Engine + Sync), sort: Sort) {
    let found = watch_lists(engine, sort, FEWER, &mut Met::default());
    assert!(found.is_ok(), "{sort}: {found:?}");
}

/// `SoFar` is not among them: where the outputs so far are wrong, those of some run are, and are found first.
#[test]
fn each_sentence_is_seen_to_fail() {
    for (alter, sentence) in [
        (Alter::OnlySaysSo, Sentence::Place),
        (Alter::CountsAhead, Sentence::Counts),
        (Alter::OtherStop, Sentence::Stop),
        (Alter::DeadStaysDead, Sentence::Cells),
        (Alter::TakesOneMore, Sentence::Readings),
        (Alter::CountedBeforeGiven, Sentence::Outputs),
        (Alter::EraseUpward, Sentence::RecoveryRefused),
        (Alter::RefusesSaving, Sentence::RunRefused),
        (Alter::ErasesForever, Sentence::StepBound),
        (Alter::SpentAtOnce, Sentence::StopReached),
        (Alter::RefusedClears, Sentence::RefusedCall),
        (Alter::RecoveryErases, Sentence::ChipByRecovery),
        (Alter::InventsAStep, Sentence::StepsOfRun),
    ] {
        for page in KINDS {
            caught(alter, Sort::of(Days::Today, page), &[sentence]);
        }
    }
}
