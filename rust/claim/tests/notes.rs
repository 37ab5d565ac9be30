//! Lists with notes in spent cells (document 02, Q-14): random ones for either kind of chip, with
//! folds, over the days of Q-3 and over the change of marks of Q-8, in which the claim has to hold
//! as if nothing had been written; notes at wrong places, which have to be seen to break a list;
//! and lists that are written out. `CLAIM_LISTS` sets how many lists there are.

mod written;

use std::env;

use claim::altered::{Alter, Altered};
use claim::notes::count_dead_at_its_own;
use claim::{watch_list, watch_lists, Days, Met, Notes, Reference, Sentence, Sort, Watch};
use reference::journal::{Kind, Mark, Save, BYTE_CHIP, ERASED, PAGE_CHIP};
use reference::layout::STATE_BYTES;
use reference::machine::State;
use reference::notes::spent_values;
use reference::{analyse, spent, Machine};
use written::{list, recover, run, READINGS};

/// The lists of each kind, unless `CLAIM_LISTS` says another number; one of each sort for so many
/// of them; and the least, since fewer meet too little of what is rare.
const LISTS: u64 = 4_000;
const OF_ONE_SORT: u64 = 8;
const LEAST: u64 = 500;

/// The lists within which a wrong note must be seen.
const FEW: u64 = 300;

const KINDS: [usize; 2] = [BYTE_CHIP, PAGE_CHIP];

const ALL_DAYS: [Days; 3] = [Days::Today, Days::Change, Days::Either];

fn lists() -> u64 {
    let lists = env::var("CLAIM_LISTS").map_or(LISTS, |number| number.parse().unwrap());
    LEAST.max(lists / OF_ONE_SORT)
}

#[track_caller]
fn keeps_the_claim(sort: Sort) {
    let mut met = Met::default();
    let sort = sort.with_notes(Notes::Spent);
    if let Err((seed, violation)) = watch_lists(&Reference, sort, 0..lists(), &mut met) {
        panic!("{sort}, seed {seed}: {violation}");
    }
    println!("Lists of {sort}:");
    print!("{met}");
    met.assert_floors(sort);
}

#[test]
fn lists_with_notes_keep_the_claim() {
    for days in ALL_DAYS {
        for page in KINDS {
            keeps_the_claim(Sort::of(days, page));
        }
    }
}

#[test]
fn lists_with_notes_and_folds_keep_the_claim() {
    for days in ALL_DAYS {
        keeps_the_claim(Sort::folding(days));
    }
}

#[test]
fn lists_with_notes_over_the_change_of_marks_keep_the_claim() {
    for days in ALL_DAYS {
        keeps_the_claim(Sort::changing_marks(days));
    }
}

/// The sorts of lists that wrong notes are put in.
fn sorts() -> [Sort; 4] {
    [
        Sort::of(Days::Today, BYTE_CHIP),
        Sort::of(Days::Today, PAGE_CHIP),
        Sort::folding(Days::Today),
        Sort::changing_marks(Days::Today),
    ]
}

/// How many of few lists of the sort, and with which sentences, are broken, and what they met.
fn broken(sort: Sort) -> (Vec<Sentence>, Met) {
    let mut met = Met::default();
    let broken = (0..FEW).filter_map(|seed| watch_list(&Reference, sort, seed, &mut met).err());
    let sentences = broken.map(|violation| violation.sentence).collect();
    (sentences, met)
}

/// A note in the value of a live cell, or in a record's cell number, breaks lists; so the watch
/// would see a place that is none.
#[test]
fn misnotes_break_lists() {
    for notes in [Notes::Live, Notes::CellNumber] {
        for sort in sorts() {
            let sort = sort.with_notes(notes);
            let (sentences, met) = broken(sort);
            let of = |sentence| sentences.iter().filter(|&&other| other == sentence).count();
            let cells = of(Sentence::Cells);
            let refused = of(Sentence::RecoveryRefused) + of(Sentence::FoldRefused);
            println!(
                "{sort}: {} of {FEW} lists broken, {cells} by a cell, {refused} by a refused \
                 recovery or fold; {} notes",
                sentences.len(),
                met.get("notes")
            );
            // A live cell has another value; a record is another cell's, or one too many.
            let [least_cells, least_refused] = match notes {
                Notes::Live => [80, 0],
                _ => [3, 50],
            };
            assert!(cells >= least_cells && refused >= least_refused, "{sort}");
        }
    }
}

/// A note in a cell that is dead at its own save's CHECKPOINT and live at the last breaks no list,
/// though it has no place there: the cell is then in a later save too. For where a save leaves out
/// a live cell, that is Kept, so that nothing since the save that holds it may have written it, and
/// it was live there as well. The next test has a chip that no list leaves, on which such a note is
/// an output.
#[test]
fn a_cell_dead_at_its_own_checkpoint_alone_is_saved_again() {
    let mut all = Met::default();
    for sort in sorts() {
        let sort = sort.with_notes(Notes::DeadAtItsOwn);
        let (sentences, met) = broken(sort);
        println!("{sort}: {} notes, {sentences:?} broken", met.get("notes"));
        assert_eq!(sentences, []);
        all.add_all(&met);
    }
    assert!(all.get("notes") >= 40, "{} notes", all.get("notes"));
    assert_eq!(all.get("notes that recovery reads"), 0);
}

/// CHECKPOINT, READ 1, EMIT 0, CHECKPOINT, READ 0, EMIT 1, JUMP to the first, with three cells.
/// Cell 1 is dead at the first CHECKPOINT and live at the second, cell 0 the other way round, and
/// cell 2 is dead at both. Its outputs are 0 and then the readings.
const TURNS: [u8; 14] = [
    0x02, 0x0E, 0x07, 1, 0x08, 0, 0x0E, 0x07, 0, 0x08, 1, 0x09, 1, 0,
];

/// Its steps with the readings on a chip that holds four saves: of three rounds of CHECKPOINT, READ
/// and EMIT, with a JUMP, and the CHECKPOINT before the reading that is missing.
const STEPS: u64 = 3 * 3 + 1 + 1 + 4 * 36;

/// The first output that the reference gives from a chip of the plan, without readings but one.
fn first_output(chip: &[u8]) -> i32 {
    let mut sets = analyse(&TURNS).expect("the plan is accepted").set_words();
    sets.resize(reference::machine::SET_WORDS, 0);
    let machine = Machine::new(&TURNS, &sets, BYTE_CHIP).expect("the plan is accepted");
    let (mut chip, mut state) = (chip.to_vec(), State::first());
    machine
        .recover(&chip, &mut state)
        .expect("the chip is sound");
    let ran = machine.run(&mut chip, &mut state, &[77], 1, 100);
    ran.expect("recovery leaves a sound state").given[0]
}

/// The first save, at the first CHECKPOINT, has cell 1, which is dead there; the second, at the
/// second, leaves it out although it is live. The last CHECKPOINT says that no note may stand
/// there.
#[test]
fn the_last_checkpoint_decides_and_not_the_saves_own() {
    let save = |place, cells: &[u8]| Save {
        records: cells.iter().map(|&cell| (cell, 5)).collect(),
        mark: Mark {
            place,
            owner: Kind::A3.owner(&TURNS),
            ..Mark::FIRST
        },
    };
    let mut chip = [save(2, &[0, 1]).bytes(), save(7, &[0]).bytes()].concat();
    assert_eq!(spent(&TURNS, &chip, BYTE_CHIP, Kind::A3, 8), Ok(false));
    assert_eq!(first_output(&chip), 5);
    chip[8] = 99;
    assert_eq!(first_output(&chip), 99);
    // Without the second save the first one's CHECKPOINT is the last.
    chip.truncate(30);
    assert_eq!(spent(&TURNS, &chip, BYTE_CHIP, Kind::A3, 8), Ok(true));
    assert_eq!(first_output(&chip), 5);
}

fn altered(alter: Alter) -> Altered<Reference> {
    Altered {
        engine: Reference,
        alter,
    }
}

/// An engine that tells no place, tells one on a chip with A2 marks, or alters the chip that is
/// asked for.
#[test]
fn wrong_places_are_caught() {
    let old = Sort::changing_marks(Days::Today);
    for (alter, sort) in [
        (Alter::SpentNowhere, Sort::of(Days::Today, BYTE_CHIP)),
        (Alter::SpentNowhere, Sort::of(Days::Today, PAGE_CHIP)),
        (Alter::SpentErases, Sort::of(Days::Today, BYTE_CHIP)),
        (Alter::SpentTakesA2, old),
    ] {
        let sort = sort.with_notes(Notes::Spent);
        let engine = altered(alter);
        let found = watch_lists(&engine, sort, 0..FEW, &mut Met::default());
        let sentence = found.err().map(|(_, violation)| violation.sentence);
        assert_eq!(sentence, Some(Sentence::Spent), "{alter:?}, {sort}");
    }
    let sound = altered(Alter::Nothing);
    let sort = old.with_notes(Notes::Spent);
    let found = watch_lists(&sound, sort, 0..FEW, &mut Met::default());
    assert!(found.is_ok(), "{found:?}");
}

/// Puts a note in every place of the list's chip, each another one, and gives how many.
fn note_everywhere(watch: &mut Watch<Reference>, kind: Kind) -> usize {
    let (plan, chip, page) = (watch.plan(), watch.chip(), watch.page());
    let places = spent_values(plan, chip, page, kind).expect("a list leaves a sound chip");
    let notes = [[0xFF; 4], [0; 4], [0xA1, 1, 0xA3, 7], [0x5A, 0, 0, 0x80]];
    for (value, note) in places.iter().zip(notes.iter().cycle()) {
        watch.put_note(value.at, note);
    }
    watch.cut(vec![0x5A; STATE_BYTES]);
    places.len()
}

/// What TURNS gives of the readings before one is missing.
const OUTPUTS: [i32; 3] = [0, READINGS[0], READINGS[1]];

#[test]
fn notes_after_each_step_in_every_place() {
    for page in KINDS {
        let (mut notes, mut met) = (0, Met::default());
        for first in 0..=STEPS {
            for second in [0, 1, 20, 60, 100] {
                let mut watch = list(&TURNS, page, 192);
                for steps in [first, second] {
                    recover(&mut watch);
                    run(&mut watch, steps);
                    notes += note_everywhere(&mut watch, Kind::A3);
                    count_dead_at_its_own(&watch, &mut met);
                }
                recover(&mut watch);
                run(&mut watch, 1000);
                assert_eq!(watch.so_far(), OUTPUTS, "{first} and {second} steps");
            }
        }
        println!("pages of {page}: {notes} notes");
        print!("{met}");
        assert!(notes >= 3_000, "{notes} notes");
        assert!(met.get("values dead at their own CHECKPOINT alone") > 0);
        assert_eq!(met.get("such values that recovery reads"), 0);
    }
}

/// Folds the chip onto a blank one of this length, with which the list goes on.
#[track_caller]
fn fold_onto(watch: &mut Watch<Reference>, length: usize) {
    let mut new = vec![ERASED; length];
    let folded = watch.fold(&mut new, 0, u64::MAX);
    assert!(
        folded
            .unwrap_or_else(|violation| panic!("{violation}"))
            .finished
    );
    let went_on = watch.go_on_with(new, vec![0x5A; STATE_BYTES]);
    went_on.unwrap_or_else(|violation| panic!("{violation}"));
}

/// Before the fold, after it, and on the chip that it is folded to once more.
#[test]
fn notes_before_and_after_a_fold() {
    let mut notes = 0;
    for steps in 0..=STEPS {
        let mut watch = list(&TURNS, BYTE_CHIP, 144);
        recover(&mut watch);
        run(&mut watch, steps);
        for length in [100, 144] {
            notes += note_everywhere(&mut watch, Kind::A3);
            fold_onto(&mut watch, length);
            recover(&mut watch);
            run(&mut watch, steps % 50);
        }
        notes += note_everywhere(&mut watch, Kind::A3);
        recover(&mut watch);
        run(&mut watch, 1000);
        assert_eq!(watch.so_far(), OUTPUTS, "{steps} steps");
    }
    println!("{notes} notes");
    assert!(notes >= 300, "{notes} notes");
}

/// On a chip begun as until Q-8, which is folded then.
#[test]
fn notes_on_a2_marks_before_the_fold() {
    let mut notes = 0;
    for steps in 0..=STEPS {
        let mut watch = list(&TURNS, BYTE_CHIP, 144);
        watch.begin_a2();
        recover(&mut watch);
        run(&mut watch, steps);
        let changed = watch.change_marks(vec![0x5A; STATE_BYTES]);
        changed.unwrap_or_else(|violation| panic!("{violation}"));
        if watch.is_old() {
            notes += note_everywhere(&mut watch, Kind::A2);
            fold_onto(&mut watch, 144);
        }
        recover(&mut watch);
        run(&mut watch, 1000);
        assert_eq!(watch.so_far(), OUTPUTS, "{steps} steps");
    }
    println!("{notes} notes");
    assert!(notes >= 100, "{notes} notes");
}
