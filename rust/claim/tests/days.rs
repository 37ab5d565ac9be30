//! The two days of document 02's request Q-3: that the sets only grow from one to the other, and lists over both that
//! are written out.

use claim::plans::{plan, set_points};
use claim::rng::Rng;
use claim::{Met, Reference, Start, Watch};
use reference::journal::{BYTE_CHIP, ERASED, PAGE_CHIP};
use reference::layout::STATE_BYTES;
use reference::machine::SET_WORDS;
use reference::{analyse, analyse_until, Analysis, Set};

/// How much of what a thousand random plans have to meet at least.
const FLOORS: [(&str, u64); 4] = [
    ("plans of today's lists whose dead sets grew", 80),
    ("plans of today's lists whose DE grew", 30),
    ("plans of set points whose dead sets grew", 250),
    ("plans of set points whose DE grew", 200),
];

/// Whether a set of the second has a cell that the same of the first has not; each has all the cells of the first.
#[track_caller]
fn grew<'a>(pairs: impl Iterator<Item = (&'a Set, &'a Set)>, plan: &[u8]) -> bool {
    let mut grew = false;
    for (until, today) in pairs {
        assert!(until.is_subset(today), "plan {plan:02X?}");
        grew |= until != today;
    }
    grew
}

/// Asserts that no set has shrunk and RO is the same, and counts what grew under these names.
#[track_caller]
fn count_growth(plan: &[u8], names: [&'static str; 2], met: &mut Met) {
    let sets = |analysis: Result<Analysis, u32>| analysis.expect("the plan is accepted");
    let (until, today) = (sets(analyse_until(plan)), sets(analyse(plan)));
    let excludes = || until.excludes.iter().zip(&today.excludes);
    for ((_, _, ro_until), (_, _, ro)) in excludes() {
        assert_eq!(ro_until, ro, "plan {plan:02X?}");
    }
    let dead_grew = grew(until.dead.iter().zip(&today.dead), plan);
    let de_grew = grew(excludes().map(|(until, today)| (&until.1, &today.1)), plan);
    for (name, grew) in names.into_iter().zip([dead_grew, de_grew]) {
        met.add(name, u64::from(grew));
    }
}

#[test]
fn dead_sets_and_de_only_grow_and_ro_stays() {
    let mut rng = Rng::new(0x5133_0000_0000_0001);
    let mut met = Met::default();
    for _ in 0..5_000 {
        met.add("plans", 2);
        count_growth(&plan(&mut rng), [FLOORS[0].0, FLOORS[1].0], &mut met);
        count_growth(&set_points(&mut rng), [FLOORS[2].0, FLOORS[3].0], &mut met);
    }
    print!("{met}");
    met.assert_floors_per("plans", &FLOORS);
}

/// EXCLUDE, CHECKPOINT, READ 1, PUT of cell 1 to the table of cell 0 alone, EMIT 0, JUMP to EXCLUDE. DE is cell 1 until
/// Q-3 and cells 0 and 1 since, RO is empty.
const SET_POINT: [u8; 15] = [
    0x01, 0x0D, 0x0E, 0x07, 1, 0x0C, 0, 1, 1, 1, 0x08, 0, 0x09, 1, 0,
];

/// The list of SET_POINT under the sets until Q-3, after its first recovery, on an erased chip.
fn begun(page: usize, chip: usize) -> Watch<'static, Reference> {
    let start = Start {
        plan: SET_POINT.to_vec(),
        readings: vec![5, 7, -2],
        page,
        chip,
        state: vec![0xA5; STATE_BYTES],
        sets: vec![0; SET_WORDS],
    };
    let mut watch = Watch::new(&Reference, start);
    assert_eq!(watch.sets()[..8], [0b11, 0, 0, 0, 0, 0, 0, 0]);
    watch.begin_until();
    assert_eq!(watch.sets()[..8], [0b10, 0, 0, 0, 0, 0, 0, 0]);
    recover(&mut watch);
    watch
}

#[track_caller]
fn recover(watch: &mut Watch<Reference>) {
    let recovered = watch.recover();
    recovered.unwrap_or_else(|violation| panic!("{violation}"));
}

/// Runs on the good state, lent all untaken readings, and gives the run's steps.
#[track_caller]
fn run(watch: &mut Watch<Reference>, budget: u64) -> u64 {
    let untaken = watch.untaken();
    let ran = watch.run(untaken, 100, budget);
    ran.unwrap_or_else(|violation| panic!("{violation}")).steps
}

#[test]
fn a_save_torn_until_q_3_gives_way_to_one_of_another_structure() {
    let mut watch = begun(BYTE_CHIP, 72);
    // EXCLUDE, CHECKPOINT and 24 bytes; READ, PUT, EMIT, JUMP; EXCLUDE, CHECKPOINT and 9 bytes.
    run(&mut watch, 26 + 4 + 11);
    // The plan has 15 bytes, and their sum is 69.
    let first = [
        0xA1, 0, 0, 0, 0, 0, 0xA3, 3, 0, 1, 0, 0, 0, 0, 0, 0, 0, 0, 0, 15, 0, 69, 0, 0x5A,
    ];
    let torn = [0xA1, 0, 5, 0, 0, 0, 0xA3, 3, 0];
    assert_eq!(watch.chip()[..24], first);
    assert_eq!(watch.chip()[24..34], [&torn[..], &[ERASED]].concat());
    watch.change_day(vec![0xA5; STATE_BYTES]);
    assert_eq!(watch.sets()[..8], [0b11, 0, 0, 0, 0, 0, 0, 0]);
    recover(&mut watch);
    assert_eq!(watch.tally(), 2);
    // The 9 bytes are erased, then the first reading is taken again and given.
    run(&mut watch, 9);
    assert_eq!(watch.chip()[24..], [ERASED; 48]);
    run(&mut watch, 4);
    assert_eq!((watch.so_far(), watch.tally()), (&[5][..], 6));
    // The save that comes there holds no cell.
    run(&mut watch, 2 + 18);
    let second = [0xA3, 3, 0, 1, 0, 1, 0, 0, 0, 1, 0, 0, 0, 15, 0, 69, 0, 0x5A];
    assert_eq!(watch.chip()[24..42], second);
    // Another cut, and the rest: the third save is stored, and the fourth finds no room.
    watch.cut(vec![0x00; STATE_BYTES]);
    recover(&mut watch);
    assert_eq!(run(&mut watch, 1000), 4 + 2 + 18 + 4 + 1 + 1);
    assert_eq!(watch.so_far(), [5, 7, -2]);
}

#[test]
fn each_cut_before_and_each_after_the_change() {
    let mut met = Met::default();
    // The steps of two rounds under the sets until Q-3, and of the bytes erased and two rounds under today's.
    for (page, chip, until, today) in [(BYTE_CHIP, 100, 60, 72), (PAGE_CHIP, 96, 16, 20)] {
        for change in 0..=until {
            for cut in 0..=today {
                let mut watch = begun(page, chip);
                run(&mut watch, change);
                watch.change_day(vec![0x00; STATE_BYTES]);
                recover(&mut watch);
                run(&mut watch, cut);
                watch.cut(vec![0xFF; STATE_BYTES]);
                recover(&mut watch);
                run(&mut watch, 1000);
                assert_eq!(watch.so_far(), [5, 7, -2]);
                met.add_all(&watch.met);
            }
        }
    }
    // Each of the two saves is torn on the byte chip after 1 to 23 bytes, and on the page chip after its first page.
    let lists = 2 * 23 * 73 + 2 * 21;
    assert_eq!(met.get("changes on torn bytes"), lists);
    assert_eq!(met.get("torn bytes of before the change erased"), lists);
}
