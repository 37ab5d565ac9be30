//! The notes tool: it lists the places that the reference tells, on chips that lists of calls left,
//! for either kind; where it puts notes, the host goes on and loses no output; what is refused is
//! told. Tools with mistakes are caught.

use std::path::Path;

use claim::marks::{remarked, with_a2};
use claim::plans::plan;
use differential::places::left_by_list;
use differential::rng::Rng;
use differential::states::Shape;
use reference::journal::{owner, Kind, BYTE_CHIP, ERASED, MAX_CHIP};
use reference::notes::spent_values;

use crate::board::{Board, Cut, End};
use crate::building::{cut_host, folder, host, notes_tool, Edit};
use crate::trial::Trial;
use crate::KINDS;

const MISTAKES: [Edit; 4] = [
    Edit {
        name: "any_record",
        budget: 1,
        old: "record[0] == RECORD && is_spent(notes, at)",
        new: "record[0] == RECORD && (is_spent(notes, at) || 1)",
    },
    Edit {
        name: "the_last_record_is_left_out",
        budget: 1,
        old: "at + VALUE_SIZE <= notes->chip_len",
        new: "at + 30 <= notes->chip_len",
    },
    Edit {
        name: "the_highest_byte_first",
        budget: 1,
        old: "bytes[0] | (uint32_t)bytes[1] << 8 | (uint32_t)bytes[2] << 16 | (uint32_t)bytes[3] << 24",
        new: "bytes[3] | (uint32_t)bytes[2] << 8 | (uint32_t)bytes[1] << 16 | (uint32_t)bytes[0] << 24",
    },
    Edit {
        name: "of_the_other_kind",
        budget: 1,
        old: "        notes.spent = pitskelo_page_spent;",
        new: "        notes.spent = pitskelo_spent;",
    },
];

/// The lines that the tool has to write for the chip.
fn expected(plan: &[u8], chip: &[u8], page: usize) -> String {
    let values = spent_values(plan, chip, page, Kind::A3).expect("a list leaves a sound chip");
    let line = |at: usize, cell: u8| {
        let bytes = chip[at..at + 4].try_into().expect("four bytes");
        format!("{at} cell {cell} value {}\n", u32::from_le_bytes(bytes))
    };
    let lines = values.iter().map(|value| line(value.at, value.cell));
    lines.collect()
}

/// How the tool ends where the list is whole.
fn whole() -> End {
    End::Done(String::new())
}

/// A random plan that saves.
fn saving_plan(rng: &mut Rng) -> Vec<u8> {
    loop {
        let plan = plan(rng);
        if !Shape::of(&plan, BYTE_CHIP).checkpoints.is_empty() {
            return plan;
        }
    }
}

/// Lists the places of many chips, and gives how many lines they had, or the first chip whose list
/// is not the reference's.
fn list_many(tool: &Path, folder: &Path, page: usize) -> Result<[usize; 2], String> {
    let mut rng = Rng::new(0x4E4F_5445 + page as u64);
    let [mut chips, mut lines] = [0; 2];
    for _ in 0..150 {
        let plan = saving_plan(&mut rng);
        let chip = left_by_list(&mut rng, &plan, page);
        let board = Board::new(tool, folder, &plan, &[], 0, page);
        board.set_chip(&chip);
        let expected = expected(&plan, &chip, page);
        let listed = board.notes(tool);
        assert_eq!(board.chip(), chip, "the chip is only read");
        if listed != (expected.clone(), whole()) {
            return Err(format!("{listed:?}, not {expected:?}"));
        }
        chips += usize::from(!expected.is_empty());
        lines += expected.lines().count();
    }
    Ok([chips, lines])
}

#[test]
fn it_lists_what_the_reference_tells() {
    for page in KINDS {
        let folder = folder(&format!("notes-{page}"));
        let [chips, lines] = list_many(&notes_tool(&folder, None), &folder, page).unwrap();
        println!("pages of {page}: {lines} places on {chips} of 150 chips");
        assert!(chips >= 20 && lines >= 100);
    }
}

/// The last shows on a page chip alone.
#[test]
fn mistakes_of_the_notes_tool_are_caught() {
    for edit in &MISTAKES {
        let folder = folder(&format!("notes-{}", edit.name));
        let tool = notes_tool(&folder, Some(edit));
        let faults = KINDS.map(|page| list_many(&tool, &folder, page).err());
        println!("{}: {:?}", edit.name, faults.iter().flatten().next());
        assert!(faults.iter().any(Option::is_some), "{}", edit.name);
    }
}

/// CHECKPOINT, READ 1, EMIT 0, CHECKPOINT, READ 0, EMIT 1, JUMP to the first, with three cells. Its
/// outputs are 0 and then the readings.
const TURNS: [u8; 14] = [
    0x02, 0x0E, 0x07, 1, 0x08, 0, 0x0E, 0x07, 0, 0x08, 1, 0x09, 1, 0,
];

const READINGS: [i32; 4] = [5, 7, -2, 11];

/// Puts another note in each place that the tool lists, and gives how many.
fn put_notes(board: &Board, tool: &Path) -> usize {
    let (list, end) = board.notes(tool);
    assert_eq!(end, whole());
    let mut chip = board.chip();
    for (number, line) in list.lines().enumerate() {
        let (at, _) = line.split_once(' ').expect("an offset and more");
        let at: usize = at.parse().expect("an offset");
        chip[at..at + 4].fill([0x00, ERASED, 0xA1][number % 3]);
    }
    board.set_chip(&chip);
    list.lines().count()
}

/// The host is cut before every chip byte, page and flush; the service desk puts notes in every
/// place that the tool lists; the host goes on.
#[test]
fn where_it_lists_a_place_a_note_costs_no_output() {
    for page in KINDS {
        let folder = folder(&format!("notes-host-{page}"));
        let (host, tool) = (cut_host(&folder, 1, None), notes_tool(&folder, None));
        let board = Board::new(&host, &folder, &TURNS, &READINGS, 144, page);
        let expected = [0, 5, 7, -2];
        let mut notes = 0;
        for cut in 1.. {
            let mut trial = Trial::new(&board, &expected);
            if trial.live(0, Cut::Before(cut)).unwrap() {
                break;
            }
            // Once more where it has ended: it recovers and ends there again.
            for _ in 0..2 {
                notes += put_notes(&board, &tool);
                assert!(trial.live(0, Cut::Never).unwrap(), "killed by nobody");
            }
        }
        println!("pages of {page}: {notes} notes");
        assert!(notes >= 60);
    }
}

#[test]
fn what_is_refused_is_told_and_nothing_is_listed() {
    for page in KINDS {
        let folder = folder(&format!("notes-refusals-{page}"));
        let (tool, host) = (notes_tool(&folder, None), host(&folder));
        let board = Board::new(&host, &folder, &TURNS, &READINGS, 144, page);
        let refused = |board: &Board, chip: &[u8], told: &str| {
            board.set_chip(chip);
            let told = End::Failed(format!("exit status: 1: notes: {told}\n"));
            assert_eq!(board.notes(&tool), (String::new(), told));
            assert_eq!(board.chip(), chip);
        };
        board.start(0, Cut::Never);
        let chip = board.chip();
        assert_eq!(board.notes(&tool), (expected(&TURNS, &chip, page), whole()));
        let other = remarked(&TURNS, &chip, page, |_, _| Some(owner(&TURNS) + 1));
        let told = "the chip belongs to another plan\nnotes: spent: refused 16";
        refused(&board, &other.expect("the chip has saves"), told);
        let old = with_a2(&TURNS, &chip, page).expect("the chip has saves");
        let told = "the chip has old marks: fold it onto a blank one\nnotes: spent: refused 15";
        refused(&board, &old, told);
        refused(&board, &[0x00; 16], "spent: refused 12");
        refused(&board, &vec![ERASED; MAX_CHIP + 1], "spent: refused 11");
        let too_long = Board::new(&host, &folder, &[0x01; 2_049], &[], 0, page);
        refused(&too_long, &chip, "spent: refused 1");
    }
}
