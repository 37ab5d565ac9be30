//! What the lists met, counted by name: a test that met too little of something has shown nothing.

use std::collections::BTreeMap;
use std::fmt;

use reference::journal::BYTE_CHIP;

use crate::days::Days;
use crate::list::Sort;
use crate::marks::Marks;
use crate::notes::Notes;

/// How much of what a thousand lists have to meet at least, or their test has shown too little.
const FLOORS: [(&str, u64); 25] = [
    ("whole saves", 1000),
    ("torn saves", 400),
    ("saves passed over", 1000),
    ("cuts in erasing", 100),
    ("cuts in a recovery", 250),
    ("cuts", 2000),
    ("recoveries", 2000),
    ("runs", 2500),
    ("bytes erased", 3000),
    ("fresh outputs", 1000),
    ("repeated outputs", 400),
    ("stops reached", 250),
    ("refused calls of the other kind", 250),
    ("refused 1", 10),
    ("refused 2", 10),
    ("refused 3", 10),
    ("refused 4", 10),
    ("refused 5", 10),
    ("refused 6", 10),
    ("refused 7", 10),
    ("refused 8", 10),
    ("refused 9", 10),
    ("refused 10", 10),
    ("refused 11", 10),
    ("refused 12", 10),
];

/// The same for what only lists for a page chip meet.
const FLOORS_OF_PAGES: [(&str, u64); 1] = [("saves with filling", 1000)];

/// The same for what only lists on which the day changes meet. "Since" is since Q-3.
const FLOORS_OF_CHANGE: [(&str, u64); 11] = [
    ("changes of day", 1000),
    ("lists whose DE grew", 300),
    ("changes on a whole save", 200),
    ("changes on a whole save with a cell in DE since", 40),
    ("changes on torn bytes", 150),
    ("torn bytes of before the change erased", 150),
    ("saves with other bytes than were torn there", 35),
    ("recoveries that mark a cell Dead since", 180),
    ("saves with a cell in DE since", 70),
    ("saves without a cell in DE since", 220),
    ("stops reached after the change", 300),
];

/// The same for what only lists meet whose calls get the sets of either day.
const FLOORS_OF_EITHER: [(&str, u64); 7] = [
    ("lists whose DE grew", 300),
    ("calls with the sets until Q-3", 4000),
    ("calls with today's sets", 4000),
    ("recoveries that mark a cell Dead since", 60),
    ("recoveries that mark it as until Q-3", 60),
    ("saves with a cell in DE since", 120),
    ("saves without a cell in DE since", 120),
];

/// The same for what only lists with folds meet.
const FLOORS_OF_FOLDS: [(&str, u64); 27] = [
    ("folds", 1000),
    ("folds of a chip with torn bytes", 300),
    ("folds of a chip without a whole save", 400),
    ("folds of a chip with several saves", 180),
    ("folds in a list that had one", 500),
    ("folds to a shorter chip", 400),
    ("folds to a longer chip", 300),
    ("folds to a chip as long as the save", 130),
    ("calls of folding", 3000),
    ("cuts in a fold", 700),
    ("cuts within the save", 230),
    ("numbers found again below the lost one", 20),
    ("saves behind a fold", 700),
    ("stops reached after a fold", 230),
    ("folds refused 1", 2),
    ("folds refused 2", 2),
    ("folds refused 3", 2),
    ("folds refused 4", 2),
    ("folds refused 5", 2),
    ("folds refused 6", 2),
    ("folds refused 7", 2),
    ("folds refused 8", 2),
    ("folds refused 9", 80),
    ("folds refused 11", 80),
    ("folds refused 12", 40),
    ("folds refused 13", 150),
    ("folds refused 14", 40),
];

/// The same for what only lists with folds meet on which the day changes.
const FLOORS_OF_FOLDS_AND_CHANGE: [(&str, u64); 4] = [
    ("changes of day", 1000),
    ("lists whose DE grew", 300),
    ("changes of day after a fold", 250),
    ("changes of day before a fold", 300),
];

/// The same for what only lists meet whose engine writes A3 marks from the beginning.
const FLOORS_OF_A3: [(&str, u64); 2] = [("refused 15", 5), ("refused 16", 5)];

/// The same for what only lists with folds meet of these.
const FLOORS_OF_FOLDS_AND_A3: [(&str, u64); 1] = [("folds refused 16", 5)];

/// The same for what only lists meet that go over from A2 to A3 marks.
const FLOORS_OF_MARKS: [(&str, u64); 10] = [
    ("changes of marks", 1000),
    ("changes on A2 marks", 300),
    ("changes on several A2 marks", 80),
    ("changes on A2 marks and torn bytes", 60),
    ("changes on a torn A2 alone", 20),
    ("changes on a chip without a mark", 100),
    ("folds from A2 to A3", 400),
    ("cuts in a fold from A2 to A3", 150),
    ("old chips refused within a fold", 200),
    ("stops reached after the change of marks", 200),
];

/// The same for what only lists with notes meet.
const FLOORS_OF_NOTES: [(&str, u64); 11] = [
    ("notes", 600),
    ("notes that recovery reads", 500),
    ("notes in an earlier save", 200),
    ("notes in a cell live at its own CHECKPOINT", 100),
    ("notes with torn bytes behind", 150),
    ("notes of several at a time", 200),
    ("notes of 0", 60),
    ("notes over 0", 100),
    ("notes with a byte FF", 100),
    ("saves behind a note", 150),
    ("stops reached after a note", 80),
];

/// The same for what only lists with notes and folds meet.
const FLOORS_OF_NOTES_AND_FOLDS: [(&str, u64); 2] = [
    ("notes on a folded chip", 400),
    ("folds behind a note", 150),
];

/// The same for what only lists with notes meet that go over from A2 to A3 marks.
const FLOORS_OF_NOTES_AND_MARKS: [(&str, u64); 1] = [("notes on A2 marks", 150)];

#[derive(Clone, Debug, Default)]
pub struct Met(BTreeMap<&'static str, u64>);

impl Met {
    pub fn count(&mut self, name: &'static str) {
        self.add(name, 1);
    }

    pub fn add(&mut self, name: &'static str, number: u64) {
        *self.0.entry(name).or_default() += number;
    }

    /// Adds what other lists met.
    pub fn add_all(&mut self, other: &Met) {
        for (name, number) in &other.0 {
            self.add(name, *number);
        }
    }

    pub fn get(&self, name: &str) -> u64 {
        self.0.get(name).copied().unwrap_or(0)
    }

    /// Asserts that the lists of this sort met enough of everything.
    pub fn assert_floors(&self, sort: Sort) {
        self.assert_floors_per("lists", &FLOORS);
        if sort.page > BYTE_CHIP {
            self.assert_floors_per("lists", &FLOORS_OF_PAGES);
        }
        if sort.folds {
            self.assert_floors_per("lists", &FLOORS_OF_FOLDS);
        }
        let of_marks: &[_] = match (sort.marks, sort.folds) {
            (Marks::A3, false) => &FLOORS_OF_A3,
            (Marks::A3, true) => &[FLOORS_OF_A3[0], FLOORS_OF_A3[1], FLOORS_OF_FOLDS_AND_A3[0]],
            (Marks::A2, _) => &[],
            (Marks::Change, _) => &FLOORS_OF_MARKS,
        };
        self.assert_floors_per("lists", of_marks);
        let of_days: &[_] = match (sort.days, sort.folds, sort.marks) {
            (Days::Today, _, _) => &[],
            // Few folds come before the marks change, and no change of day after that.
            (Days::Change, _, Marks::Change) => &FLOORS_OF_FOLDS_AND_CHANGE[..2],
            (Days::Change, false, _) => &FLOORS_OF_CHANGE,
            (Days::Change, true, _) => &FLOORS_OF_FOLDS_AND_CHANGE,
            (Days::Either, _, _) => &FLOORS_OF_EITHER,
        };
        self.assert_floors_per("lists", of_days);
        self.assert_floors_of_notes(sort);
    }

    /// The same of the notes in lists of a sort that has them.
    fn assert_floors_of_notes(&self, sort: Sort) {
        if sort.notes == Notes::Nowhere {
            return;
        }
        self.assert_floors_per("lists", &FLOORS_OF_NOTES);
        if sort.folds {
            self.assert_floors_per("lists", &FLOORS_OF_NOTES_AND_FOLDS);
        }
        if sort.marks == Marks::Change {
            self.assert_floors_per("lists", &FLOORS_OF_NOTES_AND_MARKS);
        }
    }

    /// Asserts that every thousand of what is named met as much as the floors say.
    pub fn assert_floors_per(&self, of: &str, floors: &[(&str, u64)]) {
        let all = self.get(of);
        assert!(all > 0, "no {of}");
        for (name, floor) in floors {
            let met = self.get(name);
            assert!(1000 * met >= floor * all, "{met} {name} in {all} {of}");
        }
    }
}

impl fmt::Display for Met {
    fn fmt(&self, text: &mut fmt::Formatter) -> fmt::Result {
        for (name, number) in &self.0 {
            writeln!(text, "{number:>9} {name}")?;
        }
        Ok(())
    }
}
