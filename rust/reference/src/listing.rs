//! Document 01's listing of a plan's sets, as the program plan-sets writes it.

use crate::analysis::{analyse, Set};

/// The whole listing. "After the header, one line per EXCLUDE by offset: its offset, DE, RO, the
/// cells in neither, rising; an empty set leaves its word without numbers. The header has the cell
/// count. A refused plan gives one line only. Every line ends with a line feed."
pub fn listing(plan: &[u8]) -> String {
    let analysis = match analyse(plan) {
        Ok(analysis) => analysis,
        Err(refusal) => return format!("refused {refusal}\n"),
    };
    let mut text = format!("cells {}\n", analysis.checked.cells);
    for (offset, de, ro) in &analysis.excludes {
        let in_neither = |cell: &u8| !de.contains(cell) && !ro.contains(cell);
        let saved: Set = (0..=plan[0]).filter(in_neither).collect();
        let (de, ro, saved) = (numbers(de), numbers(ro), numbers(&saved));
        text += &format!("{offset} dead{de} fixed{ro} saved{saved}\n");
    }
    text
}

/// The set's cells, rising, each after a space.
fn numbers(set: &Set) -> String {
    set.iter().map(|cell| format!(" {cell}")).collect()
}

#[cfg(test)]
mod tests {
    use super::*;

    #[test]
    fn the_small_plan() {
        let small = [
            0x02, 0x02, 0x00, 0x00, 0x00, 0x00, 0x00, 0x07, 0x01, 0x04, 0x00, 0x00, 0x01, 0x08,
            0x00, 0x0D, 0x0E, 0x09, 0x07, 0x00,
        ];
        assert_eq!(listing(&small), "cells 3\n15 dead 1 2 fixed 2 saved 0\n");
    }

    #[test]
    fn empty_sets() {
        let exclude_alone = [0x00, 0x0D, 0x01];
        assert_eq!(listing(&exclude_alone), "cells 1\n1 dead fixed 0 saved\n");
        // EXCLUDE, READ 0, EMIT 0: cell 0 is in neither set.
        let read = [0x00, 0x0D, 0x07, 0x00, 0x08, 0x00, 0x01];
        assert_eq!(listing(&read), "cells 1\n1 dead fixed saved 0\n");
    }

    #[test]
    fn a_line_for_each_exclude_and_numbers_by_value() {
        // EXCLUDE, PUT to cells 2 to 10, EXCLUDE, END, with 12 cells.
        let two = [0x0B, 0x0D, 0x0C, 2, 9, 0, 0, 0x0D, 0x01];
        assert_eq!(
            listing(&two),
            "cells 12\n\
             1 dead fixed 0 1 11 saved 2 3 4 5 6 7 8 9 10\n\
             7 dead fixed 0 1 2 3 4 5 6 7 8 9 10 11 saved\n"
        );
    }

    #[test]
    fn no_exclude_leaves_the_header() {
        assert_eq!(listing(&[0x00, 0x01]), "cells 1\n");
        assert_eq!(listing(&[0xFF, 0x01]), "cells 256\n");
    }

    #[test]
    fn a_refused_plan() {
        assert_eq!(listing(&[]), "refused 1\n");
        assert_eq!(listing(&[0x00, 0x7F]), "refused 2\n");
        assert_eq!(listing(&[0x00, 0x0D, 0x09, 0x00, 0x00]), "refused 8\n");
    }
}
