//! The bytes that document 001's programs save, counted by hand from the sets that the reference's tests state: a save
//! has 6 bytes for a cell and 18 for its mark.

use bench::sizes::{sizes, Sizes};

fn of(program: &'static str, rule: &'static str, cells: &[usize]) -> Sizes {
    Sizes {
        program,
        rule,
        saves: cells.iter().map(|cells| 6 * cells + 18).collect(),
    }
}

/// CELL has 55 cells, 7 of them in DE and 39 others in RO, which the first save still holds.
#[test]
fn cell() {
    let expected = [
        of("CELL", "every cell", &[55, 55]),
        of("CELL", "less read-only", &[55, 16]),
        of("CELL", "this engine", &[48, 9]),
    ];
    assert_eq!(sizes()[..3], expected);
}

/// SIEVE saves 15 times. Of its 23 cells 3 are in DE and 3 others in RO.
#[test]
fn sieve() {
    let saves = |first, later| [vec![first], vec![later; 14]].concat();
    let expected = [
        of("SIEVE", "every cell", &saves(23, 23)),
        of("SIEVE", "less read-only", &saves(23, 20)),
        of("SIEVE", "this engine", &saves(20, 17)),
    ];
    assert_eq!(sizes()[3..6], expected);
}

/// CONTOUR saves after each of 3 rows, for 3 contours. Of its 43 cells 5 are in DE and 36 others in RO, 25 of them MAP.
/// The first contour is found in rows 1 and 3, the second in all, the third in none; MAP is saved again after a row in
/// which one is found.
#[test]
fn contour() {
    let saves = |first, found, none| [first, none, found, found, found, found, none, none, none];
    let expected = [
        of("CONTOUR", "every cell", &[43; 9]),
        of("CONTOUR", "less read-only", &saves(43, 32, 7)),
        of("CONTOUR", "this engine", &saves(38, 27, 2)),
    ];
    assert_eq!(sizes()[6..], expected);
}
