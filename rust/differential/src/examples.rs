//! The plans in `examples/`. The reference's tests state the sets of all but MEAN.

/// Document 01's small plan.
pub const SMALL: &[u8] = include_bytes!("../../../examples/small.plan");

const CELL: &str = include_str!("../../../examples/cell.hex");
const SIEVE: &str = include_str!("../../../examples/sieve.hex");
const CONTOUR: &str = include_str!("../../../examples/contour.hex");
const MEAN: &str = include_str!("../../../examples/mean.hex");

/// Document 001's three programs, with their names.
pub fn programs() -> [(&'static str, Vec<u8>); 3] {
    [
        ("CELL", plan(CELL)),
        ("SIEVE", plan(SIEVE)),
        ("CONTOUR", plan(CONTOUR)),
    ]
}

/// The mean of the last eight readings: 24 readings and as many outputs, with a save after each.
pub fn mean() -> Vec<u8> {
    plan(MEAN)
}

/// The bytes of a plan written as text: hexadecimal, and comment from `#` to the line's end.
fn plan(text: &str) -> Vec<u8> {
    text.lines()
        .flat_map(|line| line.split('#').next())
        .flat_map(str::split_whitespace)
        .map(|byte| u8::from_str_radix(byte, 16).expect("two hexadecimal digits"))
        .collect()
}

/// The small plan's first two saves, with readings 5 and 7.
pub const FIRST: [u8; 24] = [
    0xA1, 0x00, 0x05, 0x00, 0x00, 0x00, 0xA3, 0x11, 0x00, 0x0F, 0x00, 0x01, 0x00, 0x00, 0x00, 0x01,
    0x00, 0x00, 0x00, 0x14, 0x00, 0x44, 0x00, 0x5A,
];
pub const SECOND: [u8; 24] = [
    0xA1, 0x00, 0x0C, 0x00, 0x00, 0x00, 0xA3, 0x11, 0x00, 0x0F, 0x00, 0x02, 0x00, 0x00, 0x00, 0x02,
    0x00, 0x00, 0x00, 0x14, 0x00, 0x44, 0x00, 0x5A,
];
