//! What the tests share.

/// The bytes of a plan written as text: hexadecimal, and comment from `#` to the line's end.
pub fn plan(text: &str) -> Vec<u8> {
    text.lines()
        .flat_map(|line| line.split('#').next())
        .flat_map(str::split_whitespace)
        .map(|byte| u8::from_str_radix(byte, 16).expect("two hexadecimal digits"))
        .collect()
}
