//! Stand-in for const-str: `hex!` over an array of lines, each of bytes in two
//! hexadecimal digits with single spaces between them.

#![no_std]

#[macro_export]
macro_rules! hex {
    ([$($line:literal),* $(,)?]) => {{
        const LINES: &[&str] = &[$($line),*];
        const LENGTH: usize = $crate::length(LINES);
        const BYTES: [u8; LENGTH] = $crate::bytes(LINES);
        BYTES
    }};
}

/// How many bytes stand in the lines.
#[must_use]
pub const fn length(lines: &[&str]) -> usize {
    let mut n = 0;
    let mut i = 0;
    while i < lines.len() {
        n += (lines[i].len() + 1) / 3;
        i += 1;
    }
    n
}

/// The bytes of the lines. `N` is their [`length`].
#[must_use]
pub const fn bytes<const N: usize>(lines: &[&str]) -> [u8; N] {
    let mut out = [0; N];
    let mut n = 0;
    let mut i = 0;
    while i < lines.len() {
        let line = lines[i].as_bytes();
        let mut j = 0;
        while j < line.len() {
            assert!(j + 2 == line.len() || line[j + 2] == b' ', "one space after a byte");
            out[n] = digit(line[j]) << 4 | digit(line[j + 1]);
            n += 1;
            j += 3;
        }
        i += 1;
    }
    assert!(n == N);
    out
}

const fn digit(character: u8) -> u8 {
    match (character as char).to_digit(16) {
        Some(value) => value as u8,
        None => panic!("a hexadecimal digit"),
    }
}
