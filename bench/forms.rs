//! plain.rs as the reference port asks for it: what is handed in is in range, and the buffer has room.

use crate::plain::{convert, put_fixed, Fixed};
use crate::port::Settings;

pub use crate::plain::{checksum, put_packed as packed, put_text as text};

pub fn fixed(s: &Settings, with_sum: bool, out: &mut [u8]) -> usize {
    let fixed = Fixed {
        serial: &s.serial,
        owner: &s.owner,
        kind: s.kind,
        focal: s.focal,
        maximum: s.maximum,
        letter: s.letter,
        transmission: s.transmission,
        version: &s.version,
    };
    put_fixed(&fixed, with_sum, out)
}

pub fn converted(field: usize, n: i32, unit: u8, wanted: u8) -> i32 {
    convert(field as u32, n, unit, wanted).expect("a measurement is in range")
}
