//! The forms of lens.rs as the reference port asks for them: what is handed in is in range, and the buffer has room.

use crate::lens;
use crate::port::Settings;

fn record(fields: &[i32; 11], serial: &[u8; 9]) -> lens::Record {
    lens::Record { fields: fields.map(i64::from), serial: serial.to_vec() }
}

pub fn text(fields: &[i32; 11], serial: &[u8; 9], with_sum: bool, out: &mut [u8]) -> usize {
    lens::write_text(&record(fields, serial), with_sum, out).expect("a measurement is sendable in either unit")
}

pub fn packed(fields: &[i32; 11], serial: &[u8; 9], with_sum: bool, out: &mut [u8]) -> usize {
    lens::write_packed(&record(fields, serial), with_sum, out).expect("a measurement is sendable in either unit")
}

pub fn fixed(s: &Settings, with_sum: bool, out: &mut [u8]) -> usize {
    let fixed = lens::Fixed {
        serial: s.serial.to_vec(),
        owner: s.owner.to_vec(),
        kind: s.kind,
        focal: s.focal,
        maximum: s.maximum,
        letter: s.letter,
        transmission: s.transmission,
        version: s.version.to_vec(),
    };
    lens::write_fixed(&fixed, with_sum, out).expect("a port's settings are in range")
}

pub fn converted(field: usize, n: i32, unit: u8, wanted: u8) -> i32 {
    lens::convert(field as u32, n, unit, wanted).expect("a measurement is in range")
}

pub use lens::checksum;
