//! Records, fixed data and lines that are right or wrong: fields out of range, texts of another length, zooms of any characters.

use crate::lens::{Fixed, Record};
use crate::messages::*;
use crate::random::Random;

// ---- records and fixed data, in range or out of it

/// What the C interface can hand over as this field: a signed number for the pupil, an unsigned one for the others.
pub fn as_argument(field: usize, v: i64) -> i64 {
    if field == 10 {
        i64::from(v as i32)
    } else {
        i64::from(v as u32)
    }
}

fn wrong_value(random: &mut Random, field: usize) -> i64 {
    let (low, high) = LIMITS[field - 1];
    let v = match (field, random.below(8)) {
        (3, 0..=3) => random.between(100, 260),
        (_, 0) => high + 1,
        (_, 1) => low - 1,
        (_, 2) => high + random.between(1, 100),
        (_, 3) => low - random.between(1, 100),
        (_, 4) => right_value(random, field) + random.pick(&[1 << 8, 1 << 10, 1 << 12, 1 << 16, 1 << 24, 1 << 31]),
        (_, 5) => random.pick(&[0x7FFF_FFFF, 0x8000_0000, 0x8000_0001, 0xFFFF_FFFF, 0x00FF_FFFF, 0x0100_0000]),
        _ => random.next() as i64,
    };
    as_argument(field, v)
}

/// A byte out of range in it, or another length.
pub fn wrong_text(random: &mut Random, length: usize) -> Vec<u8> {
    let mut text = right_text(random, length);
    match random.below(6) {
        0 => text.clear(),
        1 => text.truncate(length - 1),
        2 => text.push(b'x'),
        3 => {
            let other = random.below(2 * length);
            text = right_text(random, other);
        }
        _ => {
            let place = random.below(length);
            text[place] = random.pick(&[0x00, 0x0A, 0x0D, 0x1F, 0x7F, 0x80, 0xA0, 0xFE, 0xFF]);
        }
    }
    text
}

/// Nothing wrong, one field wrong, or several: bit n - 1 stands for field or item n.
fn wrongs(random: &mut Random, fields: usize) -> u32 {
    let count = random.pick(&[0, 0, 0, 1, 1, 2, 3, 6]);
    (0..count).fold(0, |set, _| set | 1 << random.below(fields))
}

pub fn any_record(random: &mut Random) -> Record {
    let mut r = right_record(random);
    let wrong = wrongs(random, 12);
    for field in (1..=11).filter(|field| wrong >> (field - 1) & 1 == 1) {
        r.fields[field - 1] = wrong_value(random, field);
    }
    if wrong >> 11 & 1 == 1 {
        r.serial = wrong_text(random, 9);
    }
    r
}

pub fn any_fixed(random: &mut Random) -> Fixed {
    let mut f = right_fixed(random);
    let wrong = wrongs(random, 8);
    for item in (1..=8).filter(|item| wrong >> (item - 1) & 1 == 1) {
        let past = |random: &mut Random, limit: u32| match random.below(3) {
            0 => limit + 1,
            1 => random.pick(&[limit + 2, limit + 256, limit + 65536, 0x8000_0000, 0xFFFF_FFFF]),
            _ => random.next() as u32,
        };
        match item {
            1 => f.serial = wrong_text(random, 9),
            2 => f.owner = wrong_text(random, 31),
            3 => f.kind = random.byte(),
            4 => f.focal = past(random, 999),
            5 => f.maximum = past(random, 999),
            6 => f.letter = random.byte(),
            7 => f.transmission = past(random, 99),
            _ => f.version = wrong_text(random, 4),
        }
    }
    f
}

// ---- lines of either form

/// A zoom of either form, in range or a little past it, with a point anywhere, or of any characters.
fn any_zoom(random: &mut Random) -> Vec<u8> {
    let mut zoom = match random.below(4) {
        0 => format!("z{}.{:02}", random.below(2), random.below(100)),
        _ => format!("z{:04}", random.below(1010)),
    }
    .into_bytes();
    match random.below(4) {
        0 => zoom[1 + random.below(4)] = random.pick(b"0123456789.:/ xO"),
        1 => zoom[1..].iter_mut().for_each(|b| *b = random.pick(b"00123456789....x")),
        _ => {}
    }
    zoom
}

/// A line as it is or damaged, also with a byte doubled, another pupil of zero or another zoom.
pub fn any_line(random: &mut Random, form: &Form) -> Vec<u8> {
    let mut m = (form.right)(random, false);
    if random.below(8) == 0 {
        m = with_part(&m, form, 10, random.pick(&[b"E-000", b"E+000", b"E-001", b"E-999"]));
    }
    if random.below(6) == 0 {
        m = with_part(&m, form, 11, &any_zoom(random));
    }
    for _ in 0..random.pick(&[0, 0, 0, 0, 0, 1, 1, 2, 3]) {
        let place = random.below(m.len());
        match random.below(4) {
            0 => m.insert(place, m[place]),
            _ => damage(random, form, &mut m),
        }
    }
    let last = m.len() - 1 - random.below(2);
    match random.below(12) {
        0 => m[last] = random.byte(),
        1 | 2 => {}
        _ => reseal(&mut m, false),
    }
    m
}
