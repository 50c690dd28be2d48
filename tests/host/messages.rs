//! The messages that the test programs make: right ones of the three forms and of old text records, and damaged ones.

use crate::lens::{self, Fixed, Record, Refusal};
use crate::library;
use crate::random::Random;

pub type Outcome = Result<usize, Refusal>;

// ---- records and fixed data in range

pub const LIMITS: [(i64, i64); 11] = [
    (0, 9_999_999),
    (0, 4095),
    (0, 250),
    (0, 9),
    (0, 1023),
    (0, 9_999_999),
    (0, 9_999_999),
    (0, 9_999_999),
    (0, 4095),
    (-999, 999),
    (0, 1000),
];

pub fn right_value(random: &mut Random, field: usize) -> i64 {
    let (low, high) = LIMITS[field - 1];
    match (field, random.below(4)) {
        (3, 0) => random.pick(&[0, 1, 9, 10, 98, 99, 100, 110, 120, 130, 240, 250]),
        (3, 1) => 10 * random.between(10, 25),
        (3, _) => random.between(0, 99),
        (10, 0) => random.pick(&[low, low + 1, -1, 0, 1, high - 1, high]),
        (_, 0) => random.pick(&[low, low + 1, high - 1, high]),
        _ => random.between(low, high),
    }
}

pub fn right_text(random: &mut Random, length: usize) -> Vec<u8> {
    (0..length).map(|_| if random.below(8) == 0 { random.pick(b" ~!}") } else { random.between(0x20, 0x7E) as u8 }).collect()
}

/// A name and trailing spaces, often none of the one or none of the other.
pub fn right_owner(random: &mut Random) -> Vec<u8> {
    let mut owner = right_text(random, 31);
    let name = random.pick(&[0, 0, 1, 2, 5, 15, 29, 30, 31, 31]);
    owner[name..].fill(b' ');
    owner
}

pub fn right_record(random: &mut Random) -> Record {
    let mut fields = [0; 11];
    for field in 1..=11 {
        fields[field - 1] = right_value(random, field);
    }
    Record { fields, serial: right_text(random, 9) }
}

pub fn right_fixed(random: &mut Random) -> Fixed {
    Fixed {
        serial: right_text(random, 9),
        owner: right_owner(random),
        kind: random.pick(b"PZ"),
        focal: random.pick(&[0, 1, 50, 99, 100, 998, 999]),
        maximum: random.between(0, 999) as u32,
        letter: random.pick(b"IMBb"),
        transmission: random.between(0, 99) as u32,
        version: right_text(random, 4),
    }
}

// ---- the three forms as a reader meets them

pub type Tries = &'static [&'static [u8]];

pub struct Form {
    pub reader: &'static str,
    /// Bytes before the checksum and LF CR.
    pub contents: usize,
    /// Bytes the exported reader puts out.
    pub output: usize,
    /// Widths of the message's fields or items in order, tags counted.
    pub parts: &'static [usize],
    /// A field or item, and what is worth trying in its place.
    pub edges: &'static [(usize, Tries)],
    pub right: fn(&mut Random, bool) -> Vec<u8>,
    pub reference: fn(&[u8], bool, &mut [u8]) -> Outcome,
    pub library: fn(&[u8], bool, &mut [u8]) -> Outcome,
}

const TEXT_EDGES: [(usize, Tries); 12] = [
    (1, &[b"D9999999", b"D0000000", b"d0000798", b"D   0798", b"D-000798"]),
    (2, &[b"T4095", b"T4096", b"T9999", b"t0680"]),
    (
        3,
        &[
            b"t09.", b"t10.", b"t25.", b"t26.", b"t99.", b"t00.", b"t0.0", b"t9.9", b"t.99", b"t1..", b"t..1", b"t...", b"t100",
            b"t 8.", b"t 8+", b"t5,6", b"T5.6",
        ],
    ),
    (4, &[b"+9", b"+:", b"+/", b"-5"]),
    (5, &[b"Z1023", b"Z1024", b"Z9999", b"z0000"]),
    (6, &[b"H9999999", b"N0006123"]),
    (7, &[b"N9999999"]),
    (8, &[b"F999999:"]),
    (9, &[b"V409.5", b"V409.6", b"V999.9", b"V27.30", b"V0273.", b"V02730"]),
    (10, &[b"E-000", b"E+000", b"E-001", b"E-999", b"E+999", b"E 023", b"E0023", b"E--01"]),
    (11, &[b"z1000", b"z1001", b"z9999", b"Z0000", b"z1.00"]),
    (12, &[b"S         ", b"S~~~~~~~~~", b"S12345678\x7F", b"S\x1F23456789", b"s4050.0093"]),
];

pub const TEXT: Form = Form {
    reader: "heron_read_text",
    contents: lens::TEXT,
    output: 53,
    parts: &[8, 5, 4, 2, 5, 8, 8, 8, 6, 5, 5, 10],
    edges: &TEXT_EDGES,
    right: |random, with_sum| lens::text_message(&right_record(random), with_sum).unwrap(),
    reference: lens::read_text,
    library: library::read_text,
};

/// A text record with thousandths that can be moved back.
pub fn right_new(random: &mut Random) -> Vec<u8> {
    let mut r = right_record(random);
    r.fields[10] -= r.fields[10] % 10;
    lens::text_message(&r, false).unwrap()
}

/// An old line: a text record's fields 1 to 10 and a zoom of so many hundredths.
pub fn right_old(random: &mut Random) -> Vec<u8> {
    let mut m = lens::text_message(&right_record(random), false).unwrap();
    let hundredths = if random.below(4) == 0 { random.pick(&[0, 1, 99, 100]) } else { random.below(101) };
    m.truncate(part_start(&TEXT, 11));
    m.extend(format!("z{}.{:02}\n\r", hundredths / 100, hundredths % 100).bytes());
    m
}

/// The text record's edges with others for the zoom, of as many fields as a line has.
const fn edges_with<const FIELDS: usize>(zooms: Tries) -> [(usize, Tries); FIELDS] {
    let mut edges = [(11, zooms); FIELDS];
    let mut place = 0;
    while place < FIELDS {
        if TEXT_EDGES[place].0 != 11 {
            edges[place] = TEXT_EDGES[place];
        }
        place += 1;
    }
    edges
}

const OLD_EDGES: [(usize, Tries); 11] = edges_with(&[
    b"z0.00", b"z0.57", b"z1.00", b"z1.01", b"z1.10", b"z2.00", b"z9.99", b"z.570", b"z00.5", b"z057.", b"z0570", b"z1000",
    b"z0,57", b"zO.57", b"z0.5x", b"z0.:7", b"z0.5/", b"z 0.5", b"z-.57", b"Z0.57", b"z0..5", b"z....",
]);

const NEW_EDGES: [(usize, Tries); 12] = edges_with(&[
    b"z0000", b"z0570", b"z1000", b"z0001", b"z0005", b"z0571", b"z0999", b"z1001", b"z1010", b"z9990", b"z0.57", b"z1.00",
    b"z057x", b"z05 0", b"Z0570",
]);

/// The serial that `OLD` adds.
pub const SERIAL: &[u8] = b"4050.0093";

/// Old lines moved forward. There is no checksum here, nor in `NEW`.
pub const OLD: Form = Form {
    reader: "heron_old_to_new",
    contents: lens::OLD,
    output: 76,
    parts: &[8, 5, 4, 2, 5, 8, 8, 8, 6, 5, 5],
    edges: &OLD_EDGES,
    right: |random, _| right_old(random),
    reference: |m, _, out| lens::old_to_new(m, SERIAL, out),
    library: |m, _, out| library::old_to_new(m, SERIAL, out),
};

/// Present lines moved back.
pub const NEW: Form = Form {
    reader: "heron_new_to_old",
    contents: lens::TEXT,
    output: 66,
    parts: TEXT.parts,
    edges: &NEW_EDGES,
    right: |random, _| right_new(random),
    reference: |m, _, out| lens::new_to_old(m, out),
    library: |m, _, out| library::new_to_old(m, out),
};

// Among the packed edges: distances 9,999,999 and 10,000,000, stops 250 and 251, 99 and 100 with and without bit 7, pupils minus
// zero, 999 and 1000, zooms 1000 and 1001, and bits set where none may be.
pub const PACKED: Form = Form {
    reader: "heron_read_packed",
    contents: lens::PACKED,
    output: 53,
    parts: &[5, 2, 1, 1, 2, 4, 4, 4, 2, 2, 2, 10],
    edges: &[
        (1, &[b"d\x66\x49\x59\x7F", b"d\x66\x49\x5A\x40", b"d\x7F\x7F\x7F\x7F", b"D\x40\x40\x4C\x5E", b"d\x40\x40\x0C\x5E"]),
        (2, &[b"\x7F\x7F", b"\x80\x40"]),
        (3, &[b"\xFA", b"\xFB", b"\xE3", b"\xE4", b"\xE6", b"\xE7", b"\x82", b"\x38"]),
        (4, &[b"\x80", b"\xC0", b"\xC9", b"\xCA", b"\x8F", b"\x95", b"\xA5", b"\x05", b"\x45"]),
        (5, &[b"\x4F\x7F", b"\x50\x40", b"\x60\x40"]),
        (6, &[b"\x66\x49\x59\x7F", b"\x66\x49\x5A\x40"]),
        (7, &[b"\x66\x49\x5A\x40"]),
        (8, &[b"\x66\x49\x5A\x40", b"\x7F\x7F\x7F\x7F"]),
        (9, &[b"\x7F\x7F"]),
        (
            10,
            &[
                b"\x60\x40",
                b"\x40\x40",
                b"\x60\x41",
                b"\x4F\x67",
                b"\x4F\x68",
                b"\x6F\x67",
                b"\x6F\x68",
                b"\x50\x40",
                b"\x70\x40",
                b"\x20\x40",
            ],
        ),
        (11, &[b"\x4F\x68", b"\x4F\x69", b"\x50\x40"]),
        (12, &[b"S         ", b"S~~~~~~~~~", b"S12345678\x7F", b"S\x1F23456789", b"s4050.0093"]),
    ],
    right: |random, with_sum| lens::packed_message(&right_record(random), with_sum).unwrap(),
    reference: lens::read_packed,
    library: library::read_packed,
};

/// Packed records turned into text, straight from the bytes.
pub const TO_TEXT: Form = Form {
    reader: "heron_packed_to_text",
    output: 78,
    reference: lens::packed_to_text,
    library: library::packed_to_text,
    ..PACKED
};

pub const FIXED: Form = Form {
    reader: "heron_read_fixed",
    contents: lens::FIXED,
    output: 51,
    parts: &[11, 32, 2, 4, 4, 2, 3, 7],
    edges: &[
        (1, &[b"nS4050.0093", b"Ns4050.0093", b"NS         ", b"NS\x7F050.0093", b"NS4050.009\x1F"]),
        (
            2,
            &[
                b"O                               ",
                b"OA                              ",
                b"O                              A",
                b"OA                             \x1F",
                b"OA                             \x7F",
                b"OA                             \x00",
                b"OA                             \xA0",
                b"o                               ",
            ],
        ),
        (3, &[b"LP", b"LZ", b"LA", b"Lp", b"lP"]),
        (4, &[b"N999", b"N 50", b"N05:", b"f050"]),
        (5, &[b"M000", b"M05/", b"N050"]),
        (6, &[b"UI", b"UM", b"UB", b"Ub", b"Ui", b"Um", b"uI"]),
        (7, &[b"T99", b"T9 ", b"T:0", b"E95"]),
        (8, &[b"  B~~~~", b"  B4.3\x7F", b"  b4.34", b" B4.34 ", b"   B4.3", b"\x00 B4.34", b" \x00B4.34"]),
    ],
    right: |random, with_sum| lens::fixed_message(&right_fixed(random), with_sum).unwrap(),
    reference: lens::read_fixed,
    library: library::read_fixed,
};

pub fn part_start(form: &Form, part: usize) -> usize {
    form.parts[..part - 1].iter().sum()
}

pub fn with_part(message: &[u8], form: &Form, part: usize, bytes: &[u8]) -> Vec<u8> {
    let mut m = message.to_vec();
    let start = part_start(form, part);
    m[start..start + bytes.len()].copy_from_slice(bytes);
    m
}

/// Puts LF CR at the end and, in checksum mode, the right checksum before it, so that a reader reaches the contents.
pub fn reseal(m: &mut [u8], with_sum: bool) {
    let ending = if with_sum { 4 } else { 2 };
    if m.len() < ending {
        return;
    }
    let (before, end) = m.split_at_mut(m.len() - ending);
    if with_sum {
        end[..2].copy_from_slice(&lens::checksum(before));
    }
    let last = end.len() - 2;
    end[last..].copy_from_slice(b"\n\r");
}

/// One damage: a byte changed, bytes cut or added, two fields exchanged, or an edge in a field's place.
pub fn damage(random: &mut Random, form: &Form, m: &mut Vec<u8>) {
    if m.len() < form.contents {
        return m.push(random.byte());
    }
    let place = random.below(m.len());
    let parts = form.parts.len();
    match random.below(12) {
        0 => m[place] = random.byte(),
        1 => m[place] ^= 1 << random.below(8),
        2 => m[place] = m[place].wrapping_add(random.pick(&[1, 255])),
        3 => m[place] = random.pick(b"/0123456789:.+- @DTtZHNFVEzSdNOLMUB\n\r"),
        4 => m.truncate(m.len() - 1 - random.below(3)),
        5 => drop(m.drain(place..(place + 1 + random.below(3)).min(m.len()))),
        6 => {
            for _ in 0..=random.below(3) {
                m.insert(place, random.byte());
            }
        }
        7 | 8 => {
            let (a, b) = (1 + random.below(parts), 1 + random.below(parts));
            let (a, b) = (a.min(b), a.max(b));
            if a != b {
                let (start, end) = (part_start(form, a), part_start(form, b) + form.parts[b - 1]);
                let middle = start + form.parts[a - 1]..part_start(form, b);
                let exchanged = [&m[middle.end..end], &m[middle.clone()], &m[start..middle.start]].concat();
                m[start..end].copy_from_slice(&exchanged);
            }
        }
        _ => {
            let (part, tries) = random.pick(form.edges);
            *m = with_part(m, form, part, random.pick(tries));
        }
    }
}

/// A message that a reader of this form may meet, right or damaged, and whether the reader is told of a checksum.
pub fn any_message(random: &mut Random, form: &Form) -> (Vec<u8>, bool) {
    let with_sum = random.flag();
    let mut m = (form.right)(random, with_sum);
    match random.below(12) {
        0 | 1 => {}
        2 | 3 => damage(random, form, &mut m),
        4..=8 => {
            for _ in 0..random.pick(&[1, 1, 1, 2, 3]) {
                damage(random, form, &mut m);
            }
            reseal(&mut m, with_sum);
        }
        9 => {
            m = (0..m.len()).map(|_| random.byte()).collect();
            if random.flag() {
                reseal(&mut m, with_sum);
            }
        }
        10 => {
            // Right at the front, anything from some place on.
            let place = random.below(form.contents);
            m[place..form.contents].iter_mut().for_each(|b| *b = random.byte());
            reseal(&mut m, with_sum);
        }
        _ => return (m, !with_sum),
    }
    (m, with_sum)
}
