//! The lens side's messages in plain Rust, written from document 01 and the requests alone: the text record (D), the packed
//! record (Kd), the fixed data (N), the owner's part, old text records, packed records as text, the unit conversion and the checksum.
//!
//! Values are fields 1 to 11 as they stand in document 01's table (`fields[0]` is field 1). A function answers what is
//! asked for or a refusal: document 01's number and the value that comes with it.

use std::ops::Range;

#[derive(Debug, Clone, Copy, PartialEq, Eq)]
pub struct Refusal {
    pub number: u32,
    pub value: u64,
}

/// A record as a caller hands it in: nothing is in range yet, and the serial may have any length.
#[derive(Debug, Clone, PartialEq, Eq)]
pub struct Record {
    pub fields: [i64; 11],
    pub serial: Vec<u8>,
}

/// Items 1 to 8 of the settings.
#[derive(Debug, Clone, PartialEq, Eq)]
pub struct Fixed {
    pub serial: Vec<u8>,
    pub owner: Vec<u8>,
    pub kind: u8,
    pub focal: u32,
    pub maximum: u32,
    pub letter: u8,
    pub transmission: u32,
    pub version: Vec<u8>,
}

// Lengths of what stands before the checksum and LF CR.
pub const TEXT: usize = 74;
pub const PACKED: usize = 39;
pub const FIXED: usize = 65;

fn refusal(number: u32, value: usize) -> Refusal {
    Refusal { number, value: value as u64 }
}

// ---- ranges

fn fits(field: usize, v: i64) -> bool {
    match field {
        1 | 6 | 7 | 8 => (0..=9_999_999).contains(&v),
        2 | 9 => (0..=4095).contains(&v),
        3 => (0..=99).contains(&v) || ((100..=250).contains(&v) && v % 10 == 0),
        4 => (0..=9).contains(&v),
        5 => (0..=1023).contains(&v),
        10 => (-999..=999).contains(&v),
        11 => (0..=1000).contains(&v),
        _ => false,
    }
}

fn is_text(bytes: &[u8], length: usize) -> bool {
    bytes.len() == length && bytes.iter().all(|b| (0x20..=0x7E).contains(b))
}

/// The lowest field out of range.
fn wrong_field(r: &Record) -> Option<usize> {
    (1..=11).find(|&field| !fits(field, r.fields[field - 1])).or((!is_text(&r.serial, 9)).then_some(12))
}

/// The lowest item out of range.
fn wrong_item(f: &Fixed) -> Option<usize> {
    let right = [
        is_text(&f.serial, 9),
        is_text(&f.owner, 31),
        b"PZ".contains(&f.kind),
        f.focal <= 999,
        f.maximum <= 999,
        b"IMBb".contains(&f.letter),
        f.transmission <= 99,
        is_text(&f.version, 4),
    ];
    right.iter().position(|ok| !ok).map(|place| place + 1)
}

// ---- the frame

pub fn checksum(bytes: &[u8]) -> [u8; 2] {
    let sum = bytes.iter().fold(0xFF, |sum, b| sum ^ b);
    [0x40 + sum / 16, 0x40 + sum % 16]
}

fn sealed(mut contents: Vec<u8>, with_sum: bool) -> Vec<u8> {
    if with_sum {
        let sum = checksum(&contents);
        contents.extend(sum);
    }
    contents.extend(b"\n\r");
    contents
}

/// What stands before the checksum and LF CR, or refusal 3, 4 or 5.
fn opened(message: &[u8], with_sum: bool, length: usize) -> Result<&[u8], Refusal> {
    let end_length = if with_sum { 4 } else { 2 };
    if message.len() != length + end_length {
        return Err(refusal(3, message.len()));
    }
    let (contents, end) = message.split_at(length);
    if !end.ends_with(b"\n\r") {
        return Err(refusal(4, 0));
    }
    if with_sum && end[..2] != checksum(contents) {
        return Err(refusal(5, 0));
    }
    Ok(contents)
}

/// The next `width` bytes, taken off the front.
fn take<'a>(rest: &mut &'a [u8], width: usize) -> &'a [u8] {
    let (part, after) = rest.split_at(width);
    *rest = after;
    part
}

/// The number that the digits spell; none if one of them is no digit.
fn number(digits: &[u8]) -> Option<i64> {
    digits.iter().try_fold(0, |n, d| d.is_ascii_digit().then(|| 10 * n + i64::from(d - b'0')))
}

// ---- the text record

const TAGS: &[u8; 11] = b"DTt+ZHNFVEz";
const TEXT_WIDTHS: [usize; 11] = [7, 4, 3, 1, 4, 7, 7, 7, 5, 4, 4];

fn text_of(field: usize, v: i64) -> String {
    match field {
        3 if v < 100 => format!("{}.{}", v / 10, v % 10),
        3 => format!("{}.", v / 10),
        9 => format!("{:03}.{}", v / 10, v % 10),
        10 => format!("{}{:03}", if v < 0 { '-' } else { '+' }, v.abs()),
        _ => format!("{:0width$}", v, width = TEXT_WIDTHS[field - 1]),
    }
}

fn value_of_text(field: usize, text: &[u8]) -> Option<i64> {
    match (field, text) {
        (3, &[a, b'.', b]) => number(&[a, b]),
        (3, &[a, b, b'.']) => number(&[a, b]).filter(|&n| n >= 10).map(|n| 10 * n),
        (9, &[a, b, c, b'.', d]) => number(&[a, b, c, d]),
        (10, [b'+', digits @ ..]) => number(digits),
        (10, [b'-', digits @ ..]) => number(digits).map(|n| -n),
        (3 | 9 | 10, _) => None,
        _ => number(text),
    }
}

pub fn text_message(r: &Record, with_sum: bool) -> Result<Vec<u8>, Refusal> {
    if let Some(field) = wrong_field(r) {
        return Err(refusal(1, field));
    }
    let mut m = Vec::with_capacity(TEXT + 4);
    for field in 1..=11 {
        m.push(TAGS[field - 1]);
        m.extend(text_of(field, r.fields[field - 1]).bytes());
    }
    m.push(b'S');
    m.extend(&r.serial);
    Ok(sealed(m, with_sum))
}

/// Fields 1 to 11, taken off the front, each read from its text by `value`.
fn text_fields(rest: &mut &[u8], value: fn(usize, &[u8]) -> Option<i64>) -> Result<[i64; 11], Refusal> {
    let mut fields = [0; 11];
    for field in 1..=11 {
        let tag = take(rest, 1)[0];
        let text = take(rest, TEXT_WIDTHS[field - 1]);
        fields[field - 1] = value(field, text).filter(|&v| tag == TAGS[field - 1] && fits(field, v)).ok_or(refusal(6, field))?;
    }
    Ok(fields)
}

pub fn text_record(message: &[u8], with_sum: bool) -> Result<Record, Refusal> {
    let mut rest = opened(message, with_sum, TEXT)?;
    Ok(Record { fields: text_fields(&mut rest, value_of_text)?, serial: tagged_serial(rest)? })
}

/// Field 12 of both forms: S and nine text bytes.
fn tagged_serial(rest: &[u8]) -> Result<Vec<u8>, Refusal> {
    rest.strip_prefix(b"S").filter(|serial| is_text(serial, 9)).map(<[u8]>::to_vec).ok_or(refusal(6, 12))
}

// ---- request 6: the text record of old zoom firmware, without S and the serial, its zoom as x.xx (000, 6.1.3, notes 3 and 4)

pub const OLD: usize = 64;

/// As in the present form, but the zoom in hundredths.
fn value_of_old_text(field: usize, text: &[u8]) -> Option<i64> {
    match (field, text) {
        (11, &[a, b'.', b, c]) => number(&[a, b, c]).map(|hundredths| 10 * hundredths),
        (11, _) => None,
        _ => value_of_text(field, text),
    }
}

/// An old line in the present form; refusal 1 is left for the serial alone.
pub fn new_line(message: &[u8], serial: &[u8]) -> Result<Vec<u8>, Refusal> {
    let fields = text_fields(&mut opened(message, false, OLD)?, value_of_old_text)?;
    text_message(&Record { fields, serial: serial.to_vec() }, false)
}

/// A present line in the old form.
pub fn old_line(message: &[u8]) -> Result<Vec<u8>, Refusal> {
    let r = text_record(message, false)?;
    let thousandths = r.fields[10];
    if thousandths % 10 != 0 {
        return Err(refusal(11, 0));
    }
    let mut m = Vec::with_capacity(OLD + 2);
    for field in 1..=10 {
        m.push(TAGS[field - 1]);
        m.extend(text_of(field, r.fields[field - 1]).bytes());
    }
    m.extend(format!("z{}.{:02}", thousandths / 1000, thousandths % 1000 / 10).bytes());
    Ok(sealed(m, false))
}

// ---- the packed record

/// Groups of six bits, highest first, each under bits 01.
fn groups(count: u32, v: i64) -> impl Iterator<Item = u8> {
    (0..count).rev().map(move |group| 0x40 | ((v >> (6 * group)) & 0x3F) as u8)
}

fn value_of_groups(bytes: &[u8]) -> Option<i64> {
    bytes.iter().try_fold(0, |v, b| (b >> 6 == 1).then(|| (v << 6) | i64::from(b & 0x3F)))
}

/// Sign and ten-bit magnitude: 01S0xxxx 01xxxxxx. Minus zero is zero, as request 5 has it.
fn value_of_pupil(bytes: &[u8]) -> Option<i64> {
    let magnitude = value_of_groups(&[bytes[0] & !0x20, bytes[1]])?;
    Some(if bytes[0] & 0x20 != 0 { -magnitude } else { magnitude })
}

pub fn packed_message(r: &Record, with_sum: bool) -> Result<Vec<u8>, Refusal> {
    if let Some(field) = wrong_field(r) {
        return Err(refusal(1, field));
    }
    let [focus, aperture, stop, tenth, focal, hyperfocal, near, far, view, pupil, zoom] = r.fields;
    let mut m = vec![b'd'];
    m.extend(groups(4, focus));
    m.extend(groups(2, aperture));
    m.push(0x80 | (stop & 0x7F) as u8);
    m.push(0x80 | (stop >> 7 << 6) as u8 | tenth as u8);
    m.extend(groups(2, focal));
    m.extend(groups(4, hyperfocal));
    m.extend(groups(4, near));
    m.extend(groups(4, far));
    m.extend(groups(2, view));
    let sign = if pupil < 0 { 0x800 } else { 0 };
    m.extend(groups(2, sign | pupil.abs()));
    m.extend(groups(2, zoom));
    m.push(b'S');
    m.extend(&r.serial);
    Ok(sealed(m, with_sum))
}

pub fn packed_record(message: &[u8], with_sum: bool) -> Result<Record, Refusal> {
    let mut rest = opened(message, with_sum, PACKED)?;
    let tag = take(&mut rest, 1)[0];
    let mut fields = [0; 11];
    let mut hold = |field: usize, v: Option<i64>| -> Result<(), Refusal> {
        fields[field - 1] = v.filter(|&v| fits(field, v)).ok_or(refusal(6, field))?;
        Ok(())
    };
    hold(1, value_of_groups(take(&mut rest, 4)).filter(|_| tag == b'd'))?;
    hold(2, value_of_groups(take(&mut rest, 2)))?;
    // The pair 1sssssss 1S00tttt: the first byte's top bit and the stop are field 3, the rest of the second byte is field 4.
    let pair = take(&mut rest, 2);
    let (first, second) = (i64::from(pair[0]), i64::from(pair[1]));
    hold(3, (first >= 0x80).then_some((first & 0x7F) | ((second & 0x40) << 1)))?;
    hold(4, (second & 0xB0 == 0x80).then_some(second & 0x0F))?;
    hold(5, value_of_groups(take(&mut rest, 2)))?;
    hold(6, value_of_groups(take(&mut rest, 4)))?;
    hold(7, value_of_groups(take(&mut rest, 4)))?;
    hold(8, value_of_groups(take(&mut rest, 4)))?;
    hold(9, value_of_groups(take(&mut rest, 2)))?;
    hold(10, value_of_pupil(take(&mut rest, 2)))?;
    hold(11, value_of_groups(take(&mut rest, 2)))?;
    Ok(Record { fields, serial: tagged_serial(rest)? })
}

// ---- request 7: a packed message as a text one, by the patterns of 000's Appendix A and apart from the two forms above

/// The number whose bits stand under x, highest first; none if a bit under 0 or 1 is another.
fn bits(pattern: &str, bytes: &[u8]) -> Option<i64> {
    pattern.bytes().enumerate().try_fold(0, |n, (place, sign)| {
        let bit = bytes[place / 8] >> (7 - place % 8) & 1;
        match sign {
            b'x' => Some(2 * n + i64::from(bit)),
            b'0' | b'1' => (bit == sign - b'0').then_some(n),
            _ => Some(n),
        }
    })
}

pub fn text_line(message: &[u8], with_sum: bool) -> Result<Vec<u8>, Refusal> {
    let m = opened(message, with_sum, PACKED)?;
    let number = |field: usize, place: usize, pattern: &str, highest: i64| {
        bits(pattern, &m[place..]).filter(|&n| n <= highest).ok_or(refusal(6, field))
    };
    let distance = |field: usize, place: usize| number(field, place, "01xxxxxx01xxxxxx01xxxxxx01xxxxxx", 9_999_999);
    let focus = distance(1, 1).and_then(|n| number(1, 0, "01100100", 0).map(|_| n))?;
    let aperture = number(2, 5, "01xxxxxx01xxxxxx", 4095)?;
    // 000 prints the stop's eight bits in a row; by 001's example bytes the first byte has the low seven.
    let stop = number(3, 7, "1xxxxxxx", 127)? + 128 * number(3, 8, ".x", 1)?;
    let stop = match stop {
        0..=99 => format!("{}.{}", stop / 10, stop % 10),
        100..=250 if stop % 10 == 0 => format!("{}.", stop / 10),
        _ => return Err(refusal(6, 3)),
    };
    let tenth = number(4, 8, "1.00xxxx", 9)?;
    let focal = number(5, 9, "0100xxxx01xxxxxx", 1023)?;
    let (hyperfocal, near, far) = (distance(6, 11)?, distance(7, 15)?, distance(8, 19)?);
    let view = number(9, 23, "01xxxxxx01xxxxxx", 4095)?;
    let sign = 1 - 2 * number(10, 25, "..x", 1)?;
    let pupil = sign * number(10, 25, "01.0xxxx01xxxxxx", 999)?;
    let zoom = number(11, 27, "0100xxxx01xxxxxx", 1000)?;
    let (tag, serial) = (m[29], &m[30..]);
    if tag != b'S' || !serial.iter().all(|b| (b' '..=b'~').contains(b)) {
        return Err(refusal(6, 12));
    }
    let distances = format!("H{hyperfocal:07}N{near:07}F{far:07}");
    let angles = format!("V{:03}.{}E{pupil:+04}z{zoom:04}S", view / 10, view % 10);
    let line = format!("D{focus:07}T{aperture:04}t{stop}+{tenth}Z{focal:04}{distances}{angles}");
    Ok(sealed([line.as_bytes(), serial].concat(), with_sum))
}

// ---- the fixed data

pub fn fixed_message(f: &Fixed, with_sum: bool) -> Result<Vec<u8>, Refusal> {
    if let Some(item) = wrong_item(f) {
        return Err(refusal(8, item));
    }
    let mut m = b"NS".to_vec();
    m.extend(&f.serial);
    m.push(b'O');
    m.extend(&f.owner);
    m.extend([b'L', f.kind]);
    m.extend(format!("N{:03}M{:03}", f.focal, f.maximum).bytes());
    m.extend([b'U', f.letter]);
    m.extend(format!("T{:02}  B", f.transmission).bytes());
    m.extend(&f.version);
    Ok(sealed(m, with_sum))
}

pub fn fixed_data(message: &[u8], with_sum: bool) -> Result<Fixed, Refusal> {
    let mut rest = opened(message, with_sum, FIXED)?;
    let mut after = |tag: &str, width: usize| take(&mut rest, tag.len() + width).strip_prefix(tag.as_bytes());
    let wrong = |item: usize| refusal(6, item);
    let text = |part: &&[u8]| is_text(part, part.len());
    let digits = |part: &[u8]| number(part).map(|n| n as u32);
    Ok(Fixed {
        serial: after("NS", 9).filter(text).ok_or(wrong(1))?.to_vec(),
        owner: after("O", 31).filter(text).ok_or(wrong(2))?.to_vec(),
        kind: after("L", 1).map(|part| part[0]).filter(|kind| b"PZ".contains(kind)).ok_or(wrong(3))?,
        focal: after("N", 3).and_then(digits).ok_or(wrong(4))?,
        maximum: after("M", 3).and_then(digits).ok_or(wrong(5))?,
        letter: after("U", 1).map(|part| part[0]).filter(|letter| b"IMBb".contains(letter)).ok_or(wrong(6))?,
        transmission: after("T", 2).and_then(digits).ok_or(wrong(7))?,
        version: after("  B", 4).filter(text).ok_or(wrong(8))?.to_vec(),
    })
}

/// Where the owner's name stands in the message, without its trailing spaces. (A refused message's part is empty, at 0.)
pub fn owner_part(message: &[u8], with_sum: bool) -> Result<Range<usize>, Refusal> {
    let owner = fixed_data(message, with_sum)?.owner;
    let length = owner.iter().rposition(|&b| b != b' ').map_or(0, |last| last + 1);
    Ok(12..12 + length)
}

// ---- conversion

/// The number of a field from its unit to the wanted one (I: 0.1 inch, M: 1 mm); 0.1 inch is exactly 2.54 mm.
pub fn convert(field: u32, n: i32, unit: u8, wanted: u8) -> Result<i32, Refusal> {
    if !b"IM".contains(&unit) || !b"IM".contains(&wanted) {
        return Err(refusal(1, 0));
    }
    let range = match (field, unit) {
        (1 | 6 | 7 | 8, b'M') => 0..=9_999_999,
        (1 | 6 | 7 | 8, _) => 0..=3_937_007,
        (10, b'M') => -999..=999,
        (10, _) => -393..=393,
        _ => return Err(refusal(1, field as usize)),
    };
    if !range.contains(&n) {
        return Err(refusal(1, field as usize));
    }
    Ok(match (unit, wanted) {
        (b'I', b'M') => nearest(n, 254, 100),
        (b'M', b'I') => nearest(n, 100, 254),
        _ => n,
    })
}

/// n * over / under to the nearest whole number, halves away from zero.
fn nearest(n: i32, over: i64, under: i64) -> i32 {
    let magnitude = (2 * i64::from(n).abs() * over + under) / (2 * under);
    (magnitude * i64::from(n).signum()) as i32
}

// ---- for a C host: the same, into lent memory; the answer is the count of bytes put there

pub fn put(bytes: Result<Vec<u8>, Refusal>, out: &mut [u8]) -> Result<usize, Refusal> {
    let bytes = bytes?;
    out.get_mut(..bytes.len()).ok_or(refusal(2, bytes.len()))?.copy_from_slice(&bytes);
    Ok(bytes.len())
}

/// 53 bytes: fields 1 to 11, four bytes each, lowest first, two's complement; then the serial.
fn record_bytes(r: Record) -> Vec<u8> {
    let numbers = r.fields.iter().flat_map(|&v| (v as i32).to_le_bytes());
    numbers.chain(r.serial).collect()
}

/// 51 bytes: serial 9, owner 31, kind 1, focal 2, maximum 2 (lowest first), letter 1, transmission 1, version 4.
fn fixed_bytes(f: Fixed) -> Vec<u8> {
    let mut bytes = [f.serial, f.owner, vec![f.kind]].concat();
    bytes.extend((f.focal as u16).to_le_bytes());
    bytes.extend((f.maximum as u16).to_le_bytes());
    bytes.extend([f.letter, f.transmission as u8]);
    bytes.extend(f.version);
    bytes
}

pub fn write_text(r: &Record, with_sum: bool, out: &mut [u8]) -> Result<usize, Refusal> {
    put(text_message(r, with_sum), out)
}

pub fn write_packed(r: &Record, with_sum: bool, out: &mut [u8]) -> Result<usize, Refusal> {
    put(packed_message(r, with_sum), out)
}

pub fn write_fixed(f: &Fixed, with_sum: bool, out: &mut [u8]) -> Result<usize, Refusal> {
    put(fixed_message(f, with_sum), out)
}

pub fn read_text(message: &[u8], with_sum: bool, out: &mut [u8]) -> Result<usize, Refusal> {
    put(text_record(message, with_sum).map(record_bytes), out)
}

pub fn read_packed(message: &[u8], with_sum: bool, out: &mut [u8]) -> Result<usize, Refusal> {
    put(packed_record(message, with_sum).map(record_bytes), out)
}

pub fn read_fixed(message: &[u8], with_sum: bool, out: &mut [u8]) -> Result<usize, Refusal> {
    put(fixed_data(message, with_sum).map(fixed_bytes), out)
}

pub fn old_to_new(message: &[u8], serial: &[u8], out: &mut [u8]) -> Result<usize, Refusal> {
    put(new_line(message, serial), out)
}

pub fn new_to_old(message: &[u8], out: &mut [u8]) -> Result<usize, Refusal> {
    put(old_line(message), out)
}

pub fn packed_to_text(message: &[u8], with_sum: bool, out: &mut [u8]) -> Result<usize, Refusal> {
    put(text_line(message, with_sum), out)
}

pub fn owner_start(message: &[u8], with_sum: bool) -> Result<usize, Refusal> {
    owner_part(message, with_sum).map(|part| part.start)
}

pub fn owner_len(message: &[u8], with_sum: bool) -> Result<usize, Refusal> {
    owner_part(message, with_sum).map(|part| part.len())
}
