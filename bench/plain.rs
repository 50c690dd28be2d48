//! The exported entries in plain Rust, to compare with: the same checks and the same refusals, no allocation.

/// Document 01's refusals, with what comes with them.
#[derive(Debug, Clone, Copy, PartialEq, Eq)]
pub enum Refusal {
    Field(u32),
    Short(usize),
    Length(usize),
    Ending,
    Checksum,
    Contents(u32),
    Setting(u32),
    Lost,
}

impl Refusal {
    pub fn number_and_value(self) -> (u32, u64) {
        match self {
            Refusal::Field(field) => (1, field.into()),
            Refusal::Short(needed) => (2, needed as u64),
            Refusal::Length(length) => (3, length as u64),
            Refusal::Ending => (4, 0),
            Refusal::Checksum => (5, 0),
            Refusal::Contents(place) => (6, place.into()),
            Refusal::Setting(item) => (8, item.into()),
            Refusal::Lost => (11, 0),
        }
    }
}

/// Fields 1 to 11; a number past the signed ones is handed in as a negative one, which is out of range as well.
pub type Fields = [i32; 11];

/// Items 1 to 8.
pub struct Fixed<'a> {
    pub serial: &'a [u8],
    pub owner: &'a [u8],
    pub kind: u8,
    pub focal: u32,
    pub maximum: u32,
    pub letter: u8,
    pub transmission: u32,
    pub version: &'a [u8],
}

const TEXT: usize = 74;
const OLD: usize = 64;
const PACKED: usize = 39;
const FIXED: usize = 65;
const RECORD_BYTES: usize = 53;
const FIXED_BYTES: usize = 51;

// ---- ranges

fn fits(field: usize, n: i32) -> bool {
    match field {
        1 | 6 | 7 | 8 => (0..=9_999_999).contains(&n),
        2 | 9 => (0..=4095).contains(&n),
        3 => (0..=99).contains(&n) || ((100..=250).contains(&n) && n % 10 == 0),
        4 => (0..=9).contains(&n),
        5 => (0..=1023).contains(&n),
        10 => (-999..=999).contains(&n),
        _ => (0..=1000).contains(&n),
    }
}

fn is_text(bytes: &[u8]) -> bool {
    bytes.iter().all(|b| (0x20..=0x7E).contains(b))
}

fn is_kind(kind: u8) -> bool {
    matches!(kind, b'P' | b'Z')
}

fn is_letter(letter: u8) -> bool {
    matches!(letter, b'I' | b'M' | b'B' | b'b')
}

/// The serial of a record in range, or refusal 1 with the lowest field.
fn checked<'a>(fields: &Fields, serial: &'a [u8]) -> Result<&'a [u8; 9], Refusal> {
    for (field, &n) in (1..).zip(fields) {
        if !fits(field, n) {
            return Err(Refusal::Field(field as u32));
        }
    }
    checked_serial(serial)
}

fn checked_serial(serial: &[u8]) -> Result<&[u8; 9], Refusal> {
    serial.try_into().ok().filter(|serial: &&[u8; 9]| is_text(&serial[..])).ok_or(Refusal::Field(12))
}

// ---- the frame

pub fn checksum(bytes: &[u8]) -> [u8; 2] {
    let sum = bytes.iter().fold(0xFF, |sum, b| sum ^ b);
    [0x40 + (sum >> 4), 0x40 + (sum & 0x0F)]
}

fn message_length(contents: usize, with_sum: bool) -> usize {
    contents + if with_sum { 4 } else { 2 }
}

/// The checksum, if that mode is on, and LF CR after the contents; the message's length.
fn seal(out: &mut [u8], contents: usize, with_sum: bool) -> usize {
    let length = message_length(contents, with_sum);
    let (body, end) = out[..length].split_at_mut(contents);
    if with_sum {
        end[..2].copy_from_slice(&checksum(body));
    }
    end[length - contents - 2..].copy_from_slice(b"\n\r");
    length
}

/// The contents of a message, or refusal 3, 4 or 5. (Laid into each entry.)
#[inline(always)]
fn open<const CONTENTS: usize>(message: &[u8], with_sum: bool) -> Result<&[u8; CONTENTS], Refusal> {
    if message.len() != message_length(CONTENTS, with_sum) {
        return Err(Refusal::Length(message.len()));
    }
    let (contents, end) = message.split_at(CONTENTS);
    let contents: &[u8; CONTENTS] = contents.try_into().map_err(|_| Refusal::Length(message.len()))?;
    if !end.ends_with(b"\n\r") {
        return Err(Refusal::Ending);
    }
    if with_sum && end[..2] != checksum(contents) {
        return Err(Refusal::Checksum);
    }
    Ok(contents)
}

/// Room for this many bytes, or refusal 2.
fn room(out: &mut [u8], length: usize) -> Result<&mut [u8], Refusal> {
    out.get_mut(..length).ok_or(Refusal::Short(length))
}

// ---- numbers

fn put_digits(out: &mut [u8], n: i32) {
    let mut rest = n as u32;
    for place in out.iter_mut().rev() {
        *place = b'0' + (rest % 10) as u8;
        rest /= 10;
    }
}

fn digits(bytes: &[u8]) -> Option<i32> {
    let mut n = 0;
    for byte in bytes {
        let digit = byte.wrapping_sub(b'0');
        if digit > 9 {
            return None;
        }
        n = 10 * n + i32::from(digit);
    }
    Some(n)
}

/// Groups of six bits, highest first, each under bits 01.
fn put_groups(out: &mut [u8], n: i32) {
    let mut rest = n;
    for place in out.iter_mut().rev() {
        *place = 0x40 | (rest & 0x3F) as u8;
        rest >>= 6;
    }
}

fn groups(bytes: &[u8]) -> Option<i32> {
    let mut n = 0;
    for byte in bytes {
        if byte >> 6 != 1 {
            return None;
        }
        n = n << 6 | i32::from(byte & 0x3F);
    }
    Some(n)
}

// ---- the text record

const BLANK_TEXT: &[u8; TEXT] = b"D0000000T0000t0.0+0Z0000H0000000N0000000F0000000V000.0E+000z0000S         ";

/// Fields in range as text, before the serial. (Laid into each entry, as if the entry had it alone; so is `text_fields`.)
#[inline(always)]
fn text_of(fields: &Fields) -> [u8; TEXT] {
    let [focus, aperture, stop, tenth, focal, hyperfocal, near, far, view, pupil, zoom] = *fields;
    let mut text = *BLANK_TEXT;
    put_digits(&mut text[1..8], focus);
    put_digits(&mut text[9..13], aperture);
    if stop < 100 {
        put_digits(&mut text[14..15], stop / 10);
        put_digits(&mut text[16..17], stop % 10);
    } else {
        put_digits(&mut text[14..16], stop / 10);
        text[16] = b'.';
    }
    put_digits(&mut text[18..19], tenth);
    put_digits(&mut text[20..24], focal);
    put_digits(&mut text[25..32], hyperfocal);
    put_digits(&mut text[33..40], near);
    put_digits(&mut text[41..48], far);
    put_digits(&mut text[49..52], view / 10);
    put_digits(&mut text[53..54], view % 10);
    text[55] = if pupil < 0 { b'-' } else { b'+' };
    put_digits(&mut text[56..59], pupil.abs());
    put_digits(&mut text[60..64], zoom);
    text
}

/// A record in range as a text message; its length. (Laid into `packed_to_text`, as if that had it alone.)
#[inline(always)]
fn lay_text(fields: &Fields, serial: &[u8; 9], with_sum: bool, out: &mut [u8]) -> usize {
    let mut text = text_of(fields);
    text[65..].copy_from_slice(serial);
    out[..TEXT].copy_from_slice(&text);
    seal(out, TEXT, with_sum)
}

pub fn put_text(fields: &Fields, serial: &[u8; 9], with_sum: bool, out: &mut [u8]) -> usize {
    lay_text(fields, serial, with_sum, out)
}

#[inline(never)]
pub fn write_text(fields: &Fields, serial: &[u8], with_sum: bool, out: &mut [u8]) -> Result<usize, Refusal> {
    let serial = checked(fields, serial)?;
    let out = room(out, message_length(TEXT, with_sum))?;
    Ok(put_text(fields, serial, with_sum, out))
}

fn text_stop(text: &[u8]) -> Option<i32> {
    match *text {
        [a, b'.', b] => digits(&[a, b]),
        [a, b, b'.'] => digits(&[a, b]).filter(|&n| n >= 10).map(|n| 10 * n),
        _ => None,
    }
}

fn text_pupil(text: &[u8]) -> Option<i32> {
    match *text {
        [b'+', a, b, c] => digits(&[a, b, c]),
        [b'-', a, b, c] => digits(&[a, b, c]).map(|size| -size),
        _ => None,
    }
}

fn text_view(text: &[u8]) -> Option<i32> {
    match *text {
        [a, b, c, b'.', d] => digits(&[a, b, c, d]),
        _ => None,
    }
}

/// A field that is there and in range, or refusal 6.
fn held(field: usize, n: Option<i32>) -> Result<i32, Refusal> {
    n.filter(|&n| fits(field, n)).ok_or(Refusal::Contents(field as u32))
}

/// What stands after its tag.
fn after(tag: u8, part: &[u8]) -> Option<&[u8]> {
    part.split_first().filter(|(first, _)| **first == tag).map(|(_, rest)| rest)
}

/// Fields 1 to 11 of a text record's contents, or refusal 6; the zoom as `zoom` reads it behind its tag.
#[inline(always)]
fn text_fields(m: &[u8], zoom: impl Fn(&[u8]) -> Option<i32>) -> Result<Fields, Refusal> {
    Ok([
        held(1, after(b'D', &m[..8]).and_then(digits))?,
        held(2, after(b'T', &m[8..13]).and_then(digits))?,
        held(3, after(b't', &m[13..17]).and_then(text_stop))?,
        held(4, after(b'+', &m[17..19]).and_then(digits))?,
        held(5, after(b'Z', &m[19..24]).and_then(digits))?,
        held(6, after(b'H', &m[24..32]).and_then(digits))?,
        held(7, after(b'N', &m[32..40]).and_then(digits))?,
        held(8, after(b'F', &m[40..48]).and_then(digits))?,
        held(9, after(b'V', &m[48..54]).and_then(text_view))?,
        held(10, after(b'E', &m[54..59]).and_then(text_pupil))?,
        held(11, after(b'z', &m[59..64]).and_then(zoom))?,
    ])
}

#[inline(never)]
pub fn read_text(message: &[u8], with_sum: bool, out: &mut [u8]) -> Result<usize, Refusal> {
    let m: &[u8; TEXT] = open(message, with_sum)?;
    let fields = text_fields(m, digits)?;
    lay_record(&fields, &m[64..], out)
}

/// Fields, and the serial after its tag, as 53 bytes.
fn lay_record(fields: &Fields, tagged_serial: &[u8], out: &mut [u8]) -> Result<usize, Refusal> {
    let serial = after(b'S', tagged_serial).filter(|serial| is_text(serial)).ok_or(Refusal::Contents(12))?;
    let out = room(out, RECORD_BYTES)?;
    let (numbers, rest) = out.split_at_mut(44);
    for (place, n) in numbers.chunks_exact_mut(4).zip(fields) {
        place.copy_from_slice(&n.to_le_bytes());
    }
    rest.copy_from_slice(serial);
    Ok(RECORD_BYTES)
}

// ---- the text record of old zoom firmware

/// Fields in range, with thousandths that divide by ten, as an old line; its length.
pub fn put_old(fields: &Fields, out: &mut [u8]) -> usize {
    let mut text = text_of(fields);
    text[63] = text[62];
    text[62] = text[61];
    text[61] = b'.';
    out[..OLD].copy_from_slice(&text[..OLD]);
    seal(out, OLD, false)
}

fn old_zoom(text: &[u8]) -> Option<i32> {
    match *text {
        [a, b'.', b, c] => digits(&[a, b, c]).map(|hundredths| 10 * hundredths),
        _ => None,
    }
}

#[inline(never)]
pub fn old_to_new(message: &[u8], serial: &[u8], out: &mut [u8]) -> Result<usize, Refusal> {
    let m: &[u8; OLD] = open(message, false)?;
    let fields = text_fields(m, old_zoom)?;
    let serial = checked_serial(serial)?;
    let out = room(out, message_length(TEXT, false))?;
    Ok(put_text(&fields, serial, false, out))
}

#[inline(never)]
pub fn new_to_old(message: &[u8], out: &mut [u8]) -> Result<usize, Refusal> {
    let m: &[u8; TEXT] = open(message, false)?;
    let fields = text_fields(m, digits)?;
    after(b'S', &m[64..]).filter(|serial| is_text(serial)).ok_or(Refusal::Contents(12))?;
    if fields[10] % 10 != 0 {
        return Err(Refusal::Lost);
    }
    let out = room(out, message_length(OLD, false))?;
    Ok(put_old(&fields, out))
}

// ---- the packed record

/// A record in range as a packed message; its length.
pub fn put_packed(fields: &Fields, serial: &[u8; 9], with_sum: bool, out: &mut [u8]) -> usize {
    let [focus, aperture, stop, tenth, focal, hyperfocal, near, far, view, pupil, zoom] = *fields;
    let mut packed = [0; PACKED];
    packed[0] = b'd';
    put_groups(&mut packed[1..5], focus);
    put_groups(&mut packed[5..7], aperture);
    packed[7] = 0x80 | stop as u8;
    packed[8] = 0x80 | (stop >> 7 << 6) as u8 | tenth as u8;
    put_groups(&mut packed[9..11], focal);
    put_groups(&mut packed[11..15], hyperfocal);
    put_groups(&mut packed[15..19], near);
    put_groups(&mut packed[19..23], far);
    put_groups(&mut packed[23..25], view);
    put_groups(&mut packed[25..27], pupil.abs() | if pupil < 0 { 0x800 } else { 0 });
    put_groups(&mut packed[27..29], zoom);
    packed[29] = b'S';
    packed[30..].copy_from_slice(serial);
    out[..PACKED].copy_from_slice(&packed);
    seal(out, PACKED, with_sum)
}

#[inline(never)]
pub fn write_packed(fields: &Fields, serial: &[u8], with_sum: bool, out: &mut [u8]) -> Result<usize, Refusal> {
    let serial = checked(fields, serial)?;
    let out = room(out, message_length(PACKED, with_sum))?;
    Ok(put_packed(fields, serial, with_sum, out))
}

fn packed_pupil(first: u8, second: u8) -> Option<i32> {
    let size = groups(&[first & !0x20, second])?;
    Some(if first & 0x20 != 0 { -size } else { size })
}

/// Reads fields 1 to 11 of a packed record's contents, or gives refusal 6. (Laid into each entry, as the text record's are.)
#[inline(always)]
fn read_packed_fields(m: &[u8; PACKED], fields: &mut Fields) -> Result<(), Refusal> {
    let (first, second) = (i32::from(m[7]), i32::from(m[8]));
    *fields = [
        held(1, after(b'd', &m[..5]).and_then(groups))?,
        held(2, groups(&m[5..7]))?,
        held(3, (first >= 0x80).then_some(first & 0x7F | (second & 0x40) << 1))?,
        held(4, (second & 0xB0 == 0x80).then_some(second & 0x0F))?,
        held(5, groups(&m[9..11]))?,
        held(6, groups(&m[11..15]))?,
        held(7, groups(&m[15..19]))?,
        held(8, groups(&m[19..23]))?,
        held(9, groups(&m[23..25]))?,
        held(10, packed_pupil(m[25], m[26]))?,
        held(11, groups(&m[27..29]))?,
    ];
    Ok(())
}

#[inline(never)]
pub fn read_packed(message: &[u8], with_sum: bool, out: &mut [u8]) -> Result<usize, Refusal> {
    let m: &[u8; PACKED] = open(message, with_sum)?;
    let mut fields = [0; 11];
    read_packed_fields(m, &mut fields)?;
    lay_record(&fields, &m[29..], out)
}

/// A packed message as text: its fields are read, then written.
#[inline(never)]
pub fn packed_to_text(message: &[u8], with_sum: bool, out: &mut [u8]) -> Result<usize, Refusal> {
    let m: &[u8; PACKED] = open(message, with_sum)?;
    let mut fields = [0; 11];
    read_packed_fields(m, &mut fields)?;
    let serial = after(b'S', &m[29..]).and_then(|serial| checked_serial(serial).ok()).ok_or(Refusal::Contents(12))?;
    let out = room(out, message_length(TEXT, with_sum))?;
    Ok(lay_text(&fields, serial, with_sum, out))
}

// ---- the fixed data

const BLANK_FIXED: &[u8; FIXED] = b"NS         O                               L N000M000U T00  B    ";

/// Fixed data in range as a message; its length.
pub fn put_fixed(f: &Fixed, with_sum: bool, out: &mut [u8]) -> usize {
    let mut text = *BLANK_FIXED;
    text[2..11].copy_from_slice(f.serial);
    text[12..43].copy_from_slice(f.owner);
    text[44] = f.kind;
    put_digits(&mut text[46..49], f.focal as i32);
    put_digits(&mut text[50..53], f.maximum as i32);
    text[54] = f.letter;
    put_digits(&mut text[56..58], f.transmission as i32);
    text[61..].copy_from_slice(f.version);
    out[..FIXED].copy_from_slice(&text);
    seal(out, FIXED, with_sum)
}

fn lowest_item(f: &Fixed) -> Option<u32> {
    let wrong = [
        f.serial.len() != 9 || !is_text(f.serial),
        f.owner.len() != 31 || !is_text(f.owner),
        !is_kind(f.kind),
        f.focal > 999,
        f.maximum > 999,
        !is_letter(f.letter),
        f.transmission > 99,
        f.version.len() != 4 || !is_text(f.version),
    ];
    (1..).zip(wrong).find_map(|(item, wrong)| wrong.then_some(item))
}

#[inline(never)]
pub fn write_fixed(f: &Fixed, with_sum: bool, out: &mut [u8]) -> Result<usize, Refusal> {
    if let Some(item) = lowest_item(f) {
        return Err(Refusal::Setting(item));
    }
    let out = room(out, message_length(FIXED, with_sum))?;
    Ok(put_fixed(f, with_sum, out))
}

/// The eight items of a message, or the refusal.
fn fixed_of(message: &[u8], with_sum: bool) -> Result<Fixed<'_>, Refusal> {
    let m: &[u8; FIXED] = open(message, with_sum)?;
    let text = |item, tag, part| after(tag, part).filter(|text| is_text(text)).ok_or(Refusal::Contents(item));
    let number = |item, tag, part| after(tag, part).and_then(digits).map(|n| n as u32).ok_or(Refusal::Contents(item));
    let one_of = |item, tag, part: &[u8], fits: fn(u8) -> bool| {
        Some(part[1]).filter(|&byte| part[0] == tag && fits(byte)).ok_or(Refusal::Contents(item))
    };
    if m[0] != b'N' {
        return Err(Refusal::Contents(1));
    }
    let fixed = Fixed {
        serial: text(1, b'S', &m[1..11])?,
        owner: text(2, b'O', &m[11..43])?,
        kind: one_of(3, b'L', &m[43..45], is_kind)?,
        focal: number(4, b'N', &m[45..49])?,
        maximum: number(5, b'M', &m[49..53])?,
        letter: one_of(6, b'U', &m[53..55], is_letter)?,
        transmission: number(7, b'T', &m[55..58])?,
        version: text(8, b'B', &m[60..65])?,
    };
    if m[58..60] != *b"  " {
        return Err(Refusal::Contents(8));
    }
    Ok(fixed)
}

#[inline(never)]
pub fn read_fixed(message: &[u8], with_sum: bool, out: &mut [u8]) -> Result<usize, Refusal> {
    let f = fixed_of(message, with_sum)?;
    let out = room(out, FIXED_BYTES)?;
    out[..9].copy_from_slice(f.serial);
    out[9..40].copy_from_slice(f.owner);
    out[40] = f.kind;
    out[41..43].copy_from_slice(&(f.focal as u16).to_le_bytes());
    out[43..45].copy_from_slice(&(f.maximum as u16).to_le_bytes());
    out[45] = f.letter;
    out[46] = f.transmission as u8;
    out[47..].copy_from_slice(f.version);
    Ok(FIXED_BYTES)
}

/// The owner's name starts at its place in every message that is accepted.
#[inline(never)]
pub fn owner_start(message: &[u8], with_sum: bool) -> Result<usize, Refusal> {
    fixed_of(message, with_sum).map(|_| 12)
}

#[inline(never)]
pub fn owner_len(message: &[u8], with_sum: bool) -> Result<usize, Refusal> {
    let f = fixed_of(message, with_sum)?;
    Ok(f.owner.iter().rposition(|&b| b != b' ').map_or(0, |last| last + 1))
}

// ---- the conversion

/// 0.1 inch is exactly 2.54 mm: a number of either unit in the other, halves away from zero.
fn other_unit(n: i32, unit: u8) -> i32 {
    let size = u64::from(n.unsigned_abs());
    let size = if unit == b'I' { (size * 254 + 50) / 100 } else { (size * 100 + 127) / 254 };
    if n < 0 {
        -(size as i32)
    } else {
        size as i32
    }
}

#[inline(never)]
pub fn convert(field: u32, n: i32, unit: u8, wanted: u8) -> Result<i32, Refusal> {
    if !matches!(unit, b'I' | b'M') || !matches!(wanted, b'I' | b'M') {
        return Err(Refusal::Field(0));
    }
    let (distance, reach) = if unit == b'I' { (3_937_007, 393) } else { (9_999_999, 999) };
    let in_range = match field {
        1 | 6 | 7 | 8 => (0..=distance).contains(&n),
        10 => (-reach..=reach).contains(&n),
        _ => false,
    };
    if !in_range {
        return Err(Refusal::Field(field));
    }
    Ok(if unit == wanted { n } else { other_unit(n, unit) })
}

#[inline(never)]
pub fn checksum_of(bytes: &[u8]) -> [u8; 2] {
    checksum(bytes)
}
