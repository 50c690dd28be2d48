//! Runs the table vectors.txt on the reference and on libhourheron.a and compares with what the table expects.
//! Exit status 1 if a line comes out otherwise.
//!
//! vectors TABLE

#[path = "reference/lens.rs"]
mod lens;
mod library;

use lens::{Fixed, Record, Refusal};
use library::Converted;
use std::ops::Range;
use std::process::exit;

type Outcome = Result<usize, Refusal>;

/// The entries of one of the two.
struct Host {
    name: &'static str,
    write_text: fn(&Record, bool, &mut [u8]) -> Outcome,
    write_packed: fn(&Record, bool, &mut [u8]) -> Outcome,
    write_fixed: fn(&Fixed, bool, &mut [u8]) -> Outcome,
    read_text: fn(&[u8], bool, &mut [u8]) -> Outcome,
    read_packed: fn(&[u8], bool, &mut [u8]) -> Outcome,
    read_fixed: fn(&[u8], bool, &mut [u8]) -> Outcome,
    owner_start: fn(&[u8], bool) -> Outcome,
    owner_len: fn(&[u8], bool) -> Outcome,
    old_to_new: fn(&[u8], &[u8], &mut [u8]) -> Outcome,
    new_to_old: fn(&[u8], &mut [u8]) -> Outcome,
    packed_to_text: fn(&[u8], bool, &mut [u8]) -> Outcome,
    convert: fn(u32, i32, u8, u8) -> Result<i32, Refusal>,
    checksum: fn(&[u8]) -> Outcome,
}

const REFERENCE: Host = Host {
    name: "reference",
    write_text: lens::write_text,
    write_packed: lens::write_packed,
    write_fixed: lens::write_fixed,
    read_text: lens::read_text,
    read_packed: lens::read_packed,
    read_fixed: lens::read_fixed,
    owner_start: lens::owner_start,
    owner_len: lens::owner_len,
    old_to_new: lens::old_to_new,
    new_to_old: lens::new_to_old,
    packed_to_text: lens::packed_to_text,
    convert: lens::convert,
    checksum: |bytes| Ok(usize::from(u16::from_be_bytes(lens::checksum(bytes)))),
};

const LIBRARY: Host = Host {
    name: "library",
    write_text: library::write_text,
    write_packed: library::write_packed,
    write_fixed: library::write_fixed,
    read_text: library::read_text,
    read_packed: library::read_packed,
    read_fixed: library::read_fixed,
    owner_start: library::owner_start,
    owner_len: library::owner_len,
    old_to_new: library::old_to_new,
    new_to_old: library::new_to_old,
    packed_to_text: library::packed_to_text,
    convert: |field, number, unit, wanted| match library::convert(field, number, unit, wanted) {
        Converted { number: 0, value, .. } => Ok(value),
        Converted { number, field, .. } => Err(Refusal { number, value: u64::from(field) }),
    },
    checksum: library::checksum,
};

const BY_RECORD: Host = Host { name: "library, by the record", packed_to_text: library::packed_to_text_by_record, ..LIBRARY };

// ---- the table's words

#[derive(Debug, Clone, PartialEq)]
enum Word {
    Plain(String),
    Bytes(Vec<u8>),
}

use Word::{Bytes, Plain};

fn number(n: impl Into<i64>) -> Word {
    Plain(n.into().to_string())
}

fn letter(byte: u8) -> Word {
    Plain(char::from(byte).to_string())
}

/// The words of a line; none if a bracket or quote is open or a byte is no pair of hex digits.
fn words(line: &str) -> Option<Vec<Word>> {
    let mut words = Vec::new();
    let mut rest = line.trim_start();
    while !rest.is_empty() {
        if let Some(inside) = rest.strip_prefix('[') {
            let (bytes, after) = bracket(inside)?;
            words.push(Bytes(bytes));
            rest = after.trim_start();
        } else {
            let (word, after) = rest.split_at(rest.find(' ').unwrap_or(rest.len()));
            words.push(Plain(word.to_string()));
            rest = after.trim_start();
        }
    }
    Some(words)
}

/// Text in quotes and pairs of hex digits up to the closing bracket, and what stands after it.
fn bracket(inside: &str) -> Option<(Vec<u8>, &str)> {
    let mut bytes = Vec::new();
    let mut rest = inside.trim_start();
    loop {
        if let Some(after) = rest.strip_prefix(']') {
            return Some((bytes, after));
        } else if let Some(quoted) = rest.strip_prefix('"') {
            let (text, after) = quoted.split_once('"')?;
            bytes.extend(text.bytes());
            rest = after.trim_start();
        } else {
            bytes.push(u8::from_str_radix(rest.get(..2)?, 16).ok()?);
            rest = rest[2..].trim_start();
        }
    }
}

/// The inputs of a line, taken one after the other.
struct Inputs<'a>(std::slice::Iter<'a, Word>);

impl Inputs<'_> {
    fn word(&mut self) -> Option<&str> {
        match self.0.next()? {
            Plain(word) => Some(word),
            Bytes(_) => None,
        }
    }

    fn bytes(&mut self) -> Option<Vec<u8>> {
        match self.0.next()? {
            Plain(_) => None,
            Bytes(bytes) => Some(bytes.clone()),
        }
    }

    fn number(&mut self) -> Option<i64> {
        self.word()?.parse().ok()
    }

    fn letter(&mut self) -> Option<u8> {
        self.word()?.bytes().next()
    }

    fn with_sum(&mut self) -> Option<bool> {
        match self.word()? {
            "plain" => Some(false),
            "sum" => Some(true),
            _ => None,
        }
    }

    fn record(&mut self) -> Option<Record> {
        let mut fields = [0; 11];
        for field in &mut fields {
            *field = self.number()?;
        }
        Some(Record { fields, serial: self.bytes()? })
    }

    fn fixed(&mut self) -> Option<Fixed> {
        Some(Fixed {
            serial: self.bytes()?,
            owner: self.bytes()?,
            kind: self.letter()?,
            focal: self.number()? as u32,
            maximum: self.number()? as u32,
            letter: self.letter()?,
            transmission: self.number()? as u32,
            version: self.bytes()?,
        })
    }

    fn ended(&self) -> bool {
        self.0.len() == 0
    }
}

// ---- running a line

/// Record R of document 01.
fn record_r() -> Record {
    Record { fields: [798, 680, 56, 5, 0, 6123, 711, 909, 273, 23, 0], serial: b"4050.0093".to_vec() }
}

// Where the fields 1 to 11 stand in a message, without their tags; stop and tenth share a packed pair.
const TEXT_PLACES: [Range<usize>; 11] = [1..8, 9..13, 14..17, 18..19, 20..24, 25..32, 33..40, 41..48, 49..54, 55..59, 60..64];
const PACKED_PLACES: [Range<usize>; 11] = [1..5, 5..7, 7..9, 7..9, 9..11, 11..15, 15..19, 19..23, 23..25, 25..27, 27..29];

/// What was put into lent memory.
fn lent(call: impl FnOnce(&mut [u8]) -> Outcome) -> Result<Vec<u8>, Refusal> {
    let mut memory = vec![0; 128];
    let count = call(&mut memory)?;
    memory.truncate(count);
    Ok(memory)
}

/// A record's 53 bytes as eleven numbers and the serial. Bytes of another length stay as they are, and match nothing.
fn record_words(bytes: Vec<u8>) -> Vec<Word> {
    if bytes.len() != 53 {
        return vec![Bytes(bytes)];
    }
    let (numbers, serial) = bytes.split_at(44);
    let mut words: Vec<Word> =
        numbers.chunks(4).map(|four| number(i32::from_le_bytes([four[0], four[1], four[2], four[3]]))).collect();
    words.push(Bytes(serial.to_vec()));
    words
}

/// The fixed data's 51 bytes as items 1 to 8.
fn fixed_words(bytes: Vec<u8>) -> Vec<Word> {
    if bytes.len() != 51 {
        return vec![Bytes(bytes)];
    }
    let pair = |at: usize| number(u16::from_le_bytes([bytes[at], bytes[at + 1]]));
    vec![
        Bytes(bytes[..9].to_vec()),
        Bytes(bytes[9..40].to_vec()),
        letter(bytes[40]),
        pair(41),
        pair(43),
        letter(bytes[45]),
        number(bytes[46]),
        Bytes(bytes[47..].to_vec()),
    ]
}

/// What the host answers, in the table's words; none if the line has another form.
fn run(host: &Host, line: &[Word]) -> Option<Vec<Word>> {
    let mut inputs = Inputs(line.iter());
    let entry = inputs.word()?.to_string();
    let text = entry.contains("_text");
    let (write, read) = if text { (host.write_text, host.read_text) } else { (host.write_packed, host.read_packed) };
    let places = if text { TEXT_PLACES } else { PACKED_PLACES };
    let answer = match entry.as_str() {
        "write_text" | "write_packed" => {
            let (with_sum, record) = (inputs.with_sum()?, inputs.record()?);
            lent(|out| write(&record, with_sum, out)).map(|message| vec![Bytes(message)])
        }
        "read_text" | "read_packed" => {
            let (with_sum, message) = (inputs.with_sum()?, inputs.bytes()?);
            lent(|out| read(&message, with_sum, out)).map(record_words)
        }
        "write_text_field" | "write_packed_field" => {
            let mut record = record_r();
            let first = inputs.number()? as usize;
            record.fields[first - 1] = inputs.number()?;
            while !inputs.ended() {
                let field = inputs.number()? as usize;
                record.fields[field - 1] = inputs.number()?;
            }
            let place = places[first - 1].clone();
            lent(|out| write(&record, false, out)).map(|message| vec![Bytes(message.get(place).unwrap_or(&[]).to_vec())])
        }
        "read_text_field" | "read_packed_field" => {
            let (field, bytes) = (inputs.number()? as usize, inputs.bytes()?);
            let mut message = lent(|out| write(&record_r(), false, out)).ok()?;
            message.splice(places[field - 1].clone(), bytes);
            lent(|out| read(&message, false, out)).map(|bytes| record_words(bytes).into_iter().skip(field - 1).take(1).collect())
        }
        "write_fixed" => {
            let (with_sum, fixed) = (inputs.with_sum()?, inputs.fixed()?);
            lent(|out| (host.write_fixed)(&fixed, with_sum, out)).map(|message| vec![Bytes(message)])
        }
        "read_fixed" => {
            let (with_sum, message) = (inputs.with_sum()?, inputs.bytes()?);
            lent(|out| (host.read_fixed)(&message, with_sum, out)).map(fixed_words)
        }
        "owner" => {
            let (with_sum, message) = (inputs.with_sum()?, inputs.bytes()?);
            match ((host.owner_start)(&message, with_sum), (host.owner_len)(&message, with_sum)) {
                (Ok(start), Ok(len)) => Ok(vec![number(start as i64), Bytes(message.get(start..start + len)?.to_vec())]),
                (start, len) => start.and(len).map(|_| Vec::new()),
            }
        }
        "old_to_new" => {
            let (message, serial) = (inputs.bytes()?, inputs.bytes()?);
            lent(|out| (host.old_to_new)(&message, &serial, out)).map(|message| vec![Bytes(message)])
        }
        "new_to_old" => {
            let message = inputs.bytes()?;
            lent(|out| (host.new_to_old)(&message, out)).map(|message| vec![Bytes(message)])
        }
        "packed_to_text" => {
            let (with_sum, message) = (inputs.with_sum()?, inputs.bytes()?);
            lent(|out| (host.packed_to_text)(&message, with_sum, out)).map(|message| vec![Bytes(message)])
        }
        "convert" => {
            let (field, n) = (inputs.number()? as u32, inputs.number()? as i32);
            let (unit, wanted) = (inputs.letter()?, inputs.letter()?);
            (host.convert)(field, n, unit, wanted).map(|n| vec![number(n)])
        }
        "checksum" => {
            let bytes = inputs.bytes()?;
            (host.checksum)(&bytes).map(|sum| vec![Bytes(vec![(sum / 256) as u8, (sum % 256) as u8])])
        }
        _ => return None,
    };
    if !inputs.ended() {
        return None;
    }
    Some(
        answer.unwrap_or_else(|refusal| vec![Plain("refused".to_string()), number(refusal.number), number(refusal.value as i64)]),
    )
}

fn main() {
    let path = std::env::args().nth(1).unwrap_or_else(|| {
        eprintln!("usage: vectors TABLE");
        exit(2);
    });
    let table = std::fs::read_to_string(&path).unwrap_or_else(|error| {
        eprintln!("{path}: {error}");
        exit(2);
    });
    let (mut count, mut wrong) = (0, 0);
    for (place, line) in table.lines().enumerate().filter(|(_, line)| !line.is_empty() && !line.starts_with('#')) {
        count += 1;
        // No text of the table has an equals sign in it.
        let parts = line.split_once(" = ").and_then(|(left, right)| Some((words(left)?, words(right)?)));
        for host in [REFERENCE, LIBRARY, BY_RECORD] {
            let found = parts.as_ref().and_then(|(left, _)| run(&host, left));
            let expected = parts.as_ref().map(|(_, right)| right.clone());
            if expected.is_none() || found != expected {
                wrong += 1;
                println!("WRONG: {path}, line {}, {}: {line}", place + 1, host.name);
                println!("  expected {}", shown(&expected));
                println!("  found    {}", shown(&found));
            }
        }
    }
    println!("vectors: {count} lines on reference and library, {wrong} wrong");
    exit(if wrong == 0 && count > 0 { 0 } else { 1 });
}

fn shown(words: &Option<Vec<Word>>) -> String {
    let word = |word: &Word| match word {
        Plain(word) => word.clone(),
        Bytes(bytes) => format!("[{}]", bytes.iter().map(|b| format!("{b:02X}")).collect::<Vec<_>>().join(" ")),
    };
    match words {
        Some(words) => words.iter().map(word).collect::<Vec<_>>().join(" "),
        None => "a line of another form".to_string(),
    }
}
