//! The exported entries of libhourheron.a beside plain Rust (plain.rs) on the same inputs. First every answer and all of the lent
//! memory are compared, on messages and numbers in range and on damaged ones; then the ones in range are timed, in turns.
//!
//! codecs time     one line an entry: its name, then the medians of ours and of plain Rust in nanoseconds a call, and of the ratio
//! codecs count    runs each entry once on each input in range, to be counted; prints nothing

mod heron;
mod inputs;
mod plain;
#[allow(dead_code)] // not every kind of number is asked for here
#[path = "../tests/host/random.rs"]
mod random;

use heron::Answer;
use inputs::{black_box, is_counted, median, of_ours, of_plain, record, text, Outcome, Record, ROUNDS, SEED};
use plain::{Fields, Fixed, Refusal};
use random::Random;
use std::process::exit;
use std::time::{Duration, Instant};

const INPUTS: usize = 1024;
const ROUND: Duration = Duration::from_millis(4);
const ROOM: usize = 128;
const SERIAL: &[u8] = b"4050.0093";

// ---- inputs

struct Data {
    serial: [u8; 9],
    owner: [u8; 31],
    kind: u8,
    numbers: [u32; 3],
    letter: u8,
    version: [u8; 4],
    with_sum: bool,
}

impl Data {
    fn fixed(&self) -> Fixed<'_> {
        let [focal, maximum, transmission] = self.numbers;
        let (serial, owner, version) = (&self.serial[..], &self.owner[..], &self.version[..]);
        Fixed { serial, owner, kind: self.kind, focal, maximum, letter: self.letter, transmission, version }
    }
}

struct Message {
    bytes: Vec<u8>,
    with_sum: bool,
}

struct Number {
    field: u32,
    n: i32,
    unit: u8,
    wanted: u8,
}

fn data(random: &mut Random) -> Data {
    let mut owner = text(random);
    owner[random.below(32)..].fill(b' ');
    Data {
        serial: text(random),
        owner,
        kind: random.pick(b"PZ"),
        numbers: [999, 999, 99].map(|high| random.between(0, high) as u32),
        letter: random.pick(b"IMBb"),
        version: text(random),
        with_sum: random.flag(),
    }
}

fn number(random: &mut Random) -> Number {
    let unit = random.pick(b"IM");
    let (distance, reach) = if unit == b'I' { (3_937_007, 393) } else { (9_999_999, 999) };
    let field = random.pick(&[1, 6, 7, 8, 10]);
    let n = if field == 10 { random.between(-reach, reach) } else { random.between(0, distance) };
    Number { field, n: n as i32, unit, wanted: random.pick(b"IM") }
}

fn message(write: impl FnOnce(&mut [u8]) -> usize, with_sum: bool) -> Message {
    let mut bytes = vec![0; ROOM];
    let length = write(&mut bytes);
    bytes.truncate(length);
    Message { bytes, with_sum }
}

/// Inputs in range, and as many out of it: each is one of the first, damaged.
struct Inputs<T> {
    right: Vec<T>,
    wrong: Vec<T>,
}

fn inputs<T>(mut make: impl FnMut(&mut Random) -> T, mut damage: impl FnMut(&mut Random, &mut T)) -> Inputs<T> {
    let mut random = Random(SEED);
    let right = (0..INPUTS).map(|_| make(&mut random)).collect();
    let mut damaged = || {
        let mut input = make(&mut random);
        damage(&mut random, &mut input);
        input
    };
    Inputs { right, wrong: (0..16 * INPUTS).map(|_| damaged()).collect() }
}

fn messages(make: impl FnMut(&mut Random) -> Message) -> Inputs<Message> {
    inputs(make, |random, m| {
        let place = random.below(m.bytes.len());
        match random.below(16) {
            0 => m.bytes.truncate(place),
            1 => m.with_sum = !m.with_sum,
            2 => m.bytes[place] = random.byte(),
            _ => {
                m.bytes[place] = random.pick(b"0129.+- :/SDdNT@`\x80");
                reseal(m);
            }
        }
    })
}

/// Puts the right checksum and ending on, so that a reader reaches the contents.
fn reseal(m: &mut Message) {
    let length = m.bytes.len();
    m.bytes[length - 2..].copy_from_slice(b"\n\r");
    if m.with_sum {
        let sum = plain::checksum(&m.bytes[..length - 4]);
        m.bytes[length - 4..length - 2].copy_from_slice(&sum);
    }
}

// ---- one entry

/// Nanoseconds a call over the inputs, gone through `turns` times.
fn timed<T>(inputs: &[T], turns: usize, out: &mut [u8; ROOM], entry: &impl Fn(&T, &mut [u8]) -> Outcome) -> f64 {
    let start = Instant::now();
    for _ in 0..turns {
        for input in inputs {
            black_box(entry(black_box(input), out));
        }
    }
    start.elapsed().as_secs_f64() * 1e9 / (turns * inputs.len()) as f64
}

fn entry<T>(
    counted: bool,
    name: &str,
    inputs: &Inputs<T>,
    ours: impl Fn(&T, &mut [u8]) -> Outcome,
    plain: impl Fn(&T, &mut [u8]) -> Outcome,
) {
    let mut out = [0; ROOM];
    if counted {
        for input in &inputs.right {
            black_box(ours(input, &mut out));
            black_box(plain(input, &mut out));
        }
        return;
    }

    for (index, input) in inputs.right.iter().chain(&inputs.wrong).enumerate() {
        for room in [ROOM, 20] {
            let (mut out_ours, mut out_plain) = ([0xEE; ROOM], [0xEE; ROOM]);
            let (a, b) = (ours(input, &mut out_ours[..room]), plain(input, &mut out_plain[..room]));
            if a != b || out_ours != out_plain {
                eprintln!("codecs: {name}, seed {SEED}, input {index}, room {room}: ours {a:?} {out_ours:02X?}, plain {b:?} {out_plain:02X?}");
                exit(1);
            }
        }
    }

    let once = timed(&inputs.right, 1, &mut out, &plain) * inputs.right.len() as f64;
    let turns = 1 + (ROUND.as_nanos() as f64 / once) as usize;
    let rounds: Vec<[f64; 2]> = (0..ROUNDS)
        .map(|_| [timed(&inputs.right, turns, &mut out, &ours), timed(&inputs.right, turns, &mut out, &plain)])
        .collect();
    let column = |figure: fn(&[f64; 2]) -> f64| median(rounds.iter().map(figure).collect());
    println!("{name} {:.1} {:.1} {:.2}", column(|r| r[0]), column(|r| r[1]), column(|r| r[1] / r[0]));
}

/// An entry that writes a record.
fn writer(
    counted: bool,
    name: &str,
    inputs: &Inputs<Record>,
    ours: impl Fn(&Fields, &[u8], bool, &mut [u8]) -> Answer,
    plain: impl Fn(&Fields, &[u8], bool, &mut [u8]) -> Result<usize, Refusal>,
) {
    entry(
        counted,
        name,
        inputs,
        |r, out| of_ours(ours(&r.fields, &r.serial, r.with_sum, out)),
        |r, out| of_plain(plain(&r.fields, &r.serial, r.with_sum, out)),
    );
}

/// An entry that reads a message.
fn reader(
    counted: bool,
    name: &str,
    inputs: &Inputs<Message>,
    ours: impl Fn(&[u8], bool, &mut [u8]) -> Answer,
    plain: impl Fn(&[u8], bool, &mut [u8]) -> Result<usize, Refusal>,
) {
    entry(
        counted,
        name,
        inputs,
        |m, out| of_ours(ours(&m.bytes, m.with_sum, out)),
        |m, out| of_plain(plain(&m.bytes, m.with_sum, out)),
    );
}

fn main() {
    let counted = is_counted("codecs");

    let records = inputs(record, |random, r| {
        r.fields[random.below(11)] = random.pick(&[-1000, -1, 101, 251, 1001, 4096, 10_000_000, i32::MIN]);
        r.serial[random.below(9)] = random.pick(&[0x1F, 0x20, 0x7E, 0x7F]);
    });
    let fixed = inputs(data, |random, d| {
        d.numbers[random.below(3)] = random.pick(&[99, 100, 999, 1000, u32::MAX]);
        d.owner[random.below(31)] = random.pick(&[0x1F, 0x20, 0x7E, 0x7F]);
        d.kind = random.pick(b"PZp");
        d.letter = random.pick(b"IMBbi");
    });
    let numbers = inputs(number, |random, c| {
        c.n += random.pick(&[-10_000_000, -1000, 1000, 10_000_000]);
        c.field = random.below(12) as u32;
        c.wanted = random.pick(b"IMi");
    });
    let written = |put: fn(&Fields, &[u8; 9], bool, &mut [u8]) -> usize| {
        messages(move |random| {
            let r = record(random);
            message(|out| put(&r.fields, &r.serial, r.with_sum, out), r.with_sum)
        })
    };
    let plain_lines = |put: fn(&Fields, &[u8; 9], &mut [u8]) -> usize| {
        messages(move |random| {
            let mut r = record(random);
            r.fields[10] = 10 * (r.fields[10] / 10);
            message(|out| put(&r.fields, &r.serial, out), false)
        })
    };
    let old_lines = plain_lines(|fields, _, out| plain::put_old(fields, out));
    let new_lines = plain_lines(|fields, serial, out| plain::put_text(fields, serial, false, out));
    let texts = written(plain::put_text);
    let packed = written(plain::put_packed);
    let n_messages = messages(|random| {
        let d = data(random);
        message(|out| plain::put_fixed(&d.fixed(), d.with_sum, out), d.with_sum)
    });

    writer(counted, "write_text", &records, heron::write_text, plain::write_text);
    reader(counted, "read_text", &texts, heron::read_text, plain::read_text);
    entry(
        counted,
        "old_to_new",
        &old_lines,
        |m, out| of_ours(heron::old_to_new(&m.bytes, SERIAL, out)),
        |m, out| of_plain(plain::old_to_new(&m.bytes, SERIAL, out)),
    );
    reader(counted, "new_to_old", &new_lines, |m, _, out| heron::new_to_old(m, out), |m, _, out| plain::new_to_old(m, out));
    writer(counted, "write_packed", &records, heron::write_packed, plain::write_packed);
    reader(counted, "read_packed", &packed, heron::read_packed, plain::read_packed);
    reader(counted, "packed_to_text", &packed, heron::packed_to_text, plain::packed_to_text);
    reader(counted, "packed_to_text_by_record", &packed, heron::packed_to_text_by_record, plain::packed_to_text);
    entry(
        counted,
        "write_fixed",
        &fixed,
        |d, out| of_ours(heron::write_fixed(&d.fixed(), d.with_sum, out)),
        |d, out| of_plain(plain::write_fixed(&d.fixed(), d.with_sum, out)),
    );
    reader(counted, "read_fixed", &n_messages, heron::read_fixed, plain::read_fixed);
    reader(counted, "owner_start", &n_messages, |m, sum, _| heron::owner_start(m, sum), |m, sum, _| plain::owner_start(m, sum));
    reader(counted, "owner_len", &n_messages, |m, sum, _| heron::owner_len(m, sum), |m, sum, _| plain::owner_len(m, sum));
    entry(
        counted,
        "convert",
        &numbers,
        |c, _| {
            let done = heron::convert(c.field, c.n, c.unit, c.wanted);
            if done.number == 0 {
                (0, done.value as u64)
            } else {
                (done.number, done.field.into())
            }
        },
        |c, _| plain::convert(c.field, c.n, c.unit, c.wanted).map_or_else(Refusal::number_and_value, |n| (0, n as u64)),
    );
    entry(
        counted,
        "checksum",
        &texts,
        |m, _| of_ours(heron::checksum(&m.bytes)),
        |m, _| (0, u16::from_be_bytes(plain::checksum_of(&m.bytes)).into()),
    );
}
