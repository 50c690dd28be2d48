//! Streams made at random of messages and parts of them, and how they are cut into pieces.

use crate::cut_library::HELD;
use crate::messages::{any_message, Form, FIXED, PACKED, TEXT};
use crate::random::Random;
use crate::stream::LONGEST;

pub fn fill(random: &mut Random, bytes: &mut [u8]) {
    for eight in bytes.chunks_mut(8) {
        eight.copy_from_slice(&random.next().to_le_bytes()[..eight.len()]);
    }
}

/// Bytes with no LF CR in them, but maybe with many of the one or the other.
fn without_pair(random: &mut Random, length: usize) -> Vec<u8> {
    let mut bytes = vec![0; length];
    fill(random, &mut bytes);
    let from = random.pick(&[&b""[..], b"\nxxx", b"\rxxx", b"\n\rxy", b"\n\n\r\r", b"xxxx"]);
    if !from.is_empty() {
        bytes.iter_mut().for_each(|b| *b = from[usize::from(*b % 4)]);
    }
    for place in 1..length {
        if bytes[place - 1..=place] == *b"\n\r" {
            bytes[place] = b'\n';
        }
    }
    if length > 0 && random.below(4) == 0 {
        bytes[length - 1] = b'\n';
    }
    bytes
}

fn ended(mut bytes: Vec<u8>) -> Vec<u8> {
    bytes.extend(b"\n\r");
    bytes
}

fn right(random: &mut Random, form: &Form) -> Vec<u8> {
    let with_sum = random.flag();
    (form.right)(random, with_sum)
}

/// A message or some part of one.
pub fn part(random: &mut Random) -> Vec<u8> {
    let form = random.pick(&[&TEXT, &PACKED, &PACKED, &FIXED]);
    match random.below(16) {
        0..=3 => right(random, form),
        4 | 5 => any_message(random, form).0,
        6 => right(random, form)[..form.contents].to_vec(),
        7 => [vec![random.pick(b"\n\rx")], right(random, form)].concat(),
        8 | 9 => random.pick(&[&b"\n\r"[..], b"\n\n\r", b"\r\n\r", b"\n\r\r", b"\n", b"\r", b"\r\n", b"\n\r\n\r"]).to_vec(),
        10 => (0..random.below(9)).map(|_| random.pick(b"\n\rx")).collect(),
        11 | 12 => {
            let length = random.below(5);
            ended(without_pair(random, length))
        }
        13 | 14 => {
            let length = LONGEST - 4 + random.below(6);
            ended(without_pair(random, length))
        }
        _ => {
            let most = random.pick(&[200, 200, 400, 2000]);
            let length = LONGEST + random.below(most);
            ended(without_pair(random, length))
        }
    }
}

pub fn parts(random: &mut Random, bytes: &mut Vec<u8>) {
    for _ in 0..random.pick(&[0, 1, 1, 1, 2, 2, 3, 5]) {
        bytes.extend(part(random));
    }
    if random.below(4) == 0 {
        let length = random.pick(&[1, 2, 50, LONGEST - 1, LONGEST, LONGEST + 1, 200]);
        let length = 1 + random.below(length);
        bytes.extend(without_pair(random, length));
    }
}

/// How a stream is cut into pieces.
#[derive(Debug, Clone, Copy)]
pub enum Cutting {
    Whole,
    By(usize),
    UpTo(usize),
    After(&'static [u8]),
    Anywhere,
}

impl Cutting {
    pub fn any(random: &mut Random) -> Cutting {
        match random.below(64) {
            0 => Cutting::By(1),
            1 => Cutting::UpTo(8),
            2 => Cutting::After(b""),
            3..=5 => Cutting::By(random.pick(&[2, 16, 41, HELD - 1, HELD, HELD + 1])),
            6..=18 => Cutting::After(b"\r"),
            19..=26 => Cutting::UpTo(2 * HELD),
            27..=34 => Cutting::Whole,
            _ => Cutting::Anywhere,
        }
    }

    /// Where the piece ends that starts at this place; sometimes it is empty.
    pub fn next(self, random: &mut Random, bytes: &[u8], at: usize) -> usize {
        let left = &bytes[at..];
        if left.is_empty() || random.below(16) == 0 {
            return at;
        }
        at + match self {
            Cutting::Whole => left.len(),
            Cutting::By(length) => length.min(left.len()),
            Cutting::UpTo(length) => (1 + random.below(length)).min(left.len()),
            // After each LF, or in the middle of each pair.
            Cutting::After(next) => {
                (1..left.len()).find(|&to| left[to - 1] == b'\n' && left[to..].starts_with(next)).unwrap_or(left.len())
            }
            Cutting::Anywhere => 1 + random.below(left.len()),
        }
    }
}
