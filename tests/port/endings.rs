//! Captures about the two ends that a replay has before its input's: the last slot, and a line of another form.

use crate::captures::{ended, interleaved, Capture, LF};
use crate::random::Random;
use crate::replay::MOST_SLOTS;

/// Lines of another form, also where a port number stands before them.
pub const OF_OTHER_FORM: [&[u8]; 107] = [
    b"", b" ", b"\r", b"\t", b"\0", b"\xFF", b"Q", b"Q 1", b"#", b"R", b"R ", b"R 4", b"R 444", b"R 4 4", b"R 44 44", b"R 4g",
    b"R g4", b"R G0", b"R /0", b"R 0:", b"R @0", b"R 0`", b"R +4", b"R -4", b"R 0x44", b"R44", b"r 44", b"R  44", b" R 44",
    b"R 44 ", b"R 44\r", b"R\t44", b"R 44\t", b"R 44\0", b"\0R 44", b"R \xC4\xB4", b"R\xA044", b"R 4\xB4", b"S", b"S ", b"S 0",
    b"S 00", b"S 000000000", b"S 1000", b"S 1001", b"S 001000", b"S 9999", b"S 65537", b"S 65536", b"S 999999999",
    b"S 1000000000", b"S 0000000001", b"S 0000000000001", b"S 4294967297", b"S 18446744073709551617", b"S -1", b"S -0", b"S --1",
    b"S +1", b"S 1-", b"S 1.", b"S 1.0", b"S 1e2", b"S 0x1", b"S a", b"S :", b"S /", b"S 1 1", b"S 1,1", b"S1", b"s 1", b"S  1",
    b" S 1", b"S 1 ", b"S 1\r", b"S\t1", b"S 1\t", b"S 1\0", b"S \xB1", b"\xEF\xBB\xBFS 1", b"S 1;S 1", b"M", b"M ", b"M I",
    b"M 1 2 3 4 5 6 7 8 9 10 11", b"M 1 2 3 4 5 6 7 8 9 10 11 I", b"M 1 2 3 4 5 6 7 8 9 10 11 12 13",
    b"M I 1 2 3 4 5 6 7 8 9 10 11 12", b"M 1 2 3 4 5 6 7 8 9 10 I 11 12", b"M 1 2 3 4 5 6 7 8 9 10 11 I 12 13",
    b"m 1 2 3 4 5 6 7 8 9 10 11 I 12", b"M 1 2 3 4 5 6 7 8 9 10 11 @ 12", b"M 1 2 3 4 5 6 7 8 9 10 11 [ 12",
    b"M 1 2 3 4 5 6 7 8 9 10 11 ` 12", b"M 1 2 3 4 5 6 7 8 9 10 11 { 12", b"M 1 2 3 4 5 6 7 8 9 10 11 0 12",
    b"M 1 2 3 4 5 6 7 8 9 10 11 II 12", b"M 1 2 3 4 5 6 7 8 9 10 11  12", b"M 1 2 3 4 5 6 7 8 9 10 11 \xC9 12",
    b"M 1 2 3 4 5 6 7 8 9 10 11 I I", b"M +1 2 3 4 5 6 7 8 9 10 11 I 12", b"M 1 2 3 4 5 6 7 8 9 10 11 I +12",
    b"M 1 2 3 4 5 6 7 8 9 --10 11 I 12", b"M 1 2 3 4 5 6 7 8 9 - 11 I 12", b"M 1 2 3 4 5 6 7 8 9 -0000000010 11 I 12",
    b"slots 4", b"refused 10",
];

/// Lines that a port number makes right only with the argument `ports`.
pub const NUMBERED: [&[u8]; 6] = [
    b"0 R 41", b"1 R 0d", b"0 S 4", b"1 S 999", b"0 M 1 2 3 4 5 6 7 8 9 10 11 I 12", b"1 M 1 2 3 4 5 6 7 8 9 10 11 Q 12",
];

/// Lines of another form, by their port number or what stands around it.
pub const OF_OTHER_NUMBER: [&[u8]; 82] = [
    b"0", b"1", b"2", b"0 ", b"1 ", b"0  ", b" 0", b" 1 ", b"00", b"0 0", b"0 1", b"1 1", b"0 0 ", b"2 R 41", b"2 S 4", b"3 S 4",
    b"7 R 41", b"8 R 41", b"9 S 4", b"10 S 4", b"11 S 4", b"12 R 41", b"16 R 41", b"00 R 41", b"01 R 41", b"00 S 4", b"01 S 4",
    b"000000001 S 4", b"256 R 41", b"257 S 4", b"65536 R 41", b"65537 S 4", b"4294967296 R 41", b"4294967297 S 4",
    b"18446744073709551616 R 41", b"18446744073709551617 S 4", b"-0 R 41", b"-1 S 4", b"+0 R 41", b"+1 S 4", b"0x0 R 41",
    b"0x1 S 4", b"0. S 4", b"1: S 4", b"0  R 41", b"1  S 4", b" 0 R 41", b" 1 S 4", b"0 R 41 ", b"1 S 4 ", b"0R 41", b"1S 4",
    b"0\tR 41", b"1\tS 4", b"0\rR 41", b"0\0R 41", b"\t0 S 4", b"0 \tS 4", b"1\xA0S 4", b"0 R 41\r", b"1 S 4\r", b"0 0 R 41",
    b"0 1 S 4", b"1 0 R 41", b"1 1 S 4", b"R 0 41", b"R 41 0", b"S 0 4", b"S 1 4", b"S 4 1", b"/ R 41", b": S 4", b"@ S 4",
    b"O R 41", b"l S 4", b"I S 4", b"\0 R 41", b"\x01 S 4", b"\xB0 R 41", b"\xB1 S 4", b"0 M 0 1 2 3 4 5 6 7 8 9 10 11 I 12",
    b"M 1 1 2 3 4 5 6 7 8 9 10 11 I 12",
];

/// Words that are wrong in most places of a line.
const WORDS: [&[u8]; 36] = [
    b"", b"+1", b"+", b"-", b"--1", b"-+1", b"1-", b"-1-", b"0", b"-0", b"-000000000", b"-0000000000", b"1000", b"999999999",
    b"-999999999", b"1000000000", b"0000000000", b"-1234567890", b"4294967297", b"1.5", b"1e3", b"0x1", b"I", b"II", b"i", b"@",
    b"[", b"`", b"{", b"/", b":", b"\xC9", b"\0", b"R", b"S", b"M",
];

/// Bytes that matter in a line.
const BYTES: &[u8; 24] = b" \n\r\t-+0159/:RSMIaAfFgG\0\xFF";

/// A right line of any kind.
fn right_line(random: &mut Random) -> Vec<u8> {
    let mut capture = Capture::new(random.next());
    match random.below(4) {
        0 => capture.receive(random.byte()),
        1 => capture.slots_at_once(1 + random.below(999)),
        _ => capture.measure(),
    }
    capture.text.pop();
    capture.text
}

/// A right line with a word missing, one more or another, a space too many, or a byte before, behind or between words.
fn spoiled(random: &mut Random) -> Vec<u8> {
    let line = right_line(random);
    let mut words: Vec<Vec<u8>> = line.split(|&byte| byte == b' ').map(<[u8]>::to_vec).collect();
    let at = random.below(words.len());
    match random.below(8) {
        0 => drop(words.remove(at)),
        1 => words.insert(at + 1, random.pick(&WORDS).to_vec()),
        2 => words[at] = random.pick(&WORDS).to_vec(),
        3 => words.insert(at, Vec::new()),
        4 => words.push(Vec::new()),
        5 => words[at].insert(0, random.pick(BYTES)),
        6 => words[at].push(random.pick(BYTES)),
        _ => {
            let after = words.split_off(at);
            return [words.join(&b' '), after.join(&b' ')].join(&random.pick(BYTES));
        }
    }
    words.join(&b' ')
}

/// The longest line of the form, 135 bytes, with a byte less, as it is, or with one or two more.
fn longest(random: &mut Random) -> Vec<u8> {
    let mut number = || format!("-{:09}", random.below(1_000_000_000));
    let fields: Vec<String> = (0..11).map(|_| number()).collect();
    let mut line = format!("M {} I {}", fields.join(" "), number()).into_bytes();
    match random.below(4) {
        0 => drop(line.remove(random.below(line.len()))),
        more => {
            for _ in 1..more {
                let at = if random.flag() { line.len() } else { random.below(line.len()) };
                line.insert(at, random.pick(b"0- I\r"));
            }
        }
    }
    line
}

/// A line about as long as the longest, or far longer: of one byte, of any, with zeros or spaces, or a right line at its end.
fn overlong(random: &mut Random) -> Vec<u8> {
    let length = random.pick(&[133, 134, 135, 136, 137, 253, 254, 255, 256, 257, 4095, 4096, 65_535, 65_536, 65_537, 100_000]);
    let one = random.pick(BYTES);
    let mut line = match random.below(5) {
        0 => vec![one; length],
        1 => (0..length).map(|_| random.byte()).collect(),
        2 => [b"S ", &vec![b'0'; length][..], b"1"].concat(),
        3 => [right_line(random), vec![b' '; length]].concat(),
        _ => [vec![one; length], right_line(random)].concat(),
    };
    line.retain(|&byte| byte != LF);
    line
}

/// Changes, inserts or removes a byte, up to three times.
fn change_bytes(random: &mut Random, text: &mut Vec<u8>) {
    for _ in 0..1 + random.below(3) {
        let (remove, insert) = random.pick(&[(true, true), (false, true), (true, false)]);
        let byte = if random.flag() { random.pick(BYTES) } else { random.byte() };
        let at = random.below(text.len() + 1);
        if remove && at < text.len() {
            text.remove(at);
        }
        if insert {
            text.insert(at, byte);
        }
    }
}

/// A few right lines of one port.
fn short(random: &mut Random) -> Vec<u8> {
    let mut capture = Capture::new(random.next());
    capture.short();
    capture.text
}

/// A few right lines of port 0, without a number, or of both ports.
fn few(ports: bool, random: &mut Random) -> Vec<u8> {
    let camera = short(random);
    if !ports {
        return camera;
    }
    let external = short(random);
    interleaved(random, [&camera, &external])
}

/// A short capture with damage: bytes of it, its end, or a line among its lines.
pub fn damaged(ports: bool, seed: u64, number: usize) -> Vec<u8> {
    let random = &mut Random(seed);
    let mut text = few(ports, random);
    let kinds = if ports { 7 } else { 6 };
    let turn = number / kinds;
    match number % kinds {
        0 => change_bytes(random, &mut text),
        1 => text.truncate(random.below(text.len() + 1)),
        kind => {
            let mut line = match kind {
                2 if !ports && turn < NUMBERED.len() => NUMBERED[turn].to_vec(),
                2 => OF_OTHER_FORM[turn % OF_OTHER_FORM.len()].to_vec(),
                3 => spoiled(random),
                4 => longest(random),
                5 => overlong(random),
                _ => OF_OTHER_NUMBER[turn % OF_OTHER_NUMBER.len()].to_vec(),
            };
            if ports && kind < 6 {
                line = [random.pick(&[&b"0 "[..], b"1 ", b""]), &line].concat();
            }
            line.push(LF);
            let mut lines: Vec<&[u8]> = text.split_inclusive(|&byte| byte == LF).collect();
            lines.insert(random.below(lines.len() + 1), &line);
            text = lines.concat();
        }
    }
    ended(random, text)
}

/// So many slots of one port, or no line.
fn up_to(random: &mut Random, slots: usize) -> Vec<u8> {
    let mut capture = Capture::new(random.next());
    if slots > 0 {
        capture.up_to(slots);
    }
    capture.text
}

/// The last slot comes at the end of a line, within one, or not; behind it right lines, a wrong one, both or none. Of both ports,
/// that line is either's, and the slots before it are one port's or shared out.
pub fn at_the_limit(ports: bool, seed: u64, number: usize) -> Vec<u8> {
    let random = &mut Random(seed);
    let room = 2 + random.below(997);
    let asked = match number % 3 {
        0 => room,
        1 => room + 1 + random.below(999 - room),
        _ => room - 1,
    };
    let before = MOST_SLOTS - room;
    let mut text = if ports {
        let camera = match number / 3 % 3 {
            0 => before,
            1 => 0,
            _ => 80 + random.below(before - 160),
        };
        let [camera, external] = [camera, before - camera].map(|slots| up_to(random, slots));
        let mut text = interleaved(random, [&camera, &external]);
        text.extend([b"0 ", b"1 "][number % 2]);
        text
    } else {
        up_to(random, before)
    };
    text.extend(format!("S {asked}\n").bytes());
    if random.flag() {
        text.extend(few(ports, random));
    }
    if random.flag() {
        text.extend([random.pick(&OF_OTHER_FORM), b"\n"].concat());
    }
    ended(random, text)
}
