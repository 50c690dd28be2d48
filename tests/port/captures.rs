//! Captures made at random of right lines: received bytes, slots and measurements, refused ones among them. They are of one port;
//! one of both is two of them interleaved.

use crate::camera::{command, Pace, COMMANDS, CR};
use crate::random::Random;
use crate::replay::FIELDS_OF_R;

pub const LF: u8 = b'\n';

pub struct Capture {
    pub random: Random,
    pub text: Vec<u8>,
    /// Bytes, slots and measurements, each counted.
    events: usize,
    slots: usize,
}

/// A number's digits, at times with leading zeros.
fn digits(random: &mut Random, n: u32) -> String {
    let width = if random.below(8) == 0 { 1 + random.below(9) } else { 1 };
    format!("{n:0width$}")
}

fn whole_number(random: &mut Random, n: i32) -> String {
    let minus = n < 0 || (n == 0 && random.below(8) == 0);
    format!("{}{}", if minus { "-" } else { "" }, digits(random, n.unsigned_abs()))
}

impl Capture {
    pub fn new(seed: u64) -> Capture {
        Capture { random: Random(seed), text: Vec::new(), events: 0, slots: 0 }
    }

    pub fn line(&mut self, line: &[u8]) {
        self.text.extend(line);
        self.text.push(LF);
    }

    pub fn receive(&mut self, byte: u8) {
        let mut hex = format!("{byte:02x}");
        for at in 0..2 {
            if self.random.flag() {
                hex[at..=at].make_ascii_uppercase();
            }
        }
        self.line(format!("R {hex}").as_bytes());
        self.events += 1;
    }

    pub fn slots_at_once(&mut self, count: usize) {
        let n = digits(&mut self.random, count as u32);
        self.line(format!("S {n}").as_bytes());
        self.events += count;
        self.slots += count;
    }

    /// So many slots in lines of varied lengths.
    fn slots(&mut self, count: usize) {
        let most = self.random.pick(&[1, 2, 20, 999]);
        let mut left = count;
        while left > 0 {
            let some = left.min(1 + self.random.below(most));
            self.slots_at_once(some);
            left -= some;
        }
    }

    /// A measurement of fields 1 to 11 and the temperature.
    fn measured(&mut self, unit: u8, numbers: [i32; 12]) {
        let mut words = numbers.map(|n| whole_number(&mut self.random, n)).to_vec();
        words.insert(11, char::from(unit).to_string());
        self.line(format!("M {}", words.join(" ")).as_bytes());
        self.events += 1;
    }

    /// A measurement: in range, at the limits, or with a few fields (the unit letter, the temperature) out of range.
    pub fn measure(&mut self) {
        let random = &mut self.random;
        let mut unit = random.pick(b"IM");
        let (distance, reach) = if unit == b'I' { (3_937_007, 393) } else { (9_999_999, 999) };
        let limits: [(i64, i64); 12] = [
            (0, distance),
            (0, 4095),
            (0, 250),
            (0, 9),
            (0, 1023),
            (0, distance),
            (0, distance),
            (0, distance),
            (0, 4095),
            (-reach, reach),
            (0, 1000),
            (-99, 199),
        ];
        let mut numbers = limits.map(|(low, high)| match random.below(3) {
            0 => random.pick(&[low, high]),
            _ => random.between(low, high),
        });
        numbers[2] = if random.flag() { random.between(0, 99) } else { 10 * random.between(10, 25) };
        for _ in 0..random.pick(&[0, 0, 0, 1, 1, 2, 3]) {
            let place = random.below(13);
            if place == 12 {
                unit = random.pick(b"AHJLNZahijlmnzBb");
                continue;
            }
            let (low, high) = limits[place];
            numbers[place] = match random.below(5) {
                0 => high + 1,
                1 => low - 1,
                2 => random.pick(&[101, 109, 249, 251, 65_535, 65_536, 999_999_999, -999_999_999]),
                3 => numbers[place] + random.pick(&[-65_536, -256, 256, 65_536, 16_777_216]),
                _ => random.between(-999_999_999, 999_999_999),
            }
            .clamp(-999_999_999, 999_999_999);
        }
        self.measured(unit, numbers.map(|n| n as i32));
    }

    /// P at every temperature and one past either end, plain and then with checksum.
    pub fn temperatures(&mut self) {
        for first in [b"N", b"G"] {
            self.asked(first, 80);
            for temperature in -100..=200 {
                let mut numbers = [temperature; 12];
                numbers[..11].copy_from_slice(&FIELDS_OF_R);
                self.measured(b'I', numbers);
                self.asked(b"P", 8);
            }
        }
    }

    /// A command's line, then so many slots.
    fn asked(&mut self, line: &[u8], slots: usize) {
        for &byte in line {
            self.receive(byte);
        }
        self.receive(CR);
        self.slots(slots);
    }

    fn camera_line(&mut self, pace: &Pace) {
        for byte in pace.line(&mut self.random) {
            self.receive(byte);
            if pace.mixed && self.random.below(4) == 0 {
                let count = self.random.below(4);
                self.slots(count);
            }
        }
    }

    /// A measurement, a byte or a line, then slots.
    fn step(&mut self, pace: &Pace) {
        match self.random.below(20) {
            0 | 1 => self.measure(),
            2 => {
                let byte = self.random.byte();
                self.receive(byte);
            }
            _ => self.camera_line(pace),
        }
        let count = self.random.below(pace.slots + 1);
        self.slots(count);
    }

    /// Some commands, each with slots enough to be acted on; then steps at this pace.
    fn part(&mut self, pace: &Pace) {
        for _ in 0..self.random.below(4) {
            let kinds: &[&[u8]] = self.random.pick(&[&[b"N"], &[b"G"], &[b"Ka"], &[b"C", b"Kc"], &[b"X", b"Y"], &[b"H"]]);
            let line = command(&mut self.random, kinds);
            self.asked(&line, 160);
        }
        for _ in 0..self.random.below(200) {
            self.step(pace);
        }
    }

    /// Parts, each at another pace, of so many events or more.
    pub fn run(&mut self, events: usize, pace: fn(&mut Random) -> Pace) {
        while self.events < events {
            let pace = pace(&mut self.random);
            self.part(&pace);
        }
    }

    /// Continuous sending, so many events or more of it, in which nothing is received.
    pub fn send(&mut self, events: usize) {
        for kinds in [&[&b"N"[..]][..], &[b"G", b"Ka"], &[b"C", b"Kc"]] {
            let line = command(&mut self.random, kinds);
            self.asked(&line, 80);
        }
        while self.events < events {
            if self.random.below(4) == 0 {
                self.measure();
            }
            let count = self.random.below(200);
            self.slots(count);
        }
    }

    /// A few steps.
    pub fn short(&mut self) {
        let pace = Pace { commands: &COMMANDS, strays: 8, slots: 20, mixed: self.random.flag() };
        if self.random.flag() {
            self.asked(b"N", 70);
        }
        for _ in 0..self.random.below(6) {
            self.step(&pace);
        }
    }

    /// Up to this many slots in all, with a camera's lines between them.
    pub fn up_to(&mut self, slots: usize) {
        let pace = Pace { commands: &COMMANDS, strays: 20, slots: 0, mixed: false };
        self.asked(b"N", 80);
        while self.slots < slots {
            if self.random.below(4) == 0 {
                self.camera_line(&pace);
            }
            let some = 1 + self.random.below(999);
            self.slots_at_once(some.min(slots - self.slots));
        }
    }
}

/// A capture of both ports: the lines of one of port 0 and one of port 1 in turns, with their numbers, which port 0's may lack.
pub fn interleaved(random: &mut Random, captures: [&[u8]; 2]) -> Vec<u8> {
    let lines = captures.map(|text| text.split_inclusive(|&byte| byte == LF).collect::<Vec<_>>());
    let mut rest = lines.each_ref().map(|lines| &lines[..]);
    let most = random.pick(&[1, 3, 100]);
    let mut text = Vec::new();
    loop {
        let left = rest[0].len() + rest[1].len();
        if left == 0 {
            return text;
        }
        let at = usize::from(random.below(left) >= rest[0].len());
        let (some, after) = rest[at].split_at(rest[at].len().min(1 + random.below(most)));
        rest[at] = after;
        for line in some {
            if at == 1 || random.below(4) > 0 {
                text.extend([b"0 ", b"1 "][at]);
            }
            text.extend(*line);
        }
    }
}

/// The last line may lack its LF.
pub fn ended(random: &mut Random, mut text: Vec<u8>) -> Vec<u8> {
    if random.below(4) == 0 && text.last() == Some(&LF) {
        text.pop();
    }
    text
}
