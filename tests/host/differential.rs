//! Compares libhourheron.a with the reference (reference/lens.rs) on random and on exhaustive inputs: the answers, and all
//! of the lent memory with guard bytes on both sides of it. Exit status 1 on a difference.
//!
//! differential [seed [random cases per entry]]


mod exhaustive;
#[path = "reference/lens.rs"]
mod lens;
mod lent;
mod library;
mod messages;
mod random;
mod tally;
mod wrongs;

use lens::{Fixed, Record, Refusal};
use lent::Lent;
use library::Converted;
use messages::*;
use random::Random;
use std::process::exit;
use tally::{hex, seed_and_count, Differences, Tallies};
use wrongs::{any_fixed, any_line, any_record, wrong_text};

const LONGEST_ROOM: usize = 160;
const LONGEST_MESSAGE: usize = 160;

// ---- comparing

fn shown_record(r: &Record, with_sum: bool) -> String {
    let numbers: Vec<String> = r.fields.iter().map(|&v| format!("{:X}", v as u32)).collect();
    format!("fields {:?}, in hex {}; serial {}; checksum {with_sum}", r.fields, numbers.join(" "), hex(&r.serial))
}

#[rustfmt::skip]
fn shown_fixed(f: &Fixed, with_sum: bool) -> String {
    format!(
        "serial {}; owner {}; kind {:02X}; focal {:X}; maximum {:X}; letter {:02X}; transmission {:X}; version {}; checksum {with_sum}",
        hex(&f.serial), hex(&f.owner), f.kind, f.focal, f.maximum, f.letter, f.transmission, hex(&f.version)
    )
}

fn shown_message(m: &[u8], with_sum: bool) -> String {
    format!("message {} ({} bytes); checksum {with_sum}", hex(m), m.len())
}

/// What a call that is done puts into this many bytes.
fn moved(length: usize, call: impl Fn(&mut [u8]) -> Outcome) -> Result<Vec<u8>, Refusal> {
    let mut line = vec![0; length];
    call(&mut line).map(|_| line)
}

struct Test {
    random: Random,
    tallies: Tallies,
    differences: Differences,
}

impl Test {
    fn compare(&mut self, entry: &'static str, right: Outcome, found: Outcome, input: impl Fn() -> String) {
        self.tallies.count(entry, right);
        if right != found {
            self.differences.tell(entry, input(), format!("{right:?}"), format!("{found:?}"));
        }
    }


    /// Lends `room` bytes to each, and compares the answers and the whole memory.
    fn lend(
        &mut self,
        entry: &'static str,
        room: usize,
        reference: impl Fn(&mut [u8]) -> Outcome,
        library: impl Fn(&mut [u8]) -> Outcome,
        input: impl Fn() -> String,
    ) {
        let mut lent = Lent::new(&mut self.random, room);
        let right = reference(lent.right());
        let found = library(lent.found());
        self.tallies.count(entry, right);
        if right != found || !lent.agrees() || (found.is_err() && !lent.untouched()) {
            let (right, found) = (format!("{right:?}; {}", lent.shown_right()), format!("{found:?}; {}", lent.shown_found()));
            self.differences.tell(entry, format!("{}; room {room}", input()), right, found);
        }
    }

    fn room(&mut self, needed: usize) -> usize {
        match self.random.below(16) {
            0 => 0,
            1 => needed - 1,
            2 => needed - 2,
            3 => needed + 1,
            4 => needed + 2,
            5 => self.random.below(LONGEST_ROOM + 1),
            6..=10 => needed + self.random.below(8),
            _ => needed,
        }
    }

    fn write_text(&mut self, r: &Record, with_sum: bool, room: usize) {
        self.lend(
            "heron_write_text",
            room,
            |out| lens::write_text(r, with_sum, out),
            |out| library::write_text(r, with_sum, out),
            || shown_record(r, with_sum),
        );
    }

    fn write_packed(&mut self, r: &Record, with_sum: bool, room: usize) {
        self.lend(
            "heron_write_packed",
            room,
            |out| lens::write_packed(r, with_sum, out),
            |out| library::write_packed(r, with_sum, out),
            || shown_record(r, with_sum),
        );
    }

    fn write_fixed(&mut self, f: &Fixed, with_sum: bool, room: usize) {
        self.lend(
            "heron_write_fixed",
            room,
            |out| lens::write_fixed(f, with_sum, out),
            |out| library::write_fixed(f, with_sum, out),
            || shown_fixed(f, with_sum),
        );
    }

    fn read(&mut self, form: &Form, m: &[u8], with_sum: bool, room: usize) {
        self.lend(
            form.reader,
            room,
            |out| (form.reference)(m, with_sum, out),
            |out| (form.library)(m, with_sum, out),
            || shown_message(m, with_sum),
        );
        if form.reader == FIXED.reader {
            let input = || shown_message(m, with_sum);
            self.compare("heron_owner_start", lens::owner_start(m, with_sum), library::owner_start(m, with_sum), input);
            self.compare("heron_owner_len", lens::owner_len(m, with_sum), library::owner_len(m, with_sum), input);
        }
        if form.reader == TO_TEXT.reader {
            self.by_record(m, with_sum, room);
            self.read_again(m, with_sum);
        }
    }

    /// Packed to text by the record: as the reference has it, and as the route straight from the bytes.
    fn by_record(&mut self, m: &[u8], with_sum: bool, room: usize) {
        let by_record = |out: &mut [u8]| library::packed_to_text_by_record(m, with_sum, out);
        let input = || shown_message(m, with_sum);
        self.lend("heron_packed_to_text_by_record", room, |out| lens::packed_to_text(m, with_sum, out), by_record, input);
        self.lend("both routes", room, by_record, |out| library::packed_to_text(m, with_sum, out), input);
    }

    /// The text that comes out, read by the reference: the packed record.
    fn read_again(&mut self, m: &[u8], with_sum: bool) {
        if let Ok(text) = moved(if with_sum { 78 } else { 76 }, |out| library::packed_to_text(m, with_sum, out)) {
            self.tallies.count("text, read again", Ok(0));
            let (right, found) = (lens::packed_record(m, with_sum), lens::text_record(&text, with_sum));
            if right != found {
                self.differences.tell("text, read again", shown_message(m, with_sum), format!("{right:?}"), format!("{found:?}"));
            }
        }
    }

    fn old_to_new(&mut self, line: &[u8], serial: &[u8], room: usize) {
        self.lend(
            OLD.reader,
            room,
            |out| lens::old_to_new(line, serial, out),
            |out| library::old_to_new(line, serial, out),
            || format!("line {} ({} bytes); serial {}", hex(line), line.len(), hex(serial)),
        );
    }

    fn new_to_old(&mut self, line: &[u8], room: usize) {
        self.read(&NEW, line, false, room);
    }

    /// The library alone: what it moves and moves back is the line again, with plus for minus zero.
    fn comes_back(&mut self, entry: &'static str, line: &[u8], again: Result<Vec<u8>, Refusal>) {
        let mut right = line.to_vec();
        if line[54..59] == *b"E-000" {
            right[55] = b'+';
        }
        self.tallies.count(entry, Ok(0));
        if again.as_ref() != Ok(&right) {
            let found = again.map(|line| hex(&line));
            self.differences.tell(entry, shown_message(line, false), hex(&right), format!("{found:?}"));
        }
    }

    /// Forward with this serial and back. A line that is moved is an old one: the D reader refuses it under either setting.
    fn forward_and_back(&mut self, line: &[u8], serial: &[u8]) {
        if let Ok(new) = moved(76, |out| library::old_to_new(line, serial, out)) {
            self.comes_back("forward and back", line, moved(66, |out| library::new_to_old(&new, out)));
            for with_sum in [false, true] {
                let mut out = [0; 53];
                let refused = Err(Refusal { number: 3, value: 66 });
                let found = library::read_text(line, with_sum, &mut out);
                self.compare("old line, D reader", refused, found, || shown_message(line, with_sum));
            }
        }
    }

    /// Back and forward with its own serial.
    fn back_and_forward(&mut self, line: &[u8]) {
        if let Ok(old) = moved(66, |out| library::new_to_old(line, out)) {
            self.comes_back("back and forward", line, moved(76, |out| library::old_to_new(&old, &line[65..74], out)));
        }
    }

    fn convert(&mut self, field: u32, number: i32, unit: u8, wanted: u8) {
        let answer = lens::convert(field, number, unit, wanted);
        let right = match answer {
            Ok(value) => Converted { number: 0, field: 0, value },
            Err(refusal) => Converted { number: refusal.number, field: refusal.value as u32, value: 0 },
        };
        let found = library::convert(field, number, unit, wanted);
        self.tallies.count("heron_convert", answer.map(|_| 0));
        if right != found {
            let input = format!("field {field:X}; number {number:X} ({number}); unit {unit:02X}; wanted {wanted:02X}");
            self.differences.tell("heron_convert", input, format!("{right:?}"), format!("{found:?}"));
        }
    }

    fn checksum(&mut self, bytes: &[u8]) {
        let [first, second] = lens::checksum(bytes).map(usize::from);
        self.compare("heron_checksum", Ok(first * 256 + second), library::checksum(bytes), || hex(bytes));
    }

    // ---- random cases

    fn random_write(&mut self) {
        let with_sum = self.random.flag();
        let extra = if with_sum { 4 } else { 2 };
        let r = any_record(&mut self.random);
        let room = self.room(TEXT.contents + extra);
        self.write_text(&r, with_sum, room);
        let r = any_record(&mut self.random);
        let room = self.room(PACKED.contents + extra);
        self.write_packed(&r, with_sum, room);
        let f = any_fixed(&mut self.random);
        let room = self.room(FIXED.contents + extra);
        self.write_fixed(&f, with_sum, room);
    }

    fn random_read(&mut self, form: &Form) {
        let (m, told) = any_message(&mut self.random, form);
        let room = self.room(form.output);
        self.read(form, &m, told, room);
    }

    /// A pupil of the edges, as it is or damaged: under the checksum of another pupil, of plus zero or its own.
    fn random_pupil(&mut self, form: &Form, plus: &[u8]) {
        let with_sum = self.random.flag();
        let mut m = (form.right)(&mut self.random, with_sum);
        if self.random.flag() {
            m = with_part(&m, form, 10, plus);
            reseal(&mut m, with_sum);
        }
        let tries = form.edges.iter().find(|(part, _)| *part == 10).unwrap().1;
        m = with_part(&m, form, 10, self.random.pick(tries));
        let place = part_start(form, 10) + self.random.below(form.parts[9]);
        match self.random.below(4) {
            0 => m[place] = self.random.byte(),
            1 => m[place] ^= 1 << self.random.below(8),
            _ => {}
        }
        if self.random.flag() {
            reseal(&mut m, with_sum);
        }
        let room = self.room(form.output);
        self.read(form, &m, with_sum, room);
    }

    /// Moves a line of either form, as it is or damaged, forward and back.
    fn random_move(&mut self) {
        let serial = match self.random.below(4) {
            0 => wrong_text(&mut self.random, 9),
            _ => right_text(&mut self.random, 9),
        };
        let line = any_line(&mut self.random, &OLD);
        let room = self.room(OLD.output);
        self.old_to_new(&line, &serial, room);
        self.forward_and_back(&line, &serial);
        let line = any_line(&mut self.random, &NEW);
        let room = self.room(NEW.output);
        self.new_to_old(&line, room);
        self.back_and_forward(&line);
    }

    /// Turns a packed message into text: right or damaged, also of any length, with another end or with minus zero; the room often
    /// around the text's length.
    fn random_transfer(&mut self) {
        let with_sum = self.random.flag();
        let right = (TO_TEXT.right)(&mut self.random, with_sum);
        let (mut m, with_sum) = if self.random.flag() { (right, with_sum) } else { any_message(&mut self.random, &TO_TEXT) };
        match self.random.below(16) {
            0 => m = m.iter().copied().cycle().take(self.random.below(LONGEST_MESSAGE + 1)).collect(),
            1 if m.len() >= 2 => {
                let last = m.len() - 1 - self.random.below(2);
                m[last] = self.random.pick(b"\n\r\x00\xFF");
            }
            2 if m.len() >= PACKED.contents => m = with_part(&m, &PACKED, 10, b"\x60\x40"),
            _ => {}
        }
        if self.random.below(4) == 0 {
            reseal(&mut m, with_sum);
        }
        let room = match self.random.below(4) {
            0 => self.random.below(LONGEST_ROOM + 1),
            1 => TO_TEXT.output,
            _ => 74 + self.random.below(7),
        };
        self.read(&TO_TEXT, &m, with_sum, room);
    }

    fn random_convert(&mut self) {
        let random = &mut self.random;
        let field = match random.below(8) {
            0 => random.next() as u32,
            1 => random.below(16) as u32,
            _ => random.pick(&[1, 6, 7, 8, 10]),
        };
        let number = match random.below(4) {
            0 => random.next() as i32,
            1 => random.between(-1100, 1100) as i32,
            2 => random
                .pick(&[0, 9_999_999, 3_937_007, 999, -999, 393, -393, 25, -25, i32::MAX, i32::MIN])
                .wrapping_add(random.between(-2, 2) as i32),
            _ => random.between(0, 10_500_000) as i32,
        };
        let letter = |random: &mut Random| if random.below(8) == 0 { random.byte() } else { random.pick(b"IM") };
        let (unit, wanted) = (letter(random), letter(random));
        self.convert(field, number, unit, wanted);
    }

    fn random_checksum(&mut self) {
        let length = self.random.pick(&[0, 1, 2, lens::PACKED, lens::FIXED, lens::TEXT, 300]);
        let length = self.random.below(length + 1);
        let bytes: Vec<u8> = (0..length).map(|_| self.random.byte()).collect();
        self.checksum(&bytes);
    }
}

fn main() {
    let (seed, cases) = seed_and_count("differential [seed [random cases per entry]]");
    println!("differential: seed {seed}, {cases} random cases per entry beside the exhaustive ones");
    let mut test = Test { random: Random(seed), tallies: Tallies::default(), differences: Differences::none("differential", seed) };

    test.exhaustive();
    for _ in 0..cases {
        test.random_write();
        for form in [TEXT, PACKED, FIXED] {
            test.random_read(&form);
        }
        test.random_pupil(&TEXT, b"E+000");
        test.random_pupil(&PACKED, b"\x40\x40");
        test.random_move();
        test.random_transfer();
        test.random_convert();
        test.random_checksum();
    }

    let total = test.tallies.print();
    println!("differential: {total} cases, {} differences", test.differences.count);
    exit(if test.differences.count == 0 { 0 } else { 1 });
}
