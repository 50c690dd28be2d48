//! The comparisons that go through all of something: rooms, bytes, lengths, pairs, numbers, zooms, conversions.

use crate::lens;
use crate::messages::*;
use crate::wrongs::as_argument;
use crate::{Test, LONGEST_MESSAGE, LONGEST_ROOM};

impl Test {
    pub fn exhaustive(&mut self) {
        self.every_room();
        self.every_moved_room();
        self.every_length_and_room();
        for form in [TEXT, PACKED, TO_TEXT, FIXED] {
            self.every_byte_and_length(&form, &[false, true]);
        }
        for form in [OLD, NEW] {
            self.every_byte_and_length(&form, &[false]);
        }
        self.every_zoom();
        self.every_packed_pair(&PACKED, false);
        self.every_packed_pair(&TO_TEXT, false);
        self.every_packed_pair(&TO_TEXT, true);
        self.every_text_number();
        self.every_written_number();
        self.every_conversion();
    }

    /// Every room from none to past the longest message, for what is done and what is refused.
    fn every_room(&mut self) {
        for with_sum in [false, true] {
            for room in 0..=LONGEST_ROOM {
                let mut r = right_record(&mut self.random);
                self.write_text(&r, with_sum, room);
                self.write_packed(&r, with_sum, room);
                r.serial.pop();
                self.write_text(&r, with_sum, room);
                self.write_packed(&r, with_sum, room);
                let mut f = right_fixed(&mut self.random);
                self.write_fixed(&f, with_sum, room);
                f.version.push(b' ');
                self.write_fixed(&f, with_sum, room);
                for form in [TEXT, PACKED, TO_TEXT, FIXED] {
                    let mut m = (form.right)(&mut self.random, with_sum);
                    self.read(&form, &m, with_sum, room);
                    self.read(&form, &m, !with_sum, room);
                    m[0] = b'!';
                    self.read(&form, &m, with_sum, room);
                    reseal(&mut m, with_sum);
                    self.read(&form, &m, with_sum, room);
                    m.reverse();
                    self.read(&form, &m, with_sum, room);
                }
            }
        }
    }

    /// Every byte of a message as each of the 256, left so and resealed; every length, left so and resealed.
    fn every_byte_and_length(&mut self, form: &Form, settings: &[bool]) {
        for &with_sum in settings {
            for _ in 0..3 {
                let right = (form.right)(&mut self.random, with_sum);
                for place in 0..right.len() {
                    for byte in 0..=255 {
                        let mut m = right.clone();
                        m[place] = byte;
                        self.read(form, &m, with_sum, form.output);
                        reseal(&mut m, with_sum);
                        self.read(form, &m, with_sum, form.output);
                    }
                }
                let long = [&right[..], &right[..]].concat();
                for length in 0..=long.len() {
                    let mut m = long.clone();
                    self.read(form, &m[..length], with_sum, form.output);
                    reseal(&mut m[..length], with_sum);
                    self.read(form, &m[..length], with_sum, form.output);
                }
            }
            for (part, bytes) in form.edges.iter().flat_map(|&(part, tries)| tries.iter().map(move |&bytes| (part, bytes))) {
                let mut m = with_part(&(form.right)(&mut self.random, with_sum), form, part, bytes);
                self.read(form, &m, with_sum, form.output);
                reseal(&mut m, with_sum);
                self.read(form, &m, with_sum, form.output);
            }
        }
    }

    /// Every pair of bytes in each packed field of two bytes, stop and tenth among them.
    fn every_packed_pair(&mut self, form: &Form, with_sum: bool) {
        let right = (form.right)(&mut self.random, with_sum);
        for field in [2, 3, 5, 9, 10, 11] {
            for pair in 0..=u16::MAX {
                let mut m = with_part(&right, form, field, &pair.to_be_bytes());
                reseal(&mut m, with_sum);
                self.read(form, &m, with_sum, form.output);
            }
        }
    }

    /// Packed messages of every length turned into every room.
    fn every_length_and_room(&mut self) {
        for with_sum in [false, true] {
            let right = (TO_TEXT.right)(&mut self.random, with_sum);
            for length in 0..=LONGEST_MESSAGE {
                let mut m: Vec<u8> = right.iter().copied().cycle().take(length).collect();
                reseal(&mut m, with_sum);
                (0..=LONGEST_ROOM).for_each(|room| self.read(&TO_TEXT, &m, with_sum, room));
            }
        }
    }

    /// Every number of the text record's short fields and of the fixed data; every stop of three digits and points.
    fn every_text_number(&mut self) {
        let right = (TEXT.right)(&mut self.random, false);
        for n in 0..10_000 {
            for (field, text) in [
                (2, format!("T{n:04}")),
                (5, format!("Z{n:04}")),
                (9, format!("V{:03}.{}", n / 10, n % 10)),
                (10, format!("E{}{:03}", ['+', '-', ' ', '0', '.', ',', '*', '/', '1', 'E'][n / 1000], n % 1000)),
                (11, format!("z{n:04}")),
            ] {
                let m = with_part(&right, &TEXT, field, text.as_bytes());
                self.read(&TEXT, &m, false, TEXT.output);
            }
        }
        let signs = b"0123456789.";
        for n in 0..11 * 11 * 11 {
            let stop = [b't', signs[n / 121], signs[n / 11 % 11], signs[n % 11]];
            let m = with_part(&right, &TEXT, 3, &stop);
            self.read(&TEXT, &m, false, TEXT.output);
        }
        let right = (FIXED.right)(&mut self.random, false);
        for n in 0..1000 {
            for (item, text) in [(4, format!("N{n:03}")), (5, format!("M{n:03}")), (7, format!("T{:02}", n % 100))] {
                let m = with_part(&right, &FIXED, item, text.as_bytes());
                self.read(&FIXED, &m, false, FIXED.output);
            }
        }
    }

    /// Lines of either form moved into every room: right ones, with a wrong serial or with thousandths, and wrong ones.
    fn every_moved_room(&mut self) {
        for room in 0..=LONGEST_ROOM {
            let mut old = right_old(&mut self.random);
            self.old_to_new(&old, SERIAL, room);
            self.old_to_new(&old, &SERIAL[1..], room);
            self.old_to_new(&old, b"4050.009\n", room);
            old[0] = b'd';
            self.old_to_new(&old, SERIAL, room);
            self.old_to_new(&old, b"", room);
            let new = right_new(&mut self.random);
            self.new_to_old(&new, room);
            self.new_to_old(&with_part(&new, &NEW, 11, b"z0005"), room);
            self.new_to_old(&with_part(&new, &NEW, 11, b"z0.57"), room);
            self.new_to_old(&with_part(&with_part(&new, &NEW, 11, b"z0005"), &NEW, 12, b"s"), room);
            self.old_to_new(&new, SERIAL, room);
            self.new_to_old(&old, room);
        }
    }

    /// Every zoom of four digits and points in a line of either form, with every sign of the pupil's zero; what is moved comes
    /// back.
    fn every_zoom(&mut self) {
        let signs = b"0123456789.";
        for n in 0..11 * 11 * 11 * 11 {
            let zoom = [b'z', signs[n / 1331], signs[n / 121 % 11], signs[n / 11 % 11], signs[n % 11]];
            for pupil in [&b"E+000"[..], b"E-000", b"E-001", b"E+999"] {
                let old = with_part(&with_part(&right_old(&mut self.random), &OLD, 10, pupil), &OLD, 11, &zoom);
                self.old_to_new(&old, SERIAL, OLD.output);
                self.forward_and_back(&old, SERIAL);
                let new = with_part(&with_part(&right_new(&mut self.random), &NEW, 10, pupil), &NEW, 11, &zoom);
                self.new_to_old(&new, NEW.output);
                self.back_and_forward(&new);
                self.read(&TEXT, &new, false, TEXT.output);
            }
        }
    }

    /// Every small number, and those around the powers of two and the longest distance, in every field of a writer.
    fn every_written_number(&mut self) {
        let near = [9_999_999, 1 << 24, 1 << 16, 1 << 31, 1 << 32];
        let numbers = (-1100..=5000).chain(near.into_iter().flat_map(|n| n - 50..=n + 50));
        for n in numbers {
            for field in 1..=11 {
                let mut r = right_record(&mut self.random);
                r.fields[field - 1] = as_argument(field, n);
                self.write_text(&r, false, lens::TEXT + 2);
                self.write_packed(&r, false, lens::PACKED + 2);
            }
            for item in [4, 5, 7] {
                let mut f = right_fixed(&mut self.random);
                match item {
                    4 => f.focal = n as u32,
                    5 => f.maximum = n as u32,
                    _ => f.transmission = n as u32,
                }
                self.write_fixed(&f, false, lens::FIXED + 2);
            }
        }
        for byte in 0..=255 {
            for place in 0..9 {
                let mut r = right_record(&mut self.random);
                r.serial[place] = byte;
                self.write_text(&r, true, lens::TEXT + 4);
                self.write_packed(&r, true, lens::PACKED + 4);
            }
            let mut f = right_fixed(&mut self.random);
            f.kind = byte;
            self.write_fixed(&f, true, lens::FIXED + 4);
            let mut f = right_fixed(&mut self.random);
            f.letter = byte;
            self.write_fixed(&f, true, lens::FIXED + 4);
        }
    }

    /// Every distance and pupil of either unit and a little past its limits, every pair of letters, every small field.
    fn every_conversion(&mut self) {
        for (unit, wanted, last) in [(b'M', b'I', 9_999_999), (b'I', b'M', 3_937_007)] {
            for n in -1000..=last + 1000 {
                self.convert([1, 6, 7, 8][(n & 3) as usize], n, unit, wanted);
            }
            for n in -1100..=1100 {
                self.convert(10, n, unit, wanted);
                self.convert(10, n, unit, unit);
            }
            for field in 0..=300 {
                for n in [-1000, -999, -394, -393, 0, 393, 394, 999, 1000, last, last + 1] {
                    self.convert(field, n, unit, wanted);
                    self.convert(field, n, unit, unit);
                }
            }
        }
        for unit in 0..=255 {
            for wanted in 0..=255 {
                self.convert(1, 100, unit, wanted);
                self.convert(2, -1, unit, wanted);
            }
        }
    }
}
