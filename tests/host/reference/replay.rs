//! The replay of a capture over the reference port, written from requests [3] and [8] and their readings alone. A line of a
//! capture, and what is printed for it:
//!
//!   R hh    byte hh is received                                        nothing, or `refused 7` if its line is dropped
//!   S n     n slots, 1..999                                            the bytes sent in hex, -- for an idle slot
//!   M ..    a measurement: fields 1 to 11, unit letter, temperature    nothing, or `refused 1`
//!
//! A line of another form prints `refused 10` and ends the run, as slot 100,000 does. Last comes `slots` and the number run.
//! With the argument `ports` a port number, 0 or 1, and a space may stand before an event; without it the event is port 0's.

use crate::port::{Line, Measurement, Port, Refusal, Settings};

/// The run stops after so many slots.
pub const MOST_SLOTS: usize = 100_000;

/// The session program runs at most so many slots after the start and after each byte.
pub const MOST_IN_A_TURN: usize = 400;

const LF: u8 = b'\n';

// ---- the lens

/// Fields 1 to 11 of record R.
pub const FIELDS_OF_R: [i32; 11] = [798, 680, 56, 5, 0, 6123, 711, 909, 273, 23, 0];

/// The session program's lens: its settings, which the ports share, and at each port its measurement. Port 0 is the camera
/// contacts, port 1 the external connector.
#[derive(Clone)]
pub struct Lens {
    pub settings: Settings,
    pub ports: [Port; 2],
    lines: [Line; 2],
}

impl Lens {
    pub fn start(letter: u8) -> Result<Lens, Refusal> {
        let settings = Settings {
            serial: *b"4050.0093",
            owner: *b"BENCH                          ",
            kind: b'P',
            focal: 50,
            maximum: 50,
            letter,
            transmission: 95,
            version: *b"4.34",
            maker: [b' '; 15],
            type_name: [b' '; 30],
            blur: [250; 32],
        };
        let port = Port::start(&settings, Measurement { unit: b'I', fields: FIELDS_OF_R, temperature: 21 })?;
        Ok(Lens { settings, ports: [port.clone(), port], lines: [Line::empty(), Line::empty()] })
    }

    pub fn receive(&mut self, at: usize, byte: u8) -> Result<(), Refusal> {
        self.ports[at].receive(&mut self.lines[at], byte)
    }

    pub fn slot(&mut self, at: usize) -> Option<u8> {
        self.ports[at].slot(&mut self.settings)
    }
}

// ---- a line of a capture

#[derive(Debug, Clone, Copy)]
pub enum Event {
    Received(u8),
    Slots(usize),
    Measured(Measurement),
}

/// What a line says, without its LF, and the port where it occurs; none if it is of another form. `ports` is whether that
/// argument is given.
pub fn occurs(ports: bool, line: &[u8]) -> Option<(usize, Event)> {
    match *line {
        [number @ b'0'..=b'1', b' ', ref rest @ ..] if ports => Some((usize::from(number - b'0'), event(rest)?)),
        _ => Some((0, event(line)?)),
    }
}

fn event(line: &[u8]) -> Option<Event> {
    let mut words = line.split(|&byte| byte == b' ');
    let event = match words.next()? {
        b"R" => Event::Received(byte(words.next()?)?),
        b"S" => Event::Slots(number(words.next()?).filter(|n| (1..=999).contains(n))? as usize),
        b"M" => Event::Measured(measurement(&mut words)?),
        _ => return None,
    };
    words.next().is_none().then_some(event)
}

fn hex_digit(digit: u8) -> Option<u8> {
    char::from(digit).to_digit(16).map(|n| n as u8)
}

/// Two hex digits, of either case.
fn byte(word: &[u8]) -> Option<u8> {
    match *word {
        [high, low] => Some(16 * hex_digit(high)? + hex_digit(low)?),
        _ => None,
    }
}

/// 1 to 9 digits.
fn number(word: &[u8]) -> Option<i32> {
    if !(1..=9).contains(&word.len()) {
        return None;
    }
    word.iter().try_fold(0, |n, digit| digit.is_ascii_digit().then(|| 10 * n + i32::from(digit - b'0')))
}

/// A number that may have a minus, which is not counted.
fn whole_number(word: &[u8]) -> Option<i32> {
    match word {
        [b'-', digits @ ..] => number(digits).map(|n| -n),
        _ => number(word),
    }
}

fn letter(word: &[u8]) -> Option<u8> {
    match *word {
        [letter] if letter.is_ascii_alphabetic() => Some(letter),
        _ => None,
    }
}

fn measurement<'a>(words: &mut impl Iterator<Item = &'a [u8]>) -> Option<Measurement> {
    let mut fields = [0; 11];
    for field in &mut fields {
        *field = whole_number(words.next()?)?;
    }
    Some(Measurement { fields, unit: letter(words.next()?)?, temperature: whole_number(words.next()?)? })
}

// ---- the run

/// How a run ended.
#[derive(Debug, Clone, Copy, PartialEq, Eq)]
pub enum End {
    /// With the input.
    Input,
    /// By a line of another form.
    Form,
    /// At slot 100,000.
    Limit,
}

/// Who looks on while a capture is replayed.
pub trait Watch {
    /// A line is looked at, with so many bytes printed before it.
    fn line(&mut self, _printed: usize) {}

    /// A byte was received at a port.
    fn received(&mut self, _lens: &Lens, _at: usize, _answer: Result<(), Refusal>) {}

    /// Runs one slot of a port.
    fn slot(&mut self, lens: &mut Lens, at: usize) -> Option<u8> {
        lens.slot(at)
    }

    /// A measurement was handed in at a port.
    fn measured(&mut self, _at: usize, _answer: Result<(), Refusal>) {}

    /// The run ended, with so many bytes printed before `slots`.
    fn ended(&mut self, _end: End, _printed: usize) {}
}

/// Nobody.
impl Watch for () {}

/// The lines of a capture; the last may lack its LF.
fn lines(input: &[u8]) -> impl Iterator<Item = &[u8]> {
    input.split_inclusive(|&byte| byte == LF).map(|line| line.strip_suffix(&[LF]).unwrap_or(line))
}

/// The text that is printed for a capture from a start with this letter; `ports` is whether that argument is given.
pub fn replay(ports: bool, letter: u8, input: &[u8], watch: &mut impl Watch) -> Result<Vec<u8>, Refusal> {
    let mut lens = Lens::start(letter)?;
    let mut out = Vec::new();
    let mut slots = 0;
    let mut end = End::Input;
    for line in lines(input) {
        watch.line(out.len());
        match occurs(ports, line) {
            Some((at, Event::Received(byte))) => {
                let answer = lens.receive(at, byte);
                watch.received(&lens, at, answer);
                put_answer(&mut out, answer);
            }
            Some((at, Event::Slots(asked))) => {
                let count = asked.min(MOST_SLOTS - slots);
                put_slots(&mut out, (0..count).map(|_| watch.slot(&mut lens, at)));
                slots += count;
            }
            Some((at, Event::Measured(measurement))) => {
                let answer = lens.ports[at].measure(measurement);
                watch.measured(at, answer);
                put_answer(&mut out, answer);
            }
            None => {
                put_refused(&mut out, 10);
                end = End::Form;
                break;
            }
        }
        if slots == MOST_SLOTS {
            end = End::Limit;
            break;
        }
    }
    watch.ended(end, out.len());
    out.extend(format!("slots {slots}\n").bytes());
    Ok(out)
}

// ---- what is printed

/// The slots of one line.
fn put_slots(out: &mut Vec<u8>, slots: impl Iterator<Item = Option<u8>>) {
    const DIGITS: &[u8; 16] = b"0123456789abcdef";
    for (i, sent) in slots.enumerate() {
        if 0 < i {
            out.push(b' ');
        }
        out.extend(sent.map_or(*b"--", |byte| [DIGITS[usize::from(byte / 16)], DIGITS[usize::from(byte % 16)]]));
    }
    out.push(LF);
}

fn put_refused(out: &mut Vec<u8>, number: u32) {
    out.extend(format!("refused {number}\n").bytes());
}

fn put_answer(out: &mut Vec<u8>, answer: Result<(), Refusal>) {
    match answer {
        Ok(()) => {}
        Err(Refusal::Field(_)) => put_refused(out, 1),
        Err(Refusal::Dropped) => put_refused(out, 7),
        Err(Refusal::Setting(_)) => put_refused(out, 8),
    }
}
