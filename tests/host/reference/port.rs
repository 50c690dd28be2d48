//! The port in plain Rust, written from document 01 and the requests alone: start, receive, slot, fill and measure.
//!
//! The records and the fixed data are written by the module `forms` of the program that takes this file in: lens.rs in the
//! tests, the benchmark's own writers in bench/. The settings are the lens's, which its ports share (request [8]), and are lent
//! to a port where it starts and in its slots. The rest of its state is private and each change keeps it in range, so that
//! refusal 16 cannot occur.

use crate::forms;

const LONGEST_LINE: usize = 64;
const BUFFER: usize = 128;
const CR: u8 = b'\r';

#[derive(Debug, Clone, Copy, PartialEq, Eq)]
pub enum Refusal {
    /// 1, with the lowest field out of range; 0 is the unit letter, 13 the temperature.
    Field(u8),
    /// 7
    Dropped,
    /// 8, with the lowest item out of range.
    Setting(u8),
}

// ---- what a start takes

/// Items 1 to 11.
#[derive(Debug, Clone)]
pub struct Settings {
    pub serial: [u8; 9],
    pub owner: [u8; 31],
    pub kind: u8,
    pub focal: u32,
    pub maximum: u32,
    pub letter: u8,
    pub transmission: u32,
    pub version: [u8; 4],
    pub maker: [u8; 15],
    pub type_name: [u8; 30],
    pub blur: [u16; 32],
}

fn is_text(bytes: &[u8]) -> bool {
    bytes.iter().all(|b| (0x20..=0x7E).contains(b))
}

impl Settings {
    /// The lowest item out of range.
    fn wrong_item(&self) -> Option<u8> {
        let right = [
            is_text(&self.serial),
            is_text(&self.owner),
            matches!(self.kind, b'P' | b'Z'),
            self.focal <= 999,
            self.maximum <= 999,
            matches!(self.letter, b'I' | b'M' | b'B' | b'b'),
            self.transmission <= 99,
            is_text(&self.version),
            is_text(&self.maker),
            is_text(&self.type_name),
            self.blur.iter().all(|&circle| circle <= 999),
        ];
        (1..).zip(right).find_map(|(item, right)| (!right).then_some(item))
    }
}

/// A unit letter (I: 0.1 inch, M: 1 mm), fields 1 to 11 (`fields[0]` is field 1), and a temperature.
#[derive(Debug, Clone, Copy)]
pub struct Measurement {
    pub unit: u8,
    pub fields: [i32; 11],
    pub temperature: i32,
}

impl Measurement {
    /// The lowest field out of range, in the measurement's own unit.
    fn wrong_field(&self) -> Option<u8> {
        let (distance, reach) = match self.unit {
            b'I' => (3_937_007, 393),
            b'M' => (9_999_999, 999),
            _ => return Some(0),
        };
        let fits = |field: u8, n: i32| match field {
            1 | 6 | 7 | 8 => (0..=distance).contains(&n),
            2 | 9 => (0..=4095).contains(&n),
            3 => (0..=99).contains(&n) || ((100..=250).contains(&n) && n % 10 == 0),
            4 => (0..=9).contains(&n),
            5 => (0..=1023).contains(&n),
            10 => (-reach..=reach).contains(&n),
            _ => (0..=1000).contains(&n),
        };
        let wrong = (1..).zip(self.fields).find_map(|(field, n)| (!fits(field, n)).then_some(field));
        wrong.or((!(-99..=199).contains(&self.temperature)).then_some(13))
    }

    /// Fields 1 to 11 in the wanted unit.
    fn fields_in(&self, wanted: u8) -> [i32; 11] {
        let mut fields = self.fields;
        if self.unit != wanted {
            for field in [1, 6, 7, 8, 10] {
                fields[field - 1] = forms::converted(field, self.fields[field - 1], self.unit, wanted);
            }
        }
        fields
    }
}

// ---- lines and commands

/// What was received since the last carriage return.
#[derive(Debug, Clone)]
pub struct Line {
    bytes: [u8; LONGEST_LINE],
    count: usize,
    overlong: bool,
}

impl Line {
    pub fn empty() -> Line {
        Line { bytes: [0; LONGEST_LINE], count: 0, overlong: false }
    }

    fn join(&mut self, byte: u8) {
        if self.count < LONGEST_LINE {
            self.bytes[self.count] = byte;
            self.count += 1;
        } else {
            self.overlong = true;
        }
    }

    fn command(&self) -> Command {
        if self.overlong {
            Command::Unknown
        } else {
            command(&self.bytes[..self.count])
        }
    }
}

#[derive(Debug, Clone, Copy, PartialEq, Eq)]
enum Form {
    Text,
    Packed,
}

#[derive(Debug, Clone, Copy, PartialEq, Eq)]
enum Command {
    Version,
    Continuous(Form),
    Record(Form),
    Checksum,
    Inhibit,
    Halt,
    Rate(u8),
    Maker,
    TypeName,
    Fixed,
    Temperature,
    /// V, W or Wnn: the letter answered, and the film.
    Film(u8, u8),
    /// X or Y: the letter answered, the unit, and what B or b becomes.
    Unit(u8, u8, u8),
    Unknown,
}

fn command(line: &[u8]) -> Command {
    match *line {
        [b'B'] => Command::Version,
        [b'C'] => Command::Continuous(Form::Text),
        [b'K', b'c'] => Command::Continuous(Form::Packed),
        [b'D'] => Command::Record(Form::Text),
        [b'K', b'd'] => Command::Record(Form::Packed),
        [b'G'] => Command::Checksum,
        [b'K', b'a'] => Command::Inhibit,
        [b'H'] => Command::Halt,
        [b'K', b'b', n @ b'0'..=b'7'] => Command::Rate(n - b'0'),
        [b'K', b'3'] => Command::Maker,
        [b'K', b'4'] => Command::TypeName,
        [b'N'] => Command::Fixed,
        [b'P'] => Command::Temperature,
        [b'V'] => Command::Film(b'V', 0),
        [b'W'] => Command::Film(b'W', 1),
        [b'W', tens @ b'0'..=b'2', ones @ b'0'..=b'9'] => Command::Film(b'W', 10 * (tens - b'0') + ones - b'0'),
        [b'W', b'3', ones @ b'0'..=b'1'] => Command::Film(b'W', 30 + ones - b'0'),
        [b'X'] => Command::Unit(b'X', b'I', b'B'),
        [b'Y'] => Command::Unit(b'Y', b'M', b'b'),
        _ => Command::Unknown,
    }
}

fn two_digits(n: u8) -> [u8; 2] {
    [b'0' + n / 10, b'0' + n % 10]
}

/// A temperature's two characters: FF below zero, 99 above 99 (request [2]).
fn degrees(t: i32) -> [u8; 2] {
    match t {
        i32::MIN..=-1 => *b"FF",
        0..=99 => two_digits(t as u8),
        _ => *b"99",
    }
}

fn three_digits(n: u16) -> [u8; 3] {
    [b'0' + (n / 100) as u8, b'0' + (n / 10 % 10) as u8, b'0' + (n % 10) as u8]
}

// ---- the message under way

#[derive(Debug, Clone)]
struct Message {
    bytes: [u8; BUFFER],
    length: usize,
    /// The place of the next byte; none is under way when it is the length.
    next: usize,
}

impl Message {
    /// A message of these parts, with its checksum if that mode is on, and LF CR.
    fn of(parts: &[&[u8]], with_sum: bool) -> Message {
        let mut message = Message { bytes: [0; BUFFER], length: 0, next: 0 };
        for part in parts {
            message.put(part);
        }
        if with_sum {
            let sum = forms::checksum(&message.bytes[..message.length]);
            message.put(&sum);
        }
        message.put(b"\n\r");
        message
    }

    fn put(&mut self, part: &[u8]) {
        self.bytes[self.length..][..part.len()].copy_from_slice(part);
        self.length += part.len();
    }

    /// A whole message by one of the writers of `forms`, which answers its length.
    fn by(writer: impl FnOnce(&mut [u8; BUFFER]) -> usize) -> Message {
        let mut bytes = [0; BUFFER];
        let length = writer(&mut bytes);
        Message { bytes, length, next: 0 }
    }
}

// ---- the port

/// What was sent last; `<` is neither.
#[derive(Debug, Clone, Copy, PartialEq, Eq)]
pub enum Sent {
    Neither,
    Record,
    Reply,
}

#[derive(Debug, Clone)]
pub struct Port {
    measurement: Measurement,
    running: bool,
    continuous: Option<Form>,
    checksum: bool,
    inhibit: bool,
    film: u8,
    rate: u8,
    /// The rate from the slot of the last byte of the message under way.
    next_rate: u8,
    unit: u8,
    sent_last: Sent,
    waiting: Option<Command>,
    message: Message,
}

impl Port {
    pub fn start(settings: &Settings, measurement: Measurement) -> Result<Port, Refusal> {
        if let Some(item) = settings.wrong_item() {
            return Err(Refusal::Setting(item));
        }
        if let Some(field) = measurement.wrong_field() {
            return Err(Refusal::Field(field));
        }
        let unit = if matches!(settings.letter, b'I' | b'B') { b'I' } else { b'M' };
        Ok(Port {
            measurement,
            running: false,
            continuous: None,
            checksum: false,
            inhibit: false,
            film: 0,
            rate: 6,
            next_rate: 6,
            unit,
            sent_last: Sent::Neither,
            waiting: None,
            message: Message::of(&[b"<"], false),
        })
    }

    /// A received byte joins the line; a carriage return empties it, and it waits as a command unless one waits already.
    pub fn receive(&mut self, line: &mut Line, byte: u8) -> Result<(), Refusal> {
        if byte != CR {
            line.join(byte);
            return Ok(());
        }
        let command = line.command();
        *line = Line::empty();
        if self.waiting.is_some() {
            return Err(Refusal::Dropped);
        }
        self.waiting = Some(command);
        Ok(())
    }

    /// The byte sent in this slot; none if the slot is idle.
    pub fn slot(&mut self, settings: &mut Settings) -> Option<u8> {
        if !self.under_way() {
            self.begin(settings);
        }
        if !self.under_way() {
            return None;
        }
        let byte = self.message.bytes[self.message.next];
        self.message.next += 1;
        if !self.under_way() {
            self.rate = self.next_rate;
        }
        Some(byte)
    }

    /// Runs slots until the buffer is full or one is idle; the number of bytes sent.
    pub fn fill(&mut self, settings: &mut Settings, out: &mut [u8]) -> usize {
        for (count, place) in out.iter_mut().enumerate() {
            match self.slot(settings) {
                Some(byte) => *place = byte,
                None => return count,
            }
        }
        out.len()
    }

    /// A new measurement; a refused one keeps the old.
    pub fn measure(&mut self, measurement: Measurement) -> Result<(), Refusal> {
        if let Some(field) = measurement.wrong_field() {
            return Err(Refusal::Field(field));
        }
        self.measurement = measurement;
        Ok(())
    }

    // ---- what a driver or a test may look at

    pub fn under_way(&self) -> bool {
        self.message.next < self.message.length
    }

    pub fn command_waits(&self) -> bool {
        self.waiting.is_some()
    }

    pub fn sends_continuously(&self) -> bool {
        self.continuous.is_some()
    }

    pub fn sent_last(&self) -> Sent {
        self.sent_last
    }

    pub fn film(&self) -> u8 {
        self.film
    }

    pub fn rate(&self) -> u8 {
        self.rate
    }

    // ---- a slot in which no message is under way

    fn begin(&mut self, settings: &mut Settings) {
        if self.sent_last == Sent::Reply && self.continue_sending(settings) {
            return;
        }
        let replied = match self.waiting.take() {
            Some(command) if self.running => self.act(settings, command),
            Some(command) => self.act_in_ready(settings, command),
            None => false,
        };
        if !replied {
            self.continue_sending(settings);
        }
    }

    /// Starts a record if continuous sending is on; whether it is.
    fn continue_sending(&mut self, settings: &Settings) -> bool {
        if let Some(form) = self.continuous {
            self.message = self.record(settings, form);
            self.sent_last = Sent::Record;
        }
        self.continuous.is_some()
    }

    fn record(&self, settings: &Settings, form: Form) -> Message {
        let fields = self.measurement.fields_in(self.unit);
        let writer = match form {
            Form::Text => forms::text,
            Form::Packed => forms::packed,
        };
        Message::by(|bytes| writer(&fields, &settings.serial, self.checksum, bytes))
    }

    fn fixed_data(&self, settings: &Settings) -> Message {
        Message::by(|bytes| forms::fixed(settings, self.checksum, bytes))
    }

    fn reply(&mut self, message: Message) -> bool {
        self.message = message;
        self.sent_last = Sent::Reply;
        true
    }

    fn act_in_ready(&mut self, settings: &Settings, command: Command) -> bool {
        if command == Command::Fixed {
            self.running = true;
            return self.reply(self.fixed_data(settings));
        }
        self.message = Message::of(&[b"<"], self.checksum);
        self.sent_last = Sent::Neither;
        true
    }

    /// Acts on a command in running; whether it has a reply.
    fn act(&mut self, settings: &mut Settings, command: Command) -> bool {
        match command {
            Command::Continuous(form) => self.continuous = Some(form),
            Command::Checksum => self.checksum = true,
            Command::Inhibit => self.inhibit = true,
            Command::Halt => (self.continuous, self.checksum, self.inhibit) = (None, false, false),
            Command::Rate(n) => self.next_rate = n,
            Command::Film(_, film) => self.film = film,
            Command::Unit(_, unit, letter) => {
                self.unit = unit;
                if matches!(settings.letter, b'B' | b'b') {
                    settings.letter = letter;
                }
            }
            Command::Unknown if self.inhibit => return false,
            _ => {}
        }
        // The reply is written under the modes after the command.
        let plain = |parts: &[&[u8]]| Message::of(parts, self.checksum);
        let message = match command {
            Command::Version => plain(&[b"B ", &settings.version]),
            Command::Continuous(_) | Command::Checksum | Command::Inhibit | Command::Halt => plain(&[b"!"]),
            Command::Record(form) => self.record(settings, form),
            Command::Rate(n) => plain(&[b"Kb", &[b'0' + n, b'!']]),
            Command::Maker => plain(&[b"K3", &settings.maker]),
            Command::TypeName => plain(&[b"K4", &settings.type_name]),
            Command::Fixed => self.fixed_data(settings),
            Command::Temperature => plain(&[b"P", &degrees(self.measurement.temperature)]),
            Command::Film(letter, film) => plain(&[&[letter], b"0.0", &three_digits(settings.blur[usize::from(film)])]),
            Command::Unit(letter, ..) => plain(&[&[letter]]),
            Command::Unknown => plain(&[b"?"]),
        };
        self.reply(message)
    }
}
