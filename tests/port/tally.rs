//! What occurred in the reference's runs.

use crate::port::Refusal;
use crate::replay::{End, Lens, Watch, MOST_SLOTS};
use crate::spans::Spans;

/// What occurred at one port.
#[derive(Default, Clone)]
struct AtPort {
    received: u64,
    dropped: u64,
    slots: u64,
    idle: u64,
    measured: u64,
    /// Measurements refused by each field.
    refused: [u64; 14],
    /// A bit for each film and each rate that was in force.
    films: u32,
    rates: u32,
    /// A bit for each byte that a message began with.
    began: u128,
    /// The largest spans.
    most: [u64; 3],
    /// Commands acted on; those answered by <; and those acted on while the other port sent continuously.
    acted: u64,
    in_ready: u64,
    beside_records: u64,
    /// N replies with a letter that the other port had turned.
    turned: u64,
    /// N replies under way while the other port turned the letter.
    turned_meanwhile: u64,
}

/// What occurred in captures of so many ports.
pub struct Tally {
    ports: Vec<AtPort>,
    /// Captures that ended with the input, by a line of another form, and at slot 100,000.
    ended: [u64; 3],
}

/// The larger of each span.
pub fn widen(most: &mut [u64; 3], seen: [u64; 3]) {
    for (widest, seen) in most.iter_mut().zip(seen) {
        *widest = seen.max(*widest);
    }
}

impl Tally {
    pub fn of(ports: usize) -> Tally {
        Tally { ports: vec![AtPort::default(); ports], ended: [0; 3] }
    }

    pub fn events(&self) -> u64 {
        self.ports.iter().map(|port| port.received + port.slots + port.measured).sum()
    }

    pub fn captures(&self) -> u64 {
        self.ended.iter().sum()
    }

    /// The largest spans of each port.
    pub fn most(&self) -> impl Iterator<Item = [u64; 3]> + '_ {
        self.ports.iter().map(|port| port.most)
    }

    pub fn print(&self) {
        println!("captures of {}:", if self.ports.len() == 1 { "port 0" } else { "both ports" });
        for (at, port) in self.ports.iter().enumerate() {
            let AtPort { received, dropped, slots, idle, acted, in_ready, measured, refused, .. } = port;
            println!("  port {at}: {received} bytes received ({dropped} lines dropped), {slots} slots ({idle} idle)");
            println!("    {acted} commands acted on, {in_ready} answered by <");
            let sum: u64 = refused.iter().sum();
            println!("    {measured} measurements ({sum} refused: by field {refused:?})");
            if self.ports.len() > 1 {
                let AtPort { beside_records, turned, turned_meanwhile, .. } = port;
                println!("    {beside_records} acted on while the other port sent continuously");
                println!("    {turned} N replies with a letter that it had turned; it turned {turned_meanwhile} times during one");
            }
        }
        let [input, form, limit] = self.ended;
        println!("  {input} captures ended with the input, {form} by refusal 10, {limit} at slot {MOST_SLOTS}");
    }

    /// What the runs were to show and did not.
    pub fn missing(&self) -> Vec<String> {
        let mut missing = Vec::new();
        let mut none = |what: &str, count| {
            if count == 0 {
                missing.push(format!("no {what}"));
            }
        };
        none("capture ended with the input", self.ended[0]);
        none("capture ended by refusal 10", self.ended[1]);
        none("capture ended at the last slot", self.ended[2]);
        for (at, port) in self.ports.iter().enumerate() {
            none(&format!("line was dropped at port {at}"), port.dropped);
            none(&format!("slot of port {at} was idle"), port.idle);
            for field in (0..=13).filter(|&field| field != 12) {
                none(&format!("measurement was refused by field {field} at port {at}"), port.refused[field]);
            }
            for &first in b"<!?BDKNPVWXYd" {
                none(&format!("message of port {at} began with {}", char::from(first)), u64::from(port.began >> first & 1 == 1));
            }
            none(&format!("command answered by < at port {at}"), port.in_ready);
            none(&format!("run of port {at} at every rate"), u64::from(port.rates == 0xFF));
            if self.ports.len() == 1 {
                none("run with every film", u64::from(port.films == u32::MAX));
            } else {
                none(&format!("command acted on beside records at port {at}"), port.beside_records);
                none(&format!("N reply with a letter turned by the other at port {at}"), port.turned);
                none(&format!("letter turned during an N reply at port {at}"), port.turned_meanwhile);
            }
        }
        missing
    }
}

/// What occurred in sessions.
#[derive(Default)]
pub struct Sessions {
    pub number: u64,
    pub received: u64,
    /// Turns that filled the buffer, and turns that sent nothing.
    pub full: u64,
    pub empty: u64,
    pub most: [u64; 3],
}

impl Sessions {
    pub fn ended(&mut self, received: usize, most: [u64; 3]) {
        self.number += 1;
        self.received += received as u64;
        widen(&mut self.most, most);
    }

    pub fn print(&self) {
        let Sessions { number, received, full, empty, .. } = self;
        println!("{number} sessions: {received} bytes received; the buffer was filled {full} times, and {empty} times left empty");
    }

    /// What they were to show and did not.
    pub fn missing(&self) -> Vec<String> {
        let turns = [("full", self.full), ("empty", self.empty)].into_iter();
        turns.filter(|turn| turn.1 == 0).map(|(what, _)| format!("no turn of a session was {what}")).collect()
    }
}

/// Looks on at the reference's replay of one capture.
pub struct Seen<'a> {
    tally: &'a mut Tally,
    pub spans: [Spans; 2],
    /// How much was printed before each line, and before `slots`.
    pub printed: Vec<usize>,
    /// The number of the first line with a span past its bound.
    pub past: Option<usize>,
    pub end: End,
    /// The port that turned the start-up letter last.
    turner: Option<usize>,
    /// Whether the message under way at each port is an N reply.
    fixed: [bool; 2],
}

impl Seen<'_> {
    pub fn new(tally: &mut Tally) -> Seen<'_> {
        Seen {
            tally,
            spans: [Spans::default(), Spans::default()],
            printed: Vec::new(),
            past: None,
            end: End::Input,
            turner: None,
            fixed: [false; 2],
        }
    }

    /// The number of the line for which a byte was printed.
    pub fn line_of(&self, place: usize) -> usize {
        self.printed.partition_point(|&printed| printed <= place)
    }

    /// A slot turned the letter.
    fn turned(&mut self, lens: &Lens, at: usize) {
        self.turner = Some(at);
        if self.fixed[1 - at] && lens.ports[1 - at].under_way() {
            self.tally.ports[1 - at].turned_meanwhile += 1;
        }
    }
}

impl Watch for Seen<'_> {
    fn line(&mut self, printed: usize) {
        self.printed.push(printed);
    }

    fn received(&mut self, lens: &Lens, at: usize, answer: Result<(), Refusal>) {
        self.spans[at].received(&lens.ports[at]);
        self.tally.ports[at].received += 1;
        self.tally.ports[at].dropped += u64::from(answer.is_err());
    }

    fn slot(&mut self, lens: &mut Lens, at: usize) -> Option<u8> {
        let (letter, waited, begins) = (lens.settings.letter, lens.ports[at].command_waits(), !lens.ports[at].under_way());
        let sent = self.spans[at].slot(lens, at);
        if self.past.is_none() && self.spans[at].past_bound() {
            self.past = Some(self.printed.len());
        }
        let port = &lens.ports[at];
        let acted = waited && !port.command_waits();
        let tally = &mut self.tally.ports[at];
        if let (true, Some(first)) = (begins, sent) {
            self.fixed[at] = first == b'N';
            tally.began |= 1 << first;
            tally.in_ready += u64::from(acted && first == b'<');
            tally.turned += u64::from(first == b'N' && self.turner == Some(1 - at));
        }
        tally.slots += 1;
        tally.idle += u64::from(sent.is_none());
        tally.films |= 1 << port.film();
        tally.rates |= 1 << port.rate();
        tally.acted += u64::from(acted);
        tally.beside_records += u64::from(acted && lens.ports[1 - at].sends_continuously());
        if lens.settings.letter != letter {
            self.turned(lens, at);
        }
        sent
    }

    fn measured(&mut self, at: usize, answer: Result<(), Refusal>) {
        self.tally.ports[at].measured += 1;
        if let Err(Refusal::Field(field)) = answer {
            self.tally.ports[at].refused[usize::from(field)] += 1;
        }
    }

    fn ended(&mut self, end: End, printed: usize) {
        self.tally.ended[end as usize] += 1;
        self.printed.push(printed);
        self.end = end;
        for (port, spans) in self.tally.ports.iter_mut().zip(&self.spans) {
            widen(&mut port.most, spans.most);
        }
    }
}
