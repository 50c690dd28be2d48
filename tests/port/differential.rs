//! Compares two programs with the reference port (../host/reference/port.rs). Exit status 1 on a difference.
//!
//! `replay` runs random captures from each start-up letter, and the text that it prints is the reference's, byte for byte:
//! commands of all kinds, slots and measurements at varied densities, P at every temperature; captures that reach the last slot;
//! and short ones that are damaged. With the argument `ports` it does so on captures of both ports, in pairs that have the lines of
//! one port in common: what is printed for these is compared too. `driver` is the session program: after the start and after each
//! byte it sends what a lent buffer of 400 bytes takes. Both read their input in pieces that end at any place.
//!
//! On the reference's side it also counts, independently of the proof, demand 3's three spans of slots at each port, and fails if
//! one is past its bound or if something that the captures can show did not occur.
//!
//! differential REPLAY DRIVER [seed [events]]

mod camera;
mod captures;
mod endings;
mod examples;
#[path = "../host/reference/forms.rs"]
mod forms;
mod isolation;
#[allow(dead_code)] // the port reads no message
#[path = "../host/reference/lens.rs"]
mod lens;
#[path = "../host/reference/port.rs"]
mod port;
mod programs;
#[path = "../host/random.rs"]
mod random;
#[path = "../host/reference/replay.rs"]
mod replay;
mod spans;
mod tally;

use camera::{session, Pace};
use captures::{ended, Capture, LF};
use endings::{at_the_limit, damaged};
use isolation::{blot, own, pair, Turns};
use programs::printed;
use random::Random;
use replay::{End, Lens, Watch, MOST_IN_A_TURN};
use spans::{Spans, BOUNDS};
use std::process::exit;
use tally::{widen, Seen, Sessions, Tally};

const LETTERS: &[u8; 4] = b"IMBb";
const EVENTS_IN_A_RUN: usize = 20_000;
/// A short capture is damaged for every so many events.
const EVENTS_A_DAMAGE: u64 = 1000;
const AT_THE_LIMIT: usize = 24;
/// Each way to share out the slots, with each way to reach the last one at each port.
const BOTH_AT_THE_LIMIT: usize = 18;
const SESSIONS: usize = 40;
/// One in so many captures without a port number is also replayed with the argument `ports`.
const ALSO_WITH_PORTS: usize = 5;

// ---- comparing

/// Where two texts differ first, if they do, and what stands there.
fn same(got: &[u8], wanted: &[u8]) -> Result<(), (usize, String)> {
    if got == wanted {
        return Ok(());
    }
    let place = got.iter().zip(wanted).take_while(|(a, b)| a == b).count();
    let shown = |text: &[u8]| text[place.saturating_sub(30)..text.len().min(place + 30)].escape_ascii().to_string();
    Err((place, format!("byte {place}: the program '{}', the reference '{}'", shown(got), shown(wanted))))
}

/// How `replay` is called.
#[derive(Clone, Copy)]
struct Call {
    ports: bool,
    letter: u8,
}

impl Call {
    fn words(&self) -> String {
        format!("{}{}", if self.ports { "ports " } else { "" }, char::from(self.letter))
    }

    fn reference(&self, capture: &[u8], watch: &mut impl Watch) -> Result<Vec<u8>, String> {
        replay::replay(self.ports, self.letter, capture, watch)
            .map_err(|refusal| format!("the reference did not start: {refusal:?}"))
    }

    fn program(&self, program: &str, capture: &[u8], random: &mut Random) -> Result<Vec<u8>, String> {
        printed(program, &self.words().split(' ').collect::<Vec<_>>(), capture, random)
    }
}

/// What was printed for a capture.
struct Printed {
    text: Vec<u8>,
    /// How much of it before each line, and before `slots`.
    before: Vec<usize>,
    end: End,
}

impl Printed {
    fn lines(&self) -> impl Iterator<Item = &[u8]> {
        self.before.windows(2).map(|ends| &self.text[ends[0]..ends[1]])
    }
}

/// Replays a capture on the program and the reference.
fn compare(program: &str, call: Call, capture: &[u8], random: &mut Random, tally: &mut Tally) -> Result<Printed, String> {
    let mut seen = Seen::new(tally);
    let wanted = call.reference(capture, &mut seen)?;
    if let Some(line) = seen.past {
        let most = seen.spans.map(|spans| spans.most);
        return Err(format!("line {line}: past a bound of {:?}, the largest so far {most:?}", *BOUNDS));
    }
    let text = call.program(program, capture, random)?;
    same(&text, &wanted).map_err(|(place, what)| format!("line {}, {what}", seen.line_of(place)))?;
    Ok(Printed { text, before: seen.printed, end: seen.end })
}

/// Runs a session on the program, and on the reference by lent buffers and by slots.
fn compare_session(program: &str, letter: u8, input: &[u8], random: &mut Random, tally: &mut Sessions) -> Result<(), String> {
    let mut lens = Lens::start(letter).map_err(|refusal| format!("the reference did not start: {refusal:?}"))?;
    let mut spans = Spans::default();
    let mut wanted = Vec::new();
    let mut before = Vec::new();
    for taken in 0..=input.len() {
        if taken > 0 {
            // A session tells nobody of a line that is dropped.
            let _ = lens.receive(0, input[taken - 1]);
            spans.received(&lens.ports[0]);
        }
        let mut by_slots = lens.clone();
        let mut lent = [0; MOST_IN_A_TURN];
        let sent = lens.ports[0].fill(&mut lens.settings, &mut lent);
        let slots: Vec<u8> = (0..MOST_IN_A_TURN).map_while(|_| spans.slot(&mut by_slots, 0)).collect();
        if slots != lent[..sent] {
            return Err(format!("after byte {taken}: the reference's fill {:02X?}, its slots {slots:02X?}", &lent[..sent]));
        }
        if spans.past_bound() {
            return Err(format!("after byte {taken}: past a bound of {:?}, the largest so far {:?}", *BOUNDS, spans.most));
        }
        before.push(wanted.len());
        wanted.extend(slots);
        tally.full += u64::from(sent == MOST_IN_A_TURN);
        tally.empty += u64::from(sent == 0);
    }
    tally.ended(input.len(), spans.most);
    let got = printed(program, &[&char::from(letter).to_string()], input, random)?;
    same(&got, &wanted)
        .map_err(|(place, what)| format!("after byte {}, {what}", before.partition_point(|&sent| sent <= place) - 1))
}

// ---- the whole

struct Test {
    replay: String,
    driver: String,
    seed: u64,
    seeds: Random,
    /// What occurred in captures of port 0, and in those of both ports.
    tallies: [Tally; 2],
    sessions: Sessions,
    /// Captures that were replayed with the argument `ports`, too.
    also_with_ports: u64,
    /// Pairs with a port's lines in common, for which the same was printed; and those that differed in the letter, by port.
    alike: u64,
    by_letter: [u64; 2],
}

impl Test {
    fn differs(&self, what: &str) -> ! {
        println!("port: seed {}, {what}", self.seed);
        exit(1)
    }

    /// Compares one capture; where it differs, it is kept.
    fn capture(&mut self, call: Call, capture: &[u8]) -> Printed {
        let tally = &mut self.tallies[usize::from(call.ports)];
        compare(&self.replay, call, capture, &mut self.seeds, tally)
            .unwrap_or_else(|what| self.differs(&format!("replay {} <{}, {what}", call.words(), kept(capture, ""))))
    }

    /// Compares a capture of port 0; at times also with the argument `ports`, where the same is printed for it.
    fn capture_of_one(&mut self, number: usize, letter: u8, capture: &[u8]) {
        let without = self.capture(Call { ports: false, letter }, capture).text;
        let numbered = |line: &[u8]| line.starts_with(b"0 ") || line.starts_with(b"1 ");
        if number % ALSO_WITH_PORTS != 0 || capture.split(|&byte| byte == LF).any(numbered) {
            return;
        }
        let call = Call { ports: true, letter };
        let with = [call.reference(capture, &mut ()), call.program(&self.replay, capture, &mut self.seeds)];
        if with.iter().any(|with| with.as_ref() != Ok(&without)) {
            self.differs(&format!("replay {} <{} prints otherwise without ports", call.words(), kept(capture, "")));
        }
        self.also_with_ports += 1;
    }

    /// Two captures with a port's lines in common: what is printed for these is the same, but for the letter if the other port may
    /// turn it.
    fn pair(&mut self, number: usize) {
        let call = Call { ports: true, letter: LETTERS[number % 4] };
        let (common, turns) = (number / 4 % 2, [Turns::Never, Turns::AtTimes, Turns::Often][number / 8 % 3]);
        let captures = pair(&mut self.seeds, common, turns);
        let runs = captures.each_ref().map(|capture| self.capture(call, capture));
        // The last slot is no port's own.
        if runs.iter().any(|run| run.end == End::Limit) {
            return;
        }
        let [mut one, mut two] = [0, 1].map(|i| own(common, &captures[i], runs[i].lines()));
        if one == two {
            self.alike += 1;
            return;
        }
        self.by_letter[common] += 1;
        blot(&mut one);
        blot(&mut two);
        if turns == Turns::Never || matches!(call.letter, b'I' | b'M') || one != two {
            let [one, two] = [kept(&captures[0], "-1"), kept(&captures[1], "-2")];
            self.differs(&format!("replay {} <{one} and <{two}: port {common} hangs on the other", call.words()));
        }
    }

    fn examples(&mut self) -> Result<(), String> {
        examples::examples(&self.replay, &mut self.seeds)?;
        examples::letters(&self.replay, &[], b"R 4e\nR 0d\nS 70\n", &mut self.seeds)?;
        examples::letters(&self.replay, &["ports"], b"1 R 4e\n1 R 0d\n1 S 70\n", &mut self.seeds)?;
        examples::letters(&self.driver, &[], b"N\r", &mut self.seeds)?;
        examples::arguments(&self.replay, b"S 4\n", &mut self.seeds)
    }

    fn captures_of_one(&mut self, events: u64) {
        while self.tallies[0].events() < events || self.tallies[0].captures() % 4 != 0 {
            let number = self.tallies[0].captures() as usize;
            let mut capture = Capture::new(self.seeds.next());
            if number == 0 {
                capture.temperatures();
            }
            capture.run(EVENTS_IN_A_RUN, Pace::any);
            let capture = ended(&mut self.seeds, capture.text);
            // Each letter has its turn among those that are replayed with ports, too.
            self.capture_of_one(number / 4, LETTERS[number % 4], &capture);
        }
    }

    fn captures_of_both(&mut self, events: u64) {
        let mut number = 0;
        while self.tallies[1].events() < events || number % 24 != 0 {
            self.pair(number);
            number += 1;
        }
    }

    fn at_the_limit(&mut self) {
        for number in 0..AT_THE_LIMIT {
            let capture = at_the_limit(false, self.seeds.next(), number);
            let letter = self.seeds.pick(LETTERS);
            self.capture_of_one(number, letter, &capture);
        }
        for number in 0..BOTH_AT_THE_LIMIT {
            let capture = at_the_limit(true, self.seeds.next(), number);
            let letter = self.seeds.pick(LETTERS);
            self.capture(Call { ports: true, letter }, &capture);
        }
    }

    fn damaged(&mut self, captures: usize) {
        for number in 0..captures {
            let capture = damaged(false, self.seeds.next(), number);
            let letter = self.seeds.pick(LETTERS);
            self.capture_of_one(number, letter, &capture);
            let capture = damaged(true, self.seeds.next(), number);
            self.capture(Call { ports: true, letter }, &capture);
        }
    }

    fn sessions(&mut self) {
        for number in 0..SESSIONS {
            let input = if number < 4 { Vec::new() } else { session(&mut Random(self.seeds.next())) };
            let letter = LETTERS[number % 4];
            if let Err(what) = compare_session(&self.driver, letter, &input, &mut self.seeds, &mut self.sessions) {
                self.differs(&format!("session {number}, start-up letter {}, {what}", char::from(letter)));
            }
        }
    }

    fn run(&mut self, events: u64) {
        if let Err(what) = self.examples() {
            self.differs(&what);
        }
        self.captures_of_one(events);
        self.captures_of_both(events);
        self.at_the_limit();
        self.damaged((events / EVENTS_A_DAMAGE) as usize);
        self.sessions();
    }

    /// What the runs were to show and did not.
    fn missing(&self) -> Vec<String> {
        let mut missing: Vec<String> = self.tallies.iter().flat_map(Tally::missing).chain(self.sessions.missing()).collect();
        for (what, count) in [
            ("capture was replayed with ports, too", self.also_with_ports),
            ("pair with a port's lines in common was alike", self.alike),
            ("letter turned at port 1 showed at port 0", self.by_letter[0]),
            ("letter turned at port 0 showed at port 1", self.by_letter[1]),
        ] {
            if count == 0 {
                missing.push(format!("no {what}"));
            }
        }
        missing
    }

    /// The largest spans of each port.
    fn most(&self) -> [[u64; 3]; 2] {
        let mut most = [self.sessions.most, [0; 3]];
        for tally in &self.tallies {
            most.iter_mut().zip(tally.most()).for_each(|(most, seen)| widen(most, seen));
        }
        most
    }

    fn print(&self) {
        for tally in &self.tallies {
            tally.print();
        }
        println!("{} captures of port 0 printed the same with ports", self.also_with_ports);
        let [camera, external] = self.by_letter;
        println!(
            "pairs of captures with a port's lines in common: {} printed the same for them, {} only other letters of N replies \
             ({camera} at port 0, {external} at port 1)",
            self.alike,
            camera + external
        );
        self.sessions.print();
    }
}

/// Keeps a capture; its path.
fn kept(capture: &[u8], which: &str) -> String {
    let kept = std::env::temp_dir().join(format!("capture-{}{which}", std::process::id()));
    std::fs::write(&kept, capture).map_or_else(|error| error.to_string(), |()| kept.display().to_string())
}

fn main() {
    let mut words = std::env::args().skip(1);
    let programs = (words.next(), words.next());
    let mut numbers = words.map(|word| word.parse::<u64>());
    let ((Some(replay), Some(driver)), Ok(seed), Ok(events)) =
        (programs, numbers.next().unwrap_or(Ok(1)), numbers.next().unwrap_or(Ok(1_200_000)))
    else {
        eprintln!("usage: differential REPLAY DRIVER [seed [events]]");
        exit(2);
    };
    println!("port: seed {seed}, {events} events or more of port 0, and of both ports");

    let mut test = Test {
        replay,
        driver,
        seed,
        seeds: Random(seed),
        tallies: [Tally::of(1), Tally::of(2)],
        sessions: Sessions::default(),
        also_with_ports: 0,
        alike: 0,
        by_letter: [0; 2],
    };
    test.run(events);

    test.print();
    let missing = test.missing();
    for what in &missing {
        println!("port: {what}");
    }
    let [one, both] = &test.tallies;
    println!(
        "port: {} events in {} captures of port 0, {} in {} of both ports and {} bytes in {} sessions, 0 differ; the largest spans \
         {:?} slots of {:?}",
        one.events(),
        one.captures(),
        both.events(),
        both.captures(),
        test.sessions.received,
        test.sessions.number,
        test.most(),
        *BOUNDS
    );
    exit(if missing.is_empty() { 0 } else { 1 });
}
