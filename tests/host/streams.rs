//! Compares the cutter and the recorder of libhourheron.a with the reference (reference/stream.rs) on small streams cut
//! everywhere and on random ones cut at random places: after each call the answer, the state that is handed back, and all of
//! the lent memory with guard bytes on both sides of it. Exit status 1 on a difference.
//!
//! streams [seed [random streams]]

mod cut_library;
mod lent;
mod pieces;
mod random;
mod recorders;
#[path = "reference/stream.rs"]
mod stream;
mod tally;

// Of these a part is asked for here.
#[allow(dead_code)]
#[path = "reference/lens.rs"]
mod lens;
#[allow(dead_code)]
mod library;
#[allow(dead_code)]
mod messages;

use cut_library::{Cutter, FRESH, HELD};
use lent::{Lent, LONGEST_ROOM};
use messages::{FIXED, PACKED, TEXT};
use pieces::{fill, parts, Cutting};
use random::Random;
use std::process::exit;
use stream::{Cut, Outcome, Stream, LONGEST, REFUSED};
use tally::{hex, seed_and_count, Differences, Tallies};

/// A cutter's count where its message is too long.
const TOO_LONG: usize = LONGEST + 1;

// ---- the entries

struct Entry {
    name: &'static str,
    /// Bytes it puts out; none where it is the message.
    output: Option<usize>,
    reference: fn(&[u8], bool, &mut [u8]) -> Outcome,
    library: fn(&mut Cutter, &[u8], bool, &mut [u8]) -> Cut,
}

const CUT_TEXT: Entry =
    Entry { name: "heron_cut_text", output: Some(TEXT.output), reference: lens::read_text, library: cut_library::cut_text };
const CUT_PACKED: Entry = Entry {
    name: "heron_cut_packed",
    output: Some(PACKED.output),
    reference: lens::read_packed,
    library: cut_library::cut_packed,
};
const CUT_FIXED: Entry =
    Entry { name: "heron_cut_fixed", output: Some(FIXED.output), reference: lens::read_fixed, library: cut_library::cut_fixed };
const CUT_MESSAGE: Entry = Entry {
    name: "heron_cut_message",
    output: None,
    reference: |message, _, out| stream::read_message(message, out),
    library: |cutter, piece, _, out| cut_library::cut_message(cutter, piece, out),
};

/// The reader of messages of this length, with its checksum setting.
fn fitting(length: usize) -> Option<(&'static Entry, bool)> {
    let forms = [(&CUT_TEXT, lens::TEXT), (&CUT_PACKED, lens::PACKED), (&CUT_FIXED, lens::FIXED)];
    forms
        .into_iter()
        .find(|form| [form.1 + 2, form.1 + 4].contains(&length))
        .map(|(entry, contents)| (entry, length == contents + 4))
}

fn any_entry(random: &mut Random, next: Option<&[u8]>) -> (&'static Entry, bool) {
    let fitting = next.filter(|_| random.flag()).and_then(|message| fitting(message.len()));
    fitting.unwrap_or_else(|| (random.pick(&[&CUT_TEXT, &CUT_PACKED, &CUT_FIXED, &CUT_MESSAGE]), random.flag()))
}

fn any_room(random: &mut Random, needed: usize) -> usize {
    match random.below(16) {
        0 => 0,
        1 => needed - 1,
        2 => needed + 1,
        3 => 50 + random.below(5),
        4 => random.below(LONGEST_ROOM + 1),
        _ => needed,
    }
}

// ---- cutters

/// A count that no cutter has.
fn wrong_count(random: &mut Random) -> usize {
    let any = random.next() as usize;
    random.pick(&[TOO_LONG + 1, TOO_LONG + 2, 256, 1 << 32, (1 << 32) + 5, 1 << 63, usize::MAX, any.max(TOO_LONG + 1)])
}

/// The cutter for what follows, told of what the stream has there; `before` is the one that was handed in.
fn follows(stream: &Stream, at: usize, cut: Cut, before: &Cutter, found: &Cutter) -> bool {
    if cut.ended {
        return *found == FRESH;
    }
    let waiting = stream.waiting(at + cut.used);
    match waiting.len() {
        0..=LONGEST => {
            let (held, rest) = found.bytes.split_at(waiting.len());
            found.len == waiting.len() && held == waiting && *rest == before.bytes[waiting.len()..]
        }
        _ => found.len == TOO_LONG,
    }
}

struct Test {
    random: Random,
    tallies: Tallies,
    differences: Differences,
    /// A cutter whose message is too long, after an x and after LF; and where the two differ.
    too_long: [Cutter; 2],
    last: Vec<usize>,
}

impl Test {
    fn new(seed: u64) -> Test {
        let too_long = [b'x', b'\n'].map(|last| {
            let mut cutter = FRESH;
            let long = [&[b'x'; LONGEST][..], &[last]].concat();
            cut_library::cut_message(&mut cutter, &long, &mut []);
            cutter
        });
        let last = (0..HELD).filter(|&place| too_long[0].bytes[place] != too_long[1].bytes[place]).collect();
        Test { random: Random(seed), tallies: Tallies::default(), differences: Differences::none("streams", seed), too_long, last }
    }

    /// Other bytes where a cutter holds none.
    fn scramble(&mut self, cutter: &mut Cutter) {
        match cutter.len {
            0..=LONGEST => fill(&mut self.random, &mut cutter.bytes[cutter.len..]),
            _ => {
                let kept = cutter.bytes;
                fill(&mut self.random, &mut cutter.bytes);
                self.last.iter().for_each(|&place| cutter.bytes[place] = kept[place]);
            }
        }
    }

    /// A cutter from any hand and the bytes that it stands for.
    fn any_cutter(&mut self) -> (Cutter, Vec<u8>) {
        let random = &mut self.random;
        if random.below(8) != 0 {
            return (FRESH, Vec::new());
        }
        let count = random.pick(&[0, 1, 2, 40, LONGEST - 2, LONGEST - 1, LONGEST, TOO_LONG]);
        let mut held: Vec<u8> = (0..count).map(|_| random.pick(b"\n\n\rxyz")).collect();
        let mut cutter = FRESH;
        if count == TOO_LONG {
            let last = random.flag();
            cutter = self.too_long[usize::from(last)];
            held[LONGEST] = if last { b'\n' } else { b'x' };
        } else {
            cutter.bytes[..count].copy_from_slice(&held);
            cutter.len = count;
        }
        self.scramble(&mut cutter);
        (cutter, held)
    }

    // ---- the cutter

    fn random_stream(&mut self) {
        let (mut cutter, mut bytes) = self.any_cutter();
        let held = bytes.len();
        parts(&mut self.random, &mut bytes);
        let stream = Stream::new(bytes, held);
        let cutting = Cutting::any(&mut self.random);
        let mut at = held;
        loop {
            let to = cutting.next(&mut self.random, &stream.bytes, at);
            if self.random.below(32) == 0 {
                self.refused_cut(&stream, at, to, cutter);
            }
            at += self.cut(&stream, at, to, &mut cutter);
            if at == stream.bytes.len() {
                break;
            }
        }
    }

    /// A stream cut at each of its places in turn, into two pieces.
    fn every_cutting(&mut self, bytes: Vec<u8>) {
        let stream = Stream::new(bytes, 0);
        for place in 0..=stream.bytes.len() {
            let (mut cutter, mut at) = (FRESH, 0);
            for to in [place, stream.bytes.len()] {
                while at < to {
                    at += self.cut(&stream, at, to, &mut cutter);
                }
            }
        }
    }

    /// Every stream of up to seven bytes that are LF, CR or x; every length about the longest message's, its last bytes LF or not.
    fn every_stream(&mut self) {
        for length in 0..=7 {
            for n in 0..3usize.pow(length) {
                self.every_cutting((0..length).map(|place| b"\n\rx"[n / 3usize.pow(place) % 3]).collect());
            }
        }
        for length in LONGEST - 8..=LONGEST + 8 {
            for lf in 0..=4 {
                let mut bytes = vec![b'x'; length - lf];
                bytes.extend(vec![b'\n'; lf]);
                self.every_cutting([&bytes[..], b"\r", b"\n\r"].concat());
            }
        }
    }

    fn cut(&mut self, stream: &Stream, at: usize, to: usize, cutter: &mut Cutter) -> usize {
        let next = stream.next(at);
        let (entry, with_sum) = any_entry(&mut self.random, next);
        let needed = entry.output.unwrap_or(next.map_or(LONGEST, |message| message.len().min(LONGEST)));
        let room = any_room(&mut self.random, needed);
        let mut lent = Lent::new(&mut self.random, room);
        if self.random.below(16) == 0 {
            self.scramble(cutter);
        }
        let before = *cutter;
        let right = stream.cut(at, to, |m| (entry.reference)(m, with_sum, lent.right()));
        let found = (entry.library)(cutter, &stream.bytes[at..to], with_sum, lent.found());
        if right.ended {
            self.tallies.count(entry.name, right.outcome);
        } else {
            self.tallies.count("no message ended", right.outcome);
        }
        if right != found || !lent.agrees() || !follows(stream, at, right, &before, cutter) {
            self.differences.tell(
                entry.name,
                format!("stream {}; from {at} to {to}; checksum {with_sum}; room {room}; cutter {before:?}", hex(&stream.bytes)),
                format!("{right:?}; {}", lent.shown_right()),
                format!("{found:?}; {}; cutter {cutter:?}", lent.shown_found()),
            );
        }
        right.used
    }

    /// The same call with a count that no cutter has.
    fn refused_cut(&mut self, stream: &Stream, at: usize, to: usize, mut cutter: Cutter) {
        let (entry, with_sum) = any_entry(&mut self.random, stream.next(at));
        let room = self.random.below(LONGEST_ROOM + 1);
        let mut lent = Lent::new(&mut self.random, room);
        if self.random.flag() {
            fill(&mut self.random, &mut cutter.bytes);
        }
        cutter.len = wrong_count(&mut self.random);
        let before = cutter;
        let found = (entry.library)(&mut cutter, &stream.bytes[at..to], with_sum, lent.found());
        self.tallies.count(entry.name, REFUSED.outcome);
        if found != REFUSED || !lent.untouched() || cutter != before {
            let piece = hex(&stream.bytes[at..to]);
            self.differences.tell(
                entry.name,
                format!("piece {piece}; checksum {with_sum}; room {room}; cutter {before:?}"),
                format!("{REFUSED:?}; memory and cutter as they were"),
                format!("{found:?}; {}; cutter {cutter:?}", lent.shown_found()),
            );
        }
    }
}

fn main() {
    let (seed, streams) = seed_and_count("streams [seed [random streams]]");
    let recorders = streams / 10;
    println!(
        "streams: seed {seed}, {streams} random streams for the cutter, {recorders} for the recorder beside the exhaustive ones"
    );
    let mut test = Test::new(seed);

    test.first_recorder();
    test.every_stream();
    for _ in 0..streams {
        test.random_stream();
    }
    for _ in 0..recorders {
        test.random_recorder();
    }

    let calls = test.tallies.print();
    println!("streams: {streams} streams and {recorders} recorders, {calls} calls, {} differences", test.differences.count);
    exit(if test.differences.count == 0 { 0 } else { 1 });
}
