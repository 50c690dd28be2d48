//! Streams of records cut and read by libhourheron.a and by plain Rust (plain_cutter.rs), beside reading the same messages already cut.
//! First every answer and what was read are compared, on right streams and on damaged ones; then the right ones are timed, in turns.
//!
//! streams time     one line a form and way: their names, then the medians of ours and of plain Rust in nanoseconds a message, of the
//!                  ratio, and of our rate as a part of our rate on messages already cut
//! streams count    goes once through each of them, to be counted; prints nothing

#[allow(dead_code)] // the packed and the text cutter are asked for here
#[path = "../tests/host/cut_exports.rs"]
mod cut_exports;
#[allow(dead_code)]
mod heron;
#[allow(dead_code)] // each stream says whether its records carry checksums
mod inputs;
#[allow(dead_code)]
mod plain;
mod plain_cutter;
#[allow(dead_code)]
#[path = "../tests/host/random.rs"]
mod random;

use inputs::{is_counted, median, record, Outcome, ROUNDS, SEED};
use plain::Fields;
use plain_cutter::Cut;
use random::Random;
use std::process::exit;
use std::time::{Duration, Instant};

const MESSAGES: usize = 512;
const ROUND: Duration = Duration::from_millis(4);
const ROOM: usize = 64;

/// Messages one after another, all with checksums or all without.
pub struct Stream {
    bytes: Vec<u8>,
    with_sum: bool,
    /// Of a message.
    length: usize,
}

type Put = fn(&Fields, &[u8; 9], bool, &mut [u8]) -> usize;

fn stream(random: &mut Random, put: Put, with_sum: bool) -> Stream {
    let (mut bytes, mut length) = (Vec::new(), 0);
    for _ in 0..MESSAGES {
        let mut message = [0; 128];
        let r = record(random);
        length = put(&r.fields, &r.serial, with_sum, &mut message);
        bytes.extend(&message[..length]);
    }
    Stream { bytes, with_sum, length }
}

fn damaged(random: &mut Random, s: &Stream) -> Stream {
    let mut bytes = s.bytes.clone();
    for _ in 0..MESSAGES / 2 {
        let place = random.below(bytes.len());
        bytes[place] = random.pick(b"\n\r\n\r09@S\x80");
    }
    Stream { bytes, ..*s }
}

// ---- the ways through a stream: `each` is told every answer

#[inline(always)]
fn read_each(s: &Stream, read: impl Fn(&[u8], bool, &mut [u8]) -> Outcome, mut each: impl FnMut(Outcome, &[u8])) {
    let mut out = [0; ROOM];
    for message in s.bytes.chunks(s.length) {
        let answer = read(message, s.with_sum, &mut out);
        each(answer, &out);
    }
}

#[inline(always)]
fn cut_each(s: &Stream, length: usize, mut cut: impl FnMut(&[u8], bool, &mut [u8]) -> Cut, mut each: impl FnMut(Outcome, &[u8])) {
    let mut out = [0; ROOM];
    for mut piece in s.bytes.chunks(length) {
        while !piece.is_empty() {
            let made = cut(piece, s.with_sum, &mut out);
            if made.ended {
                each((made.number, made.value), &out);
            }
            piece = &piece[made.used..];
        }
    }
}

/// The three ways of a side and form, each apart so that it can be counted.
macro_rules! ways {
    ($form:ident, $fresh:expr, $read:expr, $cut:expr) => {
        pub mod $form {
            use super::*;
            use crate::inputs::{black_box, Outcome};
            use crate::{cut_each, read_each, Stream};

            #[inline(always)]
            pub fn cut_up(s: &Stream, length: usize, each: impl FnMut(Outcome, &[u8])) {
                let mut cutter = $fresh;
                cut_each(s, length, |piece, with_sum, out| $cut(&mut cutter, piece, with_sum, out), each);
            }

            #[inline(never)]
            pub fn already_cut(s: &Stream) {
                read_each(s, $read, |answer, out| {
                    let _ = black_box((answer, out[0]));
                });
            }

            #[inline(never)]
            pub fn pieces_of_4096(s: &Stream) {
                cut_up(s, 4096, |answer, out| {
                    let _ = black_box((answer, out[0]));
                });
            }

            #[inline(never)]
            pub fn pieces_of_16(s: &Stream) {
                cut_up(s, 16, |answer, out| {
                    let _ = black_box((answer, out[0]));
                });
            }
        }
    };
}

mod ours {
    use crate::cut_exports::{heron_cut_packed_value, heron_cut_text_value, CutValue, Cutter, FRESH};
    use crate::heron;
    use crate::inputs::of_ours;
    use crate::plain_cutter::Cut;

    /// As the header's inline functions do it: the state copied in, and copied out.
    fn kept(cutter: &mut Cutter, made: CutValue) -> Cut {
        *cutter = made.cutter;
        Cut { number: made.number, value: made.value, used: made.used, ended: made.ended }
    }

    macro_rules! cut {
        ($name:ident, $entry:ident) => {
            fn $name(cutter: &mut Cutter, piece: &[u8], with_sum: bool, out: &mut [u8]) -> Cut {
                let made = unsafe { $entry(*cutter, piece.as_ptr(), piece.len(), with_sum, out.as_mut_ptr(), out.len()) };
                kept(cutter, made)
            }
        };
    }

    cut!(cut_text, heron_cut_text_value);
    cut!(cut_packed, heron_cut_packed_value);

    ways!(text, FRESH, |m: &[u8], with_sum, out: &mut [u8]| of_ours(heron::read_text(m, with_sum, out)), cut_text);
    ways!(packed, FRESH, |m: &[u8], with_sum, out: &mut [u8]| of_ours(heron::read_packed(m, with_sum, out)), cut_packed);
}

mod theirs {
    use crate::inputs::of_plain;
    use crate::plain::{read_packed, read_text};
    use crate::plain_cutter::{Cut, Cutter, FRESH};

    fn cut_text(cutter: &mut Cutter, piece: &[u8], with_sum: bool, out: &mut [u8]) -> Cut {
        cutter.cut(piece, |m| of_plain(read_text(m, with_sum, out)))
    }

    fn cut_packed(cutter: &mut Cutter, piece: &[u8], with_sum: bool, out: &mut [u8]) -> Cut {
        cutter.cut(piece, |m| of_plain(read_packed(m, with_sum, out)))
    }

    ways!(text, FRESH, |m: &[u8], with_sum, out: &mut [u8]| of_plain(read_text(m, with_sum, out)), cut_text);
    ways!(packed, FRESH, |m: &[u8], with_sum, out: &mut [u8]| of_plain(read_packed(m, with_sum, out)), cut_packed);
}

// ---- comparing and timing

type Way = fn(&Stream);
type Answers = Vec<(Outcome, Vec<u8>)>;

struct Form {
    name: &'static str,
    put: Put,
    /// A way's name, ours, theirs.
    ways: [(&'static str, Way, Way); 3],
    answers: [fn(&Stream, usize) -> Answers; 2],
}

macro_rules! form {
    ($form:ident, $put:expr) => {
        Form {
            name: stringify!($form),
            put: $put,
            ways: [
                ("already_cut", ours::$form::already_cut, theirs::$form::already_cut),
                ("pieces_of_4096", ours::$form::pieces_of_4096, theirs::$form::pieces_of_4096),
                ("pieces_of_16", ours::$form::pieces_of_16, theirs::$form::pieces_of_16),
            ],
            answers: [
                |s, length| {
                    let mut answers = Vec::new();
                    ours::$form::cut_up(s, length, |answer, out| answers.push((answer, out.to_vec())));
                    answers
                },
                |s, length| {
                    let mut answers = Vec::new();
                    theirs::$form::cut_up(s, length, |answer, out| answers.push((answer, out.to_vec())));
                    answers
                },
            ],
        }
    };
}

const FORMS: [Form; 2] = [form!(packed, plain::put_packed), form!(text, plain::put_text)];

fn compare(form: &Form, s: &Stream) {
    for length in [1, 7, 16, 41, 160, 4096, s.bytes.len()] {
        let [ours, theirs] = form.answers.map(|answers| answers(s, length));
        if ours != theirs {
            let place = ours.iter().zip(&theirs).position(|(a, b)| a != b);
            eprintln!("streams: {}, seed {SEED}, pieces of {length}: they differ at message {place:?}", form.name);
            exit(1);
        }
    }
}

/// Nanoseconds a message over both streams, gone through `turns` times.
fn timed(streams: &[Stream; 2], turns: usize, way: Way) -> f64 {
    let start = Instant::now();
    for _ in 0..turns {
        streams.iter().for_each(way);
    }
    start.elapsed().as_secs_f64() * 1e9 / (turns * streams.len() * MESSAGES) as f64
}

fn time(form: &Form, streams: &[Stream; 2]) {
    let once = timed(streams, 1, form.ways[0].2) * (streams.len() * MESSAGES) as f64;
    let turns = 1 + (ROUND.as_nanos() as f64 / once) as usize;
    let rounds: Vec<[[f64; 2]; 3]> =
        (0..ROUNDS).map(|_| form.ways.map(|(_, ours, theirs)| [timed(streams, turns, ours), timed(streams, turns, theirs)])).collect();
    for (way, (name, _, _)) in form.ways.iter().enumerate() {
        let column = |figure: &dyn Fn(&[[f64; 2]; 3]) -> f64| median(rounds.iter().map(figure).collect());
        let (ours, theirs) = (column(&|r| r[way][0]), column(&|r| r[way][1]));
        let (ratio, part) = (column(&|r| r[way][1] / r[way][0]), column(&|r| r[0][0] / r[way][0]));
        println!("{} {name} {ours:.1} {theirs:.1} {ratio:.2} {part:.2}", form.name);
    }
}

fn main() {
    let counted = is_counted("streams");
    let mut random = Random(SEED);
    for form in &FORMS {
        let streams = [false, true].map(|with_sum| stream(&mut random, form.put, with_sum));
        if counted {
            for (_, ours, theirs) in form.ways {
                streams.iter().for_each(ours);
                streams.iter().for_each(theirs);
            }
            continue;
        }
        for s in &streams {
            compare(form, s);
            (0..8).for_each(|_| compare(form, &damaged(&mut random, s)));
        }
        time(form, &streams);
    }
}
