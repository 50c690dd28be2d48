//! A day of packed records turned into text: by libhourheron.a, straight and by the record, and by plain Rust (plain.rs). First the
//! answers and all of the text are compared; then each route goes over the whole day, in turns.
//!
//! transfer time             one line a setting and route: their names, then the medians of the records a second and of the ratio
//! transfer count SETTING    goes once over the day with each route, to be counted; prints nothing
//!
//! A setting is `plain` or `sum`, records without or with checksums.

#[allow(dead_code)] // packed to text is asked for here
mod heron;
#[allow(dead_code)] // each day says whether its records carry checksums
mod inputs;
#[allow(dead_code)]
mod plain;
#[allow(dead_code)]
#[path = "../tests/host/random.rs"]
mod random;

use inputs::{black_box, median, of_ours, of_plain, record, Outcome, ROUNDS, SEED};
use random::Random;
use std::process::exit;
use std::time::Instant;

const RECORDS: usize = 100_000;

/// Packed messages one after another, all with checksums or all without.
struct Day {
    setting: &'static str,
    with_sum: bool,
    packed: Vec<u8>,
    /// Of a packed message, and of a text message.
    lengths: (usize, usize),
}

fn day(setting: &'static str, with_sum: bool) -> Day {
    let mut random = Random(SEED);
    let lengths = if with_sum { (43, 78) } else { (41, 76) };
    let mut packed = vec![0; RECORDS * lengths.0];
    for message in packed.chunks_exact_mut(lengths.0) {
        let r = record(&mut random);
        plain::put_packed(&r.fields, &r.serial, with_sum, message);
    }
    Day { setting, with_sum, packed, lengths }
}

// ---- the routes

fn straight(message: &[u8], with_sum: bool, out: &mut [u8]) -> Outcome {
    of_ours(heron::packed_to_text(message, with_sum, out))
}

fn by_record(message: &[u8], with_sum: bool, out: &mut [u8]) -> Outcome {
    of_ours(heron::packed_to_text_by_record(message, with_sum, out))
}

fn theirs(message: &[u8], with_sum: bool, out: &mut [u8]) -> Outcome {
    of_plain(plain::packed_to_text(message, with_sum, out))
}

/// Goes over the day; how many of its records came out as text.
#[inline(always)]
fn turned(day: &Day, text: &mut [u8], route: impl Fn(&[u8], bool, &mut [u8]) -> Outcome) -> usize {
    let (packed_length, text_length) = day.lengths;
    let places = day.packed.chunks_exact(packed_length).zip(text.chunks_exact_mut(text_length));
    places.map(|(message, out)| route(message, day.with_sum, out)).filter(|&answer| answer == (0, text_length as u64)).count()
}

type Route = fn(&Day, &mut [u8]) -> usize;

/// Under the name of the function that is counted; plain Rust is the last.
const ROUTES: [(&str, Route); 3] = [
    ("heron_packed_to_text", |day, text| turned(day, text, straight)),
    ("heron_packed_to_text_by_record", |day, text| turned(day, text, by_record)),
    ("transfer::plain::packed_to_text", |day, text| turned(day, text, theirs)),
];

// ---- comparing and timing

fn compare(day: &Day) {
    let texts = ROUTES.map(|(name, route)| {
        let mut text = vec![0xEE; RECORDS * day.lengths.1];
        let done = route(day, &mut text);
        if done != RECORDS {
            eprintln!("transfer: {}, seed {SEED}, {name}: {done} of {RECORDS} came out as text", day.setting);
            exit(1);
        }
        text
    });
    for (text, (name, _)) in texts.iter().zip(ROUTES) {
        if let Some(place) = text.iter().zip(&texts[2]).position(|(a, b)| a != b) {
            let record = place / day.lengths.1;
            eprintln!("transfer: {}, seed {SEED}, {name}: record {record} differs from plain Rust's", day.setting);
            exit(1);
        }
    }
}

fn time(day: &Day) {
    let mut text = vec![0; RECORDS * day.lengths.1];
    let mut seconds = |route: Route| {
        let start = Instant::now();
        black_box(route(black_box(day), &mut text));
        start.elapsed().as_secs_f64()
    };
    let rounds: Vec<[f64; 3]> = (0..ROUNDS).map(|_| ROUTES.map(|(_, route)| seconds(route))).collect();
    for (place, (name, _)) in ROUTES.iter().enumerate() {
        let rate = median(rounds.iter().map(|r| RECORDS as f64 / r[place]).collect());
        let ratio = median(rounds.iter().map(|r| r[2] / r[place]).collect());
        println!("{} {name} {rate:.0} {ratio:.2}", day.setting);
    }
}

fn count(day: &Day) {
    let mut text = vec![0; RECORDS * day.lengths.1];
    for (_, route) in ROUTES {
        black_box(route(day, &mut text));
    }
}

fn main() {
    let words: Vec<String> = std::env::args().skip(1).collect();
    match words.iter().map(String::as_str).collect::<Vec<_>>()[..] {
        ["time"] => {
            for day in [day("plain", false), day("sum", true)] {
                compare(&day);
                time(&day);
            }
        }
        ["count", "plain"] => count(&day("plain", false)),
        ["count", "sum"] => count(&day("sum", true)),
        _ => {
            eprintln!("usage: transfer time | transfer count plain|sum");
            exit(2);
        }
    }
}
