//! What the benchmarks of the exported entries share: records in range, answers as both sides have them, and what a measurement needs.

use crate::heron::Answer;
use crate::plain::{Fields, Refusal};
use crate::random::Random;
use std::process::exit;

pub const SEED: u64 = 1;
pub const ROUNDS: usize = 31;

pub struct Record {
    pub fields: Fields,
    pub serial: [u8; 9],
    pub with_sum: bool,
}

pub fn text<const N: usize>(random: &mut Random) -> [u8; N] {
    std::array::from_fn(|_| random.between(0x20, 0x7E) as u8)
}

pub fn record(random: &mut Random) -> Record {
    let highest = [9_999_999, 4095, 99, 9, 1023, 9_999_999, 9_999_999, 9_999_999, 4095, 999, 1000];
    let mut fields = highest.map(|high| random.between(0, high) as i32);
    if random.flag() {
        fields[2] = 10 * random.between(10, 25) as i32;
    }
    if random.flag() {
        fields[9] = -fields[9];
    }
    Record { fields, serial: text(random), with_sum: random.flag() }
}

/// The number and the value that comes with it.
pub type Outcome = (u32, u64);

#[inline(always)]
pub fn of_ours(answer: Answer) -> Outcome {
    (answer.number, answer.value)
}

#[inline(always)]
pub fn of_plain(answer: Result<usize, Refusal>) -> Outcome {
    answer.map_or_else(Refusal::number_and_value, |count| (0, count as u64))
}

/// Whether the program runs to be counted, and not timed.
pub fn is_counted(program: &str) -> bool {
    match std::env::args().nth(1).as_deref() {
        Some("time") => false,
        Some("count") => true,
        _ => {
            eprintln!("usage: {program} time|count");
            exit(2)
        }
    }
}

/// A value that the compiler must make, and knows nothing of. (`std::hint::black_box` is not in every rustc that builds this.)
pub fn black_box<T: Copy>(value: T) -> T {
    unsafe { std::ptr::read_volatile(&value) }
}

pub fn median(mut figures: Vec<f64>) -> f64 {
    figures.sort_by(f64::total_cmp);
    figures[figures.len() / 2]
}
