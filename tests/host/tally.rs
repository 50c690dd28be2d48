//! What the cases of each entry came to, and where the library differs.

use crate::lens::Refusal;
use std::process::exit;

const MOST_REPORTS: u64 = 10;

/// The program's arguments; 1 and a million where there are none.
pub fn seed_and_count(usage: &str) -> (u64, u64) {
    let mut numbers = std::env::args().skip(1).map(|word| word.parse());
    match (numbers.next().unwrap_or(Ok(1)), numbers.next().unwrap_or(Ok(1_000_000))) {
        (Ok(seed), Ok(count)) => (seed, count),
        _ => {
            eprintln!("usage: {usage}");
            exit(2)
        }
    }
}

pub fn hex(bytes: &[u8]) -> String {
    bytes.iter().map(|b| format!("{b:02X}")).collect::<Vec<_>>().join(" ")
}

/// How many cases had each number, and (a bit each) which fields or items were refused.
#[derive(Default)]
struct Tally {
    entry: &'static str,
    numbers: [u64; 17],
    fields: u32,
}

impl Tally {
    fn cases(&self) -> u64 {
        self.numbers.iter().sum()
    }

    fn line(&self) -> String {
        let mut line = format!("{:20} {:>9} cases: done {}", self.entry, self.cases(), self.numbers[0]);
        for (number, count) in self.numbers.iter().enumerate().skip(1).filter(|(_, &count)| count != 0) {
            line += &format!(", refused {number}: {count}");
            if [1, 6, 8].contains(&number) {
                line += &format!(" (in {} fields)", self.fields.count_ones());
            }
        }
        line
    }
}

#[derive(Default)]
pub struct Tallies(Vec<Tally>);

impl Tallies {
    pub fn count(&mut self, entry: &'static str, right: Result<usize, Refusal>) {
        // an entry has mostly one place in the program's text, which is found faster than its name
        let by_place = self.0.iter().position(|tally| std::ptr::eq(tally.entry, entry));
        let place = by_place.or_else(|| self.0.iter().position(|tally| tally.entry == entry)).unwrap_or_else(|| {
            self.0.push(Tally { entry, ..Tally::default() });
            self.0.len() - 1
        });
        let tally = &mut self.0[place];
        let Refusal { number, value } = right.err().unwrap_or(Refusal { number: 0, value: 0 });
        tally.numbers[number as usize] += 1;
        if [1, 6, 8].contains(&number) && (1..=12).contains(&value) {
            tally.fields |= 1 << value;
        }
    }

    /// A line an entry; the cases in all.
    pub fn print(&self) -> u64 {
        self.0.iter().for_each(|tally| println!("{}", tally.line()));
        self.0.iter().map(Tally::cases).sum()
    }
}

/// The differences that a program has found with its seed.
pub struct Differences {
    program: &'static str,
    seed: u64,
    pub count: u64,
}

impl Differences {
    pub fn none(program: &'static str, seed: u64) -> Differences {
        Differences { program, seed, count: 0 }
    }

    /// One more: told, and the last of them ends the program.
    pub fn tell(&mut self, entry: &str, input: String, reference: String, library: String) {
        self.count += 1;
        println!("DIFFERENCE in {entry}");
        println!("  input     {input}");
        println!("  reference {reference}");
        println!("  library   {library}");
        println!("  seed      {}", self.seed);
        if self.count == MOST_REPORTS {
            println!("{}: stopped after {MOST_REPORTS} differences", self.program);
            exit(1);
        }
    }
}
