//! Demand 3's three spans of slots, counted on the reference's port, independently of the proof.

use crate::port::{Port, Sent};
use crate::replay::Lens;
use std::sync::LazyLock;

/// The bounds, as they are proved: the three numbers behind `Promised lens`.
pub static BOUNDS: LazyLock<[u64; 3]> = LazyLock::new(|| {
    let page = include_str!("../../crates/rules/specs/Promise.antt");
    let three = |words: &str| {
        let mut numbers = words.split(' ').map_while(|word| word.parse().ok());
        Some([numbers.next()?, numbers.next()?, numbers.next()?])
    };
    page.split("Promised lens ").skip(1).find_map(three).expect("the promise has three numbers")
});

/// Slots from a command's carriage return to the one that acts on it, and to the last byte of its reply; and from a record's last
/// byte to the next record's first while continuous sending stays on; all of one port, in its own slots. Each span runs from the
/// slot count that it holds.
#[derive(Default)]
pub struct Spans {
    slots: u64,
    waiting: Option<u64>,
    replying: Option<u64>,
    between_records: Option<u64>,
    pub most: [u64; 3],
}

impl Spans {
    /// After a byte was received.
    pub fn received(&mut self, port: &Port) {
        if port.command_waits() && self.waiting.is_none() {
            self.waiting = Some(self.slots);
        }
    }

    fn ends(&mut self, which: usize, from: Option<u64>) {
        if let Some(from) = from {
            self.most[which] = self.most[which].max(self.slots - from);
        }
    }

    /// Runs one slot of the port, which is the lens's of this number, and counts it.
    pub fn slot(&mut self, lens: &mut Lens, at: usize) -> Option<u8> {
        let starts = !lens.ports[at].under_way();
        let sent = lens.slot(at);
        let port = &lens.ports[at];
        self.slots += 1;
        if starts && sent.is_some() && port.sent_last() == Sent::Record {
            let from = self.between_records.take();
            self.ends(2, from);
        }
        if self.waiting.is_some() && !port.command_waits() {
            let from = self.waiting.take();
            self.ends(0, from);
            self.replying = from.filter(|_| sent.is_some() && port.sent_last() != Sent::Record);
        }
        if sent.is_some() && !port.under_way() {
            let from = self.replying.take();
            self.ends(1, from);
            if port.sent_last() == Sent::Record {
                self.between_records = Some(self.slots);
            }
        }
        if !port.sends_continuously() {
            self.between_records = None;
        }
        sent
    }

    /// A span that has ended past its bound, or has gone on up to it.
    pub fn past_bound(&self) -> bool {
        let open = [self.waiting, self.replying, self.between_records];
        (0..3).any(|i| self.most[i] > BOUNDS[i] || open[i].is_some_and(|from| self.slots - from >= BOUNDS[i]))
    }
}
