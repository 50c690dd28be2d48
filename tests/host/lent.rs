//! Lent memory with guard bytes on both sides of it, once for the reference and once for the library.

use crate::random::Random;
use crate::tally::hex;

pub const LONGEST_ROOM: usize = 168;
const GUARD: usize = 16;
const GUARD_BYTE: u8 = 0xEE;

type Memory = [u8; GUARD + LONGEST_ROOM + GUARD];

pub struct Lent {
    before: Memory,
    right: Memory,
    found: Memory,
    room: usize,
}

impl Lent {
    /// So much room, filled with some byte.
    pub fn new(random: &mut Random, room: usize) -> Lent {
        let mut before = [GUARD_BYTE; GUARD + LONGEST_ROOM + GUARD];
        before[GUARD..GUARD + room].fill(random.byte());
        Lent { before, right: before, found: before, room }
    }

    /// For the reference.
    pub fn right(&mut self) -> &mut [u8] {
        &mut self.right[GUARD..GUARD + self.room]
    }

    /// For the library.
    pub fn found(&mut self) -> &mut [u8] {
        &mut self.found[GUARD..GUARD + self.room]
    }

    pub fn agrees(&self) -> bool {
        self.right == self.found
    }

    /// Whether the library has left it as it was.
    pub fn untouched(&self) -> bool {
        self.found == self.before
    }

    pub fn shown_right(&self) -> String {
        self.shown(&self.right)
    }

    pub fn shown_found(&self) -> String {
        self.shown(&self.found)
    }

    fn shown(&self, memory: &Memory) -> String {
        let (lent, after) = memory[GUARD..].split_at(self.room);
        let guards = if memory[..GUARD].iter().chain(after).all(|&b| b == GUARD_BYTE) { "kept" } else { "CHANGED" };
        format!("lent memory {}; guards {guards}", hex(lent))
    }
}
