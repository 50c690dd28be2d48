//! The cutter in plain Rust, to compare with: the same answers, and a state that it keeps to itself.

const HELD: usize = 160;

pub struct Cutter {
    held: [u8; HELD],
    /// One more than there is room for: the message is too long.
    len: usize,
    last: u8,
}

pub const FRESH: Cutter = Cutter { held: [0; HELD], len: 0, last: 0 };

pub struct Cut {
    pub number: u32,
    pub value: u64,
    pub used: usize,
    pub ended: bool,
}

impl Cutter {
    /// Takes the piece up to the first end of a message, which `read` reads, or all of it.
    pub fn cut(&mut self, piece: &[u8], read: impl FnOnce(&[u8]) -> (u32, u64)) -> Cut {
        let end = match self.end_in(piece) {
            Some(end) => end,
            None => {
                self.hold(piece);
                return Cut { number: 0, value: 0, used: piece.len(), ended: false };
            }
        };
        let (number, value) = if self.len + end > HELD {
            (9, 0)
        } else if self.len == 0 {
            read(&piece[..end])
        } else {
            self.hold(&piece[..end]);
            read(&self.held[..self.len])
        };
        *self = FRESH;
        Cut { number, value, used: end, ended: true }
    }

    /// The place just past the first LF CR.
    fn end_in(&self, piece: &[u8]) -> Option<usize> {
        if self.last == b'\n' && piece.first() == Some(&b'\r') {
            return Some(1);
        }
        piece.windows(2).position(|pair| pair == b"\n\r").map(|place| place + 2)
    }

    fn hold(&mut self, part: &[u8]) {
        let len = self.len + part.len();
        if let Some(place) = self.held.get_mut(self.len..len) {
            place.copy_from_slice(part);
        }
        self.len = len.min(HELD + 1);
        self.last = part.last().copied().unwrap_or(self.last);
    }
}
