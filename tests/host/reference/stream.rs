//! The cutter and the recorder in plain Rust, written from request 1 and document 01 alone. Both look at the whole stream: where its
//! messages end, and from there what a call must answer that is handed a part of it.

use crate::lens::{self, Refusal};

/// The longest message that is read, its LF CR counted.
pub const LONGEST: usize = 160;

pub type Outcome = Result<usize, Refusal>;

/// A call's answer.
#[derive(Debug, Clone, Copy, PartialEq, Eq)]
pub struct Cut {
    pub outcome: Outcome,
    pub used: usize,
    pub ended: bool,
}

/// Nothing used, nothing changed.
pub const REFUSED: Cut = Cut { outcome: Err(Refusal { number: 16, value: 0 }), used: 0, ended: false };

pub struct Stream {
    pub bytes: Vec<u8>,
    /// The places just past each LF CR.
    ends: Vec<usize>,
}

impl Stream {
    /// The first `held` bytes were taken before, and no message ended in them.
    pub fn new(bytes: Vec<u8>, held: usize) -> Stream {
        let ends = (held + 1..=bytes.len()).filter(|&end| bytes[..end].ends_with(b"\n\r")).collect();
        Stream { bytes, ends }
    }

    /// The bytes at this place that wait for their LF CR.
    pub fn waiting(&self, at: usize) -> &[u8] {
        &self.bytes[self.ends.iter().rev().find(|&&end| end <= at).map_or(0, |&end| end)..at]
    }

    /// The message that ends next after this place, if there is one.
    pub fn next(&self, at: usize) -> Option<&[u8]> {
        let end = *self.ends.iter().find(|&&end| end > at)?;
        Some(&self.bytes[at - self.waiting(at).len()..end])
    }

    /// All messages, each with the place where it ends.
    pub fn messages(&self) -> impl Iterator<Item = (usize, &[u8])> {
        let starts = std::iter::once(&0).chain(&self.ends);
        starts.zip(&self.ends).map(|(&start, &end)| (end, &self.bytes[start..end]))
    }

    /// The answer to the bytes from `at` to `to`, where `read` reads what ends.
    pub fn cut(&self, at: usize, to: usize, read: impl FnOnce(&[u8]) -> Outcome) -> Cut {
        let left = |message: &[u8]| message.len() - self.waiting(at).len();
        match self.next(at).filter(|message| left(message) <= to - at) {
            Some(message) => Cut { outcome: judged(message, read), used: left(message), ended: true },
            None => Cut { outcome: Ok(0), used: to - at, ended: false },
        }
    }
}

/// Too long, or what the reader says.
fn judged(message: &[u8], read: impl FnOnce(&[u8]) -> Outcome) -> Outcome {
    if message.len() > LONGEST {
        Err(Refusal { number: 9, value: 0 })
    } else {
        read(message)
    }
}

/// The message itself as its contents.
pub fn read_message(message: &[u8], out: &mut [u8]) -> Outcome {
    lens::put(Ok(message.to_vec()), out)
}

/// What a recorder does with a stream.
pub struct Recorder<'a> {
    pub stream: &'a Stream,
    pub packed: bool,
    pub with_sum: bool,
    /// From this place on messages are records.
    records: usize,
}

impl Recorder<'_> {
    /// Fixed data is over with the first message that its reader accepts, plain, whatever room it is lent; or it was over before.
    pub fn new(stream: &Stream, packed: bool, with_sum: bool, opened: bool) -> Recorder<'_> {
        let accepted = |&(_, message): &(usize, &[u8])| judged(message, |m| lens::fixed_data(m, false).map(|_| 0)).is_ok();
        let first = stream.messages().find(accepted).map_or(usize::MAX, |(end, _)| end);
        Recorder { stream, packed, with_sum, records: if opened { 0 } else { first } }
    }

    /// Whether messages that end past this place are records.
    pub fn opened(&self, at: usize) -> bool {
        self.records <= at
    }

    /// The answer to the bytes from `at` to `to`, and whether what ended was read as fixed data.
    pub fn take(&self, at: usize, to: usize, out: &mut [u8]) -> (Cut, bool) {
        let cut = self.stream.cut(at, to, |m| match (self.opened(at), self.packed) {
            (false, _) => lens::read_fixed(m, false, out),
            (true, false) => lens::read_text(m, self.with_sum, out),
            (true, true) => lens::read_packed(m, self.with_sum, out),
        });
        (cut, cut.ended && !self.opened(at))
    }

    /// N CR is to be sent once.
    pub fn send(sent: bool, out: &mut [u8]) -> Outcome {
        lens::put(Ok(if sent { Vec::new() } else { b"N\r".to_vec() }), out)
    }
}
