//! Recorders on random streams: after each call the answer, the recorder and the lent memory.

use crate::cut_library::{self, FRESH};
use crate::lent::{Lent, LONGEST_ROOM};
use crate::messages::{any_message, FIXED, PACKED, TEXT};
use crate::pieces::{part, Cutting};
use crate::stream::{Recorder, Stream, REFUSED};
use crate::tally::hex;
use crate::{any_room, follows, wrong_count, Test};

impl Test {
    /// One that is started with nothing asked for is the first.
    pub fn first_recorder(&mut self) {
        let (first, plain) = (cut_library::recorder_first(), cut_library::recorder_start(false, false));
        if first != plain {
            self.differences.tell("heron_recorder_first", String::new(), format!("{plain:?}"), format!("{first:?}"));
        }
    }

    /// Fixed data, plain and with checksums, and records, with parts of any kind between them.
    fn recorded(&mut self, bytes: &mut Vec<u8>, packed: bool, with_sum: bool) {
        let random = &mut self.random;
        let records = if packed { PACKED } else { TEXT };
        if random.flag() {
            bytes.extend((FIXED.right)(random, false));
        }
        for _ in 0..1 + random.below(5) {
            bytes.extend(match random.below(8) {
                0 | 1 => (FIXED.right)(random, false),
                2 => (FIXED.right)(random, true),
                3 | 4 => (records.right)(random, with_sum),
                5 => any_message(random, &records).0,
                6 => any_message(random, &FIXED).0,
                _ => part(random),
            });
        }
    }

    pub fn random_recorder(&mut self) {
        let (packed, with_sum) = (self.random.flag(), self.random.flag());
        let fresh = cut_library::Recorder {
            cutter: FRESH,
            setup: cut_library::Setup { packed, checksum: with_sum },
            sent: false,
            opened: false,
        };
        let mut recorder = cut_library::recorder_start(packed, with_sum);
        if recorder != fresh {
            self.differences.tell("heron_recorder_start", format!("{packed}, {with_sum}"), format!("{fresh:?}"), format!("{recorder:?}"));
        }
        let (cutter, mut bytes) = self.any_cutter();
        recorder.cutter = cutter;
        if self.random.below(8) == 0 {
            (recorder.sent, recorder.opened) = (self.random.flag(), self.random.flag());
        }
        let held = bytes.len();
        self.recorded(&mut bytes, packed, with_sum);
        let stream = Stream::new(bytes, held);
        let reference = Recorder::new(&stream, packed, with_sum, recorder.opened);
        let cutting = Cutting::any(&mut self.random);
        let mut at = held;
        loop {
            if self.random.below(4) == 0 {
                self.send(&mut recorder);
            }
            let to = cutting.next(&mut self.random, &stream.bytes, at);
            if self.random.below(32) == 0 {
                self.refused_take(&stream.bytes[at..to], recorder);
            }
            at += self.take(&reference, at, to, &mut recorder);
            if at == stream.bytes.len() {
                break;
            }
        }
        self.send(&mut recorder);
    }

    fn send(&mut self, recorder: &mut cut_library::Recorder) {
        let room = self.random.below(5);
        let mut lent = Lent::new(&mut self.random, room);
        let before = *recorder;
        let right = Recorder::send(before.sent, lent.right());
        let found = cut_library::recorder_send(recorder, lent.found());
        let right_recorder = cut_library::Recorder { sent: before.sent || right.is_ok(), ..before };
        self.tallies.count("heron_recorder_send", right);
        if right != found || !lent.agrees() || *recorder != right_recorder {
            self.differences.tell(
                "heron_recorder_send",
                format!("room {room}; recorder {before:?}"),
                format!("{right:?}; {}; recorder {right_recorder:?}", lent.shown_right()),
                format!("{found:?}; {}; recorder {recorder:?}", lent.shown_found()),
            );
        }
    }

    fn take(&mut self, reference: &Recorder, at: usize, to: usize, recorder: &mut cut_library::Recorder) -> usize {
        let needed = if reference.opened(at) { TEXT.output } else { FIXED.output };
        let room = any_room(&mut self.random, needed);
        let mut lent = Lent::new(&mut self.random, room);
        if self.random.below(16) == 0 {
            self.scramble(&mut recorder.cutter);
        }
        let (stream, before) = (reference.stream, *recorder);
        let right = reference.take(at, to, lent.right());
        let found = cut_library::recorder_take(recorder, &stream.bytes[at..to], lent.found());
        let (cut, opening) = right;
        let name = match (cut.ended, opening) {
            (false, _) => "no message ended",
            (true, true) => "heron_recorder_take, fixed data",
            (true, false) => "heron_recorder_take, records",
        };
        self.tallies.count(name, cut.outcome);
        let rest = cut_library::Recorder { cutter: recorder.cutter, opened: reference.opened(at + cut.used), ..before };
        if right != found || !lent.agrees() || *recorder != rest || !follows(stream, at, cut, &before.cutter, &recorder.cutter) {
            self.differences.tell(
                "heron_recorder_take",
                format!("stream {}; from {at} to {to}; room {room}; recorder {before:?}", hex(&stream.bytes)),
                format!("{right:?}; {}; opened {}", lent.shown_right(), rest.opened),
                format!("{found:?}; {}; recorder {recorder:?}", lent.shown_found()),
            );
        }
        cut.used
    }

    /// The same calls with a count that no cutter has.
    fn refused_take(&mut self, piece: &[u8], mut recorder: cut_library::Recorder) {
        let room = self.random.below(LONGEST_ROOM + 1);
        let mut lent = Lent::new(&mut self.random, room);
        recorder.cutter.len = wrong_count(&mut self.random);
        let before = recorder;
        let sent = cut_library::recorder_send(&mut recorder, lent.found());
        let same = recorder == before;
        let taken = cut_library::recorder_take(&mut recorder, piece, lent.found());
        self.tallies.count("heron_recorder_send", REFUSED.outcome);
        self.tallies.count("heron_recorder_take, refused", REFUSED.outcome);
        if sent != REFUSED.outcome || !same || taken != (REFUSED, false) || !lent.untouched() || recorder != before {
            self.differences.tell(
                "heron_recorder_send and heron_recorder_take",
                format!("piece {}; room {room}; recorder {before:?}", hex(piece)),
                format!("{REFUSED:?}; memory and recorder as they were"),
                format!("{sent:?}; {taken:?}; {}; recorder {recorder:?}", lent.shown_found()),
            );
        }
    }
}
