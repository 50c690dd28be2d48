//! The cutter and the recorder of libhourheron.a through its C interface, wrapped in safe functions with the reference's answers.
//! They keep the state as the header's inline functions do: copied in, copied out.

#[path = "cut_exports.rs"]
mod cut_exports;

use self::cut_exports::*;
pub use self::cut_exports::{Cutter, Recorder, Setup, FRESH, HELD};
use crate::library::{outcome_of, start, start_mut};
use crate::stream::{Cut, Outcome};

type CutContents = unsafe extern "C" fn(Cutter, *const u8, usize, bool, *mut u8, usize) -> CutValue;

// Each `unsafe` below hands over slices that live through the call, with their own lengths.

fn kept(cutter: &mut Cutter, made: CutValue) -> Cut {
    *cutter = made.cutter;
    Cut { outcome: outcome_of(made.number, made.value), used: made.used, ended: made.ended }
}

fn cut_contents(entry: CutContents, cutter: &mut Cutter, piece: &[u8], checksum: bool, out: &mut [u8]) -> Cut {
    let out_len = out.len();
    let made = unsafe { entry(*cutter, start(piece), piece.len(), checksum, start_mut(out), out_len) };
    kept(cutter, made)
}

pub fn cut_text(cutter: &mut Cutter, piece: &[u8], checksum: bool, out: &mut [u8]) -> Cut {
    cut_contents(heron_cut_text_value, cutter, piece, checksum, out)
}

pub fn cut_packed(cutter: &mut Cutter, piece: &[u8], checksum: bool, out: &mut [u8]) -> Cut {
    cut_contents(heron_cut_packed_value, cutter, piece, checksum, out)
}

pub fn cut_fixed(cutter: &mut Cutter, piece: &[u8], checksum: bool, out: &mut [u8]) -> Cut {
    cut_contents(heron_cut_fixed_value, cutter, piece, checksum, out)
}

pub fn cut_message(cutter: &mut Cutter, piece: &[u8], out: &mut [u8]) -> Cut {
    let out_len = out.len();
    let made = unsafe { heron_cut_message_value(*cutter, start(piece), piece.len(), start_mut(out), out_len) };
    kept(cutter, made)
}

pub fn recorder_first() -> Recorder {
    unsafe { heron_recorder_first() }
}

pub fn recorder_start(packed: bool, checksum: bool) -> Recorder {
    unsafe { heron_recorder_start(packed, checksum) }
}

pub fn recorder_send(recorder: &mut Recorder, out: &mut [u8]) -> Outcome {
    let out_len = out.len();
    let made = unsafe { heron_recorder_send_value(*recorder, start_mut(out), out_len) };
    *recorder = made.recorder;
    outcome_of(made.number, made.value)
}

/// The answer, and whether what ended was read as fixed data.
pub fn recorder_take(recorder: &mut Recorder, piece: &[u8], out: &mut [u8]) -> (Cut, bool) {
    let out_len = out.len();
    let made = unsafe { heron_recorder_take_value(*recorder, start(piece), piece.len(), start_mut(out), out_len) };
    *recorder = made.recorder;
    (Cut { outcome: outcome_of(made.number, made.value), used: made.used, ended: made.ended }, made.opening)
}
