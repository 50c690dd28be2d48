//! libhourheron.a through its C interface, wrapped in safe functions that have the reference's names and shapes.
//! An empty slice is handed over as a null pointer with length 0.

#[path = "exports.rs"]
mod exports;

pub use self::exports::Converted;
use self::exports::*;
use crate::lens::{Fixed, Record, Refusal};

#[rustfmt::skip]
type WriteRecord = unsafe extern "C" fn(
    u32, u32, u32, u32, u32, u32, u32, u32, u32, i32, u32, *const u8, usize, bool, *mut u8, usize,
) -> Answer;
type ReadMessage = unsafe extern "C" fn(*const u8, usize, bool, *mut u8, usize) -> Answer;
type AskMessage = unsafe extern "C" fn(*const u8, usize, bool) -> Answer;

pub fn start(bytes: &[u8]) -> *const u8 {
    if bytes.is_empty() {
        std::ptr::null()
    } else {
        bytes.as_ptr()
    }
}

pub fn start_mut(bytes: &mut [u8]) -> *mut u8 {
    if bytes.is_empty() {
        std::ptr::null_mut()
    } else {
        bytes.as_mut_ptr()
    }
}

pub fn outcome_of(number: u32, value: u64) -> Result<usize, Refusal> {
    if number == 0 {
        Ok(value as usize)
    } else {
        Err(Refusal { number, value })
    }
}

fn outcome(answer: Answer) -> Result<usize, Refusal> {
    outcome_of(answer.number, answer.value)
}

// Each `unsafe` below hands over slices that live through the call, with their own lengths.

fn write_record(entry: WriteRecord, r: &Record, checksum: bool, out: &mut [u8]) -> Result<usize, Refusal> {
    let unsigned = r.fields.map(|v| v as u32);
    let [focus, aperture, stop, tenth, focal, hyperfocal, near, far, view, _, zoom] = unsigned;
    let pupil = r.fields[9] as i32;
    let (serial, serial_len, out_len) = (start(&r.serial), r.serial.len(), out.len());
    #[rustfmt::skip]
    let answer = unsafe {
        entry(
            focus, aperture, stop, tenth, focal, hyperfocal, near, far, view, pupil, zoom,
            serial, serial_len, checksum, start_mut(out), out_len,
        )
    };
    outcome(answer)
}

fn read_message(entry: ReadMessage, message: &[u8], checksum: bool, out: &mut [u8]) -> Result<usize, Refusal> {
    let out_len = out.len();
    outcome(unsafe { entry(start(message), message.len(), checksum, start_mut(out), out_len) })
}

fn ask_message(entry: AskMessage, message: &[u8], checksum: bool) -> Result<usize, Refusal> {
    outcome(unsafe { entry(start(message), message.len(), checksum) })
}

pub fn write_text(r: &Record, checksum: bool, out: &mut [u8]) -> Result<usize, Refusal> {
    write_record(heron_write_text, r, checksum, out)
}

pub fn write_packed(r: &Record, checksum: bool, out: &mut [u8]) -> Result<usize, Refusal> {
    write_record(heron_write_packed, r, checksum, out)
}

#[rustfmt::skip]
pub fn write_fixed(f: &Fixed, checksum: bool, out: &mut [u8]) -> Result<usize, Refusal> {
    let out_len = out.len();
    outcome(unsafe {
        heron_write_fixed(
            start(&f.serial), f.serial.len(), start(&f.owner), f.owner.len(), f.kind, f.focal, f.maximum, f.letter,
            f.transmission, start(&f.version), f.version.len(), checksum, start_mut(out), out_len,
        )
    })
}

pub fn read_text(message: &[u8], checksum: bool, out: &mut [u8]) -> Result<usize, Refusal> {
    read_message(heron_read_text, message, checksum, out)
}

pub fn read_packed(message: &[u8], checksum: bool, out: &mut [u8]) -> Result<usize, Refusal> {
    read_message(heron_read_packed, message, checksum, out)
}

pub fn read_fixed(message: &[u8], checksum: bool, out: &mut [u8]) -> Result<usize, Refusal> {
    read_message(heron_read_fixed, message, checksum, out)
}

pub fn old_to_new(message: &[u8], serial: &[u8], out: &mut [u8]) -> Result<usize, Refusal> {
    let out_len = out.len();
    outcome(unsafe { heron_old_to_new(start(message), message.len(), start(serial), serial.len(), start_mut(out), out_len) })
}

pub fn new_to_old(message: &[u8], out: &mut [u8]) -> Result<usize, Refusal> {
    let out_len = out.len();
    outcome(unsafe { heron_new_to_old(start(message), message.len(), start_mut(out), out_len) })
}

pub fn packed_to_text(message: &[u8], checksum: bool, out: &mut [u8]) -> Result<usize, Refusal> {
    read_message(heron_packed_to_text, message, checksum, out)
}

pub fn packed_to_text_by_record(message: &[u8], checksum: bool, out: &mut [u8]) -> Result<usize, Refusal> {
    read_message(heron_packed_to_text_by_record, message, checksum, out)
}

pub fn owner_start(message: &[u8], checksum: bool) -> Result<usize, Refusal> {
    ask_message(heron_owner_start, message, checksum)
}

pub fn owner_len(message: &[u8], checksum: bool) -> Result<usize, Refusal> {
    ask_message(heron_owner_len, message, checksum)
}

pub fn convert(field: u32, number: i32, unit: u8, wanted: u8) -> Converted {
    unsafe { heron_convert(field, number, unit, wanted) }
}

pub fn checksum(bytes: &[u8]) -> Result<usize, Refusal> {
    outcome(unsafe { heron_checksum(start(bytes), bytes.len()) })
}
