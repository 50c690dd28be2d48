//! libhourheron.a through its C interface, on slices. Each `unsafe` hands over slices that live through the call, with their
//! own lengths.

#[path = "../tests/host/exports.rs"]
mod exports;

pub use self::exports::{Answer, Converted};
use self::exports::*;
use crate::plain::{Fields, Fixed};

macro_rules! record_writer {
    ($name:ident, $entry:ident) => {
        pub fn $name(fields: &Fields, serial: &[u8], checksum: bool, out: &mut [u8]) -> Answer {
            let [focus, aperture, stop, tenth, focal, hyperfocal, near, far, view, pupil, zoom] = fields.map(|n| n as u32);
            let (at, len, out_at, out_len) = (serial.as_ptr(), serial.len(), out.as_mut_ptr(), out.len());
            #[rustfmt::skip]
            let answer = unsafe {
                $entry(
                    focus, aperture, stop, tenth, focal, hyperfocal, near, far, view, pupil as i32, zoom,
                    at, len, checksum, out_at, out_len,
                )
            };
            answer
        }
    };
}

macro_rules! reader {
    ($name:ident, $entry:ident) => {
        pub fn $name(message: &[u8], checksum: bool, out: &mut [u8]) -> Answer {
            unsafe { $entry(message.as_ptr(), message.len(), checksum, out.as_mut_ptr(), out.len()) }
        }
    };
}

record_writer!(write_text, heron_write_text);
record_writer!(write_packed, heron_write_packed);
reader!(read_text, heron_read_text);
reader!(read_packed, heron_read_packed);
reader!(read_fixed, heron_read_fixed);
reader!(packed_to_text, heron_packed_to_text);
reader!(packed_to_text_by_record, heron_packed_to_text_by_record);

#[rustfmt::skip]
pub fn old_to_new(message: &[u8], serial: &[u8], out: &mut [u8]) -> Answer {
    unsafe {
        heron_old_to_new(message.as_ptr(), message.len(), serial.as_ptr(), serial.len(), out.as_mut_ptr(), out.len())
    }
}

pub fn new_to_old(message: &[u8], out: &mut [u8]) -> Answer {
    unsafe { heron_new_to_old(message.as_ptr(), message.len(), out.as_mut_ptr(), out.len()) }
}

#[rustfmt::skip]
pub fn write_fixed(f: &Fixed, checksum: bool, out: &mut [u8]) -> Answer {
    unsafe {
        heron_write_fixed(
            f.serial.as_ptr(), f.serial.len(), f.owner.as_ptr(), f.owner.len(), f.kind, f.focal, f.maximum,
            f.letter, f.transmission, f.version.as_ptr(), f.version.len(), checksum, out.as_mut_ptr(), out.len(),
        )
    }
}

pub fn owner_start(message: &[u8], checksum: bool) -> Answer {
    unsafe { heron_owner_start(message.as_ptr(), message.len(), checksum) }
}

pub fn owner_len(message: &[u8], checksum: bool) -> Answer {
    unsafe { heron_owner_len(message.as_ptr(), message.len(), checksum) }
}

pub fn convert(field: u32, n: i32, unit: u8, wanted: u8) -> Converted {
    unsafe { heron_convert(field, n, unit, wanted) }
}

pub fn checksum(bytes: &[u8]) -> Answer {
    unsafe { heron_checksum(bytes.as_ptr(), bytes.len()) }
}
