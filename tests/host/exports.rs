//! What libhourheron.a exports to C: the messages, the conversion and the checksum.

/// The number and the value that comes with it.
#[repr(C)]
pub struct Answer {
    pub number: u32,
    pub value: u64,
}

/// As the library answers it, every part kept.
#[repr(C)]
#[derive(Debug, Clone, Copy, PartialEq, Eq)]
pub struct Converted {
    pub number: u32,
    pub field: u32,
    pub value: i32,
}

#[rustfmt::skip]
extern "C" {
    pub fn heron_write_text(
        focus: u32, aperture: u32, stop: u32, tenth: u32, focal: u32, hyperfocal: u32, near: u32, far: u32, view: u32,
        pupil: i32, zoom: u32, serial: *const u8, serial_len: usize, checksum: bool, out: *mut u8, out_len: usize,
    ) -> Answer;
    pub fn heron_write_packed(
        focus: u32, aperture: u32, stop: u32, tenth: u32, focal: u32, hyperfocal: u32, near: u32, far: u32, view: u32,
        pupil: i32, zoom: u32, serial: *const u8, serial_len: usize, checksum: bool, out: *mut u8, out_len: usize,
    ) -> Answer;
    pub fn heron_read_text(message: *const u8, len: usize, checksum: bool, out: *mut u8, out_len: usize) -> Answer;
    pub fn heron_read_packed(message: *const u8, len: usize, checksum: bool, out: *mut u8, out_len: usize) -> Answer;
    pub fn heron_old_to_new(
        message: *const u8, len: usize, serial: *const u8, serial_len: usize, out: *mut u8, out_len: usize,
    ) -> Answer;
    pub fn heron_new_to_old(message: *const u8, len: usize, out: *mut u8, out_len: usize) -> Answer;
    pub fn heron_packed_to_text(message: *const u8, len: usize, checksum: bool, out: *mut u8, out_len: usize) -> Answer;
    pub fn heron_packed_to_text_by_record(message: *const u8, len: usize, checksum: bool, out: *mut u8, out_len: usize) -> Answer;
    pub fn heron_write_fixed(
        serial: *const u8, serial_len: usize, owner: *const u8, owner_len: usize, kind: u8, focal: u32, maximum: u32,
        letter: u8, transmission: u32, version: *const u8, version_len: usize, checksum: bool, out: *mut u8, out_len: usize,
    ) -> Answer;
    pub fn heron_read_fixed(message: *const u8, len: usize, checksum: bool, out: *mut u8, out_len: usize) -> Answer;
    pub fn heron_owner_start(message: *const u8, len: usize, checksum: bool) -> Answer;
    pub fn heron_owner_len(message: *const u8, len: usize, checksum: bool) -> Answer;
    pub fn heron_convert(field: u32, number: i32, unit: u8, wanted: u8) -> Converted;
    pub fn heron_checksum(bytes: *const u8, len: usize) -> Answer;
}
