//! What libhourheron.a exports to C for the camera side: the cutter and the recorder.

pub const HELD: usize = 160;

#[repr(C)]
#[derive(Debug, Clone, Copy, PartialEq, Eq)]
pub struct Cutter {
    pub bytes: [u8; HELD],
    pub len: usize,
}

pub const FRESH: Cutter = Cutter { bytes: [0; HELD], len: 0 };

#[repr(C)]
#[derive(Debug, Clone, Copy, PartialEq, Eq)]
pub struct Setup {
    pub packed: bool,
    pub checksum: bool,
}

#[repr(C)]
#[derive(Debug, Clone, Copy, PartialEq, Eq)]
pub struct Recorder {
    pub cutter: Cutter,
    pub setup: Setup,
    pub sent: bool,
    pub opened: bool,
}

#[repr(C)]
pub struct CutValue {
    pub number: u32,
    pub value: u64,
    pub used: usize,
    pub ended: bool,
    pub cutter: Cutter,
}

#[repr(C)]
pub struct SendValue {
    pub number: u32,
    pub value: u64,
    pub recorder: Recorder,
}

#[repr(C)]
pub struct TakeValue {
    pub number: u32,
    pub value: u64,
    pub used: usize,
    pub ended: bool,
    pub opening: bool,
    pub recorder: Recorder,
}

#[rustfmt::skip]
extern "C" {
    pub fn heron_cut_text_value(
        cutter: Cutter, piece: *const u8, len: usize, checksum: bool, out: *mut u8, out_len: usize,
    ) -> CutValue;
    pub fn heron_cut_packed_value(
        cutter: Cutter, piece: *const u8, len: usize, checksum: bool, out: *mut u8, out_len: usize,
    ) -> CutValue;
    pub fn heron_cut_fixed_value(
        cutter: Cutter, piece: *const u8, len: usize, checksum: bool, out: *mut u8, out_len: usize,
    ) -> CutValue;
    pub fn heron_cut_message_value(cutter: Cutter, piece: *const u8, len: usize, out: *mut u8, out_len: usize) -> CutValue;
    pub fn heron_recorder_first() -> Recorder;
    pub fn heron_recorder_start(packed: bool, checksum: bool) -> Recorder;
    pub fn heron_recorder_send_value(recorder: Recorder, out: *mut u8, out_len: usize) -> SendValue;
    pub fn heron_recorder_take_value(
        recorder: Recorder, piece: *const u8, len: usize, out: *mut u8, out_len: usize,
    ) -> TakeValue;
}
