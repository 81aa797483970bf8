//! The calls of `libgate_c` as `gate.h` declares them, and their statuses.

use std::ffi::c_void;

#[repr(C)]
pub struct Slot {
    pub session: *mut c_void,
}

#[repr(C)]
pub struct Handle {
    pub slot: Slot,
    pub is_open: bool,
}

#[repr(C)]
pub struct EventSlot {
    pub reading: *mut c_void,
}

#[repr(C)]
pub struct EventHandle {
    pub slot: EventSlot,
    pub is_open: bool,
}

/// The keys of a gate's hash tables. No reply depends on them, and peers must not know them: with them they could make ids
/// collide.
#[repr(C)]
#[derive(Clone, Copy)]
pub struct Keys {
    /// 64 random bits.
    pub first: u64,
    /// 64 more.
    pub second: u64,
}

extern "C" {
    pub fn gate_open(
        gate: *mut Handle,
        keys: *const Keys,
        opening: *const u8,
        opening_size: usize,
        out: *mut u8,
        room: usize,
        size: *mut usize,
    ) -> u32;
    pub fn gate_answer(gate: *mut Handle, line: *const u8, line_size: usize, out: *mut u8, room: usize, size: *mut usize) -> u32;
    pub fn gate_reply(gate: *mut Handle, out: *mut u8, room: usize, size: *mut usize) -> u32;
    pub fn gate_changes(gate: *mut Handle, out: *mut u8, room: usize, size: *mut usize) -> u32;
    pub fn gate_explain(gate: *mut Handle, line: u64) -> u32;
    pub fn gate_explanation(gate: *mut Handle, out: *mut u8, room: usize, size: *mut usize) -> u32;
    pub fn gate_close(gate: *mut Handle);
    pub fn gate_copy(gate: *mut Handle, copy: *mut Handle) -> u32;
    pub fn gate_read(event: *mut EventHandle, line: *const u8, line_size: usize) -> u32;
    pub fn gate_answer_event(gate: *mut Handle, event: *mut EventHandle, out: *mut u8, room: usize, size: *mut usize) -> u32;
    pub fn gate_event_close(event: *mut EventHandle);
    pub fn gate_check(input: *const u8, input_size: usize, out: *mut u8, room: usize, size: *mut usize) -> u32;
    pub fn gate_version(out: *mut u8, room: usize, size: *mut usize) -> u32;
}

/// How a call ends.
#[derive(Clone, Copy, Debug, PartialEq, Eq)]
#[repr(u32)]
pub enum Status {
    Done = 0,
    Denied = 1,
    BufferTooSmall = 2,
    OutOfMemory = 3,
    NotOpen = 4,
    AlreadyOpen = 5,
    OpeningRefused = 6,
    LineTooLong = 7,
    ReplyKept = 8,
}

impl Status {
    const ALL: [Status; 9] = [
        Status::Done,
        Status::Denied,
        Status::BufferTooSmall,
        Status::OutOfMemory,
        Status::NotOpen,
        Status::AlreadyOpen,
        Status::OpeningRefused,
        Status::LineTooLong,
        Status::ReplyKept,
    ];

    /// The status of this number.
    pub fn of(code: u32) -> Option<Status> {
        Status::ALL.iter().copied().find(|status| *status as u32 == code)
    }
}
