//! The exported functions of the archive, as include/dolomisc.h declares them, and the structs that go through them.
use core::mem::{offset_of, size_of};

#[repr(C)]
#[derive(Clone, Copy)]
pub struct Answer {
    pub what: u8,
    pub refusal: u8,
}

#[repr(C)]
#[derive(Clone, Copy)]
pub struct Header {
    pub port: u16,
    pub kind: u8,
    pub priority: u8,
    pub source: u8,
    pub destination: u8,
}

#[repr(C)]
#[derive(Clone, Copy)]
pub struct Marks {
    pub stamp: u32,
    pub id: u32,
    pub loopback: u8,
}

#[repr(C)]
#[derive(Clone, Copy)]
pub struct Queue {
    pub head: usize,
    pub length: usize,
    pub capacity: usize,
}

/// Memory for one queued frame.
#[repr(C)]
#[derive(Clone, Copy)]
pub struct Place {
    bytes: [u8; 76],
}

impl Place {
    /// A place that holds nothing yet.
    pub const EMPTY: Place = Place { bytes: [0; 76] };
}

#[repr(C)]
#[derive(Clone, Copy)]
pub struct Frame {
    pub length: usize,
    pub marks: Marks,
    pub what: u8,
    pub bytes: [u8; 64],
}

#[repr(C)]
#[derive(Clone, Copy)]
pub struct Tracker {
    pub ids: [u32; 20],
}

#[repr(C)]
#[derive(Clone, Copy)]
pub struct Given {
    pub what: u8,
    pub refusal: u8,
    pub transfer_id: u8,
}

#[repr(C)]
#[derive(Clone, Copy)]
pub struct Transmitter {
    pub mtu: u64,
    pub transfer_count: u64,
    pub error_count: u64,
}

#[repr(C)]
#[derive(Clone, Copy)]
pub struct Transfer {
    pub header: Header,
    pub transfer_id: u8,
    pub loopback: u8,
    pub stamp: u32,
}

#[repr(C)]
#[derive(Clone, Copy)]
pub struct Plan {
    pub frames: usize,
    pub padding: usize,
    pub what: u8,
    pub refusal: u8,
}

#[repr(C)]
#[derive(Clone, Copy)]
pub struct Slots {
    pub words: [[u32; 4]; 128],
}

#[repr(C)]
#[derive(Clone, Copy)]
pub struct Subscription {
    pub timeout: u32,
    pub port: u16,
    pub extent: u16,
    pub kind: u8,
    pub node: u8,
}

#[repr(C)]
#[derive(Clone, Copy)]
pub struct Subscribed {
    pub subscription: Subscription,
    pub what: u8,
    pub refusal: u8,
}

#[repr(C)]
#[derive(Clone, Copy)]
pub struct Span {
    pub start: usize,
    pub length: usize,
    pub memory: u8,
}

#[repr(C)]
#[derive(Clone, Copy)]
pub struct Received {
    pub span: Span,
    pub stamp: u32,
    pub header: Header,
    pub transfer_id: u8,
    pub loopback: u8,
    pub what: u8,
    pub refusal: u8,
}

pub const DONE: u8 = 0;
pub const DELIVERED: u8 = 1;
pub const NOTHING: u8 = 2;
pub const NOT_OURS: u8 = 3;

pub const MESSAGE: u8 = 0;
pub const REQUEST: u8 = 1;
pub const RESPONSE: u8 = 2;

pub const NO_NODE: u8 = 255;

pub const IN_FRAME: u8 = 0;

// The layouts that tests/boundary.c asserts of the header's structs.
const _: () = {
    assert!(size_of::<Answer>() == 2);
    assert!(size_of::<Header>() == 6 && offset_of!(Header, kind) == 2 && offset_of!(Header, destination) == 5);
    assert!(size_of::<Marks>() == 12 && offset_of!(Marks, id) == 4 && offset_of!(Marks, loopback) == 8);
    assert!(size_of::<Queue>() == 24 && offset_of!(Queue, length) == 8 && offset_of!(Queue, capacity) == 16);
    assert!(size_of::<Place>() == 76);
    assert!(size_of::<Frame>() == 88 && offset_of!(Frame, marks) == 8 && offset_of!(Frame, what) == 20 && offset_of!(Frame, bytes) == 21);
    assert!(size_of::<Tracker>() == 80);
    assert!(size_of::<Given>() == 3);
    assert!(size_of::<Transmitter>() == 24 && offset_of!(Transmitter, error_count) == 16);
    assert!(size_of::<Transfer>() == 12 && offset_of!(Transfer, transfer_id) == 6 && offset_of!(Transfer, stamp) == 8);
    assert!(size_of::<Plan>() == 24 && offset_of!(Plan, what) == 16 && offset_of!(Plan, refusal) == 17);
    assert!(size_of::<Slots>() == 2048);
    assert!(size_of::<Subscription>() == 12 && offset_of!(Subscription, extent) == 6 && offset_of!(Subscription, node) == 9);
    assert!(size_of::<Subscribed>() == 16 && offset_of!(Subscribed, what) == 12);
    assert!(size_of::<Span>() == 24 && offset_of!(Span, memory) == 16);
    assert!(size_of::<Received>() == 40 && offset_of!(Received, stamp) == 24 && offset_of!(Received, header) == 28);
    assert!(offset_of!(Received, transfer_id) == 34 && offset_of!(Received, refusal) == 37);
};

extern "C" {
    pub fn dolomisc_queue_new(queue: *mut Queue, capacity: usize) -> Answer;
    pub fn dolomisc_queue_len(queue: *const Queue, places: *const Place, count: usize) -> usize;
    pub fn dolomisc_queue_is_empty(queue: *const Queue, places: *const Place, count: usize) -> bool;
    pub fn dolomisc_queue_capacity(queue: *const Queue) -> usize;
    pub fn dolomisc_queue_try_reserve(queue: *const Queue, places: *const Place, count: usize, frames: usize) -> Answer;
    pub fn dolomisc_queue_push_frame(queue: *mut Queue, places: *mut Place, count: usize, marks: Marks, bytes: *const u8, length: usize) -> Answer;
    pub fn dolomisc_queue_return_frame(queue: *mut Queue, places: *mut Place, count: usize, marks: Marks, bytes: *const u8, length: usize) -> Answer;
    pub fn dolomisc_queue_peek_frame(queue: *const Queue, places: *const Place, count: usize) -> Frame;
    pub fn dolomisc_queue_pop_frame(queue: *mut Queue, places: *const Place, count: usize) -> Frame;
    pub fn dolomisc_tracker_new(tracker: *mut Tracker);
    pub fn dolomisc_tracker_next_transfer_id(tracker: *mut Tracker, destination: u8) -> Given;
    pub fn dolomisc_transmitter_new(transmitter: *mut Transmitter, mtu: usize);
    pub fn dolomisc_transmitter_set_mtu(transmitter: *mut Transmitter, mtu: usize);
    pub fn dolomisc_transmitter_mtu(transmitter: *const Transmitter) -> usize;
    pub fn dolomisc_transmitter_transfer_count(transmitter: *const Transmitter) -> u64;
    pub fn dolomisc_transmitter_error_count(transmitter: *const Transmitter) -> u64;
    pub fn dolomisc_transmitter_push(
        transmitter: *mut Transmitter,
        queue: *mut Queue,
        places: *mut Place,
        count: usize,
        transfer: Transfer,
        payload: *const u8,
        length: usize,
    ) -> Answer;
    pub fn dolomisc_frame_stats(payload_length: usize, mtu: usize) -> Plan;
    pub fn dolomisc_subscription_new(kind: u8, port: u16, node: u8, timeout: u32, extent: usize, slots: *mut Slots) -> Subscribed;
    pub fn dolomisc_subscription_accept(
        subscription: Subscription,
        slots: *mut Slots,
        store: *mut u8,
        store_length: usize,
        marks: Marks,
        bytes: *const u8,
        length: usize,
    ) -> Received;
    pub fn dolomisc_payload(received: Received, frame: *const u8, frame_length: usize, store: *const u8, store_length: usize) -> Span;
}
