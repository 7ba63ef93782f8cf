//! What goes into the three sides and comes out of them, in plain numbers: the original, this project and the model are each asked and answer in these words.
#![no_std]
extern crate alloc;

use alloc::vec::Vec;
use core::fmt;

/// In the place of a node: none.
pub const NO_NODE: u8 = 255;

/// The most bytes of a frame here: one more than a frame can have, so that a frame can be too long.
pub const LONGEST: usize = 65;

pub const MESSAGE: u8 = 0;
pub const REQUEST: u8 = 1;
pub const RESPONSE: u8 = 2;

/// Any numbers, also ones over their limits.
#[derive(Clone, Copy, Debug, PartialEq, Eq)]
pub struct Header {
    pub kind: u8,
    /// The subject of a message, the service of a request or a response.
    pub port: u16,
    pub priority: u8,
    pub source: u8,
    /// `NO_NODE` in a message that came.
    pub destination: u8,
}

#[derive(Clone, Copy)]
pub struct Frame {
    pub stamp: u32,
    pub id: u32,
    pub loopback: bool,
    length: u8,
    bytes: [u8; LONGEST],
}

impl Frame {
    pub fn new(stamp: u32, id: u32, loopback: bool, bytes: &[u8]) -> Self {
        let mut frame = Frame { stamp, id, loopback, length: bytes.len() as u8, bytes: [0; LONGEST] };
        frame.bytes[..bytes.len()].copy_from_slice(bytes);
        frame
    }

    #[inline]
    pub fn bytes(&self) -> &[u8] {
        &self.bytes[..usize::from(self.length)]
    }

    #[inline]
    pub fn bytes_mut(&mut self) -> &mut [u8] {
        &mut self.bytes[..usize::from(self.length)]
    }

    /// Cuts the frame, or draws it out with what lay behind its bytes.
    pub fn set_length(&mut self, length: usize) {
        self.length = length.min(LONGEST) as u8;
    }
}

impl PartialEq for Frame {
    fn eq(&self, other: &Self) -> bool {
        (self.stamp, self.id, self.loopback) == (other.stamp, other.id, other.loopback) && self.bytes() == other.bytes()
    }
}

impl fmt::Debug for Frame {
    fn fmt(&self, f: &mut fmt::Formatter<'_>) -> fmt::Result {
        write!(f, "stamp {:08x} ID {:08x} loopback {} bytes {:02x?}", self.stamp, self.id, u8::from(self.loopback), self.bytes())
    }
}

/// A transfer to be sent; its payload stands beside it.
#[derive(Clone, Copy, Debug)]
pub struct Transfer {
    pub header: Header,
    pub transfer_id: u8,
    pub stamp: u32,
    pub loopback: bool,
}

#[derive(Clone, Copy, Debug, PartialEq, Eq)]
pub struct Plan {
    pub frames: usize,
    pub padding: usize,
}

/// What a subscription is made of.
#[derive(Clone, Copy, Debug)]
pub struct Asked {
    pub kind: u8,
    pub port: u16,
    pub node: u8,
    pub timeout: u32,
    pub extent: usize,
}

/// What a received frame is answered.
#[derive(Clone, PartialEq, Eq)]
pub enum Answer {
    Nothing,
    NotOurs,
    /// By document 01's number.
    Refused(u8),
    Delivered(Delivery),
}

#[derive(Clone, Debug, PartialEq, Eq)]
pub struct Delivery {
    pub header: Header,
    pub transfer_id: u8,
    pub stamp: u32,
    pub loopback: bool,
    pub bytes: Vec<u8>,
}

impl fmt::Debug for Answer {
    fn fmt(&self, f: &mut fmt::Formatter<'_>) -> fmt::Result {
        match self {
            Answer::Nothing => f.write_str("nothing"),
            Answer::NotOurs => f.write_str("not ours"),
            Answer::Refused(number) => write!(f, "refusal {number}"),
            Answer::Delivered(delivery) => delivery.fmt(f),
        }
    }
}

/// Where the bytes of a delivery lie.
#[derive(Clone, Copy, Debug, PartialEq, Eq)]
pub enum Lying {
    Nowhere,
    InFrame { start: usize },
    InStore { start: usize },
}

/// What is kept of one source.
#[derive(Clone, Copy, Debug, PartialEq, Eq)]
pub struct Slot {
    pub expected: u8,
    pub last_time: Option<u32>,
    pub session: Option<Session>,
}

impl Slot {
    /// What lies past extent + 2 bytes matters no more, and this project does not count it.
    pub fn counted_to(mut self, extent: usize) -> Self {
        if let Some(session) = &mut self.session {
            session.total = session.total.min(extent + 2);
        }
        self
    }
}

#[derive(Clone, Copy, Debug, PartialEq, Eq)]
pub struct Session {
    pub stamp: u32,
    pub loopback: bool,
    pub expect_start: bool,
    pub expect_toggle: bool,
    pub crc: u16,
    /// Bytes so far, the CRC's among them.
    pub total: usize,
}

/// A side that receives, as the benchmark uses it: frames are made before.
pub trait Receives {
    type Made;
    fn make(frame: &Frame) -> Self::Made;
    /// The bytes of the delivery, if there is one.
    fn accept(&mut self, frame: &Self::Made) -> Option<usize>;
    /// The whole answer.
    fn answer(&mut self, frame: &Self::Made) -> Answer;
}

/// A side that queues and sends, as the benchmark uses it.
pub trait Sends {
    type Made;
    fn make(frame: &Frame) -> Self::Made;
    fn push(&mut self, frame: &Self::Made) -> Result<(), u8>;
    fn send(&mut self, transfer: &Transfer, payload: &[u8]) -> Result<(), u8>;
    /// Pops all, and says the sum of their lengths.
    fn drain(&mut self) -> usize;
    /// The frames in their order.
    fn queued(&mut self) -> Vec<Frame>;
}
