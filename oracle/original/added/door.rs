//! Added: the doors of the plan, the tracker, the queue and the sender, in plain numbers. A refusal is document 01's number for what the original's own types
//! or errors say.
use crate::data::{CanId, Frame, Mtu, FRAME_CAPACITY};
use crate::queue::{ArrayQueue, FrameQueue, QueueOnlyDriver};
use crate::tx::CanTransmitter;
use crate::types::{CanNodeId, CanTransferId, Error, Header, Transfer};
use crate::{calculate_frame_stats, CanTransferIdTracker};
use alloc::boxed::Box;
use alloc::vec::Vec;
use bitvec::prelude::BitField;
use canadensis_core::time::{Clock, Microseconds32};
use canadensis_core::transfer::{MessageHeader, ServiceHeader};
use canadensis_core::transport::Transmitter;
use canadensis_core::{nb, OutOfMemoryError, Priority, ServiceId, SubjectId, TransferIdTracker};

/// The plan of a payload at any MTU from 2 to 64.
pub fn plan(payload: usize, mtu: usize) -> plain::Plan {
    let stats = calculate_frame_stats(payload, mtu);
    plain::Plan { frames: stats.frames, padding: stats.last_frame_padding }
}

/// The frame in the original's type, or the refusal of what that type does not hold.
pub fn made(frame: &plain::Frame) -> Result<Frame, u8> {
    if frame.bytes().len() > FRAME_CAPACITY {
        return Err(3);
    }
    let id = CanId::try_from(frame.id).map_err(|_| 1)?;
    let mut made = Frame::new(Microseconds32::from_ticks(frame.stamp), id, frame.bytes());
    made.set_loopback(frame.loopback);
    Ok(made)
}

fn told(frame: &Frame) -> plain::Frame {
    plain::Frame::new(frame.timestamp().ticks(), frame.id().into(), frame.loopback(), frame.data())
}

// ---- the tracker

/// The next transfer ID for each destination.
pub struct Tracker(CanTransferIdTracker);

impl Tracker {
    /// A tracker with these numbers, which is a fresh one if they are 0.
    pub fn new(numbers: &[u8; 128]) -> Self {
        let mut tracker = CanTransferIdTracker::default();
        numbers.iter().enumerate().for_each(|(at, number)| tracker.ids[5 * at..5 * at + 5].store(*number));
        Tracker(tracker)
    }

    pub fn next_transfer_id(&mut self, destination: u8) -> Result<u8, u8> {
        let destination = CanNodeId::try_from(destination).map_err(|_| 12)?;
        Ok(self.0.next_transfer_id(destination).map_err(|_| 99)?.to_u8())
    }

    /// The number of each destination.
    pub fn probe(&self) -> [u8; 128] {
        core::array::from_fn(|at| self.0.ids[5 * at..5 * at + 5].load::<u8>())
    }
}

// ---- the queue and the sender

struct Still;
impl Clock for Still {
    fn now(&mut self) -> Microseconds32 {
        unreachable!("no time is asked for")
    }
}

/// A queue, and a sender above it.
pub trait Line {
    fn push_frame(&mut self, frame: &plain::Frame) -> Result<(), u8>;
    fn return_frame(&mut self, frame: &plain::Frame) -> Result<(), u8>;
    fn peek_frame(&mut self) -> Option<plain::Frame>;
    fn pop_frame(&mut self) -> Option<plain::Frame>;
    fn try_reserve(&mut self, frames: usize) -> Result<(), u8>;
    fn len(&mut self) -> usize;
    fn is_empty(&mut self) -> bool;
    fn capacity(&mut self) -> usize;
    /// The frames in their order.
    fn order(&mut self, into: &mut Vec<plain::Frame>);
    /// Sets an MTU of 8 or 64.
    fn set_mtu(&mut self, mtu: usize);
    /// The room of a frame before its tail byte.
    fn room(&self) -> usize;
    /// Refuses by 12 what its types do not hold.
    fn send(&mut self, transfer: &plain::Transfer, payload: &[u8]) -> Result<(), u8>;
    /// Sends done and sends refused.
    fn counts(&self) -> (u64, u64);
}

/// A line of one of the capacities that are compared.
pub fn line(capacity: usize) -> Box<dyn Line> {
    match capacity {
        0 => Box::new(Sending::<0>::new()),
        1 => Box::new(Sending::<1>::new()),
        2 => Box::new(Sending::<2>::new()),
        3 => Box::new(Sending::<3>::new()),
        16 => Box::new(Sending::<16>::new()),
        64 => Box::new(Sending::<64>::new()),
        255 => Box::new(Sending::<255>::new()),
        256 => Box::new(Sending::<256>::new()),
        257 => Box::new(Sending::<257>::new()),
        other => panic!("no queue of {other} frames is compared"),
    }
}

/// The original's queue of `N` frames in its own driver, and its sender.
pub struct Sending<const N: usize> {
    driver: QueueOnlyDriver<N, 0>,
    transmitter: CanTransmitter<Still, QueueOnlyDriver<N, 0>>,
}

impl<const N: usize> Sending<N> {
    pub fn new() -> Self {
        Sending { driver: QueueOnlyDriver::new(), transmitter: CanTransmitter::new(Mtu::Can8) }
    }

    /// With an MTU of 8 or 64.
    pub fn at(mtu: usize) -> Self {
        let mut sending = Sending::new();
        Line::set_mtu(&mut sending, mtu);
        sending
    }

    /// The queue itself.
    pub fn queue(&mut self) -> &mut ArrayQueue<N> {
        self.driver.probe()
    }
}

fn placed(answer: Result<(), OutOfMemoryError>) -> Result<(), u8> {
    answer.map_err(|_| 13)
}

impl<const N: usize> Line for Sending<N> {
    fn push_frame(&mut self, frame: &plain::Frame) -> Result<(), u8> {
        placed(self.queue().push_frame(made(frame)?))
    }
    fn return_frame(&mut self, frame: &plain::Frame) -> Result<(), u8> {
        placed(self.queue().return_frame(made(frame)?))
    }
    fn peek_frame(&mut self) -> Option<plain::Frame> {
        self.queue().peek_frame().map(told)
    }
    fn pop_frame(&mut self) -> Option<plain::Frame> {
        self.queue().pop_frame().as_ref().map(told)
    }
    fn try_reserve(&mut self, frames: usize) -> Result<(), u8> {
        placed(self.queue().try_reserve(frames))
    }
    fn len(&mut self) -> usize {
        self.queue().len()
    }
    fn is_empty(&mut self) -> bool {
        self.queue().is_empty()
    }
    fn capacity(&mut self) -> usize {
        self.queue().capacity()
    }
    fn order(&mut self, into: &mut Vec<plain::Frame>) {
        into.clear();
        into.extend(self.queue().probe().map(told));
    }
    fn set_mtu(&mut self, mtu: usize) {
        self.transmitter.set_mtu(if mtu == 8 { Mtu::Can8 } else { Mtu::CanFd64 });
    }
    fn room(&self) -> usize {
        self.transmitter.mtu()
    }
    fn send(&mut self, transfer: &plain::Transfer, payload: &[u8]) -> Result<(), u8> {
        let transfer = Transfer { header: header(transfer)?, loopback: transfer.loopback, payload };
        match self.transmitter.push(transfer, &mut Still, &mut self.driver) {
            Ok(()) => Ok(()),
            Err(nb::Error::Other(Error::Memory(OutOfMemoryError))) => Err(13),
            Err(_) => unreachable!("a driver of queues alone has no error"),
        }
    }
    fn counts(&self) -> (u64, u64) {
        (self.transmitter.transfer_count(), self.transmitter.error_count())
    }
}

/// The header in the original's types, which hold no number over its limit and no service without a source.
fn header(transfer: &plain::Transfer) -> Result<Header, u8> {
    let node = |number| CanNodeId::try_from(number).map_err(|_| 12);
    let flat = transfer.header;
    let timestamp = Microseconds32::from_ticks(transfer.stamp);
    let transfer_id = CanTransferId::try_from(transfer.transfer_id).map_err(|_| 12)?;
    let priority = Priority::try_from(flat.priority).map_err(|_| 12)?;
    if flat.kind == plain::MESSAGE {
        let subject = SubjectId::try_from(flat.port).map_err(|_| 12)?;
        let source = if flat.source == plain::NO_NODE { None } else { Some(node(flat.source)?) };
        return Ok(Header::Message(MessageHeader { timestamp, transfer_id, priority, subject, source }));
    }
    let service = ServiceId::try_from(flat.port).map_err(|_| 12)?;
    let (source, destination) = (node(flat.source)?, node(flat.destination)?);
    let both = ServiceHeader { timestamp, transfer_id, priority, service, source, destination };
    match flat.kind {
        plain::REQUEST => Ok(Header::Request(both)),
        plain::RESPONSE => Ok(Header::Response(both)),
        _ => Err(12),
    }
}

impl<const N: usize> plain::Sends for Sending<N> {
    type Made = Frame;
    fn make(frame: &plain::Frame) -> Frame {
        made(frame).expect("a frame")
    }
    #[inline]
    fn push(&mut self, frame: &Frame) -> Result<(), u8> {
        placed(self.queue().push_frame(frame.clone()))
    }
    #[inline]
    fn send(&mut self, transfer: &plain::Transfer, payload: &[u8]) -> Result<(), u8> {
        Line::send(self, transfer, payload)
    }
    #[inline]
    fn drain(&mut self) -> usize {
        let mut bytes = 0;
        while let Some(frame) = self.queue().pop_frame() {
            bytes += frame.data().len();
        }
        bytes
    }
    fn queued(&mut self) -> Vec<plain::Frame> {
        self.queue().probe().map(told).collect()
    }
}
