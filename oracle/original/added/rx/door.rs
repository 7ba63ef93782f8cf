//! Added: the two doors of receiving, in plain numbers. `Receiver` is a subscription of the original behind its reading of the CAN ID, in the order of document
//! 01; `Whole` is the original's receiver with that one subscription. They stand inside rx, since `Subscription::accept`, `parse_can_id` and `accept_frame` are
//! not public.
use super::session::SessionError;
use super::subscription::{Subscription, SubscriptionError};
use super::{parse_can_id, CanReceiver, TailByte, TransferKind};
use crate::data::Frame;
use crate::driver::ReceiveDriver;
use crate::types::{CanNodeId, Header, Transfer};
use alloc::vec::Vec;
use canadensis_core::time::{Clock, MicrosecondDuration32, Microseconds32};
use canadensis_core::transport::Receiver as _;
use canadensis_core::{nb, PortId, ServiceId, SubjectId};
use plain::{Answer, Asked, Delivery, Slot, NO_NODE};

fn delivery(transfer: Transfer<Vec<u8>>) -> Delivery {
    let header = &transfer.header;
    let (kind, port, priority, source, destination) = match header {
        Header::Message(h) => (plain::MESSAGE, h.subject.into(), h.priority, h.source, None),
        Header::Request(h) => (plain::REQUEST, h.service.into(), h.priority, Some(h.source), Some(h.destination)),
        Header::Response(h) => (plain::RESPONSE, h.service.into(), h.priority, Some(h.source), Some(h.destination)),
    };
    let (source, destination) = (source.map_or(NO_NODE, u8::from), destination.map_or(NO_NODE, u8::from));
    Delivery {
        header: plain::Header { kind, port, priority: priority as u8, source, destination },
        transfer_id: header.transfer_id().to_u8(),
        stamp: header.timestamp().ticks(),
        loopback: transfer.loopback,
        bytes: transfer.payload,
    }
}

fn subject(asked: &Asked) -> Result<SubjectId, u8> {
    SubjectId::try_from(asked.port).map_err(|_| 12)
}

fn service(asked: &Asked) -> Result<ServiceId, u8> {
    ServiceId::try_from(asked.port).map_err(|_| 12)
}

fn node(number: u8) -> Result<CanNodeId, u8> {
    CanNodeId::try_from(number).map_err(|_| 12)
}

enum Inner {
    Nothing,
    NotOurs,
    Refused(u8),
    Delivered(Transfer<Vec<u8>>),
}

/// A subscription, and whose frames it gets.
pub struct Receiver {
    subscription: Subscription,
    kind: TransferKind,
    node: Option<CanNodeId>,
}

impl Receiver {
    /// Refuses by 12 what the types do not hold; a message's node is not looked at.
    pub fn new(asked: &Asked) -> Result<Self, u8> {
        let (kind, port, own) = match asked.kind {
            plain::MESSAGE => (TransferKind::Message, PortId::from(subject(asked)?), None),
            plain::REQUEST => (TransferKind::Request, PortId::from(service(asked)?), Some(node(asked.node)?)),
            plain::RESPONSE => (TransferKind::Response, PortId::from(service(asked)?), Some(node(asked.node)?)),
            _ => return Err(12),
        };
        let subscription = Subscription::new(MicrosecondDuration32::from_ticks(asked.timeout), asked.extent, port);
        Ok(Receiver { subscription, kind, node: own })
    }

    fn wants(&self, header: &Header) -> bool {
        let here = match header {
            Header::Message(_) => true,
            Header::Request(service) | Header::Response(service) => Some(service.destination) == self.node,
        };
        here && TransferKind::from_header(header) == self.kind && header.port_id() == self.subscription.port_id()
    }

    fn inner(&mut self, frame: Frame) -> Inner {
        let tail = match frame.data().last() {
            Some(byte) => TailByte::parse(*byte),
            None => return Inner::Refused(2),
        };
        let header = match parse_can_id(frame.id(), frame.timestamp(), tail.transfer_id) {
            Ok(header) => header,
            Err(_) => return Inner::Refused(4),
        };
        if !self.wants(&header) {
            return Inner::NotOurs;
        }
        match self.subscription.accept(frame, header, tail) {
            Ok(Some(transfer)) => Inner::Delivered(transfer),
            Ok(None) => Inner::Nothing,
            Err(SubscriptionError::NotStart) => Inner::Refused(5),
            Err(SubscriptionError::Session(SessionError::Buildup)) => Inner::Refused(6),
            Err(SubscriptionError::Session(SessionError::Memory(_)) | SubscriptionError::Memory(_)) => panic!("no memory"),
        }
    }

    pub fn accept(&mut self, frame: Frame) -> Answer {
        match self.inner(frame) {
            Inner::Nothing => Answer::Nothing,
            Inner::NotOurs => Answer::NotOurs,
            Inner::Refused(number) => Answer::Refused(number),
            Inner::Delivered(transfer) => Answer::Delivered(delivery(transfer)),
        }
    }

    /// What is kept of a source, and its session's bytes.
    pub fn probe(&self, source: u8) -> (Slot, &[u8]) {
        self.subscription.probe(CanNodeId::from_truncating(source))
    }
}

impl plain::Receives for Receiver {
    type Made = Frame;
    fn make(frame: &plain::Frame) -> Frame {
        crate::door::made(frame).expect("a frame")
    }
    #[inline]
    fn accept(&mut self, frame: &Frame) -> Option<usize> {
        match self.inner(frame.clone()) {
            Inner::Delivered(transfer) => Some(transfer.payload.len()),
            _ => None,
        }
    }
    fn answer(&mut self, frame: &Frame) -> Answer {
        Receiver::accept(self, frame.clone())
    }
}

struct NoClock;
impl Clock for NoClock {
    fn now(&mut self) -> Microseconds32 {
        unreachable!("no time is asked for")
    }
}

struct NoDriver;
impl ReceiveDriver<NoClock> for NoDriver {
    type Error = ();
    fn receive(&mut self, _: &mut NoClock) -> nb::Result<Frame, ()> {
        unreachable!("frames are handed in")
    }
    fn apply_filters<S>(&mut self, _: Option<CanNodeId>, _: S)
    where
        S: IntoIterator<Item = canadensis_core::subscription::Subscription>,
    {
    }
    fn apply_accept_all(&mut self) {}
}

/// The whole receiver with one subscription.
pub struct Whole {
    receiver: CanReceiver<NoClock, NoDriver>,
    kind: TransferKind,
}

impl Whole {
    pub fn new(asked: &Asked) -> Result<Self, u8> {
        let timeout = MicrosecondDuration32::from_ticks(asked.timeout);
        // A message's own node is not looked at.
        let mut receiver = CanReceiver::new(CanNodeId::from_truncating(asked.node));
        let kind = match asked.kind {
            plain::MESSAGE => {
                receiver.subscribe_message(subject(asked)?, asked.extent, timeout, &mut NoDriver).map_err(|_| 99)?;
                TransferKind::Message
            }
            plain::REQUEST => {
                receiver.subscribe_request(service(asked)?, asked.extent, timeout, &mut NoDriver).map_err(|_| 99)?;
                TransferKind::Request
            }
            _ => {
                receiver.subscribe_response(service(asked)?, asked.extent, timeout, &mut NoDriver).map_err(|_| 99)?;
                TransferKind::Response
            }
        };
        Ok(Whole { receiver, kind })
    }

    /// The delivery, if there is one: errors are only counted.
    pub fn accept(&mut self, frame: Frame) -> Option<Delivery> {
        self.receiver.accept_frame(frame).expect("memory").map(delivery)
    }

    /// Transfers received, and errors.
    pub fn counts(&self) -> (u64, u64) {
        (self.receiver.transfer_count(), self.receiver.error_count())
    }

    /// What is kept of a source, and its session's bytes.
    pub fn probe(&mut self, source: u8) -> (Slot, &[u8]) {
        self.receiver.subscriptions_for_kind(self.kind)[0].probe(CanNodeId::from_truncating(source))
    }
}
