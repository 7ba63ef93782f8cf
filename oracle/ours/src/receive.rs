use crate::{doors, marks, result};
use plain::{Answer, Asked, Delivery, Frame, Header, Lying, Session, Slot};

pub type Words = [[u32; 4]; 128];

/// What lies in the slots before anything is made.
const UNMADE: Words = [[0xA5A5_A5A5; 4]; 128];

pub struct Receiver {
    subscription: doors::Subscription,
    slots: Box<doors::Slots>,
    store: Vec<u8>,
}

impl Receiver {
    /// A subscription that is lent this store at each call. Refused by 12, 8, with the slots as they were and a subscription to which no frame is ours.
    pub fn new(asked: &Asked, store: Vec<u8>) -> Result<Self, (u8, Self)> {
        let mut slots = Box::new(doors::Slots { words: UNMADE });
        // SAFETY: `slots` are whole slots.
        let made = unsafe { doors::dolomisc_subscription_new(asked.kind, asked.port, asked.node, asked.timeout, asked.extent, &mut *slots) };
        let answer = result(made.what, made.refusal);
        assert!(answer.is_ok() || slots.words == UNMADE, "a refusal that made slots");
        let receiver = Receiver { subscription: made.subscription, slots, store };
        match answer {
            Ok(()) => Ok(receiver),
            Err(number) => Err((number, receiver)),
        }
    }

    #[inline]
    fn received(&mut self, frame: &Frame) -> doors::Received {
        let (store, store_length) = (self.store.as_mut_ptr(), self.store.len());
        let (bytes, length) = (frame.bytes().as_ptr(), frame.bytes().len());
        // SAFETY: each pointer and its length are those of one slice, and what is written is borrowed as `&mut`.
        unsafe { doors::dolomisc_subscription_accept(self.subscription, &mut *self.slots, store, store_length, marks(frame), bytes, length) }
    }

    #[inline]
    fn shown<'a>(&'a self, got: doors::Received, frame: &'a [u8]) -> (&'a [u8], Lying) {
        // SAFETY: each pointer and its length are those of one slice.
        let span = unsafe { doors::dolomisc_payload(got, frame.as_ptr(), frame.len(), self.store.as_ptr(), self.store.len()) };
        let (memory, lying) = match span.memory {
            doors::IN_FRAME => (frame, Lying::InFrame { start: span.start }),
            _ => (&self.store[..], Lying::InStore { start: span.start }),
        };
        (&memory[span.start..][..span.length], lying)
    }

    /// The answer, and where a delivery's bytes lie.
    pub fn accept(&mut self, frame: &Frame) -> (Answer, Lying) {
        let got = self.received(frame);
        let answer = match (got.what, got.refusal) {
            (doors::DELIVERED, 0) => return self.delivered(got, frame),
            (doors::NOTHING, 0) => Answer::Nothing,
            (doors::NOT_OURS, 0) => Answer::NotOurs,
            _ => Answer::Refused(result(got.what, got.refusal).expect_err("a refusal")),
        };
        assert!(all_zero(&got), "no delivery, with fields");
        (answer, Lying::Nowhere)
    }

    fn delivered(&self, got: doors::Received, frame: &Frame) -> (Answer, Lying) {
        assert!(got.loopback <= 1, "a flag that comes out is 0 or 1");
        let (bytes, lying) = self.shown(got, frame.bytes());
        let doors::Header { port, kind, priority, source, destination } = got.header;
        let header = Header { kind, port, priority, source, destination };
        let delivery = Delivery { header, transfer_id: got.transfer_id, stamp: got.stamp, loopback: got.loopback == 1, bytes: bytes.to_vec() };
        (Answer::Delivered(delivery), lying)
    }

    pub fn words(&self) -> &Words {
        &self.slots.words
    }

    pub fn store(&self) -> &[u8] {
        &self.store
    }
}

fn all_zero(got: &doors::Received) -> bool {
    let header = (got.header.port, got.header.kind, got.header.priority, got.header.source, got.header.destination);
    let span = (got.span.start, got.span.length, got.span.memory);
    span == (0, 0, 0) && header == (0, 0, 0, 0, 0) && (got.stamp, got.transfer_id, got.loopback) == (0, 0, 0)
}

/// The slot of four words: the last time; the session's stamp; the marks; the session's byte total. The marks are, from the low bit: the expected ID (8 bits),
/// whether there is a last time, whether there is a session, its loopback flag, its awaited start bit, its awaited toggle, three bits of no use, its CRC.
pub fn slot(words: &[u32; 4]) -> Slot {
    let [time, stamp, marks, total] = *words;
    let bit = |at: u32| marks >> at & 1 == 1;
    let session = Session { stamp, loopback: bit(10), expect_start: bit(11), expect_toggle: bit(12), crc: (marks >> 16) as u16, total: total as usize };
    Slot { expected: marks as u8, last_time: bit(8).then_some(time), session: bit(9).then_some(session) }
}

/// The words of a slot: what it has not is 0.
pub fn words(slot: &Slot) -> [u32; 4] {
    let (time, has_time) = slot.last_time.map_or((0, 0), |time| (time, 1 << 8));
    let (stamp, marks, total) = slot.session.map_or((0, 0, 0), |s| {
        let flags = u32::from(s.loopback) << 10 | u32::from(s.expect_start) << 11 | u32::from(s.expect_toggle) << 12;
        (s.stamp, 1 << 9 | flags | u32::from(s.crc) << 16, s.total as u32)
    });
    [time, stamp, marks | has_time | u32::from(slot.expected), total]
}

impl plain::Receives for Receiver {
    type Made = Frame;
    fn make(frame: &Frame) -> Frame {
        *frame
    }
    #[inline]
    fn accept(&mut self, frame: &Frame) -> Option<usize> {
        let got = self.received(frame);
        (got.what == doors::DELIVERED).then(|| self.shown(got, frame.bytes()).0.len())
    }
    fn answer(&mut self, frame: &Frame) -> Answer {
        Receiver::accept(self, frame).0
    }
}
