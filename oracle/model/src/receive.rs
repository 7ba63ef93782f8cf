//! "The 128 slots": what a received frame does to the slot and the part of the store of its source.
use crate::wire::{crc, read_can_id, Tail};
use crate::Reading;
use plain::{Answer, Asked, Delivery, Frame, Header, Lying, Session, Slot, MESSAGE, NO_NODE};

pub struct Receiver {
    reading: Reading,
    asked: Asked,
    pub slots: [Slot; 128],
    pub store: Vec<u8>,
    /// The header of the frame that opened each session; only a wrong reading asks for it.
    openers: [Option<Header>; 128],
}

/// Refuses by 12, 8.
pub fn making(reading: Reading, asked: &Asked) -> Result<(), u8> {
    let long = asked.extent > 1024 || asked.extent == 1024 && reading == Reading::ExtentLimitLeftOut;
    if long && reading == Reading::ExtentBeforeFields {
        return Err(8);
    }
    let node = asked.node <= 127;
    let message = asked.port <= 8191 && (node || reading != Reading::NodeOfAMessage);
    let fits = if asked.kind == MESSAGE { message } else { asked.port <= 511 && node };
    if asked.kind > 2 || !fits {
        return Err(12);
    }
    if long {
        return Err(8);
    }
    Ok(())
}

const FRESH: Slot = Slot { expected: 0, last_time: None, session: None };

impl Receiver {
    pub fn new(reading: Reading, asked: &Asked, store: Vec<u8>) -> Self {
        Receiver { reading, asked: *asked, slots: [FRESH; 128], store, openers: [None; 128] }
    }

    /// The answer, and where a delivery's bytes lie. By 7, 2, 3, 1, 4, then "not ours", then the slot rules.
    pub fn accept(&mut self, frame: &Frame) -> (Answer, Lying) {
        let (header, tail) = match self.judge(frame) {
            Ok(read) => read,
            Err(number) => return (Answer::Refused(number), Lying::Nowhere),
        };
        if !self.wants(&header, frame.id) {
            return (Answer::NotOurs, Lying::Nowhere);
        }
        if header.source == NO_NODE {
            return self.anonymous(frame, header, tail);
        }
        self.by_slot(frame, header, tail)
    }

    fn judge(&self, frame: &Frame) -> Result<(Header, Tail), u8> {
        let bytes = frame.bytes();
        if self.reading == Reading::EmptyBeforeStore && bytes.is_empty() {
            return Err(2);
        }
        if self.store.len() < 128 * self.asked.extent {
            return Err(7);
        }
        let Some(last) = bytes.last() else { return Err(2) };
        if bytes.len() > 64 {
            return Err(3);
        }
        if frame.id >= 1 << 29 {
            return Err(1);
        }
        let foreign = || {
            let without = read_can_id(self.reading, frame.id & !(1 << 23 | 1 << 7)).expect("no reserved bit");
            self.reading == Reading::NotOursFirst && !self.wants(&without, frame.id)
        };
        match read_can_id(self.reading, frame.id) {
            Ok(header) => Ok((header, Tail::read(*last))),
            // A header of no kind is not ours.
            Err(_) if foreign() => Ok((Header { kind: 3, port: 0, priority: 0, source: 0, destination: 0 }, Tail::read(*last))),
            Err(number) => Err(number),
        }
    }

    fn wants(&self, header: &Header, id: u32) -> bool {
        let here = header.kind == MESSAGE || header.destination == self.asked.node;
        let marked = self.reading != Reading::ReservedBitsRead || header.kind != MESSAGE || id >> 21 & 3 == 3;
        here && marked && (header.kind, header.port) == (self.asked.kind, self.asked.port)
    }

    /// "All bytes before the tail, uncut, whatever its bits."
    fn anonymous(&self, frame: &Frame, header: Header, tail: Tail) -> (Answer, Lying) {
        if self.reading == Reading::AnonymousNeedsMarks && !(tail.start && tail.end && tail.toggle) {
            return (Answer::Nothing, Lying::Nowhere);
        }
        let cut = self.reading == Reading::AnonymousCut;
        (delivered(frame, header, tail, if cut { self.asked.extent } else { 64 }), Lying::InFrame { start: 0 })
    }

    fn by_slot(&mut self, frame: &Frame, header: Header, tail: Tail) -> (Answer, Lying) {
        let at = usize::from(header.source);
        let before = self.slots[at].expected;
        if tail.transfer_id != before {
            let next_to = (tail.transfer_id + 1) % 32 == before || self.reading == Reading::RepeatTakesAnyId;
            if next_to && !self.timed_out(&self.slots[at], frame.stamp) {
                return (Answer::Nothing, Lying::Nowhere);
            }
            if self.reading != Reading::StrangeIdKeepsSession {
                self.slots[at].session = None;
            }
            self.slots[at].expected = tail.transfer_id;
        }
        if tail.start && tail.end {
            return self.single(frame, header, tail);
        }
        if self.slots[at].session.is_none() {
            if !tail.start {
                if self.reading == Reading::OldIdPutBack {
                    self.slots[at].expected = before;
                }
                return (Answer::Refused(5), Lying::Nowhere);
            }
            self.open(frame, header, tail);
        }
        self.joined(frame, header, tail)
    }

    fn timed_out(&self, slot: &Slot, stamp: u32) -> bool {
        let Some(last) = slot.last_time else { return self.reading != Reading::NeverIsYoung };
        let age = match self.reading {
            Reading::AgeSaturates => stamp.saturating_sub(last),
            _ => stamp.wrapping_sub(last),
        };
        let counts = age < 1 << 31 || age == 1 << 31 && self.reading == Reading::BoundaryIsYoung;
        if !counts {
            return self.reading != Reading::BackIsYoung;
        }
        age > self.asked.timeout || age == self.asked.timeout && self.reading == Reading::AgeEqualIsOld
    }

    /// Start and end both set: delivered, whatever the toggle, loopback or open session.
    fn single(&mut self, frame: &Frame, header: Header, tail: Tail) -> (Answer, Lying) {
        if self.reading == Reading::SingleNeedsToggle && !tail.toggle {
            return (Answer::Nothing, Lying::Nowhere);
        }
        let keeps = self.reading == Reading::SingleKeepsSession;
        let slot = &mut self.slots[usize::from(header.source)];
        let session = if keeps { slot.session } else { None };
        *slot = Slot { expected: (tail.transfer_id + 1) % 32, last_time: Some(frame.stamp), session };
        (delivered(frame, header, tail, self.asked.extent), Lying::InFrame { start: 0 })
    }

    fn open(&mut self, frame: &Frame, header: Header, tail: Tail) {
        if self.reading == Reading::ToggleZeroOpensNothing && !tail.toggle {
            return;
        }
        let at = usize::from(header.source);
        let session = Session { stamp: frame.stamp, loopback: frame.loopback, expect_start: true, expect_toggle: true, crc: 0xFFFF, total: 0 };
        self.slots[at].session = Some(session);
        self.openers[at] = Some(header);
    }

    /// With a session: a frame that is not awaited gives nothing; the bytes of one that is join.
    fn joined(&mut self, frame: &Frame, header: Header, tail: Tail) -> (Answer, Lying) {
        let at = usize::from(header.source);
        let Some(mut session) = self.slots[at].session else { return (Answer::Nothing, Lying::Nowhere) };
        let loopback = frame.loopback == session.loopback || self.reading == Reading::LoopbackNotCompared;
        let start = tail.start == session.expect_start || self.reading == Reading::StartNotCompared;
        let toggle = tail.toggle == session.expect_toggle || self.reading == Reading::ToggleNotCompared;
        if !(loopback && start && toggle) {
            return (Answer::Nothing, Lying::Nowhere);
        }
        let bytes = &frame.bytes()[..frame.bytes().len() - 1];
        self.keep(at, session.total, bytes);
        session = Session { expect_start: false, expect_toggle: !tail.toggle, crc: crc(session.crc, bytes), total: session.total + bytes.len(), ..session };
        self.slots[at].session = Some(session);
        if !tail.end {
            return (Answer::Nothing, Lying::Nowhere);
        }
        if session.crc != 0 || session.total < 2 {
            return self.residue(at, tail);
        }
        self.whole(frame, header, tail, session)
    }

    /// The bytes that come behind so many, up to the extent.
    fn keep(&mut self, at: usize, total: usize, bytes: &[u8]) {
        let extent = self.asked.extent;
        let end = if self.reading == Reading::StoreNotCut { self.store.len() } else { (at + 1) * extent };
        let start = (at * extent + total).min(end);
        let taken = bytes.len().min(end - start);
        self.store[start..start + taken].copy_from_slice(&bytes[..taken]);
    }

    fn residue(&mut self, at: usize, tail: Tail) -> (Answer, Lying) {
        if self.reading != Reading::ResidueKeepsSession {
            self.slots[at].session = None;
        }
        if self.reading == Reading::ResidueSteps {
            self.slots[at].expected = (tail.transfer_id + 1) % 32;
        }
        (Answer::Refused(6), Lying::Nowhere)
    }

    fn whole(&mut self, frame: &Frame, header: Header, tail: Tail, session: Session) -> (Answer, Lying) {
        let at = usize::from(header.source);
        let last_time = if self.reading == Reading::LastTimeOfLastFrame { frame.stamp } else { session.stamp };
        self.slots[at] = Slot { expected: (tail.transfer_id + 1) % 32, last_time: Some(last_time), session: None };
        let shown = if self.reading == Reading::CrcShown { session.total } else { session.total - 2 };
        let start = at * self.asked.extent;
        let bytes = self.store[start..start + shown.min(self.asked.extent)].to_vec();
        let stamp = if self.reading == Reading::StampOfLastFrame { frame.stamp } else { session.stamp };
        let opener = self.openers[at].expect("it was opened");
        let header = if self.reading == Reading::PriorityOfFirstFrame { opener } else { header };
        let delivery = Delivery { header, transfer_id: tail.transfer_id, stamp, loopback: session.loopback, bytes };
        (Answer::Delivered(delivery), Lying::InStore { start })
    }
}

/// A delivery from one frame.
fn delivered(frame: &Frame, header: Header, tail: Tail, most: usize) -> Answer {
    let before_tail = frame.bytes().len() - 1;
    let bytes = frame.bytes()[..before_tail.min(most)].to_vec();
    Answer::Delivered(Delivery { header, transfer_id: tail.transfer_id, stamp: frame.stamp, loopback: frame.loopback, bytes })
}
